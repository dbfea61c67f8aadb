//! Malformed datagrams: good ones cut at every length, with bytes to spare, with wrong kinds,
//! flags and counts, and with random bytes changed; in several phases and from another peer.

use super::arbitrary::any_message;
use super::good_setups::plain;
use super::message::{bodies, with_magic};
use super::script::{Gen, A};
use crate::judge::record::{Call, SPECTATOR};

/// Per mille of the clock readings that are above their ceiling: what a datagram's reader refuses comes before that.
const WILD: u64 = 50;

pub(crate) fn datagrams(g: &mut Gen) {
    damaged(g, A);
    damaged(g, SPECTATOR);
}

fn damaged(g: &mut Gen, object: u8) {
    g.make(object, &plain());
    g.wild_clocks = WILD;
    for body in bodies() {
        let whole = bincode::serialize(&with_magic(0x1234, body)).expect("messages serialize");
        for length in 0..=whole.len() {
            if length < 3 || length + 6 > whole.len() || g.rng.chance(15) {
                raw(g, object, whole[..length].to_vec());
            }
        }
        raw(g, object, [&whole[..], &[0]].concat());
        raw(g, object, [&whole[..], &whole[..]].concat());
    }
    kinds(g, object);
    counts(g, object);
    flags(g, object);
    g.wild_clocks = 0;
    g.connect(object, 0);
    g.wild_clocks = WILD;
    mutations(g, object);
    g.wild_clocks = 0;
}

/// Hands bytes over, mostly from the object's own peer.
fn raw(g: &mut Gen, object: u8, bytes: Vec<u8>) {
    let mut r = g.record(Call::Datagram, object);
    r.number = g.host(object).peer ^ u32::from(g.rng.chance(10));
    r.payload = bytes;
    g.issue(r);
}

fn kinds(g: &mut Gen, object: u8) {
    for kind in [8u32, 9, 256, 1 << 16, u32::MAX] {
        let bytes = [&[1, 0][..], &kind.to_le_bytes(), &[0; 20]].concat();
        raw(g, object, bytes.clone());
        raw(g, object, bytes[..6].to_vec());
        raw(g, object, bytes[..5].to_vec());
    }
}

/// An Input's head up to and with its status count, then what follows.
fn input_with(count: u64, rest: &[u8]) -> Vec<u8> {
    [&[1, 0, 2, 0, 0, 0][..], &count.to_le_bytes(), rest].concat()
}

fn counts(g: &mut Gen, object: u8) {
    for count in [5, 255, 1 << 32, u64::MAX, 1 << 63] {
        raw(g, object, input_with(count, &[]));
        raw(g, object, input_with(count, &[0; 40]));
    }
    for count in [1, 4] {
        raw(g, object, input_with(count, &[0; 4]));
    }
    let head = [0u8, 0, 0, 0, 0, 0, 0, 0, 0];
    for payload in [8_257, 1 << 32, u64::MAX, (1 << 63) + 1] {
        let rest = [&head[..], &u64::to_le_bytes(payload)].concat();
        raw(g, object, input_with(0, &rest));
    }
    for payload in [1u64, 8_256] {
        let rest = [&head[..], &payload.to_le_bytes()].concat();
        raw(g, object, input_with(0, &rest));
    }
    if object == A {
        let rest = [&head[..], &8_256u64.to_le_bytes(), &[9; 8_256]].concat();
        raw(g, object, input_with(0, &rest));
        let rest = [&head[..], &8_257u64.to_le_bytes(), &[9; 8_257]].concat();
        raw(g, object, input_with(0, &rest));
    }
}

fn flags(g: &mut Gen, object: u8) {
    for flag in [2, 128, 255] {
        raw(g, object, input_with(1, &[flag]));
        raw(g, object, input_with(1, &[flag, 0, 0, 0, 0, 0]));
        raw(g, object, input_with(1, &[1, 0, 0, 0, 0, flag]));
        raw(g, object, input_with(0, &[flag, 0]));
    }
}

/// Good messages, and the same with a byte changed, dropped or added.
fn mutations(g: &mut Gen, object: u8) {
    for _ in 0..24 {
        g.pass(9);
        any_message(g, object, 0);
        any_message(g, object, 0);
        let body = g.rng.pick(&[0usize, 1, 2, 2, 2, 3, 4, 5, 6, 7]);
        let body = bodies()[body].clone();
        let mut bytes = bincode::serialize(&g.welcome(object, body)).expect("messages serialize");
        let at = g.rng.below(bytes.len() as u64) as usize;
        match g.rng.below(4) {
            0 => {
                bytes.remove(at);
            }
            1 => bytes.insert(at, g.rng.next() as u8),
            _ => bytes[at] = g.rng.pick(&[0, 1, 2, 3, 4, 5, 127, 128, 255]),
        }
        raw(g, object, bytes);
        if g.host(object).events.len() > 400 {
            let call = if object == SPECTATOR { Call::Act } else { Call::TakeEvents };
            g.call(call, object);
        }
        g.call(Call::TakeMessages, object);
    }
}
