//! What several scenarios do: let time pass, make a good Input, look at everything, ask and answer, fill up the events
//! or the nonces.

use super::message::with_magic;
use super::script::Gen;
use crate::judge::record::{Call, Record, SPECTATOR};
use crate::judge::refusals::{CLOCK_MAX, NONCES_MAX};
use crate::network::messages::{ConnectionStatus, Input, Message, MessageBody, SyncReply};

/// Lets time pass: a little, or up to one of the endpoint's own thresholds.
pub(crate) fn tick(g: &mut Gen, own: u8) {
    let s = g.host(own);
    let marks = [
        s.clocks.input_recv + 200,
        s.clocks.quality_report + 200,
        s.clocks.send + 200,
        s.clocks.sync_request + 200,
        s.clocks.recv + s.disconnect_notify_start,
        s.clocks.recv + s.disconnect_timeout,
        s.clocks.shutdown,
    ];
    match g.rng.below(100) {
        0..=44 => {
            let millis = g.rng.below(30);
            g.pass(millis);
        }
        45..=64 => {
            let millis = g.rng.below(260);
            g.pass(millis);
        }
        65..=88 => {
            let mark = g.rng.pick(&marks) + g.rng.below(2);
            if mark > g.now && mark - g.now < 10_000 {
                let wait = mark - g.now;
                g.pass(wait);
            }
        }
        89..=90 => g.now = g.now.saturating_sub(g.rng.below(500)),
        91 => g.epoch = g.rng.pick(&[0, 900, 1_000_000, 5_000_000_000, 1_700_000_000_000, CLOCK_MAX]),
        _ => (),
    }
}

/// The Input of `frames` frames from `start` on, with nothing wrong about it.
pub(crate) fn plain_input(g: &mut Gen, own: u8, start: i32, frames: usize) -> Message {
    let (players, width) = (g.host(own).num_players, g.host(own).receiving_width());
    let body = Input {
        peer_connect_status: vec![ConnectionStatus::default(); players],
        disconnect_requested: false,
        start_frame: start,
        ack_frame: -1,
        bytes: g.rng.bytes(frames * width),
    };
    g.welcome(own, MessageBody::Input(body))
}

/// Statistics, status, getters, and the whole array behind the buffer.
pub(crate) fn look(g: &mut Gen, own: u8) {
    g.issue(Record::new(Call::Buffer, own));
    g.call(Call::NetworkStats, own);
    let mut r = Record::new(Call::Getters, own);
    r.number = if g.rng.chance(70) { g.host(own).peer } else { g.rng.next() as u32 };
    if own == SPECTATOR {
        r.number = 0;
    }
    g.issue(r);
    if own != SPECTATOR {
        let mut r = Record::new(Call::PeerConnectStatus, own);
        r.number = g.rng.pick(&[0, 0, 1, 1, 2, 3, 4, u32::MAX]);
        g.issue(r);
    }
}

/// Inputs until just `count` events are held; single frames and spare events make the number even.
pub(crate) fn fill_events(g: &mut Gen, own: u8, count: usize) {
    loop {
        let missing = count - g.host(own).events.len();
        let handles = g.host(own).handles.len();
        let frames = (missing / handles).min(60);
        if frames == 0 {
            return;
        }
        let start = g.host(own).newest() + 1;
        let message = plain_input(g, own, start, frames);
        g.hand(own, &message);
    }
}

/// Asks again and again, until 256 nonces are outstanding.
pub(crate) fn fill_nonces(g: &mut Gen, own: u8) {
    while g.host(own).nonces.len() < NONCES_MAX {
        ask(g, own);
    }
}

/// One request more, with a nonce that is drawn.
pub(crate) fn ask(g: &mut Gen, own: u8) {
    g.pass(201);
    g.act(own);
    if g.host(own).queued.len() > 300 {
        g.call(Call::TakeMessages, own);
    }
}

/// One request more, with this nonce.
pub(crate) fn ask_with(g: &mut Gen, own: u8, nonce: u32) {
    g.pass(201);
    let mut r = act_record(g, own);
    r.nonce = nonce;
    g.issue(r);
}

/// act with a right status count, or the spectator's poll.
pub(crate) fn act_record(g: &mut Gen, own: u8) -> Record {
    let mut r = g.record(Call::Act, own);
    if own != SPECTATOR {
        r.status_count = g.host(own).num_players as u8;
    }
    r
}

/// A SyncReply to this nonce, whose header has this magic.
pub(crate) fn answer(g: &mut Gen, own: u8, nonce: u32, magic: u16) {
    let body = MessageBody::SyncReply(SyncReply { random_reply: nonce });
    g.hand(own, &with_magic(magic, body));
}
