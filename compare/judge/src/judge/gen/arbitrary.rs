//! Arbitrary messages: their numbers are drawn from around what the state makes interesting and from the
//! ends of each type.

use super::message::with_magic;
use super::script::Gen;
use crate::network::messages::{
    ChecksumReport, ConnectionStatus, Input, InputAck, MessageBody, QualityReply, QualityReport, SyncReply,
    SyncRequest,
};

/// A message of any kind with any numbers, from any peer.
pub(crate) fn any_message(g: &mut Gen, own: u8, base: i32) {
    let body = any_body(g, own, base);
    let message = match g.rng.below(20) {
        0 => with_magic(g.rng.pick(&[0, 1, 77, 0x5151, 65_535]), body),
        _ => g.welcome(own, body),
    };
    let peer = g.host(own).peer;
    let from = if g.rng.chance(97) { peer } else { peer ^ 1 };
    g.hand_from(own, &message, from);
}

fn any_body(g: &mut Gen, own: u8, base: i32) -> MessageBody {
    match g.rng.below(20) {
        0 => MessageBody::SyncRequest(SyncRequest { random_request: g.rng.next() as u32 }),
        1..=2 => MessageBody::SyncReply(SyncReply { random_reply: any_nonce(g, own) }),
        3..=12 => any_input(g, own, base),
        13..=14 => {
            let near = g.host(own).pending.first().map_or(base, |p| p.frame);
            MessageBody::InputAck(InputAck { ack_frame: any_frame(g, near) })
        }
        15 => MessageBody::QualityReport(QualityReport {
            frame_advantage: g.rng.pick(&[i16::MIN, -3, 0, 9, i16::MAX]),
            ping: u128::from(g.rng.next()) << g.rng.pick(&[0, 40, 64]),
        }),
        16 => any_pong(g, own),
        17..=18 => any_checksum(g, own),
        _ => MessageBody::KeepAlive,
    }
}

/// A frame from around `near`, or from an end of i32.
pub(crate) fn any_frame(g: &mut Gen, near: i32) -> i32 {
    match g.rng.below(10) {
        0..=5 => near.saturating_add(g.rng.range(0, 6) as i32 - 3),
        6 => g.rng.pick(&[-1, 0, 1, 2]),
        7 => g.rng.pick(&[i32::MIN, i32::MIN + 1, i32::MIN + 400_000]),
        8 => g.rng.pick(&[i32::MAX, i32::MAX - 1, i32::MAX - 128, i32::MAX - 129]),
        _ => g.rng.next() as i32,
    }
}

fn any_nonce(g: &mut Gen, own: u8) -> u32 {
    let nonces = g.host(own).nonces.clone();
    if nonces.is_empty() || g.rng.chance(35) {
        return g.rng.next() as u32;
    }
    g.rng.pick(&nonces)
}

/// Round trips up to the first that leaves i32 when multiplied by fps.
fn any_pong(g: &mut Gen, own: u8) -> MessageBody {
    let most = 2 * (i32::MAX as u64 / g.host(own).fps as u64);
    let rtt = g.rng.pick(&[0, 1, 40, 100, 5_000, most, most + 1, most + 2, u64::MAX]);
    let pong = match g.rng.below(10) {
        0 => u128::from(g.epoch) + 5,
        1 => 1 << 64,
        _ => u128::from(g.epoch.saturating_sub(rtt)),
    };
    MessageBody::QualityReply(QualityReply { pong })
}

fn any_checksum(g: &mut Gen, own: u8) -> MessageBody {
    let interval = g.host(own).checksum_interval() as i32;
    let last = g.host(own).checksums.last().map_or(0, |(f, _)| *f);
    let frame = match g.rng.below(10) {
        0..=6 => last.saturating_add(interval),
        7 => last.saturating_sub(interval * g.rng.below(40) as i32),
        _ => any_frame(g, last),
    };
    let checksum = u128::from(g.rng.next()) << g.rng.pick(&[0, 64]);
    MessageBody::ChecksumReport(ChecksumReport { checksum, frame })
}

/// Where the newest frame is about to be passed, repeated, or missed.
fn any_start(g: &mut Gen, own: u8, base: i32) -> i32 {
    let newest = g.host(own).newest();
    if newest == -1 {
        return if g.rng.chance(75) { base } else { any_frame(g, base) };
    }
    let window = 2 * g.host(own).max_prediction as u64 + 2;
    match g.rng.below(100) {
        0..=59 => newest.saturating_add(1),
        60..=84 => newest.saturating_sub(g.rng.below(window) as i32),
        85..=88 => 0,
        89..=92 => newest.saturating_add(g.rng.range(2, 4) as i32),
        _ => any_frame(g, newest),
    }
}

fn any_frame_count(g: &mut Gen, start: i32) -> usize {
    let left = i64::from(i32::MAX) - i64::from(start) + 1;
    if (1..129).contains(&left) && g.rng.chance(25) {
        return (left + g.rng.below(2) as i64) as usize;
    }
    match g.rng.below(100) {
        0..=49 => 1,
        50..=77 => g.rng.range(2, 5) as usize,
        78..=81 => 0,
        82..=93 => g.rng.range(6, 40) as usize,
        94..=95 => 129,
        96..=97 => 130,
        _ => g.rng.range(41, 129) as usize,
    }
}

fn any_input(g: &mut Gen, own: u8, base: i32) -> MessageBody {
    let start_frame = any_start(g, own, base);
    let frames = any_frame_count(g, start_frame);
    let width = g.host(own).receiving_width();
    let odd = if g.rng.chance(5) { g.rng.below(width as u64) as usize } else { 0 };
    let near = g.host(own).pending.first().map_or(-1, |p| p.frame);
    let players = g.host(own).num_players;
    let count = match g.rng.below(30) {
        0 => g.rng.pick(&[0, 1, 2, 3, 4]),
        1 => g.rng.pick(&[5, 255]),
        _ => players,
    };
    MessageBody::Input(Input {
        peer_connect_status: report(g, count),
        disconnect_requested: g.rng.chance(5),
        start_frame,
        ack_frame: any_frame(g, near),
        bytes: g.rng.bytes(frames * width + odd),
    })
}

fn report(g: &mut Gen, count: usize) -> Vec<ConnectionStatus> {
    // a count above four shows its first four entries alone
    let mut list = vec![ConnectionStatus::default(); count];
    for status in list.iter_mut().take(4) {
        status.disconnected = g.rng.chance(10);
        status.last_frame = any_frame(g, 30);
    }
    list
}
