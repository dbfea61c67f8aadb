//! The spectator: honest broadcasts from an endpoint, adversarial ones, and its ceilings.

use super::arbitrary::any_message;
use super::good_setups::{any, plain};
use super::message::{bodies, with_magic};
use super::moves::{answer, ask_with, fill_nonces, look, plain_input, tick};
use super::net::Net;
use super::script::{Gen, A};
use crate::judge::record::{Call, Record, Setup, SPECTATOR};
use crate::judge::refusals::{CLOCK_MAX, EVENTS_MAX};
use crate::judge::snapshot::Phase;
use crate::judge::value;
use crate::network::messages::{ConnectionStatus, Input, MessageBody, QualityReply, SyncRequest};

/// Endpoint A broadcasts every player's input to the spectator.
pub(crate) fn honest(g: &mut Gen) {
    let watching = Setup { disconnect_timeout: 2_000, disconnect_notify_start: 500, ..any(g) };
    let host = Setup {
        local_players: watching.players,
        handle_count: 1,
        handles: [watching.players + 3, 0, 0, 0],
        magic: watching.magic ^ 1 | 2,
        ..watching.clone()
    };
    g.make(A, &host);
    g.make(SPECTATOR, &watching);
    g.call(Call::Synchronize, A);
    g.call(Call::Synchronize, SPECTATOR);
    let mut net = Net::new(g.rng.pick(&[0, 0, 10, 30]), 5, g.rng.pick(&[0, 20, 150]));
    for step in 0..150 {
        let millis = g.rng.pick(&[4, 16, 16, 33]);
        g.pass(millis);
        if step % 70 == 69 {
            g.pass(510);
        }
        net.deliver(g);
        broadcast(g, &mut net);
        watch(g, &mut net);
    }
}

fn broadcast(g: &mut Gen, net: &mut Net) {
    if g.rng.chance(40) {
        g.act(A);
    }
    if g.phase(A) == Phase::Running && g.host(A).pending.len() < 120 && g.rng.chance(80) {
        g.send(A, 0);
    }
    if g.rng.chance(10) {
        g.call(Call::TakeEvents, A);
    }
    if !g.host(A).queued.is_empty() && g.rng.chance(80) {
        let part = g.call(Call::TakeMessages, A).given;
        net.send(g, A, SPECTATOR, &part[4..]);
    }
}

fn watch(g: &mut Gen, net: &mut Net) {
    if g.rng.chance(70) {
        let done = g.act(SPECTATOR);
        if done.answer == 0 {
            net.send(g, SPECTATOR, A, &done.given[4..]);
        }
    }
    if g.rng.chance(60) {
        g.call(Call::Advance, SPECTATOR);
    }
    if g.rng.chance(8) {
        g.call(Call::TakeEvents, SPECTATOR);
    }
    if g.rng.chance(5) {
        look(g, SPECTATOR);
        g.call(Call::FramesBehind, SPECTATOR);
    }
}

/// Arbitrary messages to the spectator's host, with polls and advances between them.
pub(crate) fn chaos(g: &mut Gen) {
    let setup = any(g);
    let base = g.rng.pick(&[0, 0, 0, 0, 1, i32::MAX - 40]);
    g.make(SPECTATOR, &setup);
    g.wild_clocks = 4;
    g.stingy = g.rng.pick(&[0, 0, 20]);
    watch_steps(g, base, 12);
    g.stingy = 0;
    g.wild_clocks = 0;
    g.call(Call::Synchronize, SPECTATOR);
    g.wild_clocks = 4;
    watch_steps(g, base, 20);
    for _ in 0..40 {
        if g.phase(SPECTATOR) == Phase::Synchronizing {
            g.reply(SPECTATOR, 11);
            g.act(SPECTATOR);
        }
    }
    g.stingy = g.rng.pick(&[0, 0, 15]);
    watch_steps(g, base, 160);
}

fn watch_steps(g: &mut Gen, base: i32, count: usize) {
    for _ in 0..count {
        tick(g, SPECTATOR);
        match g.rng.below(100) {
            0..=54 => any_message(g, SPECTATOR, base),
            55..=74 => {
                g.act(SPECTATOR);
            }
            75..=90 => {
                g.call(Call::Advance, SPECTATOR);
            }
            91..=92 => {
                g.call(Call::TakeEvents, SPECTATOR);
            }
            93..=94 => {
                g.call(Call::TakeMessages, SPECTATOR);
            }
            95 => {
                g.call(Call::NetworkStats, SPECTATOR);
            }
            96 => {
                g.call(Call::Synchronize, SPECTATOR);
            }
            97 => look(g, SPECTATOR),
            _ => {
                g.call(Call::FramesBehind, SPECTATOR);
            }
        }
    }
}

pub(crate) fn limits(g: &mut Gen) {
    refusals(g);
    crowded_handshake(g);
    full_host_events(g);
    catching_up(g);
    gone_players(g);
    late_start(g);
    large_round_trip(g);
}

/// What the host refuses the session refuses: states, buffers, clocks.
fn refusals(g: &mut Gen) {
    g.make(SPECTATOR, &plain());
    g.call(Call::NetworkStats, SPECTATOR);
    every_kind(g);
    let queued = g.host(SPECTATOR).queued.len() as u32;
    for (call, buffer) in [(Call::TakeMessages, queued - 1), (Call::Synchronize, queued + 9)] {
        let mut r = g.record(call, SPECTATOR);
        r.buffer = buffer;
        g.issue(r);
    }
    value_without_room(g);
    g.wild_clocks = 1000;
    for call in [Call::Synchronize, Call::Act, Call::NetworkStats] {
        g.call(call, SPECTATOR);
    }
    let mut r = g.record(Call::Message, SPECTATOR);
    r.payload = value::write(&with_magic(4, MessageBody::KeepAlive));
    g.issue(r.clone());
    r.call = Call::Datagram;
    r.payload = bincode::serialize(&with_magic(4, MessageBody::KeepAlive)).expect("messages serialize");
    g.issue(r);
    g.wild_clocks = 0;
    g.call(Call::Synchronize, SPECTATOR);
    every_kind(g);
    while g.phase(SPECTATOR) == Phase::Synchronizing {
        g.reply(SPECTATOR, 4);
    }
    every_kind(g);
    g.call(Call::Synchronize, SPECTATOR);
}

fn every_kind(g: &mut Gen) {
    for body in bodies() {
        g.hand(SPECTATOR, &with_magic(4, body));
    }
}

fn value_without_room(g: &mut Gen) {
    let body = MessageBody::SyncRequest(SyncRequest { random_request: 5 });
    let mut r = g.record(Call::Message, SPECTATOR);
    r.number = g.host(SPECTATOR).peer;
    r.buffer = g.host(SPECTATOR).queued.len() as u32 + 9;
    r.payload = value::write(&with_magic(4, body));
    g.issue(r);
}

/// 256 outstanding nonces: a poll whose request is due forgets the oldest and handles old events, unless it is refused.
/// The host answers late, and the handshake still comes to its end.
fn crowded_handshake(g: &mut Gen) {
    g.make(SPECTATOR, &plain());
    queue_before_start(g);
    g.call(Call::Synchronize, SPECTATOR);
    fill_nonces(g, SPECTATOR);
    let message = plain_input(g, SPECTATOR, 0, 2);
    g.hand(SPECTATOR, &message);
    g.pass(201);
    refused_polls(g);
    g.act(SPECTATOR);
    for at in [0, 100] {
        let again = g.host(SPECTATOR).nonces[at];
        ask_with(g, SPECTATOR, again);
    }
    let more = g.rng.range(1, 40);
    for _ in 0..more {
        g.pass(201);
        g.act(SPECTATOR);
    }
    let forgotten = g.host(SPECTATOR).forgotten.clone();
    for nonce in [forgotten[0], forgotten[forgotten.len() - 1], g.host(SPECTATOR).nonces[0]] {
        answer(g, SPECTATOR, nonce, 2);
        g.act(SPECTATOR);
    }
    while g.phase(SPECTATOR) == Phase::Synchronizing {
        g.reply(SPECTATOR, 2);
    }
    g.act(SPECTATOR);
    g.call(Call::Advance, SPECTATOR);
}

/// A poll whose request is due, with a clock above its ceiling and without the room for the request.
fn refused_polls(g: &mut Gen) {
    let mut r = g.record(Call::Act, SPECTATOR);
    r.epoch = CLOCK_MAX + 1;
    g.issue(r);
    let mut r = g.record(Call::Act, SPECTATOR);
    r.buffer = g.host(SPECTATOR).queued.len() as u32 + 9;
    g.issue(r);
}

/// A poll takes what is queued: a buffer shorter than that is 5 though nothing is due.
fn queue_before_start(g: &mut Gen) {
    let body = MessageBody::SyncRequest(SyncRequest { random_request: 5 });
    let message = g.welcome(SPECTATOR, body);
    g.hand(SPECTATOR, &message);
    for buffer in [0, 9, 10, 0] {
        let mut r = g.record(Call::Act, SPECTATOR);
        r.buffer = buffer;
        g.issue(r);
    }
}

/// 640 events of the host: a message that adds one is 5, a poll never is.
fn full_host_events(g: &mut Gen) {
    for players in [1, 4] {
        g.make(SPECTATOR, &Setup { players, slots: 64, ..plain() });
        g.connect(SPECTATOR, 2);
        g.act(SPECTATOR);
        while g.host(SPECTATOR).events.len() < EVENTS_MAX {
            let missing = EVENTS_MAX - g.host(SPECTATOR).events.len();
            let frames = (missing / players as usize).min(100);
            let start = g.host(SPECTATOR).newest() + 1;
            let message = plain_input(g, SPECTATOR, start, frames);
            g.hand(SPECTATOR, &message);
        }
        let start = g.host(SPECTATOR).newest() + 1;
        let message = plain_input(g, SPECTATOR, start, 1);
        g.hand(SPECTATOR, &message);
        g.pass(2_001);
        g.act(SPECTATOR);
        g.call(Call::Advance, SPECTATOR);
        g.hand(SPECTATOR, &message);
        g.act(SPECTATOR);
        g.call(Call::TakeEvents, SPECTATOR);
    }
}

/// Every way that the number of frames to advance is found.
fn catching_up(g: &mut Gen) {
    for (slots, max_frames_behind, catchup_speed) in
        [(8, 2, 3), (4, 0, 9), (64, 5, 65_535), (8, 3, 0), (16, 65_535, 5), (16, 2, 9), (2, 0, 1)]
    {
        g.make(SPECTATOR, &Setup { slots, max_frames_behind, catchup_speed, ..plain() });
        g.call(Call::Advance, SPECTATOR);
        g.connect(SPECTATOR, 2);
        g.call(Call::Advance, SPECTATOR);
        for frames in [slots as usize, 1, 2, 6, 1, 9] {
            g.act(SPECTATOR);
            g.call(Call::Advance, SPECTATOR);
            let start = g.host(SPECTATOR).newest() + 1;
            let message = plain_input(g, SPECTATOR, start, frames);
            g.hand(SPECTATOR, &message);
            g.act(SPECTATOR);
            g.call(Call::Advance, SPECTATOR);
            g.call(Call::FramesBehind, SPECTATOR);
        }
        for _ in 0..4 {
            g.call(Call::Advance, SPECTATOR);
        }
    }
}

/// Players reported as gone, at, below and above the frame that is shown.
fn gone_players(g: &mut Gen) {
    g.make(SPECTATOR, &Setup { players: 4, session_events: 2, ..plain() });
    g.connect(SPECTATOR, 2);
    for (start, last) in [(0, 0), (1, 2), (2, 2), (3, 1)] {
        let MessageBody::Input(mut body) = plain_input(g, SPECTATOR, start, 1).body else { return };
        body.peer_connect_status[1] = ConnectionStatus { disconnected: start > 0, last_frame: last };
        body.peer_connect_status[3] = ConnectionStatus { disconnected: true, last_frame: -1 };
        let message = g.welcome(SPECTATOR, MessageBody::Input(body));
        g.hand(SPECTATOR, &message);
        g.act(SPECTATOR);
        g.call(Call::Advance, SPECTATOR);
    }
    let body = Input { disconnect_requested: true, start_frame: 4, ..Input::default() };
    let message = g.welcome(SPECTATOR, MessageBody::Input(body));
    g.hand(SPECTATOR, &message);
    g.act(SPECTATOR);
    g.pass(600);
    g.act(SPECTATOR);
    let message = g.welcome(SPECTATOR, MessageBody::KeepAlive);
    g.hand(SPECTATOR, &message);
    g.act(SPECTATOR);
    g.call(Call::TakeEvents, SPECTATOR);
}

/// A first frame that is not 0: 16, then 17 for ever; at i32 max the difference leaves i32.
fn late_start(g: &mut Gen) {
    for (start, frames) in [(3, 5), (1, 8), (9, 1), (i32::MAX - 1, 1), (i32::MAX, 1)] {
        g.make(SPECTATOR, &plain());
        g.connect(SPECTATOR, 2);
        let message = plain_input(g, SPECTATOR, start, frames);
        g.hand(SPECTATOR, &message);
        g.call(Call::FramesBehind, SPECTATOR);
        g.act(SPECTATOR);
        g.call(Call::Advance, SPECTATOR);
        g.call(Call::FramesBehind, SPECTATOR);
        if start < i32::MAX {
            let next = g.host(SPECTATOR).newest() + 1;
            let message = plain_input(g, SPECTATOR, next, 1);
            g.hand(SPECTATOR, &message);
            g.act(SPECTATOR);
            g.call(Call::Advance, SPECTATOR);
            g.call(Call::FramesBehind, SPECTATOR);
        }
    }
}

/// The advantage leaves i32 inside a poll, which goes on; also with old and new frames together.
fn large_round_trip(g: &mut Gen) {
    g.epoch = CLOCK_MAX;
    g.make(SPECTATOR, &plain());
    g.connect(SPECTATOR, 2);
    for (start, pong) in
        [(0, CLOCK_MAX - 100), (1, 0), (2, CLOCK_MAX - 71_582_789), (3, CLOCK_MAX - 71_582_790)]
    {
        let body = MessageBody::QualityReply(QualityReply { pong: u128::from(pong) });
        let message = g.welcome(SPECTATOR, body);
        g.hand(SPECTATOR, &message);
        let message = plain_input(g, SPECTATOR, start, 1);
        g.hand(SPECTATOR, &message);
        g.act(SPECTATOR);
        g.call(Call::Advance, SPECTATOR);
    }
    let mut r = Record::new(Call::NetworkStats, SPECTATOR);
    r.epoch = g.epoch;
    g.issue(r);
}
