//! Setups: every ceiling from both sides, and every S with every player count.

use super::good_setups::plain;
use super::moves::plain_input;
use super::script::{Gen, A, B};
use crate::judge::record::{Call, Setup, SPECTATOR};
use crate::judge::refusals::TIMEOUT_MAX;

/// One number moved to a place at or beside its ceiling.
type Edge = fn(&mut Setup);

const COMMON: [Edge; 28] = [
    |s| s.players = 0,
    |s| s.players = 5,
    |s| s.players = u32::MAX,
    |s| s.players = 4,
    |s| s.input_size = 0,
    |s| s.input_size = 1,
    |s| s.input_size = 16,
    |s| s.input_size = 17,
    |s| s.max_prediction = 0,
    |s| s.max_prediction = 16,
    |s| s.max_prediction = 17,
    |s| s.disconnect_timeout = TIMEOUT_MAX,
    |s| s.disconnect_timeout = TIMEOUT_MAX + 1,
    |s| s.disconnect_timeout = 0,
    |s| s.disconnect_notify_start = TIMEOUT_MAX,
    |s| s.disconnect_notify_start = TIMEOUT_MAX + 1,
    |s| s.disconnect_notify_start = u64::MAX,
    |s| s.fps = 0,
    |s| s.fps = 1,
    |s| s.fps = 240,
    |s| s.fps = 241,
    |s| s.magic = 0,
    |s| s.magic = 65_535,
    |s| (s.desync_on, s.desync_interval) = (true, 0),
    |s| (s.desync_on, s.desync_interval) = (true, 1),
    |s| (s.desync_on, s.desync_interval) = (true, 10_000),
    |s| (s.desync_on, s.desync_interval) = (true, 10_001),
    |s| (s.desync_on, s.desync_interval) = (false, 10_001),
];

const ENDPOINT: [Edge; 16] = [
    |s| s.handle_count = 0,
    |s| s.handle_count = 5,
    |s| s.handle_count = u32::MAX,
    |s| (s.handle_count, s.handles) = (4, [3, 2, 1, 0]),
    |s| (s.handle_count, s.handles) = (4, [9, 2, 9, 1]),
    |s| (s.handle_count, s.handles) = (2, [5, 5, 1, 2]),
    |s| (s.handle_count, s.handles) = (2, [5, 6, 5, 6]),
    |s| (s.handle_count, s.handles) = (1, [65_535, 0, 0, 0]),
    |s| (s.handle_count, s.handles) = (1, [65_536, 0, 0, 0]),
    |s| (s.handle_count, s.handles) = (1, [3, 65_536, 0, 0]),
    |s| s.local_players = 0,
    |s| (s.players, s.local_players) = (4, 4),
    |s| (s.players, s.local_players) = (4, 5),
    |s| (s.players, s.local_players) = (2, 3),
    |s| (s.players, s.local_players) = (1, 1),
    |s| (s.players, s.local_players, s.fps, s.magic) = (0, 0, 0, 0),
];

const SESSION: [Edge; 14] = [
    |s| s.slots = 1,
    |s| s.slots = 2,
    |s| s.slots = 64,
    |s| s.slots = 65,
    |s| s.session_events = 0,
    |s| s.session_events = 1,
    |s| s.session_events = 128,
    |s| s.session_events = 129,
    |s| s.max_frames_behind = 0,
    |s| s.max_frames_behind = 65_535,
    |s| s.max_frames_behind = 65_536,
    |s| s.catchup_speed = 0,
    |s| s.catchup_speed = 65_535,
    |s| s.catchup_speed = 65_536,
];

/// Every edge on both kinds of object, then a clock above its ceiling together with a bad setup.
/// Good ones are used a little, so that the calls after them change state.
pub(crate) fn edges(g: &mut Gen) {
    for edge in COMMON.iter().chain(&ENDPOINT) {
        let mut setup = plain();
        edge(&mut setup);
        if g.make(A, &setup) == 0 {
            use_a_little(g, A);
        }
    }
    for edge in COMMON.iter().chain(&SESSION) {
        let mut setup = plain();
        edge(&mut setup);
        if g.make(SPECTATOR, &setup) == 0 {
            use_a_little(g, SPECTATOR);
        }
    }
    g.wild_clocks = 1000;
    g.make(A, &plain());
    g.make(B, &Setup { players: 0, ..plain() });
    g.make(SPECTATOR, &plain());
    g.wild_clocks = 0;
    every_size(g);
}

/// A request, a second one, a packet, and the messages taken.
fn use_a_little(g: &mut Gen, object: u8) {
    g.call(Call::Synchronize, object);
    g.pass(300);
    g.act(object);
    let message = plain_input(g, object, 0, 1);
    g.hand(object, &message);
    g.call(Call::TakeMessages, object);
}

/// Every S with every player count: a packet of two frames, then of one more.
fn every_size(g: &mut Gen) {
    for input_size in 1..=16 {
        for players in 1..=4 {
            let handles = [2, 9, 4, 7];
            let setup = Setup { input_size, players, handle_count: 5 - players, handles, ..plain() };
            g.make(B, &setup);
            for (start, frames) in [(0, 2), (2, 1)] {
                let message = plain_input(g, B, start, frames);
                g.hand(B, &message);
            }
        }
    }
}
