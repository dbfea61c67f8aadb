//! Setups that `new` accepts: the plain one, and any one.

use super::script::Gen;
use crate::judge::record::Setup;
use crate::judge::refusals::TIMEOUT_MAX;

/// Two players, one of them remote, S = 1, max_prediction 2, as in the worked bouts.
pub fn plain() -> Setup {
    Setup {
        players: 2,
        handle_count: 1,
        handles: [1, 0, 0, 0],
        local_players: 1,
        input_size: 1,
        max_prediction: 2,
        fps: 60,
        disconnect_timeout: 2_000,
        disconnect_notify_start: 500,
        peer: 7,
        magic: 0x1234,
        desync_on: false,
        desync_interval: 0,
        checksum_mode: 0,
        slots: 8,
        session_events: 10,
        max_frames_behind: 3,
        catchup_speed: 2,
    }
}

/// A good setup, its numbers spread over the ceilings.
pub(crate) fn any(g: &mut Gen) -> Setup {
    let rng = &mut g.rng;
    let players = rng.range(1, 4) as u32;
    let handle_count = rng.range(1, 4) as u32;
    let mut handles = [0; 4];
    let first = rng.pick(&[0, 1, 2, 7, 65_532]);
    let step = rng.pick(&[1, 1, 1, 3]).min((65_535 - first) / 3);
    for (at, handle) in handles.iter_mut().enumerate() {
        *handle = first + step * at as u32;
    }
    if rng.chance(50) {
        handles[..handle_count as usize].reverse();
    }
    Setup {
        players,
        handle_count,
        handles,
        local_players: rng.range(1, u64::from(players)) as u32,
        input_size: rng.pick(&[1, 1, 1, 2, 3, 4, 5, 6, 7, 8, 9, 10, 11, 12, 13, 14, 15, 16]),
        max_prediction: rng.pick(&[0, 0, 1, 2, 3, 5, 8, 12, 15, 16, 16]),
        fps: rng.pick(&[1, 30, 60, 60, 120, 240]),
        disconnect_timeout: rng.pick(&[0, 200, 700, 2_000, 2_000, 5_000, TIMEOUT_MAX]),
        disconnect_notify_start: rng.pick(&[0, 100, 500, 500, 900, 3_000, TIMEOUT_MAX]),
        peer: rng.pick(&[0, 1, 7, u32::MAX]),
        magic: rng.range(1, 65_535) as u16,
        desync_on: rng.chance(60),
        desync_interval: rng.pick(&[1, 2, 10, 100, 10_000]),
        checksum_mode: 0,
        slots: rng.pick(&[2, 3, 5, 8, 60, 64]),
        session_events: rng.pick(&[1, 2, 5, 20, 100, 128]),
        max_frames_behind: rng.pick(&[0, 1, 3, 10, 65_535]),
        catchup_speed: rng.pick(&[0, 1, 2, 5, 70, 65_535]),
    }
}
