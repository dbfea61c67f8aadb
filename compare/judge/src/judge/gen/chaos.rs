//! Adversarial scripts: one endpoint's whole life, with arbitrary messages and calls in every phase.

use super::arbitrary::{any_frame, any_message};
use super::good_setups::any;
use super::moves::{look, tick};
use super::script::{Gen, A, B};
use crate::judge::record::{Call, Record};
use crate::judge::refusals::CLOCK_MAX;
use crate::judge::snapshot::Phase;

pub(crate) fn lives(g: &mut Gen) {
    let base = g.rng.pick(&[0, 0, 0, 1, 7, 1000]);
    life(g, A, base);
    life(g, B, base);
}

/// Frames that run into the upper end of i32.
pub(crate) fn late_frames(g: &mut Gen) {
    let base = i32::MAX - g.rng.pick(&[0, 3, 20, 100, 300]);
    life(g, A, base);
    life(g, B, base);
}

pub(crate) fn stingy(g: &mut Gen) {
    g.stingy = 30;
    lives(g);
}

/// One endpoint from setup to Shutdown, with calls of every kind in each phase.
fn life(g: &mut Gen, own: u8, base: i32) {
    start_clocks(g);
    let setup = any(g);
    g.make(own, &setup);
    g.wild_clocks = 4;
    steps(g, own, base, 12);
    g.wild_clocks = 0;
    g.call(Call::Synchronize, own);
    g.wild_clocks = 4;
    steps(g, own, base, 12);
    finish_handshake(g, own);
    let running = g.rng.range(80, 200) as usize;
    steps(g, own, base, running);
    leave(g, own);
    steps(g, own, base, 15);
    shut(g, own);
    steps(g, own, base, 8);
    g.wild_clocks = 0;
}

fn start_clocks(g: &mut Gen) {
    g.now = g.rng.pick(&[0, 1, 1_000, 5_000_000, CLOCK_MAX - 400_000]);
    g.epoch = g.rng.pick(&[0, 500, 1_700_000_000_000, 1_700_000_000_000, CLOCK_MAX - 400_000]);
}

fn finish_handshake(g: &mut Gen, own: u8) {
    let magic = g.rng.pick(&[0, 1, 77, 77, 65_535]);
    for _ in 0..60 {
        if g.phase(own) == Phase::Initializing {
            g.call(Call::Synchronize, own);
        }
        if g.phase(own) != Phase::Synchronizing {
            return;
        }
        g.call(Call::TakeEvents, own);
        g.reply(own, magic);
    }
}

fn leave(g: &mut Gen, own: u8) {
    let wild = std::mem::take(&mut g.wild_clocks);
    g.call(Call::Disconnect, own);
    g.wild_clocks = wild;
}

fn shut(g: &mut Gen, own: u8) {
    let wild = std::mem::take(&mut g.wild_clocks);
    for late in [0, 1] {
        g.now = (g.host(own).clocks.shutdown + late).min(CLOCK_MAX);
        g.act(own);
    }
    g.wild_clocks = wild;
}

fn steps(g: &mut Gen, own: u8, base: i32, count: usize) {
    for _ in 0..count {
        tick(g, own);
        step(g, own, base);
    }
}

fn step(g: &mut Gen, own: u8, base: i32) {
    match g.rng.below(100) {
        0..=51 => any_message(g, own, base),
        52..=65 => any_act(g, own),
        66..=80 => any_send(g, own, base),
        81..=85 => {
            g.call(Call::TakeEvents, own);
        }
        86..=89 => {
            g.call(Call::TakeMessages, own);
        }
        90..=93 => any_advantage(g, own),
        94 => look(g, own),
        95..=96 => any_report(g, own),
        97 => {
            g.call(Call::NetworkStats, own);
        }
        98 if g.rng.chance(15) => {
            g.call(Call::Disconnect, own);
        }
        98 if g.rng.chance(30) && g.phase(own) != Phase::Initializing => {
            g.call(Call::Synchronize, own);
        }
        _ => {
            g.act(own);
        }
    }
}

fn any_act(g: &mut Gen, own: u8) {
    let mut r = g.record(Call::Act, own);
    r.status_count = status_count(g, own);
    r.statuses = g.statuses();
    if g.rng.chance(20) && !g.host(own).nonces.is_empty() {
        r.nonce = g.host(own).nonces[0];
    }
    g.issue(r);
}

/// Mostly the right one.
fn status_count(g: &mut Gen, own: u8) -> u8 {
    let players = g.host(own).num_players as u8;
    match g.rng.below(20) {
        0 => g.rng.pick(&[0, 1, 2, 3, 4, 5, 255]),
        _ => players,
    }
}

fn any_send(g: &mut Gen, own: u8, base: i32) {
    let mut r = g.record(Call::SendInput, own);
    let next = g.host(own).last_accepted().map_or(base, |f| f.wrapping_add(1));
    r.frame = if g.rng.chance(88) { next } else { any_frame(g, next) };
    r.status_count = status_count(g, own);
    r.statuses = g.statuses();
    let width = g.host(own).sending_width();
    let length = if g.rng.chance(96) { width } else { g.rng.range(0, 70) as usize };
    r.payload = g.rng.bytes(length);
    g.issue(r);
}

fn any_advantage(g: &mut Gen, own: u8) {
    let newest = g.host(own).newest();
    let mut r = Record::new(Call::UpdateLocalFrameAdvantage, own);
    r.frame = match g.rng.below(10) {
        0..=5 => any_frame(g, newest),
        6 => newest.saturating_sub(40_000),
        7 => newest.saturating_add(40_000),
        8 => -1,
        _ => newest.saturating_sub(32_768),
    };
    g.issue(r);
}

fn any_report(g: &mut Gen, own: u8) {
    let mut r = g.record(Call::SendChecksumReport, own);
    r.frame = any_frame(g, 10);
    r.payload = g.rng.bytes(16);
    g.issue(r);
}
