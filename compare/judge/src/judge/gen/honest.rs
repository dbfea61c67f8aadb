//! Honest exchanges of two ends over a network that loses, repeats, reorders and delays.

use super::good_setups::any;
use super::moves::look;
use super::net::Net;
use super::script::{Gen, A, B};
use crate::judge::record::{Call, Record, Setup};
use crate::judge::snapshot::Phase;

/// Two setups whose widths match: each end's handles are as many as the other's local players.
fn pair(g: &mut Gen) -> (Setup, Setup) {
    let (mut a, mut b) = (any(g), any(g));
    let players = g.rng.range(2, 4) as u32;
    let local = g.rng.range(1, u64::from(players) - 1) as u32;
    for (setup, own) in [(&mut a, local), (&mut b, players - local)] {
        setup.players = players;
        setup.local_players = own;
        setup.handle_count = players - own;
        setup.disconnect_timeout = 2_000;
        setup.disconnect_notify_start = 500;
        setup.max_prediction = setup.max_prediction.max(1);
    }
    b.input_size = a.input_size;
    if g.rng.chance(25) {
        unequal_sizes(g, &mut a, &mut b);
    }
    b.desync_on = a.desync_on;
    b.desync_interval = a.desync_interval;
    (a, b)
}

/// Equal widths by unequal S: one end's inputs are twice as long, the other has twice as many.
fn unequal_sizes(g: &mut Gen, a: &mut Setup, b: &mut Setup) {
    let size = g.rng.range(1, 8) as u32;
    (a.input_size, b.input_size) = (2 * size, size);
    (a.players, b.players) = (4, 4);
    (a.local_players, a.handle_count) = (g.rng.range(1, 2) as u32, g.rng.range(1, 2) as u32);
    (b.local_players, b.handle_count) = (2 * a.handle_count, 2 * a.local_players);
}

pub(crate) fn calm(g: &mut Gen) {
    let delay = g.rng.pick(&[0, 5, 40]);
    let steps = g.rng.pick(&[45, 160, 160]);
    exchange(g, Net::new(0, 0, delay), steps);
}

pub(crate) fn harsh(g: &mut Gen) {
    let net = Net::new(g.rng.range(5, 40), g.rng.range(0, 30), g.rng.range(10, 400));
    g.stingy = 2;
    let steps = g.rng.pick(&[60, 160, 160]);
    exchange(g, net, steps);
}

fn exchange(g: &mut Gen, mut net: Net, steps: usize) {
    let (a, b) = pair(g);
    g.make(A, &a);
    g.make(B, &b);
    g.call(Call::Synchronize, A);
    g.call(Call::Synchronize, B);
    let first = g.rng.pick(&[0, 0, 0, 1, 900]);
    for step in 0..steps {
        let millis = g.rng.pick(&[1, 5, 16, 16, 17, 30]);
        g.pass(millis);
        if g.rng.below(120) == 0 {
            // a pause long enough to be announced, or to end it
            let pause = g.rng.pick(&[501, 700, 2_001]);
            g.pass(pause);
        }
        net.deliver(g);
        for (own, other) in [(A, B), (B, A)] {
            turn(g, &mut net, own, other, first);
        }
        if step == steps - 20 && g.rng.chance(50) {
            g.call(Call::Disconnect, A);
        }
        if step == steps - 3 {
            g.pass(5_001);
        }
    }
}

/// What one end does in one turn of its game loop.
fn turn(g: &mut Gen, net: &mut Net, own: u8, other: u8, first: i32) {
    if g.rng.chance(50) {
        g.act(own);
    }
    let running = g.phase(own) == Phase::Running;
    let ahead = g.host(own).pending.len() < 60;
    if (running && ahead && g.rng.chance(75)) || g.rng.chance(2) {
        g.send(own, first);
    }
    if running && g.rng.chance(20) {
        let mut r = Record::new(Call::UpdateLocalFrameAdvantage, own);
        r.frame = g.host(own).last_accepted().unwrap_or(-1);
        g.issue(r);
    }
    if running && g.rng.chance(6) {
        report(g, own);
    }
    if g.rng.chance(25) && !g.host(own).events.is_empty() {
        g.call(Call::TakeEvents, own);
    }
    if g.rng.chance(70) && !g.host(own).queued.is_empty() {
        let done = g.call(Call::TakeMessages, own);
        if done.answer == 0 {
            net.send(g, own, other, &done.given[4..]);
        }
    }
    if g.rng.chance(4) {
        look(g, own);
    }
}

/// A checksum report of a frame that is a multiple of the interval.
fn report(g: &mut Gen, own: u8) {
    let mut r = g.record(Call::SendChecksumReport, own);
    let interval = g.host(own).checksum_interval() as i32;
    let last = g.host(own).last_accepted().unwrap_or(0);
    r.frame = last - last % interval;
    r.payload = g.rng.bytes(16);
    g.issue(r);
}
