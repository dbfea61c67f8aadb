//! One endpoint walked through every phase, with every kind of message and every call in each.

use super::good_setups::plain;
use super::message::{bodies, with_magic};
use super::moves::{look, plain_input};
use super::script::{Gen, A};
use crate::judge::record::{Call, Record, Setup};
use crate::judge::snapshot::Phase;
use crate::network::messages::{MessageBody, QualityReply};

const MAGIC: u16 = 9;

pub(crate) fn walk(g: &mut Gen) {
    g.make(A, &Setup { max_prediction: 16, ..plain() });
    visit(g);
    g.call(Call::Synchronize, A);
    visit(g);
    while g.phase(A) == Phase::Synchronizing {
        g.reply(A, MAGIC);
    }
    visit(g);
    running(g);
    g.call(Call::Disconnect, A);
    visit(g);
    g.call(Call::Disconnect, A);
    g.pass(5_001);
    g.act(A);
    visit(g);
    g.call(Call::Disconnect, A);
    last_frame(g);
}

/// What can be asked in any phase.
fn visit(g: &mut Gen) {
    for body in bodies() {
        g.pass(11);
        g.hand(A, &with_magic(MAGIC, body));
    }
    g.hand(A, &with_magic(MAGIC + 1, MessageBody::KeepAlive));
    let peer = g.host(A).peer;
    g.hand_from(A, &with_magic(MAGIC, MessageBody::KeepAlive), peer + 1);
    let pong = u128::from(g.epoch + 1);
    g.hand(A, &with_magic(MAGIC, MessageBody::QualityReply(QualityReply { pong })));
    acts(g);
    sends(g);
    let mut report = g.record(Call::SendChecksumReport, A);
    report.frame = -3;
    report.payload = g.rng.bytes(16);
    g.issue(report);
    for local_frame in [-1, 0, 7] {
        advantage(g, local_frame);
    }
    look(g, A);
    if g.phase(A) != Phase::Initializing {
        g.call(Call::Synchronize, A);
    }
    g.call(Call::TakeEvents, A);
    g.call(Call::TakeMessages, A);
}

fn acts(g: &mut Gen) {
    for count in [0, 1, 3, 255, 2] {
        let mut r = g.record(Call::Act, A);
        r.status_count = count;
        r.statuses = g.statuses();
        g.issue(r);
    }
}

/// Wrong bytes, wrong counts, wrong frames, then the next frame.
fn sends(g: &mut Gen) {
    let next = g.host(A).last_accepted().map_or(4, |f| f + 1);
    for (frame, bytes, count) in [
        (next, 0, 2),
        (next, 2, 2),
        (next, 1, 1),
        (next, 1, 5),
        (-1, 1, 2),
        (i32::MIN, 1, 2),
        (next, 1, 2),
        (next, 1, 2),
        (next + 2, 1, 2),
    ] {
        let mut r = g.record(Call::SendInput, A);
        r.frame = frame;
        r.status_count = count;
        r.statuses = g.statuses();
        r.payload = g.rng.bytes(bytes);
        g.issue(r);
    }
}

fn advantage(g: &mut Gen, local_frame: i32) {
    let mut r = Record::new(Call::UpdateLocalFrameAdvantage, A);
    r.frame = local_frame;
    g.issue(r);
}

/// A history that is cleaned up, and reports on both sides of i16.
fn running(g: &mut Gen) {
    let start = g.host(A).newest() + 1;
    let packet = plain_input(g, A, start, 40);
    g.hand(A, &packet);
    for local_frame in [-40_000, 40_000] {
        advantage(g, local_frame);
        g.pass(201);
        g.act(A);
    }
}

/// The last frame of i32 is accepted, and none after it.
fn last_frame(g: &mut Gen) {
    g.make(A, &plain());
    g.connect(A, MAGIC);
    for _ in 0..3 {
        g.send(A, i32::MAX - 1);
    }
    g.send(A, i32::MIN);
}
