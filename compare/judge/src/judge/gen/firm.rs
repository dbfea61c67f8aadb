//! Firm mode: reports in falling, rising and any order, repeated and at both ends of i32, in every phase, by value,
//! as datagrams and carried from the other end; reports that do not count, a `new` between them, and a session.

use super::good_setups::{any, plain};
use super::moves::fill_events;
use super::net::Net;
use super::script::{Gen, A, B};
use crate::judge::record::{Call, Record, Setup, SPECTATOR};
use crate::judge::refusals::{CLOCK_MAX, EVENTS_MAX};
use crate::judge::snapshot::Phase;
use crate::judge::value;
use crate::network::messages::{ChecksumReport, Message, MessageBody};
use crate::Frame;

/// The magic of B, and of whoever answers requests.
const MAGIC: u16 = 5;

pub(crate) fn reports(g: &mut Gen) {
    beside_the_crates_rule(g);
    through_the_phases(g);
    ends_of_i32(g);
    anew(g);
    crowded_events(g);
    watched(g);
}

/// Firm mode, with this detection and interval: neither is looked at.
fn firm(g: &mut Gen, desync_on: bool, desync_interval: u32) -> Setup {
    Setup {
        disconnect_timeout: 2_000,
        disconnect_notify_start: 500,
        desync_on,
        desync_interval,
        checksum_mode: mode(g),
        ..any(g)
    }
}

/// Any number but 0 is firm mode.
fn mode(g: &mut Gen) -> u16 {
    g.rng.pick(&[1, 2, 256, 65_535])
}

fn report_of(g: &mut Gen, own: u8, frame: Frame) -> Message {
    let checksum = u128::from(g.rng.next()) << g.rng.pick(&[0, 64]);
    g.welcome(own, MessageBody::ChecksumReport(ChecksumReport { checksum, frame }))
}

/// By value or as a datagram, a millisecond after the last one: so it shows whether it is heard.
fn record_of(g: &mut Gen, own: u8, message: &Message) -> Record {
    g.pass(1);
    let as_value = g.rng.chance(25);
    let mut r = g.record(if as_value { Call::Message } else { Call::Datagram }, own);
    r.number = g.host(own).peer;
    r.payload = match r.call {
        Call::Message => value::write(message),
        _ => bincode::serialize(message).expect("messages serialize"),
    };
    r
}

fn report(g: &mut Gen, own: u8, frame: Frame) {
    let message = report_of(g, own, frame);
    let r = record_of(g, own, &message);
    g.issue(r);
}

/// Reports that B sends, carried to an end.
fn carried(g: &mut Gen, own: u8, frames: &[Frame]) {
    g.pass(1);
    for frame in frames {
        let mut r = g.record(Call::SendChecksumReport, B);
        r.frame = *frame;
        r.payload = g.rng.bytes(16);
        g.issue(r);
    }
    let sent = g.call(Call::TakeMessages, B).given;
    let mut net = Net::new(0, 0, 0);
    net.send(g, B, own, &sent[4..]);
    net.deliver(g);
}

/// The smallest and the largest frame held.
fn ends(g: &Gen, own: u8) -> (Frame, Frame) {
    let held = &g.host(own).checksums;
    (held[0].0, held[held.len() - 1].0)
}

/// The same to an end in firm mode and to one under the crate's rule: 65 frames in falling order, then larger ones, one
/// in between, one again, the smallest again, and one that was dropped.
fn beside_the_crates_rule(g: &mut Gen) {
    let setup = firm(g, true, 1);
    g.make(A, &setup);
    g.make(B, &Setup { checksum_mode: 0, magic: MAGIC, ..setup });
    let top = g.rng.pick(&[163, 31, 0, -1, 2_000_000, i32::MAX - 3, i32::MIN + 70]);
    let falling = (0..65).map(|below| top - below);
    let then = [top + 1, top + 3, top + 2, top - 20, top - 28, top - 31];
    for frame in falling.chain(then) {
        report(g, A, frame);
        let message = report_of(g, B, frame);
        g.hand(B, &message);
    }
    carried(g, A, &[top - 40, top - 10, top - 28]);
}

/// The handshake of an end with a full store, with reports around it that are counted, and others after it that are not.
fn through_the_handshake(g: &mut Gen, own: u8) {
    g.call(Call::Synchronize, own);
    around(g, own);
    while g.phase(own) == Phase::Synchronizing {
        g.reply(own, MAGIC);
    }
    around(g, own);
    uncounted(g, own);
}

/// On from Initializing with a full store, to Shutdown.
fn through_the_phases(g: &mut Gen) {
    through_the_handshake(g, A);
    let (smallest, largest) = ends(g, A);
    carried(g, A, &[smallest.saturating_sub(1), largest, largest.saturating_add(1)]);
    interruptions(g, A);
    own_reports(g);
    any_reports(g, A);
    g.call(Call::Disconnect, A);
    around(g, A);
    g.pass(5_001);
    g.act(A);
    around(g, A);
}

/// One below all that are held, one again, one above them.
fn around(g: &mut Gen, own: u8) {
    let (smallest, largest) = ends(g, own);
    for frame in [smallest.saturating_sub(2), largest, largest.saturating_add(2)] {
        report(g, own, frame);
    }
}

/// None, or some of any frame.
fn any_reports(g: &mut Gen, own: u8) {
    let count = g.rng.pick(&[0, 10, 40, 120]);
    for _ in 0..count {
        let frame = any_frame(g, own);
        report(g, own, frame);
    }
}

/// Around the ends of what is held, one that is held, one that was reported, an end of i32, or any.
fn any_frame(g: &mut Gen, own: u8) -> Frame {
    let (smallest, largest) = ends(g, own);
    let held: Vec<Frame> = g.host(own).checksums.iter().map(|(frame, _)| *frame).collect();
    let reported = g.host(own).reported.clone().expect("firm mode");
    let step = g.rng.range(1, 40) as i32;
    match g.rng.below(10) {
        0 => smallest.saturating_sub(step),
        1..=2 => smallest.saturating_add(step),
        3 => largest.saturating_sub(step),
        4..=5 => largest.saturating_add(step),
        6 => g.rng.pick(&held),
        7 => g.rng.pick(&reported),
        8 => g.rng.pick(&[i32::MIN, i32::MIN + 1, -1, 0, 1, i32::MAX - 1, i32::MAX]),
        _ => g.rng.next() as i32,
    }
}

/// Ignored, refused or unreadable: no such frame counts as reported, though it is above all that are held.
fn uncounted(g: &mut Gen, own: u8) {
    let above = ends(g, own).1.saturating_add(7);
    let mut stopped = report_of(g, own, above);
    stopped.header.magic ^= 1;
    let r = record_of(g, own, &stopped);
    g.issue(r);
    let message = report_of(g, own, above);
    let mut r = record_of(g, own, &message);
    r.number ^= 1;
    g.issue(r);
    let mut r = record_of(g, own, &message);
    r.now = CLOCK_MAX + 1;
    g.issue(r);
    damaged(g, own, &message);
}

/// A byte short, and a byte too long.
fn damaged(g: &mut Gen, own: u8, message: &Message) {
    let bytes = bincode::serialize(message).expect("messages serialize");
    for payload in [bytes[..25].to_vec(), [&bytes[..], &[0]].concat()] {
        let mut r = g.record(Call::Datagram, own);
        r.number = g.host(own).peer;
        r.payload = payload;
        g.issue(r);
    }
}

/// An announced interruption is ended by a report, whether it is stored or not.
fn interruptions(g: &mut Gen, own: u8) {
    let (smallest, largest) = ends(g, own);
    for frame in [smallest.saturating_sub(3), largest] {
        g.pass(501);
        g.act(own);
        report(g, own, frame);
    }
}

/// What the end itself reports asks for 26 bytes of room, as by the crate's rule.
fn own_reports(g: &mut Gen) {
    let mut r = g.record(Call::SendChecksumReport, A);
    r.payload = g.rng.bytes(16);
    for room in [25, 26] {
        r.buffer = g.host(A).queued.len() as u32 + room;
        g.issue(r.clone());
    }
}

/// i32 min as the 32nd; with the next frame it is dropped; then it again, i32 max, and frames around 0.
fn ends_of_i32(g: &mut Gen) {
    let setup = firm(g, true, 10_000);
    g.make(A, &setup);
    let rising = (0..31).chain([i32::MIN, i32::MIN, 31, i32::MIN]);
    for frame in rising.chain([i32::MAX, -1, 0, 1, i32::MAX, i32::MAX - 1]) {
        report(g, A, frame);
    }
}

/// A `new` that is refused leaves the reports as they are; one that is done begins anew, in either mode.
fn anew(g: &mut Gen) {
    let setup = firm(g, false, 0);
    g.make(A, &Setup { fps: 0, ..setup });
    g.wild_clocks = 1_000;
    g.make(A, &setup);
    g.wild_clocks = 0;
    report(g, A, 0);
    g.make(A, &setup);
    let bottom = g.rng.pick(&[-16, 0, 1_000, i32::MIN]);
    for above in (0..34).chain([0, 33]) {
        report(g, A, bottom + above);
    }
    g.make(A, &Setup { checksum_mode: 0, ..setup });
    report(g, A, bottom);
    g.make(A, &setup);
    for frame in [5, 5, 5, bottom] {
        report(g, A, frame);
    }
    any_reports(g, A);
}

/// 640 events, the last an interruption: a report that would end it is 5. Without one a report finds room at 640 too.
fn crowded_events(g: &mut Gen) {
    let checksum_mode = mode(g);
    g.make(A, &Setup { checksum_mode, ..plain() });
    g.connect(A, MAGIC);
    g.call(Call::TakeEvents, A);
    report(g, A, 9);
    fill_events(g, A, EVENTS_MAX - 1);
    g.pass(501);
    g.act(A);
    for frame in [9, 10, i32::MIN] {
        report(g, A, frame);
    }
    g.call(Call::TakeEvents, A);
    report(g, A, 9);
    fill_events(g, A, EVENTS_MAX);
    report(g, A, 10);
}

/// A session whose endpoint holds its checksums in firm mode.
fn watched(g: &mut Gen) {
    let setup = firm(g, true, 100);
    g.make(SPECTATOR, &setup);
    let top = g.rng.pick(&[64, -1, i32::MAX - 3]);
    for below in 0..66 {
        report(g, SPECTATOR, top - below);
    }
    report(g, SPECTATOR, i32::MIN);
    through_the_handshake(g, SPECTATOR);
    carried(g, SPECTATOR, &[top - 40, top, top + 3]);
    interruptions(g, SPECTATOR);
    any_reports(g, SPECTATOR);
    g.act(SPECTATOR);
}
