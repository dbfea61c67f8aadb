//! Calls that meet two tests at once, every pair of the order (N-20, N-21, N-23) that can be met: the answer must be
//! that of the first. A call that is refused or ignored changes nothing, so each state serves many of them.

use super::good_setups::plain;
use super::moves::{fill_events, plain_input};
use super::script::{takes_epoch, takes_now, Gen, A};
use crate::judge::record::{Call, Record, Setup, SPECTATOR};
use crate::judge::refusals::{
    BAD_BOOL, BAD_CLOCK, BAD_FRAME, BAD_KIND, BAD_LENGTH, CHECKSUMS_MAX, CLOCK_MAX, EVENTS_MAX, EXTRA, FULL,
    OVERFLOW, SHORT, TOO_LONG,
};
use crate::judge::value;
use crate::network::messages::{ChecksumReport, Message, MessageBody, SyncRequest};

/// How often a script meets each pair: with one script in 27, a hundred times in a thousand scripts.
const ROUNDS: usize = 3;

const MAGIC: u16 = 9;

/// Stands for a call that is ignored among the numbers of the refusals.
const IGNORED: u8 = 0;

pub(crate) fn all(g: &mut Gen) {
    for object in [A, SPECTATOR] {
        for _ in 0..ROUNDS {
            unmade(g, object);
            late_start(g, object);
        }
        let setup = setup(g);
        g.make(object, &setup);
        rounds(g, |g| started(g, object));
        g.connect(object, MAGIC);
        rounds(g, |g| running(g, object));
        rounds(g, |g| messages(g, object));
        crowded_checksums(g, object);
        g.make(object, &setup);
        g.connect(object, MAGIC);
        crowded_events(g, object);
    }
    rounds(g, advances);
    endpoint_alone(g);
}

fn rounds(g: &mut Gen, one: impl Fn(&mut Gen)) {
    for _ in 0..ROUNDS {
        one(g);
    }
}

/// A payload of 130 frames fits a datagram.
fn setup(g: &mut Gen) -> Setup {
    let players = g.rng.range(1, 4) as u32;
    Setup { players, input_size: g.rng.range(1, 3) as u32, peer: g.rng.pick(&[0, 7, u32::MAX]), ..plain() }
}

/// Some clock that the call takes is above its ceiling, or all of them are.
fn wild(g: &mut Gen, r: &mut Record) {
    let above = g.rng.pick(&[CLOCK_MAX + 1, 1 << 63, u64::MAX]);
    let (now, epoch) = (takes_now(r.call), takes_epoch(r.call));
    let which = g.rng.below(3);
    if now && (which != 0 || !epoch) {
        r.now = above;
    }
    if epoch && (which != 1 || !now) {
        r.epoch = above;
    }
}

/// A buffer that lacks room for as much as a byte of what is added.
fn short(g: &mut Gen, r: &mut Record, adds: u64) {
    r.buffer = g.host(r.object).queued.len() as u32 + g.rng.below(adds) as u32;
}

/// The call with the clocks and the buffer that these numbers ask for.
fn call(g: &mut Gen, object: u8, call: Call, faults: &[u8], adds: u64) -> Record {
    let mut r = g.record(call, object);
    if faults.contains(&FULL) {
        short(g, &mut r, adds);
    }
    if faults.contains(&BAD_CLOCK) {
        wild(g, &mut r);
    }
    r
}

/// Of a session both its endpoint's setup and its own limits are out of their ranges once.
fn unmade(g: &mut Gen, object: u8) {
    let bad = [Setup { fps: 241, ..plain() }, Setup { slots: 65, ..plain() }];
    for setup in &bad[..1 + usize::from(object == SPECTATOR)] {
        let mut r = g.record(Call::New, object);
        r.payload = setup.write();
        wild(g, &mut r);
        g.issue(r);
    }
}

/// Statistics that start just below the ceiling are asked for just above it.
fn late_start(g: &mut Gen, object: u8) {
    let epoch = std::mem::replace(&mut g.epoch, CLOCK_MAX - g.rng.below(400));
    g.make(object, &plain());
    g.call(Call::Synchronize, object);
    g.epoch = epoch;
    let mut r = Record::new(Call::NetworkStats, object);
    r.epoch = CLOCK_MAX + 1 + g.rng.below(500);
    g.issue(r);
}

/// In Initializing.
fn started(g: &mut Gen, object: u8) {
    let r = call(g, object, Call::Synchronize, &[BAD_CLOCK, FULL], 10);
    g.issue(r);
    let r = call(g, object, Call::NetworkStats, &[BAD_CLOCK], 0);
    g.issue(r);
    let mut r = Record::new(Call::NetworkStats, object);
    r.epoch = g.rng.below(1000);
    g.issue(r);
    if object == SPECTATOR {
        g.call(Call::Advance, object);
    } else {
        ignored_sends(g);
    }
}

/// In Running, with a report due.
fn running(g: &mut Gen, object: u8) {
    g.pass(201);
    for faults in [&[BAD_CLOCK][..], &[FULL]] {
        let r = call(g, object, Call::Synchronize, faults, 10);
        g.issue(r);
    }
    let mut r = call(g, object, Call::Act, &[BAD_CLOCK, FULL], 24);
    if object == SPECTATOR {
        g.issue(r);
        return;
    }
    r.status_count = g.host(object).num_players as u8;
    g.issue(r);
    for faults in [&[BAD_CLOCK][..], &[FULL]] {
        let mut r = call(g, object, Call::Act, faults, 24);
        r.status_count = wrong_count(g);
        g.issue(r);
    }
    let mut r = call(g, object, Call::SendChecksumReport, &[BAD_CLOCK, FULL], 26);
    r.payload = g.rng.bytes(16);
    g.issue(r);
    sends(
        g,
        &[
            &[BAD_CLOCK, BAD_LENGTH],
            &[BAD_CLOCK, BAD_FRAME],
            &[BAD_CLOCK, FULL],
            &[BAD_LENGTH, BAD_FRAME],
            &[BAD_LENGTH, FULL],
            &[BAD_FRAME, FULL],
        ],
    );
}

/// Outside Running each of these is ignored, unless its clock or a length is wrong.
fn ignored_sends(g: &mut Gen) {
    sends(g, &[&[BAD_CLOCK], &[BAD_LENGTH], &[BAD_FRAME], &[FULL]]);
}

fn wrong_count(g: &mut Gen) -> u8 {
    let players = g.host(A).num_players as u8;
    g.rng.pick(&[players - 1, players + 1, 5, 255])
}

fn sends(g: &mut Gen, all: &[&[u8]]) {
    for faults in all {
        let mut r = call(g, A, Call::SendInput, faults, 31);
        let s = g.host(A);
        (r.frame, r.status_count) = (s.last_accepted().map_or(0, |f| f + 1), s.num_players as u8);
        let mut length = s.sending_width();
        if faults.contains(&BAD_FRAME) {
            r.frame = g.rng.pick(&[-1, i32::MIN]);
        }
        if faults.contains(&BAD_LENGTH) {
            match g.rng.below(2) {
                0 => length += 1,
                _ => r.status_count = wrong_count(g),
            }
        }
        r.payload = g.rng.bytes(length);
        g.issue(r);
    }
}

/// Datagrams that do not read, and messages of which two tests hold, on an end that has received no input.
fn messages(g: &mut Gen, object: u8) {
    for fault in [SHORT, BAD_KIND, BAD_BOOL, TOO_LONG, EXTRA] {
        for other in [BAD_CLOCK, IGNORED] {
            let mut r = call(g, object, Call::Datagram, &[other], 0);
            r.number = g.host(object).peer ^ u32::from(other == IGNORED);
            r.payload = unreadable(g, object, fault);
            g.issue(r);
        }
    }
    for call in [Call::Datagram, Call::Message] {
        inputs(
            g,
            object,
            call,
            &[
                &[BAD_CLOCK, IGNORED],
                &[BAD_CLOCK, TOO_LONG],
                &[BAD_CLOCK, OVERFLOW],
                &[BAD_CLOCK, FULL],
                &[IGNORED, TOO_LONG],
                &[IGNORED, OVERFLOW],
                &[IGNORED, FULL],
                &[TOO_LONG, OVERFLOW],
                &[TOO_LONG, FULL],
                &[OVERFLOW, FULL],
            ],
        );
        queued_requests(g, object, call);
    }
}

/// A good Input with this fault of a datagram.
fn unreadable(g: &mut Gen, object: u8, fault: u8) -> Vec<u8> {
    let message = plain_input(g, object, 0, 1);
    let mut bytes = bincode::serialize(&message).expect("messages serialize");
    match fault {
        SHORT => bytes.truncate(g.rng.below(bytes.len() as u64) as usize),
        BAD_KIND => bytes[2] = g.rng.range(8, 255) as u8,
        BAD_BOOL => bytes[14] = g.rng.range(2, 255) as u8,
        TOO_LONG => bytes[6] = g.rng.range(5, 255) as u8,
        _ => bytes.push(g.rng.next() as u8),
    }
    bytes
}

/// Lays the message into the record: from another peer, or with a magic that the filter stops, where it is to be
/// ignored.
fn hand(g: &mut Gen, mut r: Record, mut message: Message, faults: &[u8]) {
    r.number = g.host(r.object).peer;
    if faults.contains(&IGNORED) {
        match g.rng.below(2) {
            0 => r.number ^= 1,
            _ => message.header.magic ^= 1,
        }
    }
    r.payload = match r.call {
        Call::Message => value::write(&message),
        _ => bincode::serialize(&message).expect("messages serialize"),
    };
    g.issue(r);
}

fn inputs(g: &mut Gen, object: u8, kind: Call, all: &[&[u8]]) {
    for faults in all {
        let newest = g.host(object).newest();
        let left = g.rng.below(100) as i32;
        let overflows = faults.contains(&OVERFLOW);
        let start = if overflows && newest == -1 { i32::MAX - left } else { newest + 1 };
        let frames = match (faults.contains(&TOO_LONG), overflows) {
            (true, _) => 130,
            (false, true) => (i32::MAX - start) as usize + 2,
            (false, false) => 1,
        };
        let message = plain_input(g, object, start, frames);
        let r = call(g, object, kind, faults, 10);
        hand(g, r, message, faults);
    }
}

/// A message of another kind that queues something.
fn queued_requests(g: &mut Gen, object: u8, kind: Call) {
    for faults in [[BAD_CLOCK, FULL], [IGNORED, FULL]] {
        let message = g.welcome(object, MessageBody::SyncRequest(SyncRequest { random_request: 1 }));
        let r = call(g, object, kind, &faults, 10);
        hand(g, r, message, &faults);
    }
}

/// 64 checksums: a report of the lowest frame finds no room, and its clean-up leaves i32.
fn crowded_checksums(g: &mut Gen, object: u8) {
    for below in 0..CHECKSUMS_MAX as i32 {
        report(g, object, 100 - below, &[]);
    }
    for faults in [&[][..], &[BAD_CLOCK], &[IGNORED]] {
        for frame in [i32::MIN, 1] {
            report(g, object, frame, faults);
        }
    }
}

fn report(g: &mut Gen, object: u8, frame: i32, faults: &[u8]) {
    let message = g.welcome(object, MessageBody::ChecksumReport(ChecksumReport { checksum: 1, frame }));
    let r = call(g, object, Call::Datagram, faults, 0);
    hand(g, r, message, faults);
}

/// 640 events, the newest frame near the upper end of i32: an Input that leaves i32 finds no room among the events.
fn crowded_events(g: &mut Gen, object: u8) {
    let frames = (EVENTS_MAX / g.host(object).handles.len()) as i32;
    let first = plain_input(g, object, i32::MAX - 60 - frames, 1);
    g.hand(object, &first);
    fill_events(g, object, EVENTS_MAX);
    for call in [Call::Datagram, Call::Message] {
        inputs(
            g,
            object,
            call,
            &[&[OVERFLOW], &[TOO_LONG, OVERFLOW], &[BAD_CLOCK, OVERFLOW], &[IGNORED, OVERFLOW]],
        );
    }
}

/// A session that is not synchronized, or whose newest frame is too far ahead, and whose slot holds another frame.
fn advances(g: &mut Gen) {
    let slots = plain().slots;
    for (start, frames) in [(i32::MAX, 1), (i32::MAX - slots as i32 + 1, slots as usize), (slots as i32, 1)] {
        g.make(SPECTATOR, &plain());
        let message = plain_input(g, SPECTATOR, start, frames);
        g.hand(SPECTATOR, &message);
        g.act(SPECTATOR);
        g.call(Call::Advance, SPECTATOR);
        g.connect(SPECTATOR, MAGIC);
        g.act(SPECTATOR);
        g.call(Call::Advance, SPECTATOR);
    }
}

/// Sending is ignored in Disconnected and in Shutdown; in Shutdown a message and a disconnect are too.
fn endpoint_alone(g: &mut Gen) {
    let setup = setup(g);
    g.make(A, &setup);
    g.connect(A, MAGIC);
    g.call(Call::Disconnect, A);
    ignored_sends(g);
    g.pass(5_001);
    g.act(A);
    ignored_sends(g);
    rounds(g, |g| {
        let r = call(g, A, Call::Disconnect, &[BAD_CLOCK], 0);
        g.issue(r);
        for call in [Call::Datagram, Call::Message] {
            inputs(g, A, call, &[&[BAD_CLOCK, TOO_LONG], &[TOO_LONG], &[OVERFLOW], &[FULL]]);
        }
        for fault in [SHORT, BAD_KIND, BAD_BOOL, TOO_LONG, EXTRA] {
            let mut r = call(g, A, Call::Datagram, &[], 0);
            r.number = g.host(A).peer;
            r.payload = unreadable(g, A, fault);
            g.issue(r);
        }
    });
}
