//! The rules as marks on calls: each mark names a rule or an edge of one, and a run of
//! the generator (and the stored sample) must meet them all.

mod firm;

use super::driver::Done;
use super::record::{Call, Record};
use super::refusals::{self, Verdict};
use super::snapshot::{Phase, Snapshot, SpectatorSnapshot};
use crate::network::messages::{ChecksumReport, Input, MessageBody};
use crate::network::protocol::Event;
use crate::{DesyncDetection, GgrsEvent};

/// The marks of an endpoint, but for those of firm mode.
const ENDPOINT: [&str; 119] = [
    "handshake: reply counted, 1 to 4",
    "handshake: fifth reply",
    "handshake: fifth reply with magic 0, filter stays off",
    "handshake: reply with a nonce not outstanding",
    "handshake: reply outside Synchronizing",
    "handshake: equal nonce issued again",
    "handshake: equal nonce at a full store",
    "handshake: 257th nonce forgets the oldest",
    "handshake: act refused by 8 with 256 nonces",
    "handshake: act refused by 3 with 256 nonces",
    "handshake: act refused by 5 with 256 nonces",
    "handshake: forgotten nonce issued again",
    "handshake: reply to a forgotten nonce",
    "handshake: reply counted with 256 nonces",
    "handshake: reply counted, the next nonce outstanding",
    "handshake: retry due at 201, not at 200",
    "handshake: no retry at exactly 200",
    "handshake: counted reply refused by 5",
    "message: stopped by the filter",
    "message: from another peer",
    "message: in Shutdown",
    "message: resumed",
    "message: resumed refused by 5",
    "message: interrupted, but not Running, resumes nothing",
    "input: discarded, wrong count",
    "input: discarded, count above 4",
    "input: discarded, negative start",
    "input: discarded and resumed",
    "input: discarded though too long",
    "input: disconnect requested with a wrong count",
    "input: disconnect requested, announced",
    "input: disconnect requested, announced before",
    "input: disconnect requested in Disconnected",
    "input: acknowledges pending",
    "input: flag stays though the report clears it",
    "input: last frame stays though the report is lower",
    "input: none received yet, start above 0",
    "input: not held",
    "input: not held, but acknowledges or merges",
    "input: undecodable",
    "input: undecodable, but acknowledges or merges",
    "input: empty, none received yet",
    "input: empty, newest acknowledged",
    "input: old and new frames together",
    "input: old frames alone",
    "input: many new frames at once",
    "input: history cleaned, max_prediction 0",
    "input: history cleaned, max_prediction 16",
    "input: blank frame serves start 0 again",
    "input: payload exactly 129 W",
    "input: 12, held",
    "input: 12, not held",
    "input: 6",
    "input: last frame is i32 max",
    "input: 5 by events",
    "input: 5 by the buffer alone",
    "input: fills events to 640",
    "ack: drops some, keeps some",
    "ack: drops nothing",
    "act: resend",
    "act: resend due with nothing pending",
    "act: no resend at exactly 200",
    "act: quality report",
    "act: report clamped high",
    "act: report clamped low",
    "act: keepalive alone",
    "act: keepalive spared by a report",
    "act: keepalive spared by a resend alone",
    "act: interruption",
    "act: no interruption at the exact time",
    "act: disconnect by timeout",
    "act: no disconnect at the exact time",
    "act: no keepalive at exactly 200",
    "act: interruption and disconnect together",
    "act: interruption with a remaining time of 0",
    "act: no shutdown at the exact time",
    "act: shutdown",
    "act: in Initializing",
    "act: in Shutdown",
    "act: 5 by events",
    "act: 5 by the buffer",
    "send: ignored outside Running",
    "send: first frame above 0",
    "send: frame i32 max",
    "send: 4, negative",
    "send: 4, not the next",
    "send: 129th pending",
    "send: 5 by pending",
    "send: 5 by events",
    "send: 5 by the buffer",
    "disconnect: restarts",
    "disconnect: in Shutdown",
    "quality: round trip 0 by a late pong",
    "quality: pong with a high half",
    "checksum: replaced",
    "checksum: clean-up drops",
    "checksum: clean-up with a low frame drops nothing",
    "checksum: off counts as interval 1",
    "checksum: 64th stored",
    "checksum: 5 by the store",
    "checksum: 6",
    "checksum: report sent in Shutdown",
    "advantage: computed",
    "advantage: round trip beyond i32, done at fps 1",
    "advantage: 6 by the product",
    "advantage: 6 by the sum",
    "advantage: 6 by the difference",
    "advantage: i32 max",
    "advantage: local frame -1",
    "advantage: nothing received",
    "take: Shutdown drops messages",
    "take: empty queue, empty buffer",
    "take: 5",
    "stats: 15 before the start",
    "clock: at 2^62 - 1, done",
    "clock: above 2^62 - 1",
    "clock: runs back",
    "shutdown time above the ceiling",
    "input: bytes above 127 unpacked against a reference",
];

/// The marks of the spectator, but for those of firm mode.
const SPECTATOR: [&str; 25] = [
    "spectator: one frame",
    "spectator: catch-up of several",
    "spectator: catch-up capped by B - 1",
    "spectator: catch-up capped by frames behind",
    "spectator: catch-up 0",
    "spectator: 16",
    "spectator: 17",
    "spectator: disconnected input",
    "spectator: disconnected flag, frame not above the last",
    "spectator: oldest event dropped at M",
    "spectator: advantage refused by 6 in a poll",
    "spectator: newest - current leaves i32",
    "spectator: equal nonce at a full store",
    "spectator: 257th nonce forgets the oldest",
    "spectator: 257th nonce, and old events handled",
    "spectator: poll refused by 8 with 256 nonces",
    "spectator: poll refused by 5 with 256 nonces",
    "spectator: reply to a forgotten nonce",
    "spectator: poll 5 by the buffer, nothing due",
    "spectator: poll with 640 host events",
    "spectator: message 5 with 640 host events",
    "spectator: poll takes queued messages",
    "spectator: interrupted",
    "spectator: slot overwritten",
    "spectator: disconnect announced",
];

/// Every mark that can be met.
pub fn all() -> impl Iterator<Item = &'static str> {
    ENDPOINT.into_iter().chain(firm::ENDPOINT).chain(SPECTATOR).chain(firm::SPECTATOR)
}

/// Collects marks; a name that stands on no list is a slip.
#[derive(Default)]
pub struct Marks(pub Vec<&'static str>);

impl Marks {
    fn when(&mut self, holds: bool, name: &'static str) {
        if holds {
            assert!(all().any(|mark| mark == name));
            self.0.push(name);
        }
    }
}

pub(crate) struct Seen<'a> {
    pub r: &'a Record,
    pub done: &'a Done,
    pub before: &'a Snapshot,
    pub after: &'a Snapshot,
}

impl Seen<'_> {
    fn went(&self) -> bool {
        self.done.verdict == Verdict::Go
    }

    fn refused(&self, number: u8) -> bool {
        self.done.verdict == Verdict::Refused(number)
    }

    /// The events that the call added.
    fn announced(&self) -> &[Event<super::config::Cfg>] {
        let held = self.before.events.len();
        if self.after.events.len() > held {
            &self.after.events[held..]
        } else {
            &[]
        }
    }

    fn queued(&self) -> usize {
        self.after.queued.len().saturating_sub(self.before.queued.len())
    }
}

/// The marks of a `new` in the place of an endpoint.
pub(crate) fn new(c: &Seen) -> Marks {
    let mut m = Marks::default();
    firm::new(&mut m, c);
    m
}

/// The marks of a call on an endpoint.
pub(crate) fn endpoint(c: &Seen) -> Marks {
    let mut m = Marks::default();
    clocks(&mut m, c);
    match (&c.done.message, c.r.call) {
        (Some(message), _) => {
            message_marks(&mut m, c, &message.body);
            firm::message(&mut m, c, &message.body);
        }
        (None, Call::Act) => act(&mut m, c),
        (None, Call::SendInput) => send_input(&mut m, c),
        (None, Call::Disconnect) => {
            m.when(c.before.phase == Phase::Disconnected && c.done.changed, "disconnect: restarts");
            m.when(c.done.verdict == Verdict::Ignored, "disconnect: in Shutdown");
            m.when(c.after.clocks.shutdown > refusals::CLOCK_MAX, "shutdown time above the ceiling");
        }
        (None, Call::SendChecksumReport) => {
            m.when(c.went() && c.before.phase == Phase::Shutdown, "checksum: report sent in Shutdown");
            firm::own_report(&mut m, c);
        }
        (None, Call::UpdateLocalFrameAdvantage) => {
            let newest = c.before.newest();
            m.when(c.went() && c.done.changed, "advantage: computed");
            m.when(c.r.frame == -1 && newest != -1, "advantage: local frame -1");
            m.when(c.r.frame != -1 && newest == -1, "advantage: nothing received");
            advantage_edges(&mut m, c);
        }
        (None, Call::TakeMessages) => {
            let shut = c.before.phase == Phase::Shutdown;
            m.when(shut && !c.before.queued.is_empty() && c.went(), "take: Shutdown drops messages");
            let empty = c.before.queued.is_empty() && c.r.buffer == 0;
            m.when(!shut && empty && c.went(), "take: empty queue, empty buffer");
            m.when(c.refused(refusals::FULL), "take: 5");
        }
        (None, Call::NetworkStats) => {
            let early = c.r.epoch < c.before.stats_start;
            m.when(early && c.refused(refusals::NOT_ENOUGH_DATA), "stats: 15 before the start");
        }
        _ => (),
    }
    m
}

fn advantage_edges(m: &mut Marks, c: &Seen) {
    let half = c.before.round_trip_time / 2;
    let product = i128::from(half.min(i32::MAX as u64)) * c.before.fps as i128;
    let remote = i128::from(c.before.newest()) + product / 1000;
    let most = i128::from(i32::MAX);
    let beyond = half > i32::MAX as u64 && c.done.changed;
    m.when(beyond && c.went(), "advantage: round trip beyond i32, done at fps 1");
    m.when(c.done.changed && c.after.local_advantage == i32::MAX, "advantage: i32 max");
    if c.refused(refusals::OVERFLOW) {
        m.when(product > most, "advantage: 6 by the product");
        m.when(product <= most && remote > most, "advantage: 6 by the sum");
        m.when(product <= most && remote <= most, "advantage: 6 by the difference");
    }
}

fn clocks(m: &mut Marks, c: &Seen) {
    let clocked =
        matches!(c.r.call, Call::Act | Call::Datagram | Call::Carry | Call::SendInput | Call::Disconnect);
    m.when(clocked && c.r.now == refusals::CLOCK_MAX && c.went(), "clock: at 2^62 - 1, done");
    m.when(clocked && c.refused(refusals::BAD_CLOCK), "clock: above 2^62 - 1");
    let back = clocked && c.r.now < c.before.clocks.recv && c.went() && c.done.changed;
    m.when(back, "clock: runs back");
}

fn message_marks(m: &mut Marks, c: &Seen, body: &MessageBody) {
    let ignored = c.done.verdict == Verdict::Ignored;
    let shut = c.before.phase == Phase::Shutdown;
    let other = c.r.number != c.before.peer;
    m.when(ignored && shut, "message: in Shutdown");
    m.when(ignored && other && !shut, "message: from another peer");
    m.when(ignored && !other && !shut, "message: stopped by the filter");
    if ignored {
        return;
    }
    let resumed = c.announced().contains(&Event::NetworkResumed);
    m.when(resumed, "message: resumed");
    let idle = c.before.notify_sent && c.before.phase != Phase::Running;
    m.when(c.went() && idle, "message: interrupted, but not Running, resumes nothing");
    let choked = c.refused(refusals::FULL) && c.before.resumes();
    m.when(choked && c.before.events.len() == refusals::EVENTS_MAX, "message: resumed refused by 5");
    match body {
        MessageBody::SyncReply(body) => sync_reply(m, c, body.random_reply),
        MessageBody::Input(body) => input(m, c, body),
        MessageBody::InputAck(_) => {
            let (had, has) = (c.before.pending.len(), c.after.pending.len());
            m.when(has < had && has > 0, "ack: drops some, keeps some");
            m.when(c.went() && has == had && had > 0, "ack: drops nothing");
        }
        MessageBody::QualityReply(body) => {
            let high = body.pong >> 64 != 0;
            let late = body.pong > u128::from(c.r.epoch);
            m.when(c.went() && late && !high, "quality: round trip 0 by a late pong");
            m.when(c.went() && high, "quality: pong with a high half");
        }
        MessageBody::ChecksumReport(body) if !c.before.is_firm() => checksum(m, c, body),
        _ => (),
    }
}

fn sync_reply(m: &mut Marks, c: &Seen, nonce: u32) {
    let syncing = c.before.phase == Phase::Synchronizing;
    let known = c.before.outstanding(nonce);
    let counted =
        c.went() && c.after.sync_remaining < c.before.sync_remaining && c.after.phase == Phase::Synchronizing;
    m.when(counted, "handshake: reply counted, 1 to 4");
    m.when(counted && nonces_full(c.before), "handshake: reply counted with 256 nonces");
    let next = c.r.nonce != nonce && c.before.outstanding(c.r.nonce);
    m.when(counted && next, "handshake: reply counted, the next nonce outstanding");
    let fifth = c.went() && syncing && c.after.phase == Phase::Running;
    m.when(fifth, "handshake: fifth reply");
    m.when(fifth && c.after.remote_magic == 0, "handshake: fifth reply with magic 0, filter stays off");
    m.when(c.went() && syncing && !known, "handshake: reply with a nonce not outstanding");
    let forgotten = c.before.forgotten.contains(&nonce);
    m.when(c.went() && syncing && forgotten, "handshake: reply to a forgotten nonce");
    m.when(c.went() && !syncing && known, "handshake: reply outside Synchronizing");
    m.when(c.refused(refusals::FULL) && syncing && known, "handshake: counted reply refused by 5");
}

fn checksum(m: &mut Marks, c: &Seen, body: &ChecksumReport) {
    let (had, has) = (c.before.checksums.len(), c.after.checksums.len());
    let stored = c.before.checksums.iter().any(|(f, _)| *f == body.frame);
    m.when(c.went() && stored && had == has, "checksum: replaced");
    m.when(has < had, "checksum: clean-up drops");
    m.when(c.went() && had >= 32 && has == had + 1, "checksum: clean-up with a low frame drops nothing");
    let off = c.before.desync == DesyncDetection::Off;
    m.when(off && has < had, "checksum: off counts as interval 1");
    m.when(has == 64 && had == 63, "checksum: 64th stored");
    let choked = c.refused(refusals::FULL) && !c.before.resumes();
    m.when(choked && had == 64, "checksum: 5 by the store");
    m.when(c.refused(refusals::OVERFLOW), "checksum: 6");
}

fn input(m: &mut Marks, c: &Seen, body: &Input) {
    let s = c.before;
    let width = s.receiving_width();
    let count = body.peer_connect_status.len();
    if refusals::discarded(s, body) {
        let wrong = !body.disconnect_requested && count != s.num_players;
        m.when(c.went() && wrong, "input: discarded, wrong count");
        m.when(c.went() && wrong && count > 4, "input: discarded, count above 4");
        m.when(c.went() && !wrong, "input: discarded, negative start");
        m.when(c.announced().contains(&Event::NetworkResumed), "input: discarded and resumed");
        m.when(c.went() && body.bytes.len() > 129 * width, "input: discarded though too long");
        return;
    }
    let held = refusals::reference_held(s, body);
    let decodable = refusals::decodable(s, body);
    m.when(c.refused(refusals::TOO_LONG) && held, "input: 12, held");
    m.when(c.refused(refusals::TOO_LONG) && !held, "input: 12, not held");
    m.when(c.refused(refusals::OVERFLOW), "input: 6");
    if c.refused(refusals::FULL) {
        let room = s.queued.len() + 10 <= c.r.buffer as usize;
        m.when(room, "input: 5 by events");
        m.when(!room && s.events.is_empty() && body.bytes.is_empty(), "input: 5 by the buffer alone");
    }
    if !c.went() {
        return;
    }
    disconnect_requested(m, c, body);
    let acks = c.after.pending.len() < s.pending.len();
    m.when(acks, "input: acknowledges pending");
    merge(m, c, body);
    let counts = acks || c.after.statuses != s.statuses;
    m.when(!held, "input: not held");
    m.when(!held && counts, "input: not held, but acknowledges or merges");
    m.when(held && !decodable, "input: undecodable");
    m.when(held && !decodable && counts, "input: undecodable, but acknowledges or merges");
    if held && decodable {
        taken(m, c, body);
    }
}

fn disconnect_requested(m: &mut Marks, c: &Seen, body: &Input) {
    if !body.disconnect_requested {
        return;
    }
    let announced = c.announced().contains(&Event::Disconnected);
    let wrong = body.peer_connect_status.len() != c.before.num_players;
    m.when(wrong, "input: disconnect requested with a wrong count");
    m.when(announced, "input: disconnect requested, announced");
    let left = c.before.phase == Phase::Disconnected;
    m.when(c.before.event_sent && !left, "input: disconnect requested, announced before");
    m.when(!c.before.event_sent && left, "input: disconnect requested in Disconnected");
}

fn merge(m: &mut Marks, c: &Seen, body: &Input) {
    if body.disconnect_requested {
        return;
    }
    for (report, had) in body.peer_connect_status.iter().zip(&c.before.statuses) {
        m.when(had.disconnected && !report.disconnected, "input: flag stays though the report clears it");
        m.when(had.last_frame > report.last_frame, "input: last frame stays though the report is lower");
    }
}

/// An Input whose reference is held and that is decodable.
fn taken(m: &mut Marks, c: &Seen, body: &Input) {
    let s = c.before;
    let none = s.newest() == -1;
    let frames = body.bytes.len() / s.receiving_width();
    let new = c.announced().iter().filter(|e| matches!(e, Event::Input { .. })).count() / s.handles.len();
    m.when(none && frames > 0 && body.start_frame > 0, "input: none received yet, start above 0");
    m.when(none && frames == 0, "input: empty, none received yet");
    m.when(!none && frames == 0, "input: empty, newest acknowledged");
    m.when(new > 0 && new < frames, "input: old and new frames together");
    m.when(new == 0 && frames > 0, "input: old frames alone");
    m.when(new > 40, "input: many new frames at once");
    m.when(frames == 129, "input: payload exactly 129 W");
    let last = i64::from(body.start_frame) + frames as i64 - 1;
    m.when(frames > 0 && last == i64::from(i32::MAX), "input: last frame is i32 max");
    m.when(c.after.events.len() == refusals::EVENTS_MAX && new > 0, "input: fills events to 640");
    m.when(!none && body.start_frame == 0 && frames > 0, "input: blank frame serves start 0 again");
    let dropped = s.history.iter().any(|h| !c.after.holds(h.frame));
    m.when(dropped && s.max_prediction == 0, "input: history cleaned, max_prediction 0");
    m.when(dropped && s.max_prediction == 16, "input: history cleaned, max_prediction 16");
    let reference = s.history.iter().find(|h| !none && h.frame == body.start_frame - 1);
    let high = reference.is_some_and(|h| h.bytes.iter().any(|b| *b > 127));
    m.when(high && new > 1, "input: bytes above 127 unpacked against a reference");
}

fn act(m: &mut Marks, c: &Seen) {
    let s = c.before;
    let now = c.r.now;
    match s.phase {
        Phase::Initializing => m.when(c.went(), "act: in Initializing"),
        Phase::Shutdown => m.when(c.went(), "act: in Shutdown"),
        Phase::Disconnected => {
            m.when(c.after.phase == Phase::Shutdown, "act: shutdown");
            m.when(c.went() && now == s.clocks.shutdown, "act: no shutdown at the exact time");
        }
        Phase::Synchronizing => synchronizing(m, c),
        Phase::Running => running(m, c),
    }
}

fn nonces_full(s: &Snapshot) -> bool {
    s.nonces.len() == refusals::NONCES_MAX
}

fn request_due(s: &Snapshot, now: u64) -> bool {
    s.phase == Phase::Synchronizing && s.clocks.sync_request.saturating_add(200) < now
}

/// A request is due, and 256 nonces other than its own are outstanding.
fn crowded(s: &Snapshot, r: &Record) -> bool {
    request_due(s, r.now) && nonces_full(s) && !s.outstanding(r.nonce)
}

fn synchronizing(m: &mut Marks, c: &Seen) {
    let s = c.before;
    let last = s.clocks.sync_request;
    m.when(c.went() && c.r.now == last + 201, "handshake: retry due at 201, not at 200");
    m.when(c.went() && c.r.now == last + 200, "handshake: no retry at exactly 200");
    let asked = c.went() && request_due(s, c.r.now);
    let again = asked && s.outstanding(c.r.nonce);
    m.when(again, "handshake: equal nonce issued again");
    m.when(again && nonces_full(s), "handshake: equal nonce at a full store");
    m.when(asked && s.forgotten.contains(&c.r.nonce), "handshake: forgotten nonce issued again");
    if crowded(s, c.r) {
        m.when(asked, "handshake: 257th nonce forgets the oldest");
        m.when(c.refused(refusals::BAD_CLOCK), "handshake: act refused by 8 with 256 nonces");
        m.when(c.refused(refusals::BAD_LENGTH), "handshake: act refused by 3 with 256 nonces");
        m.when(c.refused(refusals::FULL), "handshake: act refused by 5 with 256 nonces");
    }
}

fn running(m: &mut Marks, c: &Seen) {
    let s = c.before;
    let now = c.r.now;
    let due = |last: u64| last.saturating_add(200) < now;
    if c.refused(refusals::FULL) {
        let full = s.events.len() == refusals::EVENTS_MAX;
        m.when(full && c.r.buffer as usize >= s.queued.len() + 9000, "act: 5 by events");
        m.when(s.events.len() < refusals::EVENTS_MAX - 2, "act: 5 by the buffer");
    }
    if !c.went() {
        return;
    }
    let (resend, report, quiet) =
        (due(s.clocks.input_recv), due(s.clocks.quality_report), due(s.clocks.send));
    let resent = resend && !s.pending.is_empty();
    m.when(resent, "act: resend");
    m.when(resend && s.pending.is_empty(), "act: resend due with nothing pending");
    m.when(now == s.clocks.input_recv + 200 && !s.pending.is_empty(), "act: no resend at exactly 200");
    m.when(report, "act: quality report");
    m.when(report && s.local_advantage > 32_767, "act: report clamped high");
    m.when(report && s.local_advantage < -32_768, "act: report clamped low");
    m.when(c.queued() == 6, "act: keepalive alone");
    m.when(quiet && report, "act: keepalive spared by a report");
    m.when(quiet && resent && !report, "act: keepalive spared by a resend alone");
    let announced = c.announced();
    let interrupted = announced.iter().any(|e| matches!(e, Event::NetworkInterrupted { .. }));
    let spent = announced.iter().any(|e| matches!(e, Event::NetworkInterrupted { disconnect_timeout: 0 }));
    let disconnected = announced.contains(&Event::Disconnected);
    m.when(interrupted, "act: interruption");
    m.when(spent, "act: interruption with a remaining time of 0");
    m.when(disconnected, "act: disconnect by timeout");
    m.when(interrupted && disconnected, "act: interruption and disconnect together");
    let exact = now == s.clocks.recv + s.disconnect_notify_start && !s.notify_sent;
    m.when(exact, "act: no interruption at the exact time");
    let exact = now == s.clocks.recv + s.disconnect_timeout && !s.event_sent;
    m.when(exact, "act: no disconnect at the exact time");
    let unqueued = c.queued() == 0 && now == s.clocks.send + 200;
    m.when(unqueued, "act: no keepalive at exactly 200");
}

fn send_input(m: &mut Marks, c: &Seen) {
    let s = c.before;
    m.when(c.done.verdict == Verdict::Ignored, "send: ignored outside Running");
    if c.refused(refusals::BAD_FRAME) {
        m.when(c.r.frame < 0, "send: 4, negative");
        m.when(c.r.frame >= 0, "send: 4, not the next");
    }
    if c.refused(refusals::FULL) {
        let full = s.pending.len() == refusals::PENDING_MAX;
        m.when(full, "send: 5 by pending");
        let needs = 31 + 5 * s.num_players + (s.pending.len() + 1) * s.sending_width();
        let room = s.queued.len() + needs <= c.r.buffer as usize;
        m.when(!full && !room, "send: 5 by the buffer");
        m.when(!full && room, "send: 5 by events");
    }
    if !c.went() {
        return;
    }
    m.when(s.last_accepted().is_none() && c.r.frame > 0, "send: first frame above 0");
    m.when(c.r.frame == i32::MAX, "send: frame i32 max");
    m.when(c.after.pending.len() == refusals::PENDING_MAX, "send: 129th pending");
}

pub(crate) struct Watched<'a> {
    pub r: &'a Record,
    pub done: &'a Done,
    pub before: &'a SpectatorSnapshot,
    pub after: &'a SpectatorSnapshot,
    /// The session's M.
    pub session_events: usize,
}

/// The marks of a call on the spectator.
pub(crate) fn spectator(c: &Watched) -> Marks {
    let mut m = Marks::default();
    let before = c.before;
    let went = c.done.verdict == Verdict::Go;
    let refused = |n: u8| c.done.verdict == Verdict::Refused(n);
    match c.r.call {
        Call::Advance => {
            advanced(&mut m, c, went);
            m.when(refused(refusals::PREDICTION_THRESHOLD), "spectator: 16");
            m.when(refused(refusals::SPECTATOR_TOO_FAR_BEHIND), "spectator: 17");
            m.when(refused(refusals::OVERFLOW), "spectator: newest - current leaves i32");
        }
        Call::Act => {
            let crowded = crowded(&before.host, c.r);
            m.when(crowded && refused(refusals::BAD_CLOCK), "spectator: poll refused by 8 with 256 nonces");
            m.when(crowded && refused(refusals::FULL), "spectator: poll refused by 5 with 256 nonces");
            let short = (c.r.buffer as usize) < before.host.queued.len();
            let quiet = before.host.phase == Phase::Initializing;
            m.when(refused(refusals::FULL) && short && quiet, "spectator: poll 5 by the buffer, nothing due");
            if went {
                polled(&mut m, c);
            }
        }
        Call::Datagram | Call::Message | Call::Carry => {
            let full = before.host.events.len() == refusals::EVENTS_MAX;
            m.when(refused(refusals::FULL) && full, "spectator: message 5 with 640 host events");
            let forgotten = before.host.phase == Phase::Synchronizing && answers_forgotten(c);
            m.when(went && forgotten, "spectator: reply to a forgotten nonce");
            firm::watched(&mut m, c);
        }
        _ => (),
    }
    m
}

fn answers_forgotten(c: &Watched) -> bool {
    match c.done.message.as_ref().map(|message| &message.body) {
        Some(MessageBody::SyncReply(body)) => c.before.host.forgotten.contains(&body.random_reply),
        _ => false,
    }
}

fn advanced(m: &mut Marks, c: &Watched, went: bool) {
    if !went {
        return;
    }
    let s = c.before;
    let behind = (s.last_recv_frame - s.current_frame) as usize;
    let steps = (c.after.current_frame - s.current_frame) as usize;
    let catching = behind > s.max_frames_behind;
    m.when(steps == 1 && !catching, "spectator: one frame");
    m.when(steps > 1, "spectator: catch-up of several");
    let cap = s.slots.len() - 1;
    m.when(
        catching && steps == cap && s.catchup_speed > cap && behind > cap,
        "spectator: catch-up capped by B - 1",
    );
    m.when(
        catching && steps == behind && s.catchup_speed > behind && behind < cap,
        "spectator: catch-up capped by frames behind",
    );
    m.when(steps == 0, "spectator: catch-up 0");
    for status in &s.host_statuses {
        let gone = status.disconnected && steps > 0;
        m.when(gone && status.last_frame < c.after.current_frame, "spectator: disconnected input");
        m.when(
            gone && status.last_frame >= c.after.current_frame,
            "spectator: disconnected flag, frame not above the last",
        );
    }
}

fn polled(m: &mut Marks, c: &Watched) {
    let s = c.before;
    let again = request_due(&s.host, c.r.now) && s.host.outstanding(c.r.nonce);
    m.when(again && nonces_full(&s.host), "spectator: equal nonce at a full store");
    let crowded = crowded(&s.host, c.r);
    m.when(crowded, "spectator: 257th nonce forgets the oldest");
    m.when(crowded && !s.host.events.is_empty(), "spectator: 257th nonce, and old events handled");
    m.when(s.host.events.len() == refusals::EVENTS_MAX, "spectator: poll with 640 host events");
    m.when(!s.host.queued.is_empty(), "spectator: poll takes queued messages");
    let announced = |want: fn(&GgrsEvent<super::config::Cfg>) -> bool| {
        c.after.events.iter().any(want) && !s.events.iter().any(want)
    };
    m.when(announced(|e| matches!(e, GgrsEvent::NetworkInterrupted { .. })), "spectator: interrupted");
    m.when(announced(|e| matches!(e, GgrsEvent::Disconnected { .. })), "spectator: disconnect announced");
    let other = s.host.events.iter().filter(|e| !matches!(e, Event::Input { .. })).count();
    m.when(s.events.len() + other > c.session_events, "spectator: oldest event dropped at M");
    let frames: Vec<i32> = s
        .host
        .events
        .iter()
        .filter_map(|e| match e {
            Event::Input { input, .. } => Some(input.frame),
            _ => None,
        })
        .collect();
    let host = &s.host;
    let past = |f: &i32| refusals::advantage_overflow(host.newest(), host.round_trip_time, host.fps, *f);
    m.when(frames.iter().any(past), "spectator: advantage refused by 6 in a poll");
    let slots = s.slots.len() as i64;
    let over = frames.iter().any(|f| i64::from(*f) - i64::from(s.current_frame) > slots);
    m.when(over, "spectator: slot overwritten");
}
