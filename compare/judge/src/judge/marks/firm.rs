//! The marks of firm mode: what a report meets, in which phase and on which way, beside what the crate's rule would
//! do; what does not count as reported; and where reports begin anew.

use super::{Marks, Seen, Watched};
use crate::judge::record::Call;
use crate::judge::refusals::{self, Cleaned, Verdict, BAD_CLOCK, EVENTS_MAX, FIRM_MAX, FULL};
use crate::judge::snapshot::{Phase, Snapshot};
use crate::network::messages::{ChecksumReport, MessageBody};
use crate::network::protocol::Event;
use crate::{DesyncDetection, Frame};

pub const ENDPOINT: [&str; 37] = [
    "firm: 32nd stored",
    "firm: smaller than all 32, by value",
    "firm: smaller than all 32, by datagram",
    "firm: smaller than all 32, carried",
    "firm: a frame that was dropped, again",
    "firm: the smallest is dropped, for the largest",
    "firm: the smallest is dropped, for one in between",
    "firm: a negative frame is dropped, for one that is not",
    "firm: replaced by another checksum",
    "firm: the smallest of 32 replaced",
    "firm: i32 min stored",
    "firm: i32 min is dropped",
    "firm: i32 max stored",
    "firm: detection off, the smallest is dropped",
    "firm: interval 1, the smallest is dropped",
    "firm: interval 10,000, the smallest is dropped",
    "firm: stays though the crate's rule drops it",
    "firm: done though the crate's rule gives 5",
    "firm: done though the crate's rule gives 6",
    "firm: heard in Initializing",
    "firm: heard in Synchronizing",
    "firm: heard in Running",
    "firm: heard in Disconnected",
    "firm: ignored in Shutdown",
    "firm: ignored, from another peer",
    "firm: ignored, by the filter",
    "firm: refused by 8",
    "firm: resumed by one that is stored",
    "firm: resumed by one that is not stored",
    "firm: resumed refused by 5",
    "firm: stored with 640 events",
    "firm: own report refused by 5",
    "firm: own report sent",
    "firm: new begins anew",
    "firm: refused new leaves the reports",
    "firm: new after the crate's rule",
    "firm: the crate's rule after new",
];

pub const SPECTATOR: [&str; 8] = [
    "spectator: firm, 32nd stored",
    "spectator: firm, smaller than all 32",
    "spectator: firm, the smallest is dropped",
    "spectator: firm, replaced by another checksum",
    "spectator: firm, done though the crate's rule gives 5",
    "spectator: firm, done though the crate's rule gives 6",
    "spectator: firm, ignored",
    "spectator: firm, resumed",
];

/// What a report meets in the store.
struct Met {
    full: bool,
    /// The smallest and the largest frame held.
    ends: Option<(Frame, Frame)>,
    /// The checksum held for its frame.
    held: Option<u128>,
}

impl Met {
    fn of(s: &Snapshot, report: &ChecksumReport) -> Self {
        let (first, last) = (s.checksums.first(), s.checksums.last());
        let held = s.checksums.iter().find(|(frame, _)| *frame == report.frame);
        Self {
            full: s.checksums.len() == FIRM_MAX,
            ends: first.zip(last).map(|((smallest, _), (largest, _))| (*smallest, *largest)),
            held: held.map(|(_, checksum)| *checksum),
        }
    }

    fn is_new(&self) -> bool {
        self.held.is_none()
    }

    fn is_smallest(&self, report: &ChecksumReport) -> bool {
        self.ends.is_some_and(|(smallest, _)| report.frame == smallest)
    }

    /// All 32 held are larger.
    fn is_below(&self, report: &ChecksumReport) -> bool {
        self.full && self.ends.is_some_and(|(smallest, _)| report.frame < smallest)
    }

    /// The frame that is dropped for it, and the largest one.
    fn dropped(&self, report: &ChecksumReport) -> Option<(Frame, Frame)> {
        self.ends.filter(|(smallest, _)| self.full && self.is_new() && *smallest < report.frame)
    }

    fn replaces(&self, report: &ChecksumReport) -> bool {
        self.held.is_some_and(|checksum| checksum != report.checksum)
    }
}

/// A message to an endpoint: the marks of a report where its mode is firm.
pub(super) fn message(m: &mut Marks, c: &Seen, body: &MessageBody) {
    match body {
        MessageBody::ChecksumReport(body) if c.before.is_firm() => report(m, c, body),
        _ => (),
    }
}

fn report(m: &mut Marks, c: &Seen, report: &ChecksumReport) {
    m.when(c.refused(BAD_CLOCK), "firm: refused by 8");
    m.when(c.refused(FULL) && c.before.resumes(), "firm: resumed refused by 5");
    if c.done.verdict == Verdict::Ignored {
        ignored(m, c);
    }
    if c.went() {
        heard(m, c, report);
        stored(m, c, report);
        dropped(m, c, report);
        by_the_crates_rule(m, c, report);
    }
}

fn ignored(m: &mut Marks, c: &Seen) {
    let shut = c.before.phase == Phase::Shutdown;
    let other = c.r.number != c.before.peer;
    m.when(shut, "firm: ignored in Shutdown");
    m.when(!shut && other, "firm: ignored, from another peer");
    m.when(!shut && !other, "firm: ignored, by the filter");
}

fn heard(m: &mut Marks, c: &Seen, report: &ChecksumReport) {
    m.when(c.before.phase == Phase::Initializing, "firm: heard in Initializing");
    m.when(c.before.phase == Phase::Synchronizing, "firm: heard in Synchronizing");
    m.when(c.before.phase == Phase::Running, "firm: heard in Running");
    m.when(c.before.phase == Phase::Disconnected, "firm: heard in Disconnected");
    let below = Met::of(c.before, report).is_below(report);
    let resumed = c.announced().contains(&Event::NetworkResumed);
    m.when(resumed && !below, "firm: resumed by one that is stored");
    m.when(resumed && below, "firm: resumed by one that is not stored");
}

fn stored(m: &mut Marks, c: &Seen, report: &ChecksumReport) {
    let met = Met::of(c.before, report);
    m.when(met.is_new() && c.before.checksums.len() + 1 == FIRM_MAX, "firm: 32nd stored");
    let below = met.is_below(report);
    m.when(below && c.r.call == Call::Message, "firm: smaller than all 32, by value");
    m.when(below && c.r.call == Call::Datagram, "firm: smaller than all 32, by datagram");
    m.when(below && c.r.call == Call::Carry, "firm: smaller than all 32, carried");
    m.when(below && reported(c.before, report.frame), "firm: a frame that was dropped, again");
    m.when(met.replaces(report), "firm: replaced by another checksum");
    m.when(met.full && met.is_smallest(report), "firm: the smallest of 32 replaced");
    m.when(!below && report.frame == Frame::MIN, "firm: i32 min stored");
    m.when(met.is_new() && report.frame == Frame::MAX, "firm: i32 max stored");
    let crowded = c.before.events.len() == EVENTS_MAX;
    m.when(!below && crowded, "firm: stored with 640 events");
}

fn reported(s: &Snapshot, frame: Frame) -> bool {
    s.reported.iter().flatten().any(|other| *other == frame)
}

fn dropped(m: &mut Marks, c: &Seen, report: &ChecksumReport) {
    let Some((smallest, largest)) = Met::of(c.before, report).dropped(report) else { return };
    m.when(report.frame > largest, "firm: the smallest is dropped, for the largest");
    m.when(report.frame < largest, "firm: the smallest is dropped, for one in between");
    m.when(smallest < 0 && report.frame >= 0, "firm: a negative frame is dropped, for one that is not");
    m.when(smallest == Frame::MIN, "firm: i32 min is dropped");
    match c.before.desync {
        DesyncDetection::Off => m.when(true, "firm: detection off, the smallest is dropped"),
        DesyncDetection::On { interval } => {
            m.when(interval == 1, "firm: interval 1, the smallest is dropped");
            m.when(interval == 10_000, "firm: interval 10,000, the smallest is dropped");
        }
    }
}

fn by_the_crates_rule(m: &mut Marks, c: &Seen, report: &ChecksumReport) {
    let cleaned = crates_rule(c.before, report.frame);
    m.when(cleaned.overflows, "firm: done though the crate's rule gives 6");
    m.when(!cleaned.overflows && cleaned.is_full(), "firm: done though the crate's rule gives 5");
    let kept = |frame: &Frame| cleaned.others.contains(frame) || *frame == report.frame;
    let dropped = !cleaned.overflows && !c.after.checksums.iter().all(|(frame, _)| kept(frame));
    m.when(dropped, "firm: stays though the crate's rule drops it");
}

/// What the crate's rule would make of this report, had it taken those since setup.
fn crates_rule(s: &Snapshot, frame: Frame) -> Cleaned {
    let interval = s.checksum_interval();
    let mut stored = Vec::new();
    for frame in s.reported.iter().flatten() {
        let cleaned = refusals::cleaned(&stored, *frame, interval);
        if !cleaned.overflows && !cleaned.is_full() {
            stored = cleaned.others;
            stored.push(*frame);
        }
    }
    refusals::cleaned(&stored, frame, interval)
}

/// The end's own report.
pub(super) fn own_report(m: &mut Marks, c: &Seen) {
    m.when(c.before.is_firm() && c.refused(FULL), "firm: own report refused by 5");
    m.when(c.before.is_firm() && c.went(), "firm: own report sent");
}

/// A `new` in the place of an endpoint that holds checksums.
pub(super) fn new(m: &mut Marks, c: &Seen) {
    if c.before.checksums.is_empty() {
        return;
    }
    let (was, is) = (c.before.is_firm(), c.after.is_firm());
    m.when(c.went() && was && is, "firm: new begins anew");
    m.when(!c.went() && was, "firm: refused new leaves the reports");
    m.when(c.went() && !was && is, "firm: new after the crate's rule");
    m.when(c.went() && was && !is, "firm: the crate's rule after new");
}

/// A message to a session: the marks of a report where its mode is firm.
pub(super) fn watched(m: &mut Marks, c: &Watched) {
    match c.done.message.as_ref().map(|message| &message.body) {
        Some(MessageBody::ChecksumReport(body)) if c.before.host.is_firm() => watched_report(m, c, body),
        _ => (),
    }
}

fn watched_report(m: &mut Marks, c: &Watched, report: &ChecksumReport) {
    m.when(c.done.verdict == Verdict::Ignored, "spectator: firm, ignored");
    if c.done.verdict != Verdict::Go {
        return;
    }
    let (before, after) = (&c.before.host, &c.after.host);
    let met = Met::of(before, report);
    m.when(met.is_new() && before.checksums.len() + 1 == FIRM_MAX, "spectator: firm, 32nd stored");
    m.when(met.is_below(report), "spectator: firm, smaller than all 32");
    m.when(met.dropped(report).is_some(), "spectator: firm, the smallest is dropped");
    m.when(met.replaces(report), "spectator: firm, replaced by another checksum");
    let cleaned = crates_rule(before, report.frame);
    m.when(cleaned.overflows, "spectator: firm, done though the crate's rule gives 6");
    let full = !cleaned.overflows && cleaned.is_full();
    m.when(full, "spectator: firm, done though the crate's rule gives 5");
    m.when(after.events.len() > before.events.len(), "spectator: firm, resumed");
}
