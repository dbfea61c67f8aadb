//! A second reading of the refusals (docs/RULES.md): one function per call, the tests named as in
//! their table, in their order (8, 1, 3, 7, ignored, 2, 4, 12, 6, 5; 14 before 15). All tests of a call are made,
//! so that a call that meets two of them is seen to. It was written
//! from the rules and the points decided about them, apart from the definitions that are proved, but
//! with the crate at hand: a slip that those points or the crate suggest may stand here too.
//! Nothing here asks the crate; `audit` then holds 5 and 6 against the crate's own doing.

use super::record::Setup;
use super::snapshot::{Phase, Snapshot, SpectatorSnapshot};
use crate::network::messages::{ChecksumReport, Input, Message, MessageBody, SyncReply};
use crate::Frame;

pub const BAD_SETUP: u8 = 1;
pub const WRONG_STATE: u8 = 2;
pub const BAD_LENGTH: u8 = 3;
pub const BAD_FRAME: u8 = 4;
pub const FULL: u8 = 5;
pub const OVERFLOW: u8 = 6;
pub const BAD_HANDLE: u8 = 7;
pub const BAD_CLOCK: u8 = 8;
pub const SHORT: u8 = 9;
pub const BAD_KIND: u8 = 10;
pub const BAD_BOOL: u8 = 11;
pub const TOO_LONG: u8 = 12;
pub const EXTRA: u8 = 13;
pub const NOT_SYNCHRONIZED: u8 = 14;
pub const NOT_ENOUGH_DATA: u8 = 15;
pub const PREDICTION_THRESHOLD: u8 = 16;
pub const SPECTATOR_TOO_FAR_BEHIND: u8 = 17;

pub const CLOCK_MAX: u64 = (1 << 62) - 1;
pub const PENDING_MAX: usize = 129;
pub const EVENTS_MAX: usize = 640;
pub const NONCES_MAX: usize = 256;
pub const CHECKSUMS_MAX: usize = 64;
/// In firm mode no more are held.
pub const FIRM_MAX: usize = 32;
pub const TIMEOUT_MAX: u64 = 1 << 31;
/// The crate cleans its checksums up from this many on, and keeps this many less one intervals.
const CHECKSUM_CLEAN_UP: usize = 32;

/// What the rules say before anything is done.
#[derive(Copy, Clone, Debug, PartialEq, Eq, PartialOrd, Ord)]
pub enum Verdict {
    /// The call is refused with this number.
    Refused(u8),
    /// The call is ignored: 0, and nothing changes.
    Ignored,
    /// Done.
    Go,
}

use Verdict::{Go, Ignored, Refused};

/// The verdicts of the tests of a call that hold, in the tests' order. The first is the call's; where there are
/// more, the call shows that the first comes before them.
#[derive(Clone, Debug, Default, PartialEq, Eq)]
pub struct Tested(pub Vec<Verdict>);

impl Tested {
    pub fn verdict(&self) -> Verdict {
        self.0.first().copied().unwrap_or(Go)
    }
}

fn tested(tests: &[(bool, Verdict)]) -> Tested {
    Tested(tests.iter().filter(|(holds, _)| *holds).map(|(_, verdict)| *verdict).collect())
}

fn bad_clock(clock: u64) -> bool {
    clock > CLOCK_MAX
}

/// Strict: last + wait < now.
fn passed(last: u64, wait: u64, now: u64) -> bool {
    u128::from(last) + u128::from(wait) < u128::from(now)
}

/// What a call adds, counted after what it frees, against the room there is.
#[derive(Default, Debug)]
struct Adds {
    events: usize,
    bytes: usize,
    pending: usize,
}

impl Adds {
    fn full(&self, s: &Snapshot, buffer: usize) -> bool {
        self.too_many_events(s) || self.no_room(s, buffer) || self.too_many_pending(s)
    }

    fn too_many_events(&self, s: &Snapshot) -> bool {
        s.events.len() + self.events > EVENTS_MAX
    }

    /// A call that queues nothing asks nothing of the buffer.
    fn no_room(&self, s: &Snapshot, buffer: usize) -> bool {
        self.bytes > 0 && s.queued.len() + self.bytes > buffer
    }

    fn too_many_pending(&self, s: &Snapshot) -> bool {
        s.pending.len() + self.pending > PENDING_MAX
    }
}

// Sizes of whole messages by kind.
const SYNC_SIZE: usize = 10;
const ACK_SIZE: usize = 10;
const REPORT_SIZE: usize = 24;
const REPLY_SIZE: usize = 22;
const CHECKSUM_SIZE: usize = 26;
const KEEP_ALIVE_SIZE: usize = 6;

fn input_size(statuses: usize, payload: usize) -> usize {
    31 + 5 * statuses + payload
}

// ---- setup ----

fn bad_common_setup(s: &Setup) -> bool {
    !(1..=4).contains(&s.players)
        || !(1..=16).contains(&s.input_size)
        || s.max_prediction > 16
        || s.disconnect_timeout > TIMEOUT_MAX
        || s.disconnect_notify_start > TIMEOUT_MAX
        || !(1..=240).contains(&s.fps)
        || s.magic == 0
        || (s.desync_on && !(1..=10_000).contains(&s.desync_interval))
}

fn bad_handles(s: &Setup) -> bool {
    if !(1..=4).contains(&s.handle_count) {
        return true;
    }
    let handles = &s.handles[..s.handle_count as usize];
    let repeated = (1..handles.len()).any(|i| handles[..i].contains(&handles[i]));
    repeated || handles.iter().any(|h| *h > 65_535)
}

fn bad_local_players(s: &Setup) -> bool {
    !(1..=4).contains(&s.local_players) || s.local_players > s.players
}

fn bad_setup(s: &Setup) -> bool {
    bad_common_setup(s) || bad_handles(s) || bad_local_players(s)
}

fn bad_spectator_setup(s: &Setup) -> bool {
    bad_common_setup(s)
        || !(2..=64).contains(&s.slots)
        || !(1..=128).contains(&s.session_events)
        || s.max_frames_behind > 65_535
        || s.catchup_speed > 65_535
}

pub fn new(s: &Setup, now: u64) -> Tested {
    tested(&[(bad_clock(now), Refused(BAD_CLOCK)), (bad_setup(s), Refused(BAD_SETUP))])
}

pub fn spectator_new(s: &Setup, now: u64) -> Tested {
    tested(&[(bad_clock(now), Refused(BAD_CLOCK)), (bad_spectator_setup(s), Refused(BAD_SETUP))])
}

// ---- handshake ----

fn wrong_state(s: &Snapshot) -> bool {
    s.phase != Phase::Initializing
}

pub(crate) fn synchronize(s: &Snapshot, now: u64, epoch: u64, buffer: usize) -> Tested {
    let adds = Adds { bytes: SYNC_SIZE, ..Adds::default() };
    tested(&[
        (bad_clock(now) || bad_clock(epoch), Refused(BAD_CLOCK)),
        (wrong_state(s), Refused(WRONG_STATE)),
        (adds.full(s, buffer), Refused(FULL)),
    ])
}

// ---- messages ----

pub(crate) struct Handed<'a> {
    pub from: u32,
    pub message: &'a Message,
    pub now: u64,
    pub epoch: u64,
    pub buffer: usize,
}

pub(crate) fn message(s: &Snapshot, h: &Handed) -> Tested {
    let weighed = match &h.message.body {
        MessageBody::Input(body) if !discarded(s, body) => input(s, body, h.buffer),
        MessageBody::ChecksumReport(body) if !s.is_firm() => checksum_report(s, body, h.buffer),
        body => Weighed { full: plain_adds(s, body).full(s, h.buffer), ..Weighed::default() },
    };
    tested(&[
        (bad_clock(h.now) || bad_clock(h.epoch), Refused(BAD_CLOCK)),
        (is_ignored(s, h), Ignored),
        (weighed.too_long, Refused(TOO_LONG)),
        (weighed.overflows, Refused(OVERFLOW)),
        (weighed.full, Refused(FULL)),
    ])
}

/// A datagram that does not read: its fault comes before a clock above its ceiling, and before what ignores it
/// whatever message it had (N-23).
pub(crate) fn unread(s: &Snapshot, fault: u8, from: u32, now: u64, epoch: u64) -> Tested {
    tested(&[
        (true, Refused(fault)),
        (bad_clock(now) || bad_clock(epoch), Refused(BAD_CLOCK)),
        (s.phase == Phase::Shutdown || from != s.peer, Ignored),
    ])
}

/// What is tested of a message that is not ignored.
#[derive(Default)]
struct Weighed {
    too_long: bool,
    overflows: bool,
    full: bool,
}

/// The message is ignored (E-11).
pub(crate) fn is_ignored(s: &Snapshot, h: &Handed) -> bool {
    let filtered = s.remote_magic != 0 && h.message.header.magic != s.remote_magic;
    s.phase == Phase::Shutdown || h.from != s.peer || filtered
}

/// What a message adds that is neither a kept Input nor a checksum by the crate's rule: in firm mode the store of
/// checksums gives neither 5 nor 6.
fn plain_adds(s: &Snapshot, body: &MessageBody) -> Adds {
    let resumed = usize::from(s.resumes());
    let (events, bytes) = match body {
        MessageBody::SyncRequest(_) => (0, SYNC_SIZE),
        MessageBody::SyncReply(reply) => sync_reply_adds(s, reply),
        MessageBody::QualityReport(_) => (0, REPLY_SIZE),
        _ => (0, 0),
    };
    Adds { events: resumed + events, bytes, ..Adds::default() }
}

/// Replies 1 to 4 bring an event and a new request, the fifth an event alone.
fn sync_reply_adds(s: &Snapshot, reply: &SyncReply) -> (usize, usize) {
    let counts = s.phase == Phase::Synchronizing && s.outstanding(reply.random_reply);
    match (counts, s.sync_remaining) {
        (false, _) => (0, 0),
        (true, 1) => (1, 0),
        (true, _) => (1, SYNC_SIZE),
    }
}

/// No disconnect requested and a wrong status count, or a negative start.
pub(crate) fn discarded(s: &Snapshot, body: &Input) -> bool {
    let wrong_count = body.peer_connect_status.len() != s.num_players;
    (!body.disconnect_requested && wrong_count) || body.start_frame < 0
}

/// The frame that an Input is packed against: blank while nothing is received, else start - 1.
pub(crate) fn reference_held(s: &Snapshot, body: &Input) -> bool {
    s.newest() == -1 || s.holds(body.start_frame - 1)
}

pub(crate) fn decodable(s: &Snapshot, body: &Input) -> bool {
    body.bytes.len() % s.receiving_width() == 0
}

/// An Input that is not discarded.
fn input(s: &Snapshot, body: &Input, buffer: usize) -> Weighed {
    let width = s.receiving_width();
    let taken = reference_held(s, body) && decodable(s, body);
    let last = i64::from(body.start_frame) + (body.bytes.len() / width) as i64 - 1;
    let announces = body.disconnect_requested && s.phase != Phase::Disconnected && !s.event_sent;
    let mut adds = Adds::default();
    adds.events = usize::from(s.resumes()) + usize::from(announces);
    if taken {
        let first_new = i64::from(body.start_frame).max(i64::from(s.newest()) + 1);
        let frames = (last - first_new + 1).max(0) as usize;
        adds.events += s.handles.len() * frames;
        adds.bytes = ACK_SIZE;
    }
    Weighed {
        too_long: body.bytes.len() > 129 * width,
        overflows: taken && last > i64::from(i32::MAX),
        full: adds.full(s, buffer),
    }
}

/// By the crate's rule, which is not that of firm mode.
fn checksum_report(s: &Snapshot, body: &ChecksumReport, buffer: usize) -> Weighed {
    let stored: Vec<Frame> = s.checksums.iter().map(|(frame, _)| *frame).collect();
    let cleaned = cleaned(&stored, body.frame, s.checksum_interval());
    let adds = Adds { events: usize::from(s.resumes()), ..Adds::default() };
    Weighed { too_long: false, overflows: cleaned.overflows, full: adds.full(s, buffer) || cleaned.is_full() }
}

/// What the crate's rule leaves of the frames stored where one is reported.
pub(crate) struct Cleaned {
    /// The frames that stay, but for the reported one.
    pub others: Vec<Frame>,
    /// The keep line leaves i32.
    pub overflows: bool,
}

impl Cleaned {
    pub fn is_full(&self) -> bool {
        self.others.len() + 1 > CHECKSUMS_MAX
    }
}

/// With 32 or more stored, those below frame - 31 x interval are dropped first; a stored frame is replaced.
pub(crate) fn cleaned(stored: &[Frame], frame: Frame, interval: u32) -> Cleaned {
    let cleans = stored.len() >= CHECKSUM_CLEAN_UP;
    let keep_line = i64::from(frame) - (CHECKSUM_CLEAN_UP as i64 - 1) * i64::from(interval);
    let stays = |other: &Frame| !cleans || i64::from(*other) >= keep_line;
    let others = stored.iter().copied().filter(|other| stays(other) && *other != frame).collect();
    Cleaned { others, overflows: cleans && keep_line < i64::from(i32::MIN) }
}

// ---- act ----

pub(crate) struct Acting {
    /// The raw count of the status list.
    pub statuses: usize,
    pub now: u64,
    pub epoch: u64,
    pub buffer: usize,
}

/// A status list not of num_players entries.
fn bad_status_count(s: &Snapshot, statuses: usize) -> bool {
    statuses != s.num_players
}

pub(crate) fn act(s: &Snapshot, a: &Acting) -> Tested {
    tested(&[
        (bad_clock(a.now) || bad_clock(a.epoch), Refused(BAD_CLOCK)),
        (bad_status_count(s, a.statuses), Refused(BAD_LENGTH)),
        (act_adds(s, a.now).full(s, a.buffer), Refused(FULL)),
    ])
}

/// A request's nonce always has room: the oldest of 256 others is forgotten (E-70).
fn act_adds(s: &Snapshot, now: u64) -> Adds {
    match s.phase {
        Phase::Synchronizing if passed(s.clocks.sync_request, 200, now) => {
            Adds { bytes: SYNC_SIZE, ..Adds::default() }
        }
        Phase::Running => running_adds(s, now),
        _ => Adds::default(),
    }
}

/// Resend, report, keepalive, interruption, disconnect; the keepalive looks at the send time
/// that the two before it just set.
fn running_adds(s: &Snapshot, now: u64) -> Adds {
    let mut adds = Adds::default();
    if passed(s.clocks.input_recv, 200, now) && !s.pending.is_empty() {
        adds.bytes += input_size(s.num_players, s.pending.len() * s.sending_width());
    }
    if passed(s.clocks.quality_report, 200, now) {
        adds.bytes += REPORT_SIZE;
    }
    let sent = if adds.bytes > 0 { now } else { s.clocks.send };
    if passed(sent, 200, now) {
        adds.bytes += KEEP_ALIVE_SIZE;
    }
    let interrupted = !s.notify_sent && passed(s.clocks.recv, s.disconnect_notify_start, now);
    let disconnected = !s.event_sent && passed(s.clocks.recv, s.disconnect_timeout, now);
    adds.events = usize::from(interrupted) + usize::from(disconnected);
    adds
}

// ---- sending ----

pub(crate) struct Sending {
    pub frame: i32,
    /// The length of the input's bytes.
    pub bytes: usize,
    pub statuses: usize,
    pub now: u64,
    pub buffer: usize,
}

fn bad_length(s: &Snapshot, a: &Sending) -> bool {
    bad_status_count(s, a.statuses) || a.bytes != s.sending_width()
}

pub(crate) fn send_input(s: &Snapshot, a: &Sending) -> Tested {
    let pending = s.pending.len() + 1;
    let adds = Adds {
        events: usize::from(pending == PENDING_MAX),
        bytes: input_size(a.statuses, pending * s.sending_width()),
        pending: 1,
    };
    tested(&[
        (bad_clock(a.now), Refused(BAD_CLOCK)),
        (bad_length(s, a), Refused(BAD_LENGTH)),
        (s.phase != Phase::Running, Ignored),
        (bad_frame(s, a.frame), Refused(BAD_FRAME)),
        (adds.full(s, a.buffer), Refused(FULL)),
    ])
}

/// Rule N-4.
fn bad_frame(s: &Snapshot, frame: i32) -> bool {
    match s.last_accepted() {
        Some(last) => frame < 0 || i64::from(frame) != i64::from(last) + 1,
        None => frame < 0,
    }
}

/// Queues in every phase, in Shutdown too.
pub(crate) fn send_checksum_report(s: &Snapshot, now: u64, buffer: usize) -> Tested {
    let adds = Adds { bytes: CHECKSUM_SIZE, ..Adds::default() };
    tested(&[(bad_clock(now), Refused(BAD_CLOCK)), (adds.full(s, buffer), Refused(FULL))])
}

pub(crate) fn disconnect(s: &Snapshot, now: u64) -> Tested {
    tested(&[(bad_clock(now), Refused(BAD_CLOCK)), (s.phase == Phase::Shutdown, Ignored)])
}

// ---- advantage, statistics, status ----

/// Rule E-40: a step of the local advantage leaves i32.
pub fn advantage_overflow(newest: i32, rtt: u64, fps: usize, local_frame: i32) -> bool {
    if local_frame == -1 || newest == -1 {
        return false;
    }
    let fits = |n: i64| i32::try_from(n).is_ok();
    let ping = i64::try_from(rtt / 2).unwrap_or(i64::MAX).min(i64::from(i32::MAX));
    let product = ping * fps as i64;
    let remote = i64::from(newest) + product / 1000;
    let advantage = remote - i64::from(local_frame);
    !(fits(product) && fits(remote) && fits(advantage))
}

pub(crate) fn update_local_frame_advantage(s: &Snapshot, local_frame: i32) -> Tested {
    let overflow = advantage_overflow(s.newest(), s.round_trip_time, s.fps, local_frame);
    tested(&[(overflow, Refused(OVERFLOW))])
}

/// Rules N-14 and N-15.
pub(crate) fn network_stats(s: &Snapshot, epoch: u64) -> Tested {
    let known = matches!(s.phase, Phase::Synchronizing | Phase::Running);
    tested(&[
        (bad_clock(epoch), Refused(BAD_CLOCK)),
        (!known, Refused(NOT_SYNCHRONIZED)),
        (epoch < s.stats_start || epoch - s.stats_start < 1000, Refused(NOT_ENOUGH_DATA)),
    ])
}

fn bad_handle(s: &Snapshot, handle: u32) -> bool {
    handle as usize >= s.num_players
}

pub(crate) fn peer_connect_status(s: &Snapshot, handle: u32) -> Tested {
    tested(&[(bad_handle(s, handle), Refused(BAD_HANDLE))])
}

/// In Shutdown with any buffer; else the queued bytes must lie in it.
pub(crate) fn take_messages(s: &Snapshot, buffer: usize) -> Tested {
    let short = s.phase != Phase::Shutdown && buffer < s.queued.len();
    tested(&[(short, Refused(FULL))])
}

// ---- spectator ----

/// As the host's act, but events never count and what is queued is taken from the same buffer.
pub(crate) fn poll(s: &SpectatorSnapshot, a: &Acting) -> Tested {
    let bytes = s.host.queued.len() + act_adds(&s.host, a.now).bytes;
    tested(&[(bad_clock(a.now) || bad_clock(a.epoch), Refused(BAD_CLOCK)), (bytes > a.buffer, Refused(FULL))])
}

fn behind(s: &SpectatorSnapshot) -> i64 {
    i64::from(s.last_recv_frame) - i64::from(s.current_frame)
}

/// newest - current.
pub(crate) fn frames_behind(s: &SpectatorSnapshot) -> Tested {
    tested(&[(i32::try_from(behind(s)).is_err(), Refused(OVERFLOW))])
}

/// Catch-up 0 looks at no slot, so it is neither 16 nor 17.
pub(crate) fn advance(s: &SpectatorSnapshot) -> Tested {
    let wanted = i64::from(s.current_frame) + 1;
    let held = i64::from(s.slots[wanted as usize % s.slots.len()][0].frame);
    let looks = behind(s) <= s.max_frames_behind as i64 || s.catchup_speed > 0;
    let overflows = i32::try_from(behind(s)).is_err() || i32::try_from(wanted).is_err();
    tested(&[
        (!s.running, Refused(NOT_SYNCHRONIZED)),
        (overflows, Refused(OVERFLOW)),
        (looks && held < wanted, Refused(PREDICTION_THRESHOLD)),
        (looks && held > wanted, Refused(SPECTATOR_TOO_FAR_BEHIND)),
    ])
}
