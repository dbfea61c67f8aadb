//! Holds the refusals against the crate's own doing. A call refused by 5 is tried on a copy of
//! the endpoint and must pass a ceiling there; one refused by 6 must overflow there (shown by the
//! build with overflow checks); one that is done must stay within every ceiling. Nonces are no
//! reason for 5: that a copy would hold 257 of them excuses no refusal. In firm mode checksums are none either, and a
//! copy is handed what the driver hands over.

use std::cell::RefCell;
use std::collections::BTreeMap;
use std::panic::{catch_unwind, set_hook, AssertUnwindSafe};

use super::driver::{Done, World};
use super::end::{inputs, list, End, Readings};
use super::firm;
use super::reader;
use super::record::{Call, Record, SPECTATOR};
use super::refusals::{
    self, Verdict, CHECKSUMS_MAX, EVENTS_MAX, FIRM_MAX, FULL, NONCES_MAX, OVERFLOW, PENDING_MAX,
};
use super::snapshot::Snapshot;
use crate::network::messages::Message;

thread_local! {
    /// Where the crate panicked last, and why.
    static LAST: RefCell<String> = const { RefCell::new(String::new()) };
    /// How often the crate overflowed at each place.
    static PLACES: RefCell<BTreeMap<String, u64>> = const { RefCell::new(BTreeMap::new()) };
}

/// Whether this build panics on overflow.
pub fn overflow_checks() -> bool {
    let most = std::hint::black_box(i32::MAX);
    catch_unwind(|| std::hint::black_box(most + std::hint::black_box(1))).is_err()
}

/// Panics are noted, not printed: a planted fault may bring thousands.
pub fn note_panics() {
    set_hook(Box::new(|info| {
        let place = info.location().map(|l| format!("{}:{}", short(l.file()), l.line()));
        let why = info.payload().downcast_ref::<String>().cloned();
        let why = why.or_else(|| info.payload().downcast_ref::<&str>().map(|s| (*s).to_owned()));
        let text = format!("{}: {}", place.unwrap_or_default(), why.unwrap_or_default());
        LAST.with(|l| *l.borrow_mut() = text);
    }));
}

fn short(file: &str) -> &str {
    file.rsplit_once("/ggrs/").map_or(file, |(_, name)| name)
}

pub fn last_panic() -> String {
    LAST.with(|l| l.borrow().clone())
}

pub fn overflow_places() -> BTreeMap<String, u64> {
    PLACES.with(|p| p.borrow().clone())
}

/// Panics where the crate's doing and the refusals differ.
pub(crate) fn check(world: &World, r: &Record, done: &Done, queued_before: usize, checked: bool) {
    match done.verdict {
        Verdict::Refused(number) => {
            assert!(!done.changed, "a refused call changed the state");
            match number {
                FULL => refused_full(world, r, done),
                OVERFLOW if checked => refused_overflow(world, r, done),
                _ => (),
            }
        }
        Verdict::Ignored => assert!(!done.changed, "a call that was ignored changed the state"),
        Verdict::Go => within(world, r, queued_before),
    }
    if let Call::Datagram = r.call {
        bincode_agrees(&r.payload);
    }
}

fn host<'a>(world: &'a World, object: u8) -> Option<&'a Snapshot> {
    match object {
        SPECTATOR => world.watched.as_ref().map(|s| &s.host),
        _ => world.seen[usize::from(object)].as_ref(),
    }
}

fn within(world: &World, r: &Record, queued_before: usize) {
    let Some(s) = host(world, r.object) else { return };
    assert!(s.events.len() <= EVENTS_MAX, "events");
    assert!(s.pending.len() <= PENDING_MAX, "pending");
    assert!(s.nonces.len() <= NONCES_MAX, "nonces");
    let checksums_max = if s.is_firm() { FIRM_MAX } else { CHECKSUMS_MAX };
    assert!(s.checksums.len() <= checksums_max, "checksums");
    assert!(s.history.len() <= 2 * s.max_prediction + 1, "history");
    assert!(s.queued.len() <= queued_before || s.queued.len() <= r.buffer as usize, "buffer");
}

/// The message that the driver would hand over: in firm mode a report has a stand-in.
fn handed(world: &World, r: &Record, done: &Done) -> Option<Message> {
    let message = done.message.as_ref()?;
    let is_firm = host(world, r.object).is_some_and(Snapshot::is_firm);
    let stand_in = firm::stand_in(message).filter(|_| is_firm);
    Some(stand_in.map_or_else(|| message.clone(), |(_, heard)| heard))
}

/// What the crate would hold after this call.
fn attempt(world: &World, r: &Record, done: &Done) -> Option<[usize; 4]> {
    let message = handed(world, r, done);
    let message = message.as_ref();
    let readings = Readings { now: Some(r.now), epoch: Some(r.epoch), nonce: Some(r.nonce), magic: None };
    let copy = match r.object {
        SPECTATOR => attempt_host(world, r, message, readings)?,
        _ => attempt_end(world.ends[usize::from(r.object)].as_ref()?, r, message, readings)?,
    };
    Some(copy.counts())
}

type Protocol = crate::network::protocol::UdpProtocol<super::config::Cfg>;

fn attempt_end(end: &End, r: &Record, message: Option<&Message>, readings: Readings) -> Option<Protocol> {
    let count = usize::from(r.status_count);
    Some(match (r.call, message) {
        (_, Some(message)) => end.try_on_copy(readings, |p| p.handle_message(message)),
        (Call::Synchronize, _) => end.try_on_copy(readings, |p| p.synchronize()),
        (Call::Act, _) => end.try_on_copy(readings, |p| p.act(list(&r.statuses, count))),
        (Call::SendInput, _) => {
            let given = inputs(r.frame, &r.payload, end.input_size);
            end.try_on_copy(readings, |p| p.send_input(&given, list(&r.statuses, count)))
        }
        (Call::SendChecksumReport, _) => end.try_on_copy(readings, |p| p.send_checksum_report(r.frame, 0)),
        (Call::UpdateLocalFrameAdvantage, _) => {
            end.try_on_copy(readings, |p| p.update_local_frame_advantage(r.frame))
        }
        _ => return None,
    })
}

fn attempt_host(
    world: &World,
    r: &Record,
    message: Option<&Message>,
    readings: Readings,
) -> Option<Protocol> {
    let watcher = world.watcher.as_ref()?;
    super::config::set_input_size(watcher.input_size);
    let mut copy = watcher.session.host().copy();
    readings.set();
    match (r.call, message) {
        (_, Some(message)) => copy.handle_message(message),
        (Call::Synchronize, _) => copy.synchronize(),
        (Call::Act, _) => {
            copy.act(watcher.session.host_statuses());
            // a poll handles every event, so events never count
            copy.take_events();
        }
        _ => return None,
    }
    Some(copy)
}

fn refused_full(world: &World, r: &Record, done: &Done) {
    let before = host(world, r.object).expect("present");
    let Some([events, pending, checksums, queued]) = attempt(world, r, done) else {
        assert_eq!(r.call, Call::TakeMessages);
        return;
    };
    let grows = queued > before.queued.len() || (r.object == SPECTATOR && r.call == Call::Act);
    let passes = events > EVENTS_MAX
        || pending > PENDING_MAX
        || checksums > CHECKSUMS_MAX
        || (grows && queued > r.buffer as usize);
    assert!(passes, "refused by 5, but the crate stays within every ceiling");
}

fn refused_overflow(world: &World, r: &Record, done: &Done) {
    let run = catch_unwind(AssertUnwindSafe(|| match r.call {
        Call::Advance | Call::FramesBehind => {
            let watcher = world.watcher.as_ref().expect("present");
            watcher.session.frames_behind_host();
        }
        _ => {
            attempt(world, r, done);
        }
    }));
    assert!(run.is_err(), "refused by 6, but the crate does not overflow");
    let place = last_panic();
    assert!(place.contains("overflow"), "refused by 6, but the crate panicked by {place}");
    PLACES.with(|p| *p.borrow_mut().entry(place).or_default() += 1);
}

/// bincode reads and writes back what the rules read; of the rest it reads what is too long
/// or has bytes left over.
fn bincode_agrees(datagram: &[u8]) {
    let read: Result<Message, _> = bincode::deserialize(datagram);
    match reader::fault(datagram) {
        0 => {
            let again = bincode::serialize(&read.expect("bincode reads it")).expect("and writes it");
            assert_eq!(again, datagram);
        }
        refusals::SHORT | refusals::BAD_KIND | refusals::BAD_BOOL => assert!(read.is_err()),
        refusals::EXTRA => assert!(read.is_ok()),
        _ => (),
    }
}
