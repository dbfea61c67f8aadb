//! A script while it is written: each call is run on the crate as it is added, so that what is asked next
//! can lean on the crate's state.

use super::message::with_magic;
use crate::judge::answers;
use crate::judge::audit;
use crate::judge::driver::{Done, World, PANICKED};
use crate::judge::marks;
use crate::judge::record::{header, Call, Mode, Record, Setup, BUFFER, SPECTATOR};
use crate::judge::refusals::CLOCK_MAX;
use crate::judge::rng::Rng;
use crate::judge::snapshot::{Phase, Snapshot, SpectatorSnapshot};
use crate::judge::tally::Tally;
use crate::judge::value;
use crate::network::messages::{ConnectionStatus, Message, MessageBody, SyncReply};

pub const A: u8 = 0;
pub const B: u8 = 1;

pub(crate) struct Gen<'a> {
    pub rng: Rng,
    pub world: World,
    pub script: Vec<u8>,
    pub answers: Vec<u8>,
    pub now: u64,
    pub epoch: u64,
    /// Per cent of calls whose lent buffer is short or just long enough.
    pub stingy: u64,
    /// Per mille of clock readings that are above their ceiling.
    pub wild_clocks: u64,
    mode: Mode,
    checked: bool,
    session_events: usize,
    tally: &'a mut Tally,
}

/// The calls that take each argument.
pub(crate) fn takes_now(call: Call) -> bool {
    use Call::*;
    matches!(
        call,
        New | Synchronize | Datagram | Carry | Message | Act | SendInput | Disconnect | SendChecksumReport
    )
}

pub(crate) fn takes_epoch(call: Call) -> bool {
    use Call::*;
    matches!(call, Synchronize | Datagram | Carry | Message | Act | NetworkStats)
}

fn takes_nonce(call: Call) -> bool {
    takes_epoch(call) && call != Call::NetworkStats
}

fn takes_buffer(call: Call) -> bool {
    use Call::*;
    matches!(
        call,
        Synchronize | Datagram | Carry | Message | Act | SendInput | SendChecksumReport | TakeMessages
    )
}

impl<'a> Gen<'a> {
    pub fn new(number: u64, mode: Mode, tally: &'a mut Tally) -> Self {
        Self {
            rng: Rng::new(number),
            world: World::new(),
            script: header(mode).to_vec(),
            answers: Vec::new(),
            now: 1_000,
            epoch: 1_700_000_000_000,
            stingy: 0,
            wild_clocks: 0,
            mode,
            checked: audit::overflow_checks(),
            session_events: 0,
            tally,
        }
    }

    /// Writes the record, runs it, checks and counts what came of it.
    pub fn issue(&mut self, r: Record) -> Done {
        let before = self.world.seen.get(usize::from(r.object)).and_then(Clone::clone);
        let watched = (r.object == SPECTATOR).then(|| self.world.watched.clone()).flatten();
        let queued = before.as_ref().or(watched.as_ref().map(|s| &s.host)).map_or(0, |s| s.queued.len());
        r.write(&mut self.script);
        let done = self.world.call(&r);
        assert_ne!(done.answer, PANICKED, "the crate panicked: {} on {r:?}", audit::last_panic());
        answers::write(&mut self.answers, self.mode, &r, &done, self.world.state(r.object));
        audit::check(&self.world, &r, &done, queued, self.checked);
        self.tally.call(&r, &done);
        if r.call == Call::New {
            self.count_new(&r, &done, before.as_ref());
        } else {
            self.count_end(&r, &done, before.as_ref());
            self.count_watcher(&r, &done, watched.as_ref());
        }
        done
    }

    fn count_new(&mut self, r: &Record, done: &Done, before: Option<&Snapshot>) {
        let Some(before) = before else { return };
        let after = self.world.seen(r.object);
        self.tally.mark(&marks::new(&marks::Seen { r, done, before, after }));
    }

    fn count_end(&mut self, r: &Record, done: &Done, before: Option<&Snapshot>) {
        let Some(before) = before else { return };
        let after = self.world.seen(r.object);
        self.tally.message(r, done, before);
        if after.events.len() > before.events.len() {
            self.tally.announced(false, &after.events[before.events.len()..]);
        }
        self.tally.mark(&marks::endpoint(&marks::Seen { r, done, before, after }));
    }

    fn count_watcher(&mut self, r: &Record, done: &Done, before: Option<&SpectatorSnapshot>) {
        let Some(before) = before else { return };
        let after = self.world.watched.as_ref().expect("present");
        self.tally.message(r, done, &before.host);
        let held = before.host.events.len();
        if after.host.events.len() > held {
            self.tally.announced(true, &after.host.events[held..]);
        }
        if r.call == Call::Act && after.events.len() > before.events.len() {
            for event in &after.events[before.events.len()..] {
                self.tally.session_announced(event);
            }
        }
        let session_events = self.session_events;
        self.tally.mark(&marks::spectator(&marks::Watched { r, done, before, after, session_events }));
    }

    /// A record with the readings and the buffer that this call takes.
    pub fn record(&mut self, call: Call, object: u8) -> Record {
        let mut r = Record::new(call, object);
        if takes_now(call) {
            r.now = self.clock(self.now);
        }
        if takes_epoch(call) {
            r.epoch = self.clock(self.epoch);
        }
        if takes_nonce(call) {
            r.nonce = self.rng.next() as u32;
        }
        if takes_buffer(call) {
            r.buffer = self.buffer(object);
        }
        r
    }

    fn clock(&mut self, reading: u64) -> u64 {
        if self.rng.below(1000) < self.wild_clocks {
            return self.rng.pick(&[CLOCK_MAX + 1, u64::MAX, 1 << 63]);
        }
        reading
    }

    /// The endpoint's state, or that of the spectator's host.
    pub fn host(&self, object: u8) -> &Snapshot {
        match object {
            SPECTATOR => &self.world.watched.as_ref().expect("present").host,
            _ => self.world.seen(object),
        }
    }

    pub fn phase(&self, object: u8) -> Phase {
        self.host(object).phase
    }

    /// Mostly long; now and then just long enough for what is queued and a little more.
    fn buffer(&mut self, object: u8) -> u32 {
        if !self.rng.chance(self.stingy) {
            return BUFFER as u32;
        }
        let queued = self.host(object).queued.len() as u64;
        let more = self.rng.pick(&[0, 5, 6, 9, 10, 21, 22, 24, 25, 26, 30, 36, 40, 60, 110]);
        let less = u64::from(self.rng.chance(20)) * self.rng.below(12);
        (queued + more).saturating_sub(less).min(BUFFER as u64) as u32
    }

    pub fn call(&mut self, call: Call, object: u8) -> Done {
        let r = self.record(call, object);
        self.issue(r)
    }

    /// Makes the object; the tally learns the session's M.
    pub fn make(&mut self, object: u8, setup: &Setup) -> u8 {
        let mut r = self.record(Call::New, object);
        r.payload = setup.write();
        let answer = self.issue(r).answer;
        if object == SPECTATOR && answer == 0 {
            self.session_events = setup.session_events as usize;
        }
        answer
    }

    /// Hands a message over from the object's own peer, as a datagram where it fits one.
    pub fn hand(&mut self, object: u8, message: &Message) -> Done {
        let peer = self.host(object).peer;
        self.hand_from(object, message, peer)
    }

    pub fn hand_from(&mut self, object: u8, message: &Message, peer: u32) -> Done {
        let wide = match &message.body {
            MessageBody::Input(b) => b.peer_connect_status.len() > 4 || b.bytes.len() > 8_256,
            _ => false,
        };
        let as_value = wide || self.rng.chance(10);
        let mut r = self.record(if as_value { Call::Message } else { Call::Datagram }, object);
        r.number = peer;
        r.payload = if as_value {
            value::write(message)
        } else {
            bincode::serialize(message).expect("messages serialize")
        };
        self.issue(r)
    }

    /// From Initializing to Running by five good replies whose header has this magic.
    pub fn connect(&mut self, object: u8, magic: u16) {
        self.call(Call::Synchronize, object);
        for _ in 0..40 {
            if self.phase(object) != Phase::Synchronizing {
                return;
            }
            self.reply(object, magic);
            self.now += 3;
        }
    }

    /// Answers the latest request.
    pub fn reply(&mut self, object: u8, magic: u16) -> Done {
        let nonce = *self.host(object).nonces.last().expect("a request is outstanding");
        let body = MessageBody::SyncReply(SyncReply { random_reply: nonce });
        self.hand(object, &with_magic(magic, body))
    }

    /// A message with a magic that the filter lets through.
    pub fn welcome(&mut self, object: u8, body: MessageBody) -> Message {
        let filter = self.host(object).remote_magic;
        with_magic(if filter == 0 { 0x5151 } else { filter }, body)
    }

    pub fn statuses(&mut self) -> [ConnectionStatus; 4] {
        let mut list = [ConnectionStatus::default(); 4];
        for status in &mut list {
            status.disconnected = self.rng.chance(15);
            status.last_frame = self.rng.range(0, 60) as i32 - 1;
        }
        list
    }

    /// act, or the spectator's poll.
    pub fn act(&mut self, object: u8) -> Done {
        let mut r = self.record(Call::Act, object);
        if object != SPECTATOR {
            r.status_count = self.host(object).num_players as u8;
            r.statuses = self.statuses();
        }
        self.issue(r)
    }

    /// Sends the next frame, or `first` where nothing was accepted yet.
    pub fn send(&mut self, object: u8, first: i32) -> Done {
        let mut r = self.record(Call::SendInput, object);
        let s = self.host(object);
        r.frame = s.last_accepted().map_or(first, |f| f.wrapping_add(1));
        r.status_count = s.num_players as u8;
        let width = s.sending_width();
        r.payload = self.rng.bytes(width);
        r.statuses = self.statuses();
        self.issue(r)
    }

    pub fn pass(&mut self, millis: u64) {
        self.now = self.now.saturating_add(millis).min(CLOCK_MAX);
        self.epoch = self.epoch.saturating_add(millis).min(CLOCK_MAX);
    }
}
