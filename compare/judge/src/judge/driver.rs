//! Runs one record after the other: the refusals decide, then the crate does it, then the state
//! is written down.

use std::panic::{catch_unwind, AssertUnwindSafe};

use super::canon;
use super::end::{inputs, list, message_of, End, Readings};
use super::firm;
use super::reader;
use super::record::{Call, Fields, Record, Setup, BUFFER, SPECTATOR};
use super::refusals::{self, Acting, Handed, Sending, Tested, Verdict};
use super::snapshot::{Snapshot, SpectatorSnapshot};
use super::value;
use super::watcher::Watcher;
use crate::network::messages::Message;
use crate::{GgrsError, GgrsRequest, InputStatus, NetworkStats};

/// The crate panicked: never on the sound build.
pub const PANICKED: u8 = 254;
/// The script calls an object that no `new` has made.
pub const ABSENT: u8 = 255;

/// What one call gave.
pub(crate) struct Done {
    pub answer: u8,
    pub verdict: Verdict,
    /// Every test of the call that holds, the one that gave the verdict first.
    pub tested: Tested,
    /// What the call hands back.
    pub given: Vec<u8>,
    /// The message that was handed over, where there was one.
    pub message: Option<Message>,
    /// Whether the object's state is another than before.
    pub changed: bool,
}

impl Done {
    fn refused(answer: u8) -> Self {
        Self { answer, ..done(Tested(vec![Verdict::Refused(answer)]), Vec::new()) }
    }
}

/// Two endpoints, a spectator, and the arrays behind their lent buffers.
pub(crate) struct World {
    pub ends: [Option<End>; 2],
    pub watcher: Option<Watcher>,
    /// The states after the last call.
    pub seen: [Option<Snapshot>; 2],
    pub watched: Option<SpectatorSnapshot>,
    pub buffers: [Vec<u8>; 3],
    states: [Vec<u8>; 3],
}

impl World {
    pub fn new() -> Self {
        let buffer = || vec![0; BUFFER];
        Self {
            ends: [None, None],
            watcher: None,
            seen: [None, None],
            watched: None,
            buffers: [buffer(), buffer(), buffer()],
            states: [vec![0], vec![0], vec![0]],
        }
    }

    /// The object's state in canonical form.
    pub fn state(&self, object: u8) -> &[u8] {
        &self.states[usize::from(object)]
    }

    pub fn call(&mut self, r: &Record) -> Done {
        assert!(r.call.exists_on(r.object), "the object has no such call");
        assert!(r.buffer as usize <= BUFFER, "the lent buffer is longer than the array");
        let run = catch_unwind(AssertUnwindSafe(|| {
            let done = self.dispatch(r);
            self.look(r.object);
            done
        }));
        let mut done = run.unwrap_or_else(|_| {
            self.remove(r.object);
            Done::refused(PANICKED)
        });
        done.changed = self.write_state(r.object);
        done
    }

    fn dispatch(&mut self, r: &Record) -> Done {
        let object = usize::from(r.object);
        if r.call == Call::New {
            return self.new_object(r);
        }
        if r.call == Call::Buffer {
            let crc = canon::crc32(&self.buffers[object]);
            return done(Tested::default(), crc.to_le_bytes().to_vec());
        }
        let absent = if r.object == SPECTATOR { self.watcher.is_none() } else { self.ends[object].is_none() };
        if absent {
            return Done::refused(ABSENT);
        }
        match r.call {
            Call::Datagram => self.datagram(r, &r.payload),
            Call::Carry => self.carry(r),
            Call::Message => self.message(r, value::read(&r.payload).expect("a message value")),
            _ if r.object == SPECTATOR => self.watcher_call(r),
            _ => self.end_call(r),
        }
    }

    fn new_object(&mut self, r: &Record) -> Done {
        let setup = Setup::read(&r.payload).expect("a setup");
        let tested = if r.object == SPECTATOR {
            refusals::spectator_new(&setup, r.now)
        } else {
            refusals::new(&setup, r.now)
        };
        if tested.verdict() == Verdict::Go {
            if r.object == SPECTATOR {
                self.watcher = Some(Watcher::new(&setup, r.now));
            } else {
                self.ends[usize::from(r.object)] = Some(End::new(&setup, r.now));
            }
        }
        done(tested, Vec::new())
    }

    /// The datagram's own faults come before all.
    fn datagram(&mut self, r: &Record, bytes: &[u8]) -> Done {
        match reader::fault(bytes) {
            0 => self.message(r, message_of(bytes)),
            fault => {
                let host = self.host_seen(r.object);
                done(refusals::unread(host, fault, r.number, r.now, r.epoch), Vec::new())
            }
        }
    }

    /// A part of another object's buffer as it stands, handed over as a datagram.
    fn carry(&mut self, r: &Record) -> Done {
        let datagram = self.carried(r);
        self.datagram(r, &datagram)
    }

    pub fn carried(&self, r: &Record) -> Vec<u8> {
        assert_eq!(r.payload.len(), 12, "carry has twelve bytes");
        let mut f = Fields(&r.payload);
        let (from, at, length) = (f.u32() as usize, f.u32() as usize, f.u32() as usize);
        self.buffers[from][at..at + length].to_vec()
    }

    fn message(&mut self, r: &Record, message: Message) -> Done {
        let handed = Handed {
            from: r.number,
            message: &message,
            now: r.now,
            epoch: r.epoch,
            buffer: r.buffer as usize,
        };
        let host = self.host_seen(r.object);
        let tested = refusals::message(host, &handed);
        let (ours, is_firm) = (r.number == host.peer, host.is_firm());
        match tested.verdict() {
            Verdict::Go if is_firm => self.hand_firmly(r, &message),
            Verdict::Go => self.hand(r, &message),
            Verdict::Ignored if ours => self.hand(r, &message),
            _ => (),
        }
        Done { message: Some(message), ..done(tested, Vec::new()) }
    }

    /// Hands a message to the crate.
    fn hand(&mut self, r: &Record, message: &Message) {
        let readings = full_readings(r);
        if r.object == SPECTATOR {
            let watcher = self.watcher.as_mut().expect("present");
            watcher.run(readings, |s| s.host_mut().handle_message(message));
        } else {
            self.end(r).run(readings, |p| p.handle_message(message));
        }
    }

    /// In firm mode the crate hears a report, and what it then holds is set.
    fn hand_firmly(&mut self, r: &Record, message: &Message) {
        let Some((report, heard)) = firm::stand_in(message) else { return self.hand(r, message) };
        self.hand(r, &heard);
        if r.object == SPECTATOR {
            self.watcher.as_mut().expect("present").count(report);
        } else {
            self.end(r).count(report);
        }
    }

    /// The endpoint's state, or that of the spectator's host.
    fn host_seen(&self, object: u8) -> &Snapshot {
        match object {
            SPECTATOR => &self.watched.as_ref().expect("present").host,
            _ => self.seen(object),
        }
    }

    pub fn seen(&self, object: u8) -> &Snapshot {
        self.seen[usize::from(object)].as_ref().expect("present")
    }

    fn end(&mut self, r: &Record) -> &mut End {
        self.ends[usize::from(r.object)].as_mut().expect("present")
    }

    fn end_call(&mut self, r: &Record) -> Done {
        let buffer = r.buffer as usize;
        let s = self.seen(r.object);
        let now = Readings { now: Some(r.now), ..Readings::default() };
        match r.call {
            Call::Synchronize => {
                let tested = refusals::synchronize(s, r.now, r.epoch, buffer);
                self.change(r, tested, full_readings(r), |p| p.synchronize())
            }
            Call::Act => {
                let tested = refusals::act(s, &acting(r));
                let statuses = r.statuses;
                let count = usize::from(r.status_count);
                self.change(r, tested, full_readings(r), |p| p.act(list(&statuses, count)))
            }
            Call::SendInput => self.send_input(r),
            Call::Disconnect => {
                let tested = refusals::disconnect(s, r.now);
                self.change(r, tested, now, |p| p.disconnect())
            }
            Call::SendChecksumReport => {
                let tested = refusals::send_checksum_report(s, r.now, buffer);
                let mut f = Fields(&r.payload);
                let checksum = u128::from(f.u64()) | (u128::from(f.u64()) << 64);
                self.change(r, tested, now, |p| p.send_checksum_report(r.frame, checksum))
            }
            Call::UpdateLocalFrameAdvantage => {
                let tested = refusals::update_local_frame_advantage(s, r.frame);
                self.change(r, tested, Readings::default(), |p| p.update_local_frame_advantage(r.frame))
            }
            Call::NetworkStats => {
                let tested = refusals::network_stats(s, r.epoch);
                let early = r.epoch < s.stats_start;
                let end = self.end(r);
                stats(tested, early, || end.run(epoch_reading(r), |p| p.network_stats()))
            }
            Call::PeerConnectStatus => {
                let tested = refusals::peer_connect_status(s, r.number);
                let mut given = Vec::new();
                if tested.verdict() == Verdict::Go {
                    let status = self.end(r).protocol.peer_connect_status(r.number as usize);
                    canon::status(&mut given, &status);
                }
                done(tested, given)
            }
            Call::TakeEvents => {
                let mut given = Vec::new();
                let events = self.end(r).run(Readings::default(), |p| p.take_events());
                canon::events(&mut given, &events);
                done(Tested::default(), given)
            }
            Call::TakeMessages => {
                let tested = refusals::take_messages(s, buffer);
                let mut given = Vec::new();
                if tested.verdict() == Verdict::Go {
                    part(&mut given, &self.end(r).take_messages());
                }
                done(tested, given)
            }
            Call::Getters => {
                let end = self.end(r);
                let given = end.run(Readings::default(), |p| end_getters(p, r.number));
                done(Tested::default(), given)
            }
            _ => unreachable!("no such call of an endpoint"),
        }
    }

    fn send_input(&mut self, r: &Record) -> Done {
        let sending = Sending {
            frame: r.frame,
            bytes: r.payload.len(),
            statuses: usize::from(r.status_count),
            now: r.now,
            buffer: r.buffer as usize,
        };
        let tested = refusals::send_input(self.seen(r.object), &sending);
        if let Verdict::Refused(_) = tested.verdict() {
            return done(tested, Vec::new());
        }
        let readings = Readings { now: Some(r.now), ..Readings::default() };
        let end = self.end(r);
        let inputs = inputs(r.frame, &r.payload, end.input_size);
        end.run(readings, |p| p.send_input(&inputs, list(&r.statuses, sending.statuses)));
        done(tested, Vec::new())
    }

    /// Hands the call to the crate unless it is refused.
    fn change(
        &mut self,
        r: &Record,
        tested: Tested,
        readings: Readings,
        call: impl FnOnce(&mut crate::network::protocol::UdpProtocol<super::config::Cfg>),
    ) -> Done {
        if !matches!(tested.verdict(), Verdict::Refused(_)) {
            self.end(r).run(readings, call);
        }
        done(tested, Vec::new())
    }

    fn watcher_call(&mut self, r: &Record) -> Done {
        let buffer = r.buffer as usize;
        let s = self.watched.as_ref().expect("present");
        let watcher = self.watcher.as_mut().expect("present");
        match r.call {
            Call::Synchronize => {
                let tested = refusals::synchronize(&s.host, r.now, r.epoch, buffer);
                if tested.verdict() == Verdict::Go {
                    watcher.run(full_readings(r), |s| s.host_mut().synchronize());
                }
                done(tested, Vec::new())
            }
            Call::Act => {
                let tested = refusals::poll(s, &acting(r));
                let mut given = Vec::new();
                if tested.verdict() == Verdict::Go {
                    watcher.run(full_readings(r), |s| s.poll_remote_clients());
                    let sent = watcher.sent();
                    self.buffers[2][..sent.len()].copy_from_slice(&sent);
                    part(&mut given, &sent);
                }
                done(tested, given)
            }
            Call::NetworkStats => {
                let tested = refusals::network_stats(&s.host, r.epoch);
                let early = r.epoch < s.host.stats_start;
                stats(tested, early, || watcher.run(epoch_reading(r), |s| s.network_stats()))
            }
            Call::TakeEvents => {
                let mut given = Vec::new();
                let events: Vec<_> = watcher.run(Readings::default(), |s| s.events().collect());
                canon::session_events(&mut given, &events);
                done(Tested::default(), given)
            }
            Call::TakeMessages => {
                let tested = refusals::take_messages(&s.host, buffer);
                let mut given = Vec::new();
                if tested.verdict() == Verdict::Go {
                    watcher.run(Readings::default(), |s| s.take_messages());
                    part(&mut given, &watcher.sent());
                }
                done(tested, given)
            }
            Call::Getters => {
                let given = watcher.run(Readings::default(), |s| session_getters(s));
                done(Tested::default(), given)
            }
            Call::Advance => {
                let tested = refusals::advance(s);
                let input_size = watcher.input_size;
                advance(tested, input_size, || watcher.run(Readings::default(), |s| s.advance_frame()))
            }
            Call::FramesBehind => {
                let tested = refusals::frames_behind(s);
                let mut given = Vec::new();
                if tested.verdict() == Verdict::Go {
                    let behind = watcher.run(Readings::default(), |s| s.frames_behind_host());
                    given.extend((behind as u32).to_le_bytes());
                }
                done(tested, given)
            }
            _ => unreachable!("no such call of a spectator"),
        }
    }

    /// Reads the state anew, and lays the queued bytes into the array behind the buffer.
    fn look(&mut self, object: u8) {
        if object == SPECTATOR {
            self.watched = self.watcher.as_ref().map(Watcher::snapshot);
        } else {
            let at = usize::from(object);
            self.seen[at] = self.ends[at].as_ref().map(End::snapshot);
        }
        let queued = match object {
            SPECTATOR => self.watched.as_ref().map(|s| s.host.queued.clone()),
            _ => self.seen[usize::from(object)].as_ref().map(|s| s.queued.clone()),
        };
        if let Some(bytes) = queued {
            self.buffers[usize::from(object)][..bytes.len()].copy_from_slice(&bytes);
        }
    }

    fn remove(&mut self, object: u8) {
        if object == SPECTATOR {
            (self.watcher, self.watched) = (None, None);
        } else {
            self.ends[usize::from(object)] = None;
            self.seen[usize::from(object)] = None;
        }
    }

    fn write_state(&mut self, object: u8) -> bool {
        let mut state = Vec::new();
        if object == SPECTATOR {
            match &self.watched {
                Some(s) => canon::spectator(&mut state, s),
                None => state.push(0),
            }
        } else {
            match &self.seen[usize::from(object)] {
                Some(s) => canon::endpoint(&mut state, s),
                None => state.push(0),
            }
        }
        let before = std::mem::replace(&mut self.states[usize::from(object)], state);
        before != self.states[usize::from(object)]
    }
}

fn done(tested: Tested, given: Vec<u8>) -> Done {
    let verdict = tested.verdict();
    let answer = match verdict {
        Verdict::Refused(number) => number,
        Verdict::Ignored | Verdict::Go => 0,
    };
    Done { answer, verdict, tested, given, message: None, changed: false }
}

fn full_readings(r: &Record) -> Readings {
    Readings { now: Some(r.now), epoch: Some(r.epoch), nonce: Some(r.nonce), magic: None }
}

fn epoch_reading(r: &Record) -> Readings {
    Readings { epoch: Some(r.epoch), ..Readings::default() }
}

pub(crate) fn acting(r: &Record) -> Acting {
    Acting { statuses: usize::from(r.status_count), now: r.now, epoch: r.epoch, buffer: r.buffer as usize }
}

fn part(given: &mut Vec<u8>, bytes: &[u8]) {
    given.extend((bytes.len() as u32).to_le_bytes());
    given.extend(bytes);
}

/// 14 and 15 are the crate's own; it is asked too, but where it would subtract below 0.
fn stats(tested: Tested, early: bool, ask: impl FnOnce() -> Result<NetworkStats, GgrsError>) -> Done {
    let verdict = tested.verdict();
    if verdict == Verdict::Refused(refusals::BAD_CLOCK) {
        return done(tested, Vec::new());
    }
    if verdict == Verdict::Refused(refusals::NOT_ENOUGH_DATA) && early {
        return done(tested, Vec::new());
    }
    let mut given = Vec::new();
    let answer = match ask() {
        Err(error) => Verdict::Refused(number(&error)),
        Ok(stats) => {
            given.extend(u64::try_from(stats.ping).expect("at most the epoch").to_le_bytes());
            given.extend((stats.send_queue_len as u32).to_le_bytes());
            given.extend(stats.local_frames_behind.to_le_bytes());
            given.extend(stats.remote_frames_behind.to_le_bytes());
            Verdict::Go
        }
    };
    assert_eq!(answer, verdict, "the crate and the rules differ in network_stats");
    done(tested, given)
}

/// 14, 16 and 17 are the crate's own; it is asked too.
fn advance(
    tested: Tested,
    input_size: usize,
    ask: impl FnOnce() -> Result<Vec<GgrsRequest<super::config::Cfg>>, GgrsError>,
) -> Done {
    let verdict = tested.verdict();
    if verdict == Verdict::Refused(refusals::OVERFLOW) {
        return done(tested, Vec::new());
    }
    let mut given = Vec::new();
    let answer = match ask() {
        Err(error) => Verdict::Refused(number(&error)),
        Ok(requests) => {
            frames(&mut given, &requests, input_size);
            Verdict::Go
        }
    };
    assert_eq!(answer, verdict, "the crate and the rules differ in advance");
    done(tested, given)
}

fn number(error: &GgrsError) -> u8 {
    match error {
        GgrsError::NotSynchronized => refusals::NOT_SYNCHRONIZED,
        GgrsError::NotEnoughData => refusals::NOT_ENOUGH_DATA,
        GgrsError::PredictionThreshold => refusals::PREDICTION_THRESHOLD,
        GgrsError::SpectatorTooFarBehind => refusals::SPECTATOR_TOO_FAR_BEHIND,
    }
}

fn frames(given: &mut Vec<u8>, requests: &[GgrsRequest<super::config::Cfg>], input_size: usize) {
    given.extend((requests.len() as u32).to_le_bytes());
    given.push(input_size as u8);
    for request in requests {
        let GgrsRequest::AdvanceFrame { inputs } = request else {
            panic!("a spectator only advances");
        };
        given.push(inputs.len() as u8);
        for (input, status) in inputs {
            given.extend(input.as_slice());
            given.push(match status {
                InputStatus::Confirmed => 0,
                InputStatus::Predicted => 1,
                InputStatus::Disconnected => 2,
            });
        }
    }
}

fn end_getters(p: &crate::network::protocol::UdpProtocol<super::config::Cfg>, peer: u32) -> Vec<u8> {
    let mut given = Vec::new();
    given.extend((p.handles().len() as u32).to_le_bytes());
    for handle in p.handles() {
        given.extend((*handle as u32).to_le_bytes());
    }
    given.push(u8::from(p.is_synchronized()));
    given.push(u8::from(p.is_running()));
    given.push(u8::from(p.is_handling_message(&peer)));
    given.extend(p.newest().to_le_bytes());
    given
}

fn session_getters(s: &crate::SpectatorSession<super::config::Cfg>) -> Vec<u8> {
    let mut given = Vec::new();
    given.push(u8::from(s.current_state() == crate::SessionState::Running));
    given.extend(s.current_frame().to_le_bytes());
    given.extend((s.num_players() as u32).to_le_bytes());
    given
}
