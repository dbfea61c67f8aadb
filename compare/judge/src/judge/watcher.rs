//! The spectator session of the crate with the values that stand outside it.

use super::config::{set_input_size, Cfg};
use super::end::{protocol, Readings};
use super::firm::Firm;
use super::nonces::Nonces;
use super::record::Setup;
use super::snapshot::SpectatorSnapshot;
use super::socket::Catch;
use crate::network::messages::ChecksumReport;
use crate::sessions::builder::set_constants;
use crate::SpectatorSession;

pub(crate) struct Watcher {
    pub session: SpectatorSession<Cfg>,
    pub input_size: usize,
    slots: usize,
    session_events: usize,
    nonces: Nonces,
    firm: Option<Firm>,
    socket: Catch,
}

impl Watcher {
    /// Its handles are 0 up to players - 1; the host's endpoint has one local player, and takes the checksum mode.
    pub fn new(setup: &Setup, now: u64) -> Self {
        let input_size = setup.input_size as usize;
        let (slots, session_events) = (setup.slots as usize, setup.session_events as usize);
        set_input_size(input_size);
        set_constants(slots, session_events);
        Readings { now: Some(now), magic: Some(setup.magic), ..Readings::default() }.set();
        let host = protocol(setup, (0..setup.players as usize).collect(), 1);
        let socket = Catch::default();
        let session = SpectatorSession::new(
            setup.players as usize,
            socket.boxed(),
            host,
            setup.max_frames_behind as usize,
            setup.catchup_speed as usize,
        );
        let (nonces, firm) = (Nonces::default(), Firm::of(setup));
        Self { session, input_size, slots, session_events, nonces, firm, socket }
    }

    fn enter(&self, readings: Readings) {
        set_input_size(self.input_size);
        set_constants(self.slots, self.session_events);
        readings.set();
    }

    pub fn run<R>(&mut self, readings: Readings, call: impl FnOnce(&mut SpectatorSession<Cfg>) -> R) -> R {
        self.enter(readings);
        let result = call(&mut self.session);
        let issued = readings.nonce.filter(|_| rand::nonce_drawn());
        self.nonces.follow(self.session.host_mut(), issued);
        result
    }

    /// In firm mode: counts a report that the host's endpoint has heard.
    pub fn count(&mut self, report: ChecksumReport) {
        self.firm.as_mut().expect("firm mode").count(self.session.host_mut(), report);
    }

    /// The bytes that the session sent in the call before.
    pub fn sent(&self) -> Vec<u8> {
        self.socket.take()
    }

    pub fn snapshot(&self) -> SpectatorSnapshot {
        self.enter(Readings::default());
        self.session.snapshot(&self.nonces, self.firm.as_ref())
    }
}
