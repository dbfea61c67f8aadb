//! One endpoint of the crate: `UdpProtocol` with the values that stand outside it.

use std::collections::HashMap;
use std::time::Duration;

use super::config::{set_input_size, Bytes, Cfg};
use super::firm::Firm;
use super::nonces::Nonces;
use super::record::Setup;
use super::snapshot::Snapshot;
use super::socket::Catch;
use crate::frame_info::PlayerInput;
use crate::network::messages::{ChecksumReport, ConnectionStatus, Message};
use crate::network::protocol::UdpProtocol;
use crate::DesyncDetection;

/// The crate's clocks and random source for one call; `None` where the call takes none.
#[derive(Copy, Clone, Default)]
pub struct Readings {
    pub now: Option<u64>,
    pub epoch: Option<u64>,
    pub nonce: Option<u32>,
    pub magic: Option<u16>,
}

impl Readings {
    pub fn set(self) {
        instant::set(self.now, self.epoch);
        rand::set(self.magic, self.nonce);
    }
}

pub(crate) fn protocol(setup: &Setup, handles: Vec<usize>, local_players: usize) -> UdpProtocol<Cfg> {
    let desync = if setup.desync_on {
        DesyncDetection::On { interval: setup.desync_interval }
    } else {
        DesyncDetection::Off
    };
    UdpProtocol::new(
        handles,
        setup.peer,
        setup.players as usize,
        local_players,
        setup.max_prediction as usize,
        Duration::from_millis(setup.disconnect_timeout),
        Duration::from_millis(setup.disconnect_notify_start),
        setup.fps as usize,
        desync,
    )
}

pub(crate) struct End {
    pub protocol: UdpProtocol<Cfg>,
    pub input_size: usize,
    nonces: Nonces,
    firm: Option<Firm>,
}

impl End {
    pub fn new(setup: &Setup, now: u64) -> Self {
        let input_size = setup.input_size as usize;
        set_input_size(input_size);
        Readings { now: Some(now), magic: Some(setup.magic), ..Readings::default() }.set();
        let handles = setup.handles[..setup.handle_count as usize].iter();
        let handles = handles.map(|h| *h as usize).collect();
        let protocol = protocol(setup, handles, setup.local_players as usize);
        Self { protocol, input_size, nonces: Nonces::default(), firm: Firm::of(setup) }
    }

    /// Runs one call of the crate with these readings.
    pub fn run<R>(&mut self, readings: Readings, call: impl FnOnce(&mut UdpProtocol<Cfg>) -> R) -> R {
        set_input_size(self.input_size);
        readings.set();
        let result = call(&mut self.protocol);
        let issued = readings.nonce.filter(|_| rand::nonce_drawn());
        self.nonces.follow(&mut self.protocol, issued);
        result
    }

    /// In firm mode: counts a report that the crate has heard.
    pub fn count(&mut self, report: ChecksumReport) {
        self.firm.as_mut().expect("firm mode").count(&mut self.protocol, report);
    }

    /// The same call on a copy, to see what the crate would do with it.
    pub fn try_on_copy(
        &self,
        readings: Readings,
        call: impl FnOnce(&mut UdpProtocol<Cfg>),
    ) -> UdpProtocol<Cfg> {
        set_input_size(self.input_size);
        let mut copy = self.protocol.copy();
        readings.set();
        call(&mut copy);
        copy
    }

    pub fn snapshot(&self) -> Snapshot {
        set_input_size(self.input_size);
        self.protocol.snapshot(&self.nonces, self.firm.as_ref())
    }

    pub fn take_messages(&mut self) -> Vec<u8> {
        let socket = Catch::default();
        self.run(Readings::default(), |p| p.send_all_messages(&mut socket.boxed()));
        socket.take()
    }
}

/// The input of a whole side as the crate's send_input takes it: one part per local player.
pub(crate) fn inputs(frame: i32, bytes: &[u8], input_size: usize) -> HashMap<usize, PlayerInput<Bytes>> {
    set_input_size(input_size);
    let parts = bytes.chunks(input_size).enumerate();
    parts.map(|(player, part)| (player, PlayerInput::new(frame, Bytes::new(part)))).collect()
}

/// The status list that a call was given, once its count is known to be right.
pub(crate) fn list(statuses: &[ConnectionStatus; 4], count: usize) -> &[ConnectionStatus] {
    &statuses[..count]
}

pub(crate) fn message_of(datagram: &[u8]) -> Message {
    bincode::deserialize(datagram).expect("bincode reads what the rules read")
}
