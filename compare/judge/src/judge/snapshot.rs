//! What the crate holds, as plain values in a fixed order: the ground of refusals and answers.

use super::config::Cfg;
use crate::network::messages::ConnectionStatus;
use crate::network::protocol::Event;
use crate::{DesyncDetection, Frame, GgrsEvent};

#[derive(Copy, Clone, Debug, PartialEq, Eq, PartialOrd, Ord)]
pub enum Phase {
    Initializing = 1,
    Synchronizing = 2,
    Running = 3,
    Disconnected = 4,
    Shutdown = 5,
}

/// One input of a whole side: a frame and its bytes.
#[derive(Clone, Debug, PartialEq, Eq)]
pub struct Stored {
    pub frame: Frame,
    pub bytes: Vec<u8>,
}

/// The endpoint's clocks, in milliseconds.
#[derive(Clone, Debug, PartialEq, Eq)]
pub struct Clocks {
    pub quality_report: u64,
    pub input_recv: u64,
    pub send: u64,
    pub sync_request: u64,
    pub recv: u64,
    pub shutdown: u64,
}

#[derive(Clone, Debug)]
pub(crate) struct Snapshot {
    pub phase: Phase,
    pub input_size: usize,
    pub num_players: usize,
    pub handles: Vec<usize>,
    pub max_prediction: usize,
    pub disconnect_timeout: u64,
    pub disconnect_notify_start: u64,
    pub fps: usize,
    pub magic: u16,
    pub peer: u32,
    pub desync: DesyncDetection,
    pub sync_remaining: u32,
    /// Outstanding nonces in order of latest issue.
    pub nonces: Vec<u32>,
    /// Nonces that were forgotten: no part of the state, but marks ask for them.
    pub forgotten: Vec<u32>,
    pub notify_sent: bool,
    pub event_sent: bool,
    pub remote_magic: u16,
    pub clocks: Clocks,
    pub stats_start: u64,
    pub round_trip_time: u64,
    pub local_advantage: i32,
    pub remote_advantage: i32,
    pub statuses: Vec<ConnectionStatus>,
    pub pending: Vec<Stored>,
    pub acked: Stored,
    /// Ascending by frame.
    pub history: Vec<Stored>,
    /// Ascending by frame.
    pub checksums: Vec<(Frame, u128)>,
    /// The frames reported since setup, oldest first, where the mode is firm: no part of the state, but refusals and
    /// marks ask for them.
    pub reported: Option<Vec<Frame>>,
    pub events: Vec<Event<Cfg>>,
    /// The queued messages as bytes, back to back.
    pub queued: Vec<u8>,
}

impl Snapshot {
    /// The newest received frame, -1 while there is none.
    pub fn newest(&self) -> Frame {
        self.history.last().map_or(-1, |s| s.frame)
    }

    /// W: handles times S.
    pub fn receiving_width(&self) -> usize {
        self.handles.len() * self.input_size
    }

    /// Local players times S.
    pub fn sending_width(&self) -> usize {
        self.acked.bytes.len()
    }

    /// The frames from one checksum report to the next; 1 where there are no reports.
    pub fn checksum_interval(&self) -> u32 {
        match self.desync {
            DesyncDetection::On { interval } => interval,
            DesyncDetection::Off => 1,
        }
    }

    /// Whether the checksums are held in firm mode.
    pub fn is_firm(&self) -> bool {
        self.reported.is_some()
    }

    pub fn holds(&self, frame: Frame) -> bool {
        self.history.iter().any(|s| s.frame == frame)
    }

    pub fn outstanding(&self, nonce: u32) -> bool {
        self.nonces.contains(&nonce)
    }

    /// [R]: a message that is handled now ends an announced interruption.
    pub fn resumes(&self) -> bool {
        self.phase == Phase::Running && self.notify_sent
    }

    /// The frame that `send_input` accepted last (N-4).
    pub fn last_accepted(&self) -> Option<Frame> {
        match self.pending.last() {
            Some(input) => Some(input.frame),
            None if self.acked.frame >= 0 => Some(self.acked.frame),
            None => None,
        }
    }
}

#[derive(Clone, Debug)]
pub(crate) struct SpectatorSnapshot {
    pub running: bool,
    pub num_players: usize,
    pub max_frames_behind: usize,
    pub catchup_speed: usize,
    pub current_frame: Frame,
    pub last_recv_frame: Frame,
    /// B slots of one input per player.
    pub slots: Vec<Vec<Stored>>,
    pub host_statuses: Vec<ConnectionStatus>,
    pub events: Vec<GgrsEvent<Cfg>>,
    pub host: Snapshot,
}
