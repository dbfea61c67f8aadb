//! A child module of the crate's protocol.rs: it sees the private fields and changes none but
//! where it says so.

use super::*;
use crate::judge::config::Cfg;
use crate::judge::firm::Firm;
use crate::judge::nonces::Nonces;
use crate::judge::refusals;
use crate::judge::snapshot::{Clocks, Phase, Snapshot, Stored};

fn stored(input: &InputBytes) -> Stored {
    Stored { frame: input.frame, bytes: input.bytes.clone() }
}

fn millis(d: Duration) -> u64 {
    u64::try_from(d.as_millis()).expect("timeouts are within 2^31 ms")
}

impl ProtocolState {
    fn phase(&self) -> Phase {
        match self {
            Self::Initializing => Phase::Initializing,
            Self::Synchronizing => Phase::Synchronizing,
            Self::Running => Phase::Running,
            Self::Disconnected => Phase::Disconnected,
            Self::Shutdown => Phase::Shutdown,
        }
    }
}

impl Phase {
    fn state(self) -> ProtocolState {
        match self {
            Self::Initializing => ProtocolState::Initializing,
            Self::Synchronizing => ProtocolState::Synchronizing,
            Self::Running => ProtocolState::Running,
            Self::Disconnected => ProtocolState::Disconnected,
            Self::Shutdown => ProtocolState::Shutdown,
        }
    }
}

impl<T: Config> UdpProtocol<T> {
    /// Whether `update_local_frame_advantage` would leave i32, which is refused by 6.
    pub(crate) fn advantage_leaves_i32(&self, local_frame: Frame) -> bool {
        refusals::advantage_overflow(
            self.last_recv_frame(),
            u64::try_from(self.round_trip_time).expect("at most the epoch clock"),
            self.fps,
            local_frame,
        )
    }

    pub(crate) fn newest(&self) -> Frame {
        self.last_recv_frame()
    }

    pub(crate) fn outstanding_nonces(&self) -> &HashSet<u32> {
        &self.sync_random_requests
    }

    /// Changes the set: by the rules the oldest of 257 is forgotten (E-70), and the crate never forgets.
    pub(crate) fn forget_nonce(&mut self, nonce: u32) {
        self.sync_random_requests.remove(&nonce);
    }

    /// Changes the map: in firm mode what is held is not the crate's rule.
    pub(crate) fn set_checksums(&mut self, held: Vec<(Frame, u128)>) {
        self.pending_checksums = held.into_iter().collect();
    }

    /// `poll` of ggrs takes the events too: this puts them back.
    pub(crate) fn act(&mut self, connect_status: &[ConnectionStatus]) {
        let events: Vec<_> = self.poll(connect_status).collect();
        self.event_queue.extend(events);
    }

    pub(crate) fn take_events(&mut self) -> Vec<Event<T>> {
        self.event_queue.drain(..).collect()
    }

    pub(crate) fn queued_bytes(&self) -> Vec<u8> {
        let mut bytes = Vec::new();
        for message in &self.send_queue {
            bincode::serialize_into(&mut bytes, message).expect("messages serialize");
        }
        bytes
    }

    /// For timing: how many events and bytes wait, added up.
    pub(crate) fn waiting(&self) -> u64 {
        (self.event_queue.len() + self.queued_bytes().len()) as u64
    }

    /// For timing: both queues are emptied.
    pub(crate) fn empty(&mut self) {
        self.event_queue.clear();
        self.send_queue.clear();
    }

    /// For timing: the input sent last was not sent.
    pub(crate) fn forget_last_input(&mut self) {
        self.pending_output.pop_back();
    }
}

impl UdpProtocol<Cfg> {
    /// The whole state. `nonces` has the order of latest issue, which the crate's set does not keep; `firm` the reports
    /// of firm mode.
    pub(crate) fn snapshot(&self, nonces: &Nonces, firm: Option<&Firm>) -> Snapshot {
        assert_eq!(nonces.order().len(), self.sync_random_requests.len());
        assert!(nonces.order().iter().all(|n| self.sync_random_requests.contains(n)));
        let mut history: Vec<Stored> = self.recv_inputs.values().map(stored).collect();
        history.sort_by_key(|s| s.frame);
        assert!(self.recv_inputs.iter().all(|(frame, input)| *frame == input.frame));
        let mut checksums: Vec<_> = self.pending_checksums.iter().map(|(f, c)| (*f, *c)).collect();
        checksums.sort_unstable();
        Snapshot {
            phase: self.state.phase(),
            input_size: bincode::serialized_size(&<Cfg as Config>::Input::default()).unwrap() as usize,
            num_players: self.num_players,
            handles: self.handles.clone(),
            max_prediction: self.max_prediction,
            disconnect_timeout: millis(self.disconnect_timeout),
            disconnect_notify_start: millis(self.disconnect_notify_start),
            fps: self.fps,
            magic: self.magic,
            peer: self.peer_addr,
            desync: self.desync_detection,
            sync_remaining: self.sync_remaining_roundtrips,
            nonces: nonces.order().to_vec(),
            forgotten: nonces.forgotten().to_vec(),
            notify_sent: self.disconnect_notify_sent,
            event_sent: self.disconnect_event_sent,
            remote_magic: self.remote_magic,
            clocks: Clocks {
                quality_report: self.running_last_quality_report.millis(),
                input_recv: self.running_last_input_recv.millis(),
                send: self.last_send_time.millis(),
                sync_request: self.last_sync_request_time.millis(),
                recv: self.last_recv_time.millis(),
                shutdown: self.shutdown_timeout.millis(),
            },
            stats_start: u64::try_from(self.stats_start_time).expect("an epoch clock"),
            round_trip_time: u64::try_from(self.round_trip_time).expect("at most the epoch clock"),
            local_advantage: self.local_frame_advantage,
            remote_advantage: self.remote_frame_advantage,
            statuses: self.peer_connect_status.clone(),
            pending: self.pending_output.iter().map(stored).collect(),
            acked: stored(&self.last_acked_input),
            history,
            checksums,
            reported: firm.map(Firm::frames),
            events: self.event_queue.iter().cloned().collect(),
            queued: self.queued_bytes(),
        }
    }

    /// A second endpoint in the same state, to see what the crate would do with a refused call.
    /// Its `TimeSync` starts anew: nothing that we look at reads it.
    pub(crate) fn copy(&self) -> Self {
        Self {
            num_players: self.num_players,
            handles: self.handles.clone(),
            send_queue: self.send_queue.clone(),
            event_queue: self.event_queue.clone(),
            state: self.state.phase().state(),
            sync_remaining_roundtrips: self.sync_remaining_roundtrips,
            sync_random_requests: self.sync_random_requests.clone(),
            running_last_quality_report: self.running_last_quality_report,
            running_last_input_recv: self.running_last_input_recv,
            disconnect_notify_sent: self.disconnect_notify_sent,
            disconnect_event_sent: self.disconnect_event_sent,
            disconnect_timeout: self.disconnect_timeout,
            disconnect_notify_start: self.disconnect_notify_start,
            shutdown_timeout: self.shutdown_timeout,
            fps: self.fps,
            magic: self.magic,
            peer_addr: self.peer_addr,
            remote_magic: self.remote_magic,
            peer_connect_status: self.peer_connect_status.clone(),
            pending_output: self.pending_output.clone(),
            last_acked_input: self.last_acked_input.clone(),
            max_prediction: self.max_prediction,
            recv_inputs: self.recv_inputs.clone(),
            time_sync_layer: TimeSync::new(),
            local_frame_advantage: self.local_frame_advantage,
            remote_frame_advantage: self.remote_frame_advantage,
            stats_start_time: self.stats_start_time,
            round_trip_time: self.round_trip_time,
            last_send_time: self.last_send_time,
            last_sync_request_time: self.last_sync_request_time,
            last_recv_time: self.last_recv_time,
            pending_checksums: self.pending_checksums.clone(),
            desync_detection: self.desync_detection,
        }
    }

    /// Counts of what a call can find full: events, pending inputs, checksums, queued bytes.
    pub(crate) fn counts(&self) -> [usize; 4] {
        [
            self.event_queue.len(),
            self.pending_output.len(),
            self.pending_checksums.len(),
            self.queued_bytes().len(),
        ]
    }
}
