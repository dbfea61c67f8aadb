//! A child module of the crate's p2p_spectator_session.rs: it sees the private fields.

use super::*;
use crate::judge::config::Cfg;
use crate::judge::firm::Firm;
use crate::judge::nonces::Nonces;
use crate::judge::snapshot::{SpectatorSnapshot, Stored};

impl SpectatorSession<Cfg> {
    pub(crate) fn host(&self) -> &UdpProtocol<Cfg> {
        &self.host
    }

    /// Here handing over a message and taking messages are calls of their own.
    pub(crate) fn host_mut(&mut self) -> &mut UdpProtocol<Cfg> {
        &mut self.host
    }

    pub(crate) fn take_messages(&mut self) {
        self.host.send_all_messages(&mut self.socket);
    }

    pub(crate) fn host_statuses(&self) -> &[ConnectionStatus] {
        &self.host_connect_status
    }

    pub(crate) fn snapshot(&self, nonces: &Nonces, firm: Option<&Firm>) -> SpectatorSnapshot {
        let slot = |slot: &Vec<PlayerInput<_>>| slot.iter().map(stored).collect();
        SpectatorSnapshot {
            running: self.state == SessionState::Running,
            num_players: self.num_players,
            max_frames_behind: self.max_frames_behind,
            catchup_speed: self.catchup_speed,
            current_frame: self.current_frame,
            last_recv_frame: self.last_recv_frame,
            slots: self.inputs.iter().map(slot).collect(),
            host_statuses: self.host_connect_status.clone(),
            events: self.event_queue.iter().copied().collect(),
            host: self.host.snapshot(nonces, firm),
        }
    }
}

fn stored(input: &PlayerInput<<Cfg as Config>::Input>) -> Stored {
    Stored { frame: input.frame, bytes: input.input.as_slice().to_vec() }
}
