//! The script: a header, then call records of 64 bytes, each followed by its payload part.
//! docs/REPLAY.md writes the same down; both change together.

use crate::network::messages::ConnectionStatus;

pub const HEADER: usize = 8;
pub const RECORD: usize = 64;
pub const SETUP: usize = 88;
pub const VALUE: usize = 80;
/// Longest payload part of a record.
pub const PAYLOAD_MAX: usize = 16_384;
/// The array that stands behind each object's lent send buffer.
pub const BUFFER: usize = 65_536;

/// What follows a call's head in the answers.
#[derive(Copy, Clone, Debug, PartialEq, Eq)]
pub enum Mode {
    /// The body itself.
    Whole = 0,
    /// Its length and its CRC-32.
    Digest = 1,
}

pub fn header(mode: Mode) -> [u8; HEADER] {
    [b'G', b'G', b'S', b'C', 1, mode as u8, 0, 0]
}

pub fn read_header(bytes: &[u8]) -> Option<Mode> {
    match bytes.get(..HEADER)? {
        [b'G', b'G', b'S', b'C', 1, 0, 0, 0] => Some(Mode::Whole),
        [b'G', b'G', b'S', b'C', 1, 1, 0, 0] => Some(Mode::Digest),
        _ => None,
    }
}

/// The calls. Object 2, the spectator, has poll in the place of act, and the last two.
#[derive(Copy, Clone, Debug, PartialEq, Eq, PartialOrd, Ord)]
#[repr(u8)]
pub enum Call {
    New = 0,
    Synchronize = 1,
    Datagram = 2,
    Carry = 3,
    Message = 4,
    Act = 5,
    SendInput = 6,
    Disconnect = 7,
    SendChecksumReport = 8,
    UpdateLocalFrameAdvantage = 9,
    NetworkStats = 10,
    PeerConnectStatus = 11,
    TakeEvents = 12,
    TakeMessages = 13,
    Getters = 14,
    Buffer = 15,
    Advance = 16,
    FramesBehind = 17,
}

pub const CALLS: [Call; 18] = [
    Call::New,
    Call::Synchronize,
    Call::Datagram,
    Call::Carry,
    Call::Message,
    Call::Act,
    Call::SendInput,
    Call::Disconnect,
    Call::SendChecksumReport,
    Call::UpdateLocalFrameAdvantage,
    Call::NetworkStats,
    Call::PeerConnectStatus,
    Call::TakeEvents,
    Call::TakeMessages,
    Call::Getters,
    Call::Buffer,
    Call::Advance,
    Call::FramesBehind,
];

impl Call {
    pub fn name(self, object: u8) -> &'static str {
        match self {
            Self::New => "new",
            Self::Synchronize => "synchronize",
            Self::Datagram => "datagram",
            Self::Carry => "carry",
            Self::Message => "message",
            Self::Act if object == SPECTATOR => "poll",
            Self::Act => "act",
            Self::SendInput => "send_input",
            Self::Disconnect => "disconnect",
            Self::SendChecksumReport => "send_checksum_report",
            Self::UpdateLocalFrameAdvantage => "update_local_frame_advantage",
            Self::NetworkStats => "network_stats",
            Self::PeerConnectStatus => "peer_connect_status",
            Self::TakeEvents if object == SPECTATOR => "events",
            Self::TakeEvents => "take_events",
            Self::TakeMessages => "take_messages",
            Self::Getters => "getters",
            Self::Buffer => "buffer",
            Self::Advance => "advance",
            Self::FramesBehind => "frames_behind",
        }
    }

    /// Whether the object has this call.
    pub fn exists_on(self, object: u8) -> bool {
        match self {
            Self::SendInput
            | Self::Disconnect
            | Self::SendChecksumReport
            | Self::UpdateLocalFrameAdvantage
            | Self::PeerConnectStatus => object < SPECTATOR,
            Self::Advance | Self::FramesBehind => object == SPECTATOR,
            _ => object <= SPECTATOR,
        }
    }
}

/// Objects 0 and 1 are the endpoints A and B.
pub const SPECTATOR: u8 = 2;

#[derive(Clone, Debug, PartialEq, Eq)]
pub(crate) struct Record {
    pub call: Call,
    pub object: u8,
    /// The raw count of the status list; the list itself has four places.
    pub status_count: u8,
    pub now: u64,
    pub epoch: u64,
    pub nonce: u32,
    /// Length of the lent send buffer.
    pub buffer: u32,
    pub frame: i32,
    /// A peer number or a handle.
    pub number: u32,
    pub statuses: [ConnectionStatus; 4],
    pub payload: Vec<u8>,
}

impl Record {
    pub fn new(call: Call, object: u8) -> Self {
        Self {
            call,
            object,
            status_count: 0,
            now: 0,
            epoch: 0,
            nonce: 0,
            buffer: 0,
            frame: 0,
            number: 0,
            statuses: [ConnectionStatus { disconnected: false, last_frame: 0 }; 4],
            payload: Vec::new(),
        }
    }

    pub fn write(&self, out: &mut Vec<u8>) {
        out.extend([self.call as u8, self.object, self.status_count, 0]);
        out.extend((self.payload.len() as u32).to_le_bytes());
        out.extend(self.now.to_le_bytes());
        out.extend(self.epoch.to_le_bytes());
        out.extend(self.nonce.to_le_bytes());
        out.extend(self.buffer.to_le_bytes());
        out.extend(self.frame.to_le_bytes());
        out.extend(self.number.to_le_bytes());
        for status in &self.statuses {
            out.push(u8::from(status.disconnected));
            out.extend(status.last_frame.to_le_bytes());
        }
        out.extend([0; 4]);
        out.extend(&self.payload);
    }

    /// Reads one record at the head of `bytes`; gives it and what is left.
    pub fn read(bytes: &[u8]) -> Option<(Self, &[u8])> {
        let mut f = Fields(bytes.get(..RECORD)?);
        let call = *CALLS.get(usize::from(f.u8()))?;
        let object = f.u8();
        let status_count = f.u8();
        f.u8();
        let length = f.u32() as usize;
        let mut record = Self::new(call, object);
        record.status_count = status_count;
        record.now = f.u64();
        record.epoch = f.u64();
        record.nonce = f.u32();
        record.buffer = f.u32();
        record.frame = f.u32() as i32;
        record.number = f.u32();
        for status in &mut record.statuses {
            status.disconnected = f.u8() != 0;
            status.last_frame = f.u32() as i32;
        }
        record.payload = bytes.get(RECORD..RECORD + length)?.to_vec();
        Some((record, &bytes[RECORD + length..]))
    }
}

/// Little-endian fields of a part whose length was tested.
pub struct Fields<'a>(pub &'a [u8]);

impl Fields<'_> {
    fn take<const N: usize>(&mut self) -> [u8; N] {
        let (head, rest) = self.0.split_at(N);
        self.0 = rest;
        head.try_into().expect("N bytes")
    }

    pub fn u8(&mut self) -> u8 {
        self.take::<1>()[0]
    }

    pub fn u16(&mut self) -> u16 {
        u16::from_le_bytes(self.take())
    }

    pub fn u32(&mut self) -> u32 {
        u32::from_le_bytes(self.take())
    }

    pub fn u64(&mut self) -> u64 {
        u64::from_le_bytes(self.take())
    }
}

/// The payload part of `new`: every setup number, as wide as a wrong one may be.
#[derive(Clone, Debug, PartialEq, Eq)]
pub struct Setup {
    pub players: u32,
    pub handle_count: u32,
    pub handles: [u32; 4],
    pub local_players: u32,
    pub input_size: u32,
    pub max_prediction: u32,
    pub fps: u32,
    pub disconnect_timeout: u64,
    pub disconnect_notify_start: u64,
    pub peer: u32,
    pub magic: u16,
    pub desync_on: bool,
    pub desync_interval: u32,
    /// 0 is the crate's rule of checksums, anything else firm mode.
    pub checksum_mode: u16,
    pub slots: u32,
    pub session_events: u32,
    pub max_frames_behind: u32,
    pub catchup_speed: u32,
}

impl Setup {
    pub fn write(&self) -> Vec<u8> {
        let mut out = Vec::with_capacity(SETUP);
        out.extend(self.players.to_le_bytes());
        out.extend(self.handle_count.to_le_bytes());
        for handle in self.handles {
            out.extend(handle.to_le_bytes());
        }
        for number in [self.local_players, self.input_size, self.max_prediction, self.fps] {
            out.extend(number.to_le_bytes());
        }
        out.extend(self.disconnect_timeout.to_le_bytes());
        out.extend(self.disconnect_notify_start.to_le_bytes());
        out.extend(self.peer.to_le_bytes());
        out.extend(self.magic.to_le_bytes());
        out.extend(u16::from(self.desync_on).to_le_bytes());
        out.extend(self.desync_interval.to_le_bytes());
        out.extend(self.checksum_mode.to_le_bytes());
        out.extend([0; 2]);
        for number in [self.slots, self.session_events, self.max_frames_behind, self.catchup_speed] {
            out.extend(number.to_le_bytes());
        }
        assert_eq!(out.len(), SETUP);
        out
    }

    pub fn read(bytes: &[u8]) -> Option<Self> {
        if bytes.len() != SETUP {
            return None;
        }
        let mut f = Fields(bytes);
        let players = f.u32();
        let handle_count = f.u32();
        let handles = [f.u32(), f.u32(), f.u32(), f.u32()];
        let (local_players, input_size) = (f.u32(), f.u32());
        let (max_prediction, fps) = (f.u32(), f.u32());
        let (disconnect_timeout, disconnect_notify_start) = (f.u64(), f.u64());
        let (peer, magic, desync) = (f.u32(), f.u16(), f.u16());
        let (desync_interval, checksum_mode, _) = (f.u32(), f.u16(), f.u16());
        let (slots, session_events) = (f.u32(), f.u32());
        let (max_frames_behind, catchup_speed) = (f.u32(), f.u32());
        Some(Self {
            players,
            handle_count,
            handles,
            local_players,
            input_size,
            max_prediction,
            fps,
            disconnect_timeout,
            disconnect_notify_start,
            peer,
            magic,
            desync_on: desync != 0,
            desync_interval,
            checksum_mode,
            slots,
            session_events,
            max_frames_behind,
            catchup_speed,
        })
    }
}
