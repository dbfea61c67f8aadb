//! A message handed over as a value (call 4): it may hold counts that no datagram can.

use super::record::{Fields, VALUE};
use crate::network::messages::{
    ChecksumReport, ConnectionStatus, Input, InputAck, Message, MessageBody, MessageHeader, QualityReply,
    QualityReport, SyncReply, SyncRequest,
};

pub const KINDS: [&str; 8] = [
    "SyncRequest",
    "SyncReply",
    "Input",
    "InputAck",
    "QualityReport",
    "QualityReply",
    "ChecksumReport",
    "KeepAlive",
];

pub(crate) fn kind(body: &MessageBody) -> u32 {
    match body {
        MessageBody::SyncRequest(_) => 0,
        MessageBody::SyncReply(_) => 1,
        MessageBody::Input(_) => 2,
        MessageBody::InputAck(_) => 3,
        MessageBody::QualityReport(_) => 4,
        MessageBody::QualityReply(_) => 5,
        MessageBody::ChecksumReport(_) => 6,
        MessageBody::KeepAlive => 7,
    }
}

/// The fixed fields of a value, every kind's in one layout.
#[derive(Default)]
struct Flat {
    number: u32,
    disconnect: bool,
    frame: i32,
    ack: i32,
    advantage: i32,
    wide: u128,
    statuses: [(bool, i32); 4],
}

pub(crate) fn write(message: &Message) -> Vec<u8> {
    let mut flat = Flat::default();
    let mut payload: &[u8] = &[];
    match &message.body {
        MessageBody::SyncRequest(b) => flat.number = b.random_request,
        MessageBody::SyncReply(b) => flat.number = b.random_reply,
        MessageBody::Input(b) => {
            flat.number = b.peer_connect_status.len() as u32;
            for (at, status) in b.peer_connect_status.iter().take(4).enumerate() {
                flat.statuses[at] = (status.disconnected, status.last_frame);
            }
            flat.disconnect = b.disconnect_requested;
            flat.frame = b.start_frame;
            flat.ack = b.ack_frame;
            payload = &b.bytes;
        }
        MessageBody::InputAck(b) => flat.ack = b.ack_frame,
        MessageBody::QualityReport(b) => {
            flat.advantage = i32::from(b.frame_advantage);
            flat.wide = b.ping;
        }
        MessageBody::QualityReply(b) => flat.wide = b.pong,
        MessageBody::ChecksumReport(b) => {
            flat.frame = b.frame;
            flat.wide = b.checksum;
        }
        MessageBody::KeepAlive => (),
    }
    let mut out = Vec::new();
    out.extend(message.header.magic.to_le_bytes());
    out.extend([0; 2]);
    out.extend(kind(&message.body).to_le_bytes());
    out.extend(flat.number.to_le_bytes());
    out.extend(u32::from(flat.disconnect).to_le_bytes());
    for number in [flat.frame, flat.ack, flat.advantage, 0] {
        out.extend(number.to_le_bytes());
    }
    out.extend(flat.wide.to_le_bytes());
    for (disconnected, last_frame) in flat.statuses {
        out.extend(u32::from(disconnected).to_le_bytes());
        out.extend(last_frame.to_le_bytes());
    }
    assert_eq!(out.len(), VALUE);
    out.extend(payload);
    out
}

pub(crate) fn read(bytes: &[u8]) -> Option<Message> {
    let payload = bytes.get(VALUE..)?;
    let mut f = Fields(&bytes[..VALUE]);
    let magic = f.u16();
    f.u16();
    let kind = f.u32();
    let number = f.u32();
    let disconnect_requested = f.u32() != 0;
    let (frame, ack_frame) = (f.u32() as i32, f.u32() as i32);
    let frame_advantage = f.u32() as i32 as i16;
    f.u32();
    let (low, high) = (f.u64(), f.u64());
    let wide = u128::from(low) | (u128::from(high) << 64);
    let mut statuses = Vec::new();
    for _ in 0..4 {
        let disconnected = f.u32() != 0;
        statuses.push(ConnectionStatus { disconnected, last_frame: f.u32() as i32 });
    }
    let body = match kind {
        0 => MessageBody::SyncRequest(SyncRequest { random_request: number }),
        1 => MessageBody::SyncReply(SyncReply { random_reply: number }),
        2 => {
            // a count above four has no more than four entries to show
            statuses.resize(number as usize, ConnectionStatus::default());
            MessageBody::Input(Input {
                peer_connect_status: statuses,
                disconnect_requested,
                start_frame: frame,
                ack_frame,
                bytes: payload.to_vec(),
            })
        }
        3 => MessageBody::InputAck(InputAck { ack_frame }),
        4 => MessageBody::QualityReport(QualityReport { frame_advantage, ping: wide }),
        5 => MessageBody::QualityReply(QualityReply { pong: wide }),
        6 => MessageBody::ChecksumReport(ChecksumReport { checksum: wide, frame }),
        7 => MessageBody::KeepAlive,
        _ => return None,
    };
    Some(Message { header: MessageHeader { magic }, body })
}
