//! Messages: one made of a magic and a body, a small one of each kind, and those of a send buffer cut apart.

use crate::network::messages::{
    ChecksumReport, ConnectionStatus, Input, InputAck, Message, MessageBody, MessageHeader, QualityReply,
    QualityReport, SyncReply, SyncRequest,
};

pub(crate) fn with_magic(magic: u16, body: MessageBody) -> Message {
    Message { header: MessageHeader { magic }, body }
}

/// A small one of each kind.
pub(crate) fn bodies() -> Vec<MessageBody> {
    let status = ConnectionStatus { disconnected: true, last_frame: 3 };
    vec![
        MessageBody::SyncRequest(SyncRequest { random_request: 0x0102_0304 }),
        MessageBody::SyncReply(SyncReply { random_reply: 0x0102_0304 }),
        MessageBody::Input(Input {
            peer_connect_status: vec![status, status],
            disconnect_requested: false,
            start_frame: 0,
            ack_frame: -1,
            bytes: vec![5, 7],
        }),
        MessageBody::InputAck(InputAck { ack_frame: -1 }),
        MessageBody::QualityReport(QualityReport { frame_advantage: -2, ping: 1 << 70 }),
        MessageBody::QualityReply(QualityReply { pong: 12 }),
        MessageBody::ChecksumReport(ChecksumReport { checksum: 1 << 100, frame: -7 }),
        MessageBody::KeepAlive,
    ]
}

/// Cuts a part of the send buffer into its messages: where each begins and ends.
pub(crate) fn cut(bytes: &[u8]) -> Vec<(usize, usize)> {
    let (mut parts, mut at) = (Vec::new(), 0);
    while at < bytes.len() {
        let message: Message = bincode::deserialize(&bytes[at..]).expect("a whole message");
        let size = bincode::serialized_size(&message).expect("its size") as usize;
        parts.push((at, at + size));
        at += size;
    }
    parts
}
