//! The printed line of a message: words and numbers, one space between them.

use crate::messages::{ConnectionStatus, Input, Message, MessageBody};

fn status(status: &ConnectionStatus) -> String {
    let word = if status.disconnected {
        "disconnected"
    } else {
        "connected"
    };
    format!(" {word} {}", status.last_frame)
}

/// A space and the bytes in hexadecimal; nothing at all for no bytes.
fn hex(bytes: &[u8]) -> String {
    if bytes.is_empty() {
        return String::new();
    }
    let digits: String = bytes.iter().map(|byte| format!("{byte:02x}")).collect();
    format!(" {digits}")
}

fn input(input: &Input) -> String {
    let statuses: String = input.peer_connect_status.iter().map(status).collect();
    format!(
        " statuses {}{statuses} disconnect {} start {} ack {} bytes {}{}",
        input.peer_connect_status.len(),
        input.disconnect_requested,
        input.start_frame,
        input.ack_frame,
        input.bytes.len(),
        hex(&input.bytes)
    )
}

/// The names, by the kind's number.
pub const KINDS: [&str; 8] = [
    "SyncRequest",
    "SyncReply",
    "Input",
    "InputAck",
    "QualityReport",
    "QualityReply",
    "ChecksumReport",
    "KeepAlive",
];

pub fn kind(body: &MessageBody) -> &'static str {
    let number = match body {
        MessageBody::SyncRequest(_) => 0,
        MessageBody::SyncReply(_) => 1,
        MessageBody::Input(_) => 2,
        MessageBody::InputAck(_) => 3,
        MessageBody::QualityReport(_) => 4,
        MessageBody::QualityReply(_) => 5,
        MessageBody::ChecksumReport(_) => 6,
        MessageBody::KeepAlive => 7,
    };
    KINDS[number]
}

/// The fields of the body, each after a space.
fn body(body: &MessageBody) -> String {
    match body {
        MessageBody::SyncRequest(it) => format!(" nonce {}", it.random_request),
        MessageBody::SyncReply(it) => format!(" nonce {}", it.random_reply),
        MessageBody::Input(it) => input(it),
        MessageBody::InputAck(it) => format!(" ack {}", it.ack_frame),
        MessageBody::QualityReport(it) => {
            format!(" advantage {} ping {}", it.frame_advantage, it.ping)
        }
        MessageBody::QualityReply(it) => format!(" pong {}", it.pong),
        MessageBody::ChecksumReport(it) => format!(" checksum {} frame {}", it.checksum, it.frame),
        MessageBody::KeepAlive => String::new(),
    }
}

pub fn line(message: &Message) -> String {
    format!(
        "{} magic {}{}",
        kind(&message.body),
        message.header.magic,
        body(&message.body)
    )
}
