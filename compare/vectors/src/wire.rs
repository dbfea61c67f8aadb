//! A message, and its bytes as bincode writes them.

use crate::messages::{Message, MessageBody, MessageHeader};

pub fn message(magic: u16, body: MessageBody) -> Message {
    Message {
        header: MessageHeader { magic },
        body,
    }
}

pub fn bytes(message: &Message) -> Vec<u8> {
    bincode::serialize(message).expect("bincode writes every message")
}
