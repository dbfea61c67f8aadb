//! bincode on an Input, as the crate's socket uses it, but writing into bytes that are there already.

use std::hint::black_box;

use super::timing::{in_batches, timed};
use crate::network::messages::{ConnectionStatus, Input, Message, MessageBody, MessageHeader};

/// An Input of 31 + 5 per player + 1 per payload byte.
fn input(players: usize, payload: usize) -> Message {
    let status = |player| ConnectionStatus { disconnected: false, last_frame: 100 + player as i32 };
    let body = Input {
        peer_connect_status: (0..players).map(status).collect(),
        disconnect_requested: false,
        start_frame: 1000,
        ack_frame: 900,
        bytes: (0..payload).map(|at| at as u8).collect(),
    };
    Message { header: MessageHeader { magic: 4660 }, body: MessageBody::Input(body) }
}

/// Where the first frame's number stands, after magic, kind, count, statuses and flag.
fn frame_at(players: usize) -> usize {
    2 + 4 + 8 + 5 * players + 1
}

/// Each repetition reads other bytes: the lowest one of the first frame is the repetition's number.
pub fn read(count: u32, players: usize, payload: usize) -> Result<(), String> {
    let mut datagram = bincode::serialize(&input(players, payload)).map_err(|e| e.to_string())?;
    let at = frame_at(players);
    in_batches(count, |first, size| {
        timed(|| {
            let mut sum = 0;
            for number in first..first + size {
                datagram[at] = number as u8;
                let message: Message = bincode::deserialize(black_box(&datagram)).expect("it reads");
                sum += fields(&message);
            }
            sum
        })
    })
}

/// Every field is looked at.
fn fields(message: &Message) -> u64 {
    let MessageBody::Input(body) = &message.body else { unreachable!("an Input was written") };
    let statuses = body.peer_connect_status.iter();
    let seen: u64 = statuses.map(|s| u64::from(s.disconnected) + s.last_frame as u64).sum();
    let (first, last) = (body.bytes[0], body.bytes[body.bytes.len() - 1]);
    u64::from(message.header.magic)
        + seen
        + u64::from(body.disconnect_requested)
        + body.start_frame as u64
        + body.ack_frame as u64
        + body.bytes.len() as u64
        + u64::from(first)
        + u64::from(last)
}

/// Each repetition writes another first frame.
pub fn write(count: u32, players: usize, payload: usize) -> Result<(), String> {
    let mut message = input(players, payload);
    let mut out = [0u8; 128];
    let at = frame_at(players);
    in_batches(count, |first, size| {
        timed(|| {
            let mut sum = 0;
            for number in first..first + size {
                if let MessageBody::Input(body) = &mut message.body {
                    body.start_frame = 1000 + (number & 255) as i32;
                }
                let mut left = &mut out[..];
                bincode::serialize_into(&mut left, black_box(&message)).expect("it fits");
                let end = 128 - left.len();
                sum += end as u64 + u64::from(out[at]) + u64::from(out[end - 1]);
            }
            sum
        })
    })
}
