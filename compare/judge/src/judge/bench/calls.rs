//! One call of an endpoint in Running, over and over.

use std::hint::black_box;

use super::ends::{clocks, inputs, message, running, statuses, Game, Small, MAGIC, OTHER, START};
use super::timing::{in_batches, timed};
use crate::network::messages::{Input, InputAck, Message, MessageBody};

/// How many inputs wait for their acknowledgement while another is sent.
const WAITING: i32 = 3;

/// The Input of one frame after the other, each packed against the one before.
pub fn input<T: Game>(count: u32) -> Result<(), String> {
    let mut end = running::<T>(MAGIC, OTHER);
    in_batches(count, |first, size| {
        let messages: Vec<Message> =
            (first..first + size).map(|number| one_frame::<T>(number as i32)).collect();
        let mut part = timed(|| {
            for (number, message) in (first..).zip(&messages) {
                clocks(START + u64::from(number));
                end.handle_message(message);
            }
            0
        });
        part.sum = end.waiting();
        end.empty();
        part
    })
}

fn one_frame<T: Game>(frame: i32) -> Message {
    let body = Input {
        peer_connect_status: statuses::<T>(),
        disconnect_requested: false,
        start_frame: frame,
        ack_frame: -1,
        bytes: vec![7; T::WIDTH],
    };
    message(OTHER, MessageBody::Input(body))
}

/// A frame is sent while three wait; then it is forgotten and sent again.
pub fn send_input(count: u32) -> Result<(), String> {
    let mut end = running::<Small>(MAGIC, OTHER);
    let statuses = statuses::<Small>();
    for frame in 0..WAITING {
        end.send_input(&inputs::<Small>(frame), &statuses);
    }
    end.empty();
    let next = inputs::<Small>(WAITING);
    in_batches(count, |first, size| {
        let mut part = timed(|| {
            for number in first..first + size {
                clocks(START + u64::from(number));
                end.send_input(black_box(&next), &statuses);
                end.forget_last_input();
            }
            0
        });
        part.sum = end.waiting();
        end.empty();
        part
    })
}

/// A frame is sent while three wait, then the oldest is acknowledged; the caller takes off what sending costs.
pub fn input_ack(count: u32) -> Result<(), String> {
    let mut end = running::<Small>(MAGIC, OTHER);
    let statuses = statuses::<Small>();
    for frame in 0..WAITING {
        end.send_input(&inputs::<Small>(frame), &statuses);
    }
    end.empty();
    in_batches(count, |first, size| {
        let frames: Vec<_> = (first..first + size).map(|n| n as i32).collect();
        let sent: Vec<_> = frames.iter().map(|frame| inputs::<Small>(frame + WAITING)).collect();
        let acks: Vec<_> = frames.iter().map(|frame| ack(*frame)).collect();
        let mut part = timed(|| {
            for ((number, sent), ack) in (first..).zip(&sent).zip(&acks) {
                clocks(START + u64::from(number));
                end.send_input(sent, &statuses);
                end.handle_message(ack);
            }
            0
        });
        part.sum = end.waiting();
        end.empty();
        part
    })
}

fn ack(frame: i32) -> Message {
    message(OTHER, MessageBody::InputAck(InputAck { ack_frame: frame }))
}

pub fn keep_alive(count: u32) -> Result<(), String> {
    let mut end = running::<Small>(MAGIC, OTHER);
    let message = message(OTHER, MessageBody::KeepAlive);
    in_batches(count, |first, size| {
        timed(|| {
            for number in first..first + size {
                clocks(START + u64::from(number));
                end.handle_message(black_box(&message));
            }
            end.waiting()
        })
    })
}

/// At a time when no timer is due.
pub fn act(count: u32) -> Result<(), String> {
    let mut end = running::<Small>(MAGIC, OTHER);
    let statuses = statuses::<Small>();
    clocks(START + 1);
    in_batches(count, |_, size| {
        timed(|| {
            for _ in 0..size {
                end.poll(black_box(&statuses));
            }
            end.waiting()
        })
    })
}
