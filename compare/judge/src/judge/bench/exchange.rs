//! Two endpoints that send each other every frame as bytes: each datagram is written by bincode when it
//! is sent and read by bincode when it arrives.

use std::cell::RefCell;
use std::rc::Rc;

use super::ends::{clocks, inputs, running, statuses, Small, MAGIC, OTHER, START};
use super::timing::{timed, Part};
use crate::network::messages::Message;
use crate::network::protocol::{Event, UdpProtocol};
use crate::NonBlockingSocket;

/// The bytes sent, and where each datagram ends.
#[derive(Default)]
struct Sent {
    bytes: Vec<u8>,
    ends: Vec<usize>,
}

#[derive(Clone, Default)]
struct Wire(Rc<RefCell<Sent>>);

impl NonBlockingSocket<u32> for Wire {
    fn send_to(&mut self, msg: &Message, _addr: &u32) {
        let sent = &mut *self.0.borrow_mut();
        bincode::serialize_into(&mut sent.bytes, msg).expect("messages serialize");
        sent.ends.push(sent.bytes.len());
    }

    fn receive_all_messages(&mut self) -> Vec<(u32, Message)> {
        Vec::new()
    }
}

struct Side {
    end: UdpProtocol<Small>,
    socket: Box<dyn NonBlockingSocket<u32>>,
    wire: Wire,
}

impl Side {
    fn new(own: u16, other: u16) -> Self {
        let wire = Wire::default();
        Self { end: running(own, other), socket: Box::new(wire.clone()), wire }
    }

    /// Hears what the other has queued, acts, hands over its events and sends its input. Gives what
    /// the bytes heard and the events add to the sum.
    fn play(&mut self, other: &mut Self, frame: i32) -> u64 {
        let statuses = statuses::<Small>();
        let mut sum = self.hear(other);
        for event in self.end.poll(&statuses) {
            if let Event::Input { input, player } = event {
                sum += input.frame as u64 + u64::from(input.input) + player as u64;
            }
        }
        self.end.send_input(&inputs::<Small>(frame), &statuses);
        sum
    }

    fn hear(&mut self, other: &mut Self) -> u64 {
        other.end.send_all_messages(&mut other.socket);
        let sent = &mut *other.wire.0.borrow_mut();
        let mut start = 0;
        for end in sent.ends.drain(..) {
            let message = bincode::deserialize(&sent.bytes[start..end]).expect("it reads");
            self.end.handle_message(&message);
            start = end;
        }
        sent.bytes.clear();
        start as u64
    }
}

/// Each end has its part of a frame, one after the other. The whole is timed as one.
pub fn run(count: u32) -> Result<(), String> {
    let (mut a, mut b) = (Side::new(MAGIC, OTHER), Side::new(OTHER, MAGIC));
    let Part { took, sum } = timed(|| {
        let mut sum = 0u64;
        for number in 0..count {
            clocks(START + 16 * u64::from(number));
            sum += a.play(&mut b, number as i32);
            sum += b.play(&mut a, number as i32);
        }
        sum
    });
    println!("{:.1} {sum}", took.as_nanos() as f64 / f64::from(count));
    Ok(())
}
