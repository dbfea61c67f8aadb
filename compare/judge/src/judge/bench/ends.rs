//! Two endpoints of the crate as a game has them: S is the size of a type, not a number that is asked for.

use std::collections::HashMap;
use std::time::Duration;

use crate::frame_info::PlayerInput;
use crate::network::messages::{ConnectionStatus, Message, MessageBody, MessageHeader, SyncReply};
use crate::network::protocol::UdpProtocol;
use crate::{Config, DesyncDetection, PredictRepeatLast};

pub const PEER: u32 = 7;
pub const MAGIC: u16 = 4660;
/// The other end's magic.
pub const OTHER: u16 = 4661;
pub const START: u64 = 1_000;

/// A configuration with what the setup needs to know of it.
pub trait Game: Config<Address = u32> {
    const PLAYERS: usize;
    /// The players of the other end, and as many of this one.
    const HANDLES: &'static [usize];
    const WIDTH: usize;
    fn input(byte: u8) -> Self::Input;
}

/// Two players, one at each end, S = 1.
pub struct Small;

impl Config for Small {
    type Input = u8;
    type InputPredictor = PredictRepeatLast;
    type State = ();
    type Address = u32;
}

impl Game for Small {
    const PLAYERS: usize = 2;
    const HANDLES: &'static [usize] = &[1];
    const WIDTH: usize = 1;
    fn input(byte: u8) -> u8 {
        byte
    }
}

/// Four players, whose inputs all come from the other end, S = 16.
pub struct Large;

impl Config for Large {
    type Input = [u8; 16];
    type InputPredictor = PredictRepeatLast;
    type State = ();
    type Address = u32;
}

impl Game for Large {
    const PLAYERS: usize = 4;
    const HANDLES: &'static [usize] = &[0, 1, 2, 3];
    const WIDTH: usize = 64;
    fn input(byte: u8) -> [u8; 16] {
        [byte; 16]
    }
}

pub fn clocks(now: u64) {
    instant::set(Some(now), Some(now));
}

pub fn message(magic: u16, body: MessageBody) -> Message {
    Message { header: MessageHeader { magic }, body }
}

pub fn statuses<T: Game>() -> Vec<ConnectionStatus> {
    vec![ConnectionStatus::default(); T::PLAYERS]
}

/// The input of a frame, one part for each player of this end.
pub fn inputs<T: Game>(frame: i32) -> HashMap<usize, PlayerInput<T::Input>> {
    let part = PlayerInput::new(frame, T::input(frame as u8));
    (0..T::HANDLES.len()).map(|player| (player, part)).collect()
}

/// An endpoint in Running, its queues empty: five replies were counted.
pub fn running<T: Game>(own: u16, other: u16) -> UdpProtocol<T> {
    clocks(START);
    rand::set(Some(own), None);
    let timeouts = [2_000, 500].map(Duration::from_millis);
    let handles = T::HANDLES.to_vec();
    let local = handles.len();
    let desync = DesyncDetection::Off;
    let mut end = UdpProtocol::new(handles, PEER, T::PLAYERS, local, 8, timeouts[0], timeouts[1], 60, desync);
    rand::set(None, Some(1));
    end.synchronize();
    for nonce in 1..=5 {
        rand::set(None, Some(nonce + 1));
        end.handle_message(&message(other, MessageBody::SyncReply(SyncReply { random_reply: nonce })));
    }
    end.empty();
    end
}
