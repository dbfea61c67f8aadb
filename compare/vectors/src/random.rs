//! A small generator with a fixed seed (splitmix64), so that every run makes
//! the same datagrams.

use crate::messages::{
    ChecksumReport, ConnectionStatus, Input, InputAck, MessageBody, QualityReply, QualityReport,
    SyncReply, SyncRequest,
};
use crate::wire::{bytes, message};

const SEED: u64 = 0x6767_7273_2030_3133;

pub struct Random(u64);

impl Random {
    pub fn new() -> Self {
        Random(SEED)
    }

    fn next(&mut self) -> u64 {
        self.0 = self.0.wrapping_add(0x9e37_79b9_7f4a_7c15);
        let mixed = (self.0 ^ (self.0 >> 30)).wrapping_mul(0xbf58_476d_1ce4_e5b9);
        let mixed = (mixed ^ (mixed >> 27)).wrapping_mul(0x94d0_49bb_1331_11eb);
        mixed ^ (mixed >> 31)
    }

    fn below(&mut self, bound: usize) -> usize {
        (self.next() % bound as u64) as usize
    }

    fn flag(&mut self) -> bool {
        self.below(2) == 1
    }

    fn wide(&mut self) -> u128 {
        u128::from(self.next()) << 64 | u128::from(self.next())
    }

    fn frame(&mut self) -> i32 {
        self.next() as i32
    }

    fn payload(&mut self, most: usize) -> Vec<u8> {
        (0..self.below(most + 1))
            .map(|_| self.next() as u8)
            .collect()
    }

    fn status(&mut self) -> ConnectionStatus {
        ConnectionStatus {
            disconnected: self.flag(),
            last_frame: self.frame(),
        }
    }

    fn input(&mut self) -> Input {
        Input {
            peer_connect_status: (0..self.below(5)).map(|_| self.status()).collect(),
            disconnect_requested: self.flag(),
            start_frame: self.frame(),
            ack_frame: self.frame(),
            bytes: self.payload(60),
        }
    }

    fn body(&mut self, kind: usize) -> MessageBody {
        match kind {
            0 => MessageBody::SyncRequest(SyncRequest {
                random_request: self.next() as u32,
            }),
            1 => MessageBody::SyncReply(SyncReply {
                random_reply: self.next() as u32,
            }),
            2 => MessageBody::Input(self.input()),
            3 => MessageBody::InputAck(InputAck {
                ack_frame: self.frame(),
            }),
            4 => MessageBody::QualityReport(QualityReport {
                frame_advantage: self.next() as i16,
                ping: self.wide(),
            }),
            5 => MessageBody::QualityReply(QualityReply { pong: self.wide() }),
            6 => MessageBody::ChecksumReport(ChecksumReport {
                checksum: self.wide(),
                frame: self.frame(),
            }),
            _ => MessageBody::KeepAlive,
        }
    }

    /// A sound message of the given kind.
    pub fn datagram(&mut self, kind: usize) -> Vec<u8> {
        bytes(&message(self.next() as u16, self.body(kind)))
    }

    /// A copy with one byte replaced by another.
    pub fn damaged(&mut self, datagram: &[u8]) -> Vec<u8> {
        let mut copy = datagram.to_vec();
        let at = self.below(copy.len());
        copy[at] ^= 1 + self.below(255) as u8;
        copy
    }
}
