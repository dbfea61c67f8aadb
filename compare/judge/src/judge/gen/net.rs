//! A network that loses, repeats, reorders and delays.

use super::message::cut;
use super::script::Gen;
use crate::judge::record::Call;

/// One message under way; `at` is its place in the sender's buffer.
struct Flight {
    to: u8,
    due: u64,
    from: u8,
    at: usize,
    bytes: Vec<u8>,
}

pub(crate) struct Net {
    flights: Vec<Flight>,
    /// Per cent of messages that are lost.
    loss: u64,
    /// Per cent of messages that are sent twice.
    repeat: u64,
    /// The longest time under way, in milliseconds.
    delay: u64,
}

impl Net {
    pub fn new(loss: u64, repeat: u64, delay: u64) -> Self {
        Self { flights: Vec::new(), loss, repeat, delay }
    }

    /// Puts what an end sent on the way to the other.
    pub fn send(&mut self, g: &mut Gen, from: u8, to: u8, part: &[u8]) {
        for (start, end) in cut(part) {
            let copies = 1 + u64::from(g.rng.chance(self.repeat));
            for _ in 0..copies {
                if !g.rng.chance(self.loss) {
                    let due = g.now + g.rng.below(self.delay + 1);
                    let bytes = part[start..end].to_vec();
                    self.flights.push(Flight { to, due, from, at: start, bytes });
                }
            }
        }
    }

    /// Hands over what is due; from the sender's buffer where the bytes still stand there.
    pub fn deliver(&mut self, g: &mut Gen) {
        let mut at = 0;
        while at < self.flights.len() {
            if self.flights[at].due > g.now {
                at += 1;
                continue;
            }
            let flight = self.flights.remove(at);
            let place = flight.at..flight.at + flight.bytes.len();
            let stands = g.world.buffers[usize::from(flight.from)][place] == flight.bytes[..];
            let mut r = g.record(if stands { Call::Carry } else { Call::Datagram }, flight.to);
            r.number = g.host(flight.to).peer;
            r.payload = if stands {
                let place = [u32::from(flight.from), flight.at as u32, flight.bytes.len() as u32];
                place.iter().flat_map(|n| n.to_le_bytes()).collect()
            } else {
                flight.bytes
            };
            g.issue(r);
        }
    }
}
