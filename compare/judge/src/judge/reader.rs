//! A second reading of the datagrams' rules (W-8 to W-10): the first field that is wrong
//! decides. It says only what is wrong; bincode gives the message.

use super::refusals::{BAD_BOOL, BAD_KIND, EXTRA, SHORT, TOO_LONG};

const STATUSES_MAX: u64 = 4;
const PAYLOAD_MAX: u64 = 8_256;

struct Reader<'a>(&'a [u8]);

impl Reader<'_> {
    fn bytes(&mut self, count: usize) -> Result<&[u8], u8> {
        if count > self.0.len() {
            return Err(SHORT);
        }
        let (head, rest) = self.0.split_at(count);
        self.0 = rest;
        Ok(head)
    }

    fn u32(&mut self) -> Result<u32, u8> {
        Ok(u32::from_le_bytes(self.bytes(4)?.try_into().expect("four")))
    }

    fn bool(&mut self) -> Result<(), u8> {
        match self.bytes(1)?[0] {
            0 | 1 => Ok(()),
            _ => Err(BAD_BOOL),
        }
    }

    /// A list's count, compared as a u64 before anything is made of it.
    fn count(&mut self, most: u64) -> Result<usize, u8> {
        let count = u64::from_le_bytes(self.bytes(8)?.try_into().expect("eight"));
        if count > most {
            return Err(TOO_LONG);
        }
        Ok(count as usize)
    }

    fn input(&mut self) -> Result<(), u8> {
        for _ in 0..self.count(STATUSES_MAX)? {
            self.bool()?;
            self.bytes(4)?;
        }
        self.bool()?;
        self.bytes(4)?;
        self.bytes(4)?;
        let payload = self.count(PAYLOAD_MAX)?;
        self.bytes(payload)?;
        Ok(())
    }

    fn fixed(&mut self, fields: &[usize]) -> Result<(), u8> {
        for width in fields {
            self.bytes(*width)?;
        }
        Ok(())
    }

    fn message(&mut self) -> Result<(), u8> {
        self.bytes(2)?;
        match self.u32()? {
            0 | 1 | 3 => self.fixed(&[4]),
            2 => self.input(),
            4 => self.fixed(&[2, 16]),
            5 => self.fixed(&[16]),
            6 => self.fixed(&[16, 4]),
            7 => Ok(()),
            _ => Err(BAD_KIND),
        }
    }
}

/// 0, or what is wrong with this datagram.
pub fn fault(datagram: &[u8]) -> u8 {
    let mut reader = Reader(datagram);
    match reader.message() {
        Err(number) => number,
        Ok(()) if !reader.0.is_empty() => EXTRA,
        Ok(()) => 0,
    }
}
