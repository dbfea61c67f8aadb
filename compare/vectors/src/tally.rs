//! How many datagrams there are of each kind and of each refusal.

use std::fmt;

use crate::answer::{self, Answer, BAD_BOOL, BAD_KIND, EXTRA, SHORT, TOO_LONG};
use crate::print::{kind, KINDS};

const REFUSALS: [u8; 5] = [SHORT, BAD_KIND, BAD_BOOL, TOO_LONG, EXTRA];

struct Row {
    name: String,
    datagrams: usize,
    /// How many of them bincode alone reads.
    read: usize,
}

pub struct Tally(Vec<Row>);

fn name(answer: &Answer) -> String {
    match answer {
        Answer::Read(message) => kind(&message.body).to_string(),
        Answer::Refused(number) => format!("refused {number}"),
    }
}

impl Tally {
    /// A row for everything that must be there.
    pub fn new() -> Self {
        let refusals = REFUSALS.map(|number| name(&Answer::Refused(number)));
        let names = KINDS.map(str::to_string).into_iter().chain(refusals);
        Tally(
            names
                .map(|name| Row {
                    name,
                    datagrams: 0,
                    read: 0,
                })
                .collect(),
        )
    }

    pub fn count(&mut self, datagram: &[u8], answer: &Answer) {
        let name = name(answer);
        let row = self
            .0
            .iter_mut()
            .find(|row| row.name == name)
            .expect("every answer has a row");
        row.datagrams += 1;
        row.read += usize::from(answer::bincode_reads(datagram));
    }

    pub fn missing(&self) -> Vec<&str> {
        self.0
            .iter()
            .filter(|row| row.datagrams == 0)
            .map(|row| row.name.as_str())
            .collect()
    }
}

impl fmt::Display for Tally {
    fn fmt(&self, f: &mut fmt::Formatter<'_>) -> fmt::Result {
        writeln!(f, "datagrams  read by bincode alone")?;
        for row in &self.0 {
            writeln!(f, "{:>9} {:>5}  {}", row.datagrams, row.read, row.name)?;
        }
        let all: usize = self.0.iter().map(|row| row.datagrams).sum();
        writeln!(f, "{all:>9}        in all")?;
        Ok(())
    }
}
