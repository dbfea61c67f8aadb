//! Test vectors for our codec: datagrams, and what a reader must answer to
//! each, as bincode 1 answers it on ggrs 0.13.0's own `Message`.
//!
//! `vectors INPUT EXPECTED` writes the datagrams to INPUT, each after its
//! length as a little-endian u16, and one line for each to EXPECTED.

mod answer;
mod datagrams;
mod frame;
mod print;
mod random;
mod tally;
mod wire;

/// The crate's own file, unchanged; build.rs has found it.
mod messages {
    include!(env!("GGRS_MESSAGES_RS"));
}

use answer::Answer;
use tally::Tally;

// messages.rs looks for these in the root; our own modules take them from `frame`.
pub use frame::{Frame, NULL_FRAME};

/// The file stays in the repository and is read by a proved program, so it is
/// kept small.
const LARGEST_INPUT: usize = 200_000;

/// One datagram of the input file.
fn framed(datagram: &[u8]) -> Vec<u8> {
    let length = u16::try_from(datagram.len()).expect("a datagram is below 65,536 bytes");
    [&length.to_le_bytes(), datagram].concat()
}

/// The line for one datagram, without its newline.
fn expected(datagram: &[u8], answer: &Answer) -> String {
    match answer {
        Answer::Refused(number) => format!("refused {number}"),
        Answer::Read(message) => {
            let written = wire::bytes(message);
            let verdict = if written == datagram {
                "same"
            } else {
                "differs"
            };
            format!("{} {verdict}", print::line(message))
        }
    }
}

fn main() {
    let arguments: Vec<String> = std::env::args().skip(1).collect();
    let [input_path, expected_path] = arguments.as_slice() else {
        eprintln!("usage: vectors INPUT EXPECTED");
        std::process::exit(2);
    };

    let mut input = Vec::new();
    let mut lines = String::new();
    let mut tally = Tally::new();
    for datagram in datagrams::all() {
        let answer = answer::answer(&datagram);
        input.extend(framed(&datagram));
        lines.push_str(&expected(&datagram, &answer));
        lines.push('\n');
        tally.count(&datagram, &answer);
    }
    assert!(
        input.len() < LARGEST_INPUT,
        "{} bytes of input are too many",
        input.len()
    );

    std::fs::write(input_path, input).expect("the input file can be written");
    std::fs::write(expected_path, lines).expect("the expected file can be written");
    print!("{tally}");
    if !tally.missing().is_empty() {
        eprintln!("vectors: no datagram for: {}", tally.missing().join(", "));
        std::process::exit(1);
    }
}
