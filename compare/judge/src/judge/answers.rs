//! The answers to a script: a head of four bytes per call, then the body or its digest.

use super::canon::crc32;
use super::driver::{Done, World};
use super::record::{read_header, Mode, Record, HEADER};

/// Appends the answer to one call: what it gave and the object's state after it.
pub(crate) fn write(out: &mut Vec<u8>, mode: Mode, r: &Record, done: &Done, state: &[u8]) {
    out.extend([r.call as u8, r.object, done.answer, 0]);
    match mode {
        Mode::Whole => {
            out.extend(&done.given);
            out.extend(state);
        }
        Mode::Digest => {
            let body = [&done.given, state].concat();
            out.extend((body.len() as u32).to_le_bytes());
            out.extend(crc32(&body).to_le_bytes());
        }
    }
}

/// The answers to a whole script, and where each call's answer ends.
pub fn run(script: &[u8]) -> Result<(Vec<u8>, Vec<usize>), String> {
    let mode = read_header(script).ok_or("no header of a script")?;
    let mut rest = &script[HEADER..];
    let (mut world, mut out, mut ends) = (World::new(), Vec::new(), Vec::new());
    while !rest.is_empty() {
        let at = script.len() - rest.len();
        let (record, after) = Record::read(rest).ok_or(format!("no record at byte {at}"))?;
        let done = world.call(&record);
        write(&mut out, mode, &record, &done, world.state(record.object));
        ends.push(out.len());
        rest = after;
    }
    Ok((out, ends))
}
