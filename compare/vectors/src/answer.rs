//! What a reader must answer to a datagram: bincode's own outcome on the whole
//! message, and two refusals that bincode does not know: 12 (too long) and 13
//! (bytes left over).

use std::io::{Cursor, ErrorKind::UnexpectedEof};

use bincode::ErrorKind;
use serde::de::DeserializeOwned;
use serde::Deserialize;

use crate::frame::Frame;
use crate::messages::Message;

// The refusal numbers of docs/RULES.md.
pub const SHORT: u8 = 9;
pub const BAD_KIND: u8 = 10;
pub const BAD_BOOL: u8 = 11;
pub const TOO_LONG: u8 = 12;
pub const EXTRA: u8 = 13;

pub const MOST_STATUSES: u64 = 4;
pub const MOST_PAYLOAD: u64 = 8_256;

pub enum Answer {
    Read(Message),
    Refused(u8),
}

type Reader<'a, 'b> = &'a mut Cursor<&'b [u8]>;
type Walked = Result<(), u8>;

/// The kinds alone, in the order of `MessageBody`, so that the walk lets
/// bincode itself refuse an unknown one.
#[derive(Deserialize)]
enum Kind {
    SyncRequest,
    SyncReply,
    Input,
    InputAck,
    QualityReport,
    QualityReply,
    ChecksumReport,
    KeepAlive,
}

/// The refusal number for what bincode found wrong.
fn number(error: &ErrorKind) -> u8 {
    match error {
        ErrorKind::Io(io) if io.kind() == UnexpectedEof => SHORT,
        // serde's derived code refuses an unknown variant, not bincode, so
        // there is no error kind for it, only this text.
        ErrorKind::Custom(text) if text.contains("expected variant index") => BAD_KIND,
        ErrorKind::InvalidBoolEncoding(_) => BAD_BOOL,
        other => panic!("no refusal number stands for bincode's error: {other}"),
    }
}

fn field<T: DeserializeOwned>(from: Reader) -> Result<T, u8> {
    bincode::deserialize_from(from).map_err(|error| number(&error))
}

fn skip<T: DeserializeOwned>(from: Reader) -> Walked {
    field::<T>(from).map(drop)
}

/// A list's count, refused before any of its elements is looked at.
fn count(from: Reader, most: u64) -> Result<u64, u8> {
    let count = field(from)?;
    if count > most {
        return Err(TOO_LONG);
    }
    Ok(count)
}

fn walk_input(from: Reader) -> Walked {
    for _ in 0..count(from, MOST_STATUSES)? {
        skip::<bool>(from)?;
        skip::<Frame>(from)?;
    }
    skip::<bool>(from)?;
    skip::<Frame>(from)?;
    skip::<Frame>(from)?;
    for _ in 0..count(from, MOST_PAYLOAD)? {
        skip::<u8>(from)?;
    }
    Ok(())
}

/// Goes over one message field by field up to its first fault.
fn walk(from: Reader) -> Walked {
    skip::<u16>(from)?;
    match field(from)? {
        Kind::SyncRequest | Kind::SyncReply => skip::<u32>(from),
        Kind::Input => walk_input(from),
        Kind::InputAck => skip::<Frame>(from),
        Kind::QualityReport => skip::<i16>(from).and_then(|()| skip::<u128>(from)),
        Kind::QualityReply => skip::<u128>(from),
        Kind::ChecksumReport => skip::<u128>(from).and_then(|()| skip::<Frame>(from)),
        Kind::KeepAlive => Ok(()),
    }
}

/// bincode's own outcome on the whole message: the message and how many bytes
/// it took, or the number of the refusal.  `deserialize` is what a user of the
/// crate calls, but only a reader shows how far bincode went.
fn whole(datagram: &[u8]) -> Result<(Message, u64), u8> {
    let mut reader = Cursor::new(datagram);
    let from_reader: Result<Message, u8> = field(&mut reader);
    let from_slice: Result<Message, u8> =
        bincode::deserialize(datagram).map_err(|error| number(&error));
    assert_eq!(
        from_reader, from_slice,
        "bincode's two ways of reading {datagram:02x?}"
    );
    from_slice.map(|message| (message, reader.position()))
}

/// Panics when the walk and bincode on the whole message disagree, unless a
/// count is above its limit: bincode goes on there.
pub fn answer(datagram: &[u8]) -> Answer {
    let mut reader = Cursor::new(datagram);
    let walked = walk(&mut reader);
    if walked == Err(TOO_LONG) {
        return Answer::Refused(TOO_LONG);
    }
    match (walked, whole(datagram)) {
        (Err(walked), Err(whole)) if walked == whole => Answer::Refused(whole),
        (Ok(()), Ok((message, taken))) if reader.position() == taken => {
            if taken == datagram.len() as u64 {
                Answer::Read(message)
            } else {
                Answer::Refused(EXTRA)
            }
        }
        (walked, whole) => panic!(
            "{datagram:02x?}: the walk gives {walked:?} after {} bytes, bincode {whole:?}",
            reader.position()
        ),
    }
}

/// Whether bincode alone, without our limits on counts, reads the datagram.
pub fn bincode_reads(datagram: &[u8]) -> bool {
    bincode::deserialize::<Message>(datagram).is_ok()
}
