//! Scripts and answers as text, one call after the other.

use std::fs;
use std::io::{BufWriter, Write};

use super::answers;
use super::record::{header, read_header, Call, Fields, Mode, Record, Setup, HEADER, SPECTATOR};
use super::tally::EVENTS;
use super::value;

const PHASES: [&str; 6] = ["absent", "Initializing", "Synchronizing", "Running", "Disconnected", "Shutdown"];

/// The script with these answers, or with the crate's own, which are then whole.
pub fn text(script: &str, answers: Option<&str>) -> Result<(), String> {
    let read = |path: &str| fs::read(path).map_err(|e| format!("{path}: {e}"));
    let mut script = read(script)?;
    let mut mode = read_header(&script).ok_or("no header of a script")?;
    let answers = match answers {
        Some(path) => read(path)?,
        None => {
            mode = Mode::Whole;
            script[..HEADER].copy_from_slice(&header(mode));
            answers::run(&script)?.0
        }
    };
    let mut rest = &script[HEADER..];
    let mut fields = Fields(&answers);
    let mut out = BufWriter::new(std::io::stdout().lock());
    let mut at = 0;
    while let Some((record, after)) = Record::read(rest) {
        let answer = given(&mut fields, mode, &record)?;
        // a reader that has seen enough closes the pipe
        if writeln!(out, "{at:>5} {}\n      -> {answer}", call(&record)).is_err() {
            return Ok(());
        }
        rest = after;
        at += 1;
    }
    Ok(())
}

fn object(object: u8) -> &'static str {
    ["A", "B", "spectator"].get(usize::from(object)).unwrap_or(&"?")
}

fn hex(bytes: &[u8]) -> String {
    let shown: String = bytes.iter().take(64).map(|b| format!("{b:02x}")).collect();
    let more = if bytes.len() > 64 { ".." } else { "" };
    format!("{} bytes {shown}{more}", bytes.len())
}

fn call(r: &Record) -> String {
    let mut text = format!("{} {}", object(r.object), r.call.name(r.object));
    let mut add = |name: &str, number: i128| {
        if number != 0 {
            text += &format!(" {name} {number}");
        }
    };
    add("now", i128::from(r.now));
    add("epoch", i128::from(r.epoch));
    add("nonce", i128::from(r.nonce));
    add("buffer", i128::from(r.buffer));
    add("frame", i128::from(r.frame));
    add("number", i128::from(r.number));
    if r.status_count > 0 {
        text += &format!(" statuses {}", r.status_count);
        for s in r.statuses.iter().take(usize::from(r.status_count)) {
            text += &format!(" ({} {})", u8::from(s.disconnected), s.last_frame);
        }
    }
    text + &payload(r)
}

fn payload(r: &Record) -> String {
    match r.call {
        _ if r.payload.is_empty() => String::new(),
        Call::New => format!(" {:?}", Setup::read(&r.payload)),
        Call::Message => format!(" {:?}", value::read(&r.payload)),
        Call::Datagram => {
            let message: Result<crate::Message, _> = bincode::deserialize(&r.payload);
            let message = message.map_or("malformed".to_owned(), |m| format!("{m:?}"));
            format!(" [{}] {message}", hex(&r.payload))
        }
        Call::Carry => {
            let mut f = Fields(&r.payload);
            format!(" from {} at {} length {}", object(f.u32() as u8), f.u32(), f.u32())
        }
        _ => format!(" [{}]", hex(&r.payload)),
    }
}

/// One answer: its head, then the digest, or what was given and the state.
fn given(f: &mut Fields, mode: Mode, r: &Record) -> Result<String, String> {
    if f.0.len() < 4 {
        return Err("the answers end before the script does".to_owned());
    }
    let (_, _, answer, _) = (f.u8(), f.u8(), f.u8(), f.u8());
    let mut text = format!("{answer}");
    if mode == Mode::Digest {
        text += &format!(" body {} bytes, crc {:08x}", f.u32(), f.u32());
        return Ok(text);
    }
    if answer == 0 {
        text += &handed_back(f, r);
    }
    text += "\n         ";
    text += &if r.object == SPECTATOR { spectator(f) } else { endpoint(f) };
    Ok(text)
}

fn handed_back(f: &mut Fields, r: &Record) -> String {
    match r.call {
        Call::TakeEvents => format!(" events {}", events(f, r.object == SPECTATOR)),
        Call::TakeMessages => format!(" messages {}", part(f)),
        Call::Act if r.object == SPECTATOR => format!(" messages {}", part(f)),
        Call::NetworkStats => {
            let ping = f.u64();
            format!(" ping {ping} queue {} local {} remote {}", f.u32(), f.u32() as i32, f.u32() as i32)
        }
        Call::PeerConnectStatus => format!(" disconnected {} last {}", f.u8(), f.u32() as i32),
        Call::Getters if r.object == SPECTATOR => {
            format!(" running {} current {} players {}", f.u8(), f.u32() as i32, f.u32())
        }
        Call::Getters => {
            let handles: Vec<u32> = (0..f.u32()).map(|_| f.u32()).collect();
            let flags = [f.u8(), f.u8(), f.u8()];
            format!(
                " handles {handles:?} synchronized, running, handling {flags:?} newest {}",
                f.u32() as i32
            )
        }
        Call::Buffer => format!(" crc {:08x}", f.u32()),
        Call::FramesBehind => format!(" {}", f.u32()),
        Call::Advance => advanced(f),
        _ => String::new(),
    }
}

fn advanced(f: &mut Fields) -> String {
    let frames = f.u32();
    let size = f.u8();
    let mut text = format!(" frames {frames}");
    for _ in 0..frames {
        text += " [";
        for _ in 0..f.u8() {
            let input: Vec<u8> = (0..size).map(|_| f.u8()).collect();
            text += &format!(
                " {} {}",
                hex(&input),
                ["Confirmed", "Predicted", "Disconnected"][usize::from(f.u8())]
            );
        }
        text += " ]";
    }
    text
}

fn part(f: &mut Fields) -> String {
    let bytes: Vec<u8> = (0..f.u32()).map(|_| f.u8()).collect();
    hex(&bytes)
}

/// An endpoint's events, or the session's, of which each has an address.
fn events(f: &mut Fields, addressed: bool) -> String {
    let list: Vec<String> = (0..f.u32()).map(|_| event(f, addressed)).collect();
    format!("{list:?}")
}

fn event(f: &mut Fields, addressed: bool) -> String {
    let tag = f.u8();
    let mut name = EVENTS[usize::from(tag)].to_owned();
    if addressed {
        name += &format!(" of {}", f.u32());
    }
    match tag {
        0 => format!("{name} {} {}", f.u32(), f.u32()),
        2 => {
            let (frame, handle) = (f.u32() as i32, f.u32());
            let input: Vec<u8> = (0..f.u8()).map(|_| f.u8()).collect();
            format!("{name} {frame} handle {handle} {}", hex(&input))
        }
        4 => format!("{name} {}", f.u64()),
        _ => name,
    }
}

fn stored(f: &mut Fields, width: usize) -> String {
    let frame = f.u32() as i32;
    let bytes: Vec<u8> = (0..width).map(|_| f.u8()).collect();
    format!("{frame}: {}", hex(&bytes))
}

fn stores(f: &mut Fields, width: usize) -> String {
    let list: Vec<String> = (0..f.u32()).map(|_| stored(f, width)).collect();
    format!("{list:?}")
}

fn statuses(f: &mut Fields) -> String {
    let list: Vec<String> = (0..f.u32()).map(|_| format!("{} {}", f.u8(), f.u32() as i32)).collect();
    format!("{list:?}")
}

fn endpoint(f: &mut Fields) -> String {
    let phase = f.u8();
    if phase == 0 {
        return PHASES[0].to_owned();
    }
    let players = f.u32();
    let handles: Vec<u32> = (0..f.u32()).map(|_| f.u32()).collect();
    let (size, sending) = (f.u32() as usize, f.u32() as usize);
    let mut text = format!(
        "{} players {players} handles {handles:?} S {size} sending {sending}",
        PHASES[usize::from(phase)]
    );
    text += &format!(" max_prediction {} fps {}", f.u32(), f.u32());
    text += &format!(" timeout {} notify {} peer {}", f.u64(), f.u64(), f.u32());
    text += &format!(" magic {} desync {} interval {}", f.u16(), f.u16(), f.u32());
    text += &format!(" sync_remaining {}", f.u32());
    let nonces: Vec<u32> = (0..f.u32()).map(|_| f.u32()).collect();
    text += &format!(" nonces {nonces:?} remote_magic {}", f.u16());
    text += &format!(" notify_sent {} event_sent {}", f.u8(), f.u8());
    for name in ["report", "input_recv", "send", "sync_request", "recv", "shutdown", "start", "rtt"] {
        text += &format!(" {name} {}", f.u64());
    }
    text += &format!(" local {} remote {}", f.u32() as i32, f.u32() as i32);
    text += &format!(" statuses {}", statuses(f));
    text += &format!(" pending {}", stores(f, sending));
    text += &format!(" acked {}", stored(f, sending));
    text += &format!(" history {}", stores(f, size * handles.len()));
    let checksums: Vec<String> =
        (0..f.u32()).map(|_| format!("{}: {} {}", f.u32() as i32, f.u64(), f.u64())).collect();
    text += &format!(" checksums {checksums:?}");
    text += &format!(" events {}", events(f, false));
    text + &format!(" queued {}", part(f))
}

fn spectator(f: &mut Fields) -> String {
    let state = f.u8();
    if state == 0 {
        return PHASES[0].to_owned();
    }
    let players = f.u32();
    let mut text =
        format!("session {} players {players}", ["Synchronizing", "Running"][usize::from(state) - 1]);
    text += &format!(" max_behind {} speed {}", f.u32(), f.u32());
    text += &format!(" current {} newest {}", f.u32() as i32, f.u32() as i32);
    let slots = f.u32();
    text += &format!(" slots {slots} ");
    // the slots hold inputs of S bytes, and S stands in the host's part behind them
    let size = slot_size(f, slots, players);
    for slot in 0..slots {
        let inputs: Vec<String> = (0..players).map(|_| stored(f, size)).collect();
        text += &format!("{slot}:{inputs:?} ");
    }
    text += &format!("statuses {} events {}\n          host ", statuses(f), events(f, true));
    text + &endpoint(f)
}

/// S is the one size for which the count of statuses behind the slots is that of the players.
fn slot_size(f: &Fields, slots: u32, players: u32) -> usize {
    let fits = |size: &usize| {
        let at = (slots * players) as usize * (4 + size);
        f.0.get(at..at + 4) == Some(&players.to_le_bytes())
    };
    (1..=16).find(fits).unwrap_or(1)
}
