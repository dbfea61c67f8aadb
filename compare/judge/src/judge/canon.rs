//! The canonical form of events and states: little-endian, counts first, in the order of
//! docs/REPLAY.md.

use super::config::Cfg;
use super::snapshot::{Snapshot, SpectatorSnapshot, Stored};
use crate::network::messages::ConnectionStatus;
use crate::network::protocol::Event;
use crate::{DesyncDetection, GgrsEvent};

fn u32_of(out: &mut Vec<u8>, n: usize) {
    out.extend(u32::try_from(n).expect("a count").to_le_bytes());
}

fn stored(out: &mut Vec<u8>, input: &Stored) {
    out.extend(input.frame.to_le_bytes());
    out.extend(&input.bytes);
}

fn stores(out: &mut Vec<u8>, inputs: &[Stored]) {
    u32_of(out, inputs.len());
    for input in inputs {
        stored(out, input);
    }
}

pub(crate) fn status(out: &mut Vec<u8>, status: &ConnectionStatus) {
    out.push(u8::from(status.disconnected));
    out.extend(status.last_frame.to_le_bytes());
}

fn statuses(out: &mut Vec<u8>, list: &[ConnectionStatus]) {
    u32_of(out, list.len());
    for one in list {
        status(out, one);
    }
}

fn event(out: &mut Vec<u8>, event: &Event<Cfg>) {
    match event {
        Event::Synchronizing { total, count } => {
            out.push(0);
            progress(out, *total, *count);
        }
        Event::Synchronized => out.push(1),
        Event::Input { input, player } => {
            out.push(2);
            out.extend(input.frame.to_le_bytes());
            u32_of(out, *player);
            out.push(input.input.as_slice().len() as u8);
            out.extend(input.input.as_slice());
        }
        Event::Disconnected => out.push(3),
        Event::NetworkInterrupted { disconnect_timeout } => {
            out.push(4);
            remaining(out, *disconnect_timeout);
        }
        Event::NetworkResumed => out.push(5),
    }
}

fn progress(out: &mut Vec<u8>, total: u32, count: u32) {
    out.extend(total.to_le_bytes());
    out.extend(count.to_le_bytes());
}

fn remaining(out: &mut Vec<u8>, disconnect_timeout: u128) {
    out.extend(u64::try_from(disconnect_timeout).expect("at most 2^31").to_le_bytes());
}

pub(crate) fn events(out: &mut Vec<u8>, list: &[Event<Cfg>]) {
    u32_of(out, list.len());
    for one in list {
        event(out, one);
    }
}

/// A session's event begins with the tag of the endpoint's and the event's address.
fn session_event(out: &mut Vec<u8>, event: &GgrsEvent<Cfg>) {
    match event {
        GgrsEvent::Synchronizing { addr, total, count } => {
            addressed(out, 0, *addr);
            progress(out, *total, *count);
        }
        GgrsEvent::Synchronized { addr } => addressed(out, 1, *addr),
        GgrsEvent::Disconnected { addr } => addressed(out, 3, *addr),
        GgrsEvent::NetworkInterrupted { addr, disconnect_timeout } => {
            addressed(out, 4, *addr);
            remaining(out, *disconnect_timeout);
        }
        GgrsEvent::NetworkResumed { addr } => addressed(out, 5, *addr),
        GgrsEvent::WaitRecommendation { .. } | GgrsEvent::DesyncDetected { .. } => {
            panic!("a spectator announces no such event")
        }
    }
}

fn addressed(out: &mut Vec<u8>, tag: u8, addr: u32) {
    out.push(tag);
    out.extend(addr.to_le_bytes());
}

pub(crate) fn session_events(out: &mut Vec<u8>, list: &[GgrsEvent<Cfg>]) {
    u32_of(out, list.len());
    for one in list {
        session_event(out, one);
    }
}

pub(crate) fn endpoint(out: &mut Vec<u8>, s: &Snapshot) {
    out.push(s.phase as u8);
    setup_part(out, s);
    handshake_part(out, s);
    for clock in [
        s.clocks.quality_report,
        s.clocks.input_recv,
        s.clocks.send,
        s.clocks.sync_request,
        s.clocks.recv,
        s.clocks.shutdown,
        s.stats_start,
        s.round_trip_time,
    ] {
        out.extend(clock.to_le_bytes());
    }
    out.extend(s.local_advantage.to_le_bytes());
    out.extend(s.remote_advantage.to_le_bytes());
    statuses(out, &s.statuses);
    stores(out, &s.pending);
    stored(out, &s.acked);
    stores(out, &s.history);
    u32_of(out, s.checksums.len());
    for (frame, checksum) in &s.checksums {
        out.extend(frame.to_le_bytes());
        out.extend(checksum.to_le_bytes());
    }
    events(out, &s.events);
    u32_of(out, s.queued.len());
    out.extend(&s.queued);
}

/// What setup fixed.
fn setup_part(out: &mut Vec<u8>, s: &Snapshot) {
    u32_of(out, s.num_players);
    u32_of(out, s.handles.len());
    for handle in &s.handles {
        u32_of(out, *handle);
    }
    u32_of(out, s.input_size);
    u32_of(out, s.sending_width());
    u32_of(out, s.max_prediction);
    u32_of(out, s.fps);
    out.extend(s.disconnect_timeout.to_le_bytes());
    out.extend(s.disconnect_notify_start.to_le_bytes());
    out.extend(s.peer.to_le_bytes());
    out.extend(s.magic.to_le_bytes());
    let (on, interval) = match s.desync {
        DesyncDetection::On { interval } => (1u16, interval),
        DesyncDetection::Off => (0, 0),
    };
    out.extend(on.to_le_bytes());
    out.extend(interval.to_le_bytes());
}

fn handshake_part(out: &mut Vec<u8>, s: &Snapshot) {
    out.extend(s.sync_remaining.to_le_bytes());
    u32_of(out, s.nonces.len());
    for nonce in &s.nonces {
        out.extend(nonce.to_le_bytes());
    }
    out.extend(s.remote_magic.to_le_bytes());
    out.push(u8::from(s.notify_sent));
    out.push(u8::from(s.event_sent));
}

pub(crate) fn spectator(out: &mut Vec<u8>, s: &SpectatorSnapshot) {
    out.push(1 + u8::from(s.running));
    u32_of(out, s.num_players);
    u32_of(out, s.max_frames_behind);
    u32_of(out, s.catchup_speed);
    out.extend(s.current_frame.to_le_bytes());
    out.extend(s.last_recv_frame.to_le_bytes());
    u32_of(out, s.slots.len());
    for slot in &s.slots {
        for input in slot {
            stored(out, input);
        }
    }
    statuses(out, &s.host_statuses);
    session_events(out, &s.events);
    endpoint(out, &s.host);
}

/// CRC-32 as in zip and Ethernet: polynomial 0xEDB88320, bits low first, all ones before and after.
pub fn crc32(bytes: &[u8]) -> u32 {
    let mut crc = u32::MAX;
    for byte in bytes {
        crc = (crc >> 8) ^ CRC_TABLE[((crc ^ u32::from(*byte)) & 0xff) as usize];
    }
    !crc
}

const CRC_TABLE: [u32; 256] = crc_table();

const fn crc_table() -> [u32; 256] {
    let mut table = [0; 256];
    let mut at = 0;
    while at < 256 {
        let mut crc = at as u32;
        let mut bit = 0;
        while bit < 8 {
            crc = if crc & 1 == 1 { (crc >> 1) ^ 0xEDB8_8320 } else { crc >> 1 };
            bit += 1;
        }
        table[at] = crc;
        at += 1;
    }
    table
}
