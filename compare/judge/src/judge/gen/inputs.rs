//! Every rule about an Input packet, one after the other, on an endpoint and on a spectator's host.

use super::good_setups::plain;
use super::message::with_magic;
use super::script::{Gen, A};
use crate::judge::record::{Call, Record, Setup, SPECTATOR};
use crate::judge::snapshot::Phase;
use crate::judge::value;
use crate::network::messages::{ConnectionStatus, Input, MessageBody};

pub(crate) fn rows(g: &mut Gen) {
    for object in [A, SPECTATOR] {
        for connected in [false, true] {
            discarded(g, object, connected);
            received(g, object, connected);
            ends_of_i32(g, object, connected);
        }
    }
    merged_and_acknowledged(g);
    disconnect_requested(g);
}

fn fresh(g: &mut Gen, object: u8, connected: bool) {
    g.make(object, &Setup { input_size: 2, ..plain() });
    if connected {
        g.connect(object, 0);
    }
}

/// An Input of so many frames, edited, handed over as a datagram where it fits one.
fn packet(g: &mut Gen, object: u8, start: i32, frames: usize, edit: fn(&mut Input)) {
    let message = edited(g, object, start, frames, edit);
    g.hand(object, &message);
}

fn edited(g: &mut Gen, object: u8, start_frame: i32, frames: usize, edit: fn(&mut Input)) -> crate::Message {
    let (players, width) = (g.host(object).num_players, g.host(object).receiving_width());
    let mut body = Input {
        peer_connect_status: vec![ConnectionStatus::default(); players],
        disconnect_requested: false,
        start_frame,
        ack_frame: -1,
        bytes: g.rng.bytes(frames * width),
    };
    edit(&mut body);
    with_magic(0, MessageBody::Input(body))
}

/// The same as a value, whatever its size.
fn value_packet(g: &mut Gen, object: u8, start: i32, frames: usize, edit: fn(&mut Input)) {
    let message = edited(g, object, start, frames, edit);
    let mut r = g.record(Call::Message, object);
    r.number = g.host(object).peer;
    r.payload = value::write(&message);
    g.issue(r);
}

fn discarded(g: &mut Gen, object: u8, connected: bool) {
    fresh(g, object, connected);
    for start in [-1, -2, i32::MIN] {
        packet(g, object, start, 1, |_| ());
    }
    packet(g, object, 0, 1, |b| b.peer_connect_status.clear());
    packet(g, object, 0, 1, |b| b.peer_connect_status.truncate(1));
    packet(g, object, 0, 1, |b| b.peer_connect_status.resize(4, ConnectionStatus::default()));
    value_packet(g, object, 0, 1, |b| b.peer_connect_status.resize(5, ConnectionStatus::default()));
    value_packet(g, object, 0, 1, |b| b.peer_connect_status.resize(255, ConnectionStatus::default()));
    packet(g, object, -1, 130, |_| ());
    value_packet(g, object, 0, 130, |b| b.peer_connect_status.clear());
}

fn received(g: &mut Gen, object: u8, connected: bool) {
    fresh(g, object, connected);
    g.pass(7);
    packet(g, object, 0, 0, |_| ());
    packet(g, object, 900, 0, |_| ());
    packet(g, object, 0, 1, |b| b.bytes.push(1));
    packet(g, object, 0, 130, |_| ());
    value_packet(g, object, 0, 129, |b| b.bytes.push(1));
    packet(g, object, 0, 2, |_| ());
    packet(g, object, 0, 4, |_| ());
    packet(g, object, 0, 4, |_| ());
    packet(g, object, 2, 3, |_| ());
    packet(g, object, 4, 0, |_| ());
    packet(g, object, 6, 1, |b| b.ack_frame = 3);
    packet(g, object, 99, 1, |b| b.bytes.push(1));
    packet(g, object, 99, 130, |_| ());
    value_packet(g, object, 99, 130, |_| ());
    packet(g, object, 5, 1, |b| b.bytes.push(7));
    let start = g.host(object).newest() + 1;
    packet(g, object, start, 129, |_| ());
    // both ends of what the keep line leaves: newest - 4 is the oldest reference
    let newest = g.host(object).newest();
    for start in [newest - 4, newest - 3, newest - 2, newest, newest + 1] {
        packet(g, object, start, 1, |_| ());
    }
    empty(g, object);
}

fn ends_of_i32(g: &mut Gen, object: u8, connected: bool) {
    fresh(g, object, connected);
    packet(g, object, i32::MAX, 2, |_| ());
    value_packet(g, object, i32::MAX - 1, 3, |_| ());
    packet(g, object, i32::MAX - 1, 2, |_| ());
    packet(g, object, i32::MAX - 1, 3, |_| ());
    packet(g, object, i32::MAX, 1, |_| ());
    packet(g, object, i32::MAX, 0, |_| ());
    packet(g, object, i32::MAX, 2, |b| b.bytes.push(0));
    empty(g, object);
}

/// Takes what is announced and queued.
fn empty(g: &mut Gen, object: u8) {
    if object == SPECTATOR {
        g.act(object);
        g.call(Call::Advance, object);
    } else {
        g.call(Call::TakeMessages, object);
    }
    g.call(Call::TakeEvents, object);
}

/// Acknowledgements and statuses count with a reference, without one, and undecodable.
fn merged_and_acknowledged(g: &mut Gen) {
    fresh(g, A, true);
    for _ in 0..9 {
        g.send(A, 0);
    }
    packet(g, A, 0, 1, |b| {
        b.ack_frame = 1;
        b.peer_connect_status[0] = ConnectionStatus { disconnected: true, last_frame: 4 };
    });
    packet(g, A, 7, 1, |b| {
        b.ack_frame = 3;
        b.peer_connect_status[1].last_frame = 6;
    });
    packet(g, A, 1, 1, |b| {
        b.ack_frame = 5;
        b.bytes.push(0);
        b.peer_connect_status[0].last_frame = 2;
    });
    packet(g, A, 1, 1, |b| b.ack_frame = i32::MAX);
    g.send(A, 0);
    for handle in 0..3 {
        let mut r = Record::new(Call::PeerConnectStatus, A);
        r.number = handle;
        g.issue(r);
    }
}

fn disconnect_requested(g: &mut Gen) {
    for connected in [false, true] {
        fresh(g, A, connected);
        packet(g, A, -1, 1, |b| b.disconnect_requested = true);
        packet(g, A, 0, 1, |b| {
            b.disconnect_requested = true;
            b.peer_connect_status.clear();
        });
        packet(g, A, 1, 1, |b| {
            b.disconnect_requested = true;
            b.peer_connect_status[0] = ConnectionStatus { disconnected: true, last_frame: 9 };
        });
        fresh(g, A, connected);
        g.call(Call::Disconnect, A);
        assert_eq!(g.phase(A), Phase::Disconnected);
        packet(g, A, 0, 1, |b| b.disconnect_requested = true);
    }
}
