//! The worked bouts P1 to P14, run on the crate and held against their outcomes.

use super::good_setups::plain;
use super::message::{cut, with_magic};
use super::script::{Gen, A, B};
use crate::judge::record::{Call, Record, Setup};
use crate::judge::snapshot::Phase;
use crate::network::messages::{ConnectionStatus, Input, Message, MessageBody, QualityReply};
use crate::network::protocol::Event;

pub(crate) fn all(g: &mut Gen) {
    p1_p2(g);
    p3_to_p6(g);
    p7_to_p10(g);
    p11_p12(g);
    p13_p14(g);
}

fn fresh(g: &mut Gen, object: u8, setup: &Setup) {
    assert_eq!(g.make(object, setup), 0);
}

fn packet(start_frame: i32, bytes: &[u8]) -> Message {
    let status = ConnectionStatus { disconnected: false, last_frame: start_frame };
    with_magic(
        9,
        MessageBody::Input(Input {
            peer_connect_status: vec![status; 2],
            disconnect_requested: false,
            start_frame,
            ack_frame: -1,
            bytes: bytes.to_vec(),
        }),
    )
}

/// The frames announced by the calls since the last look, and the acknowledgements queued.
fn announced(g: &mut Gen, object: u8) -> (Vec<(i32, Vec<u8>)>, Vec<i32>) {
    let s = g.host(object).clone();
    let frames = s.events.iter().filter_map(|e| match e {
        Event::Input { input, .. } => Some((input.frame, input.input.as_slice().to_vec())),
        _ => None,
    });
    let frames = frames.collect();
    let mut acks = Vec::new();
    for (start, end) in cut(&s.queued) {
        let message: Message = bincode::deserialize(&s.queued[start..end]).expect("queued");
        if let MessageBody::InputAck(body) = message.body {
            acks.push(body.ack_frame);
        }
    }
    g.call(Call::TakeEvents, object);
    g.call(Call::TakeMessages, object);
    (frames, acks)
}

fn given(g: &mut Gen, object: u8, start: i32, bytes: &[u8]) -> (Vec<(i32, Vec<u8>)>, Vec<i32>) {
    let mut r = g.record(Call::Datagram, object);
    r.number = g.host(object).peer;
    r.payload = bincode::serialize(&packet(start, bytes)).expect("messages serialize");
    assert_eq!(g.issue(r).answer, 0);
    announced(g, object)
}

fn p1_p2(g: &mut Gen) {
    fresh(g, A, &plain());
    let bytes = vec![0x34, 0x12, 3, 0, 0, 0, 0xFF, 0xFF, 0xFF, 0xFF];
    let handed = [(bytes.clone(), 0), (bytes[..9].to_vec(), 9), ([&bytes[..], &[0]].concat(), 13)];
    for (datagram, answer) in handed {
        let mut r = g.record(Call::Datagram, A);
        r.number = g.host(A).peer;
        r.payload = datagram;
        assert_eq!(g.issue(r).answer, answer);
    }
}

fn p3_to_p6(g: &mut Gen) {
    fresh(g, A, &plain());
    let two = vec![(0, vec![5]), (1, vec![7])];
    assert_eq!(given(g, A, 0, &[5, 7]), (two, vec![1]));
    assert_eq!(given(g, A, 0, &[5, 7]), (vec![], vec![1]));
    assert_eq!(given(g, A, 2, &[2]), (vec![(2, vec![5])], vec![2]));
    assert_eq!(given(g, A, 4, &[1]), (vec![], vec![]));
    assert_eq!(g.host(A).statuses[0].last_frame, 4);
}

fn p7_to_p10(g: &mut Gen) {
    fresh(g, A, &plain());
    assert_eq!(given(g, A, -1, &[5]), (vec![], vec![]));
    assert_eq!(g.host(A).statuses[0].last_frame, -1);
    fresh(g, A, &plain());
    assert_eq!(given(g, A, 7, &[5]), (vec![(7, vec![5])], vec![7]));
    assert_eq!(given(g, A, 7, &[5]), (vec![], vec![]));
    fresh(g, A, &plain());
    assert_eq!(given(g, A, 0, &[]), (vec![], vec![-1]));
    fresh(g, B, &Setup { input_size: 2, ..plain() });
    g.pass(50);
    assert_eq!(given(g, B, 0, &[1, 2, 3]), (vec![], vec![]));
    assert_eq!(g.host(B).clocks.input_recv, g.now);
}

fn p11_p12(g: &mut Gen) {
    g.now = 1_000;
    fresh(g, A, &plain());
    g.call(Call::Synchronize, A);
    g.call(Call::TakeMessages, A);
    for (now, queued) in [(1_200, 0), (1_201, 10)] {
        g.now = now;
        g.act(A);
        assert_eq!(g.host(A).queued.len(), queued);
    }
    g.now = 1_000;
    g.call(Call::Disconnect, A);
    for (now, phase) in [(6_000, Phase::Disconnected), (6_001, Phase::Shutdown)] {
        g.now = now;
        g.act(A);
        assert_eq!(g.phase(A), phase);
    }
}

fn p13_p14(g: &mut Gen) {
    for (local_frame, reported) in [(50_000 - 40_000, 32_767i16), (50_000 + 40_000, -32_768)] {
        fresh(g, A, &plain());
        g.connect(A, 9);
        given(g, A, 50_000, &[1]);
        advantage(g, local_frame);
        assert_eq!(g.host(A).local_advantage, 50_000 - local_frame);
        g.pass(201);
        g.act(A);
        let head = [&[0x34, 0x12, 4, 0, 0, 0][..], &reported.to_le_bytes()].concat();
        let queued = &g.host(A).queued;
        assert!(queued.windows(8).any(|w| w == head));
    }
    fresh(g, A, &plain());
    given(g, A, 10, &[1]);
    let pong = u128::from(g.epoch - 100);
    g.hand(A, &with_magic(9, MessageBody::QualityReply(QualityReply { pong })));
    assert_eq!(g.host(A).round_trip_time, 100);
    advantage(g, 12);
    assert_eq!(g.host(A).local_advantage, 1);
}

fn advantage(g: &mut Gen, local_frame: i32) {
    let mut r = Record::new(Call::UpdateLocalFrameAdvantage, A);
    r.frame = local_frame;
    g.issue(r);
}
