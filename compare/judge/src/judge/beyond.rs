//! What the crate does where the rules refuse a call or differ: the smallest inputs, run on the
//! crate itself. The build with overflow checks shows where it would overflow.

use std::panic::{catch_unwind, AssertUnwindSafe};

use super::audit::{last_panic, overflow_checks};
use super::config::Cfg;
use super::end::{inputs, End, Readings};
use super::gen::good_setups::plain;
use super::gen::message::with_magic;
use super::record::Setup;
use super::watcher::Watcher;
use crate::network::messages::{
    ChecksumReport, ConnectionStatus, Input, InputAck, Message, MessageBody, QualityReply, SyncReply,
};
use crate::network::protocol::{Event, UdpProtocol};

struct Case {
    /// What is given, and what the rules answer.
    given: &'static str,
    answer: &'static str,
    /// What the crate does.
    run: fn() -> String,
}

const NOW: u64 = 10_000;

fn readings(now: u64, nonce: u32) -> Readings {
    Readings { now: Some(now), epoch: Some(1_000_000_000), nonce: Some(nonce), magic: None }
}

fn fresh() -> End {
    End::new(&plain(), NOW)
}

fn hand(end: &mut End, body: MessageBody) {
    end.run(readings(NOW, 0), |p| p.handle_message(&with_magic(9, body)));
}

fn statuses(count: usize) -> Vec<ConnectionStatus> {
    vec![ConnectionStatus::default(); count]
}

fn packet(start_frame: i32, frames: usize) -> MessageBody {
    MessageBody::Input(Input {
        peer_connect_status: statuses(2),
        disconnect_requested: false,
        start_frame,
        ack_frame: -1,
        bytes: vec![1; frames],
    })
}

fn connected() -> End {
    let mut end = fresh();
    end.run(readings(NOW, 1), |p| p.synchronize());
    for nonce in 1..=5 {
        let body = MessageBody::SyncReply(SyncReply { random_reply: nonce });
        end.run(readings(NOW, nonce + 1), |p| p.handle_message(&with_magic(9, body)));
    }
    end.run(Readings::default(), |p| {
        p.take_events();
    });
    end
}

fn request_time(at: u32) -> u64 {
    NOW + 201 * u64::from(at)
}

/// The crate after requests 0 to 256, each with its number for a nonce. The last is made on a copy, where nothing is
/// forgotten.
fn asking() -> UdpProtocol<Cfg> {
    let mut end = fresh();
    end.run(readings(NOW, 0), |p| p.synchronize());
    for at in 1..=255 {
        end.run(readings(request_time(at), at), |p| p.act(&statuses(2)));
    }
    end.try_on_copy(readings(request_time(256), 256), |p| p.act(&statuses(2)))
}

fn send(end: &mut End, frame: i32, bytes: &[u8], count: usize) {
    let given = inputs(frame, bytes, 1);
    end.run(readings(NOW, 0), |p| p.send_input(&given, &statuses(count)));
}

fn frames(end: &End) -> Vec<i32> {
    let announced = |e: &Event<_>| match e {
        Event::Input { input, .. } => Some(input.frame),
        _ => None,
    };
    end.snapshot().events.iter().filter_map(announced).collect()
}

fn advantage(newest: i32, rtt: u64, local_frame: i32) -> String {
    let mut end = fresh();
    hand(&mut end, packet(newest, 1));
    let pong = u128::from(1_000_000_000 - rtt);
    hand(&mut end, MessageBody::QualityReply(QualityReply { pong }));
    end.run(Readings::default(), |p| p.update_local_frame_advantage(local_frame));
    format!("local advantage {}", end.snapshot().local_advantage)
}

fn checksums(count: i32, then: i32) -> String {
    let mut end = fresh();
    for frame in (0..count).rev() {
        hand(&mut end, MessageBody::ChecksumReport(ChecksumReport { checksum: 1, frame }));
    }
    hand(&mut end, MessageBody::ChecksumReport(ChecksumReport { checksum: 2, frame: then }));
    let held = end.snapshot().checksums;
    format!("{} stored, the lowest of frame {}", held.len(), held[0].0)
}

fn stats(start: u64, epoch: u64) -> String {
    let mut end = fresh();
    let at = |epoch| Readings { now: Some(NOW), epoch: Some(epoch), nonce: Some(1), magic: None };
    end.run(at(start), |p| p.synchronize());
    end.run(at(epoch), |p| match p.network_stats() {
        Ok(stats) => format!("statistics, ping {}", stats.ping),
        Err(error) => format!("{error:?}"),
    })
}

fn setup(edit: fn(&mut Setup)) -> String {
    let mut setup = plain();
    edit(&mut setup);
    let mut end = End::new(&setup, NOW);
    hand(&mut end, packet(0, 2));
    format!("accepted; a packet of 2 bytes announces {} events", end.snapshot().events.len())
}

fn watching(edit: fn(&mut Setup)) -> Watcher {
    let mut setup = plain();
    edit(&mut setup);
    let mut watcher = Watcher::new(&setup, NOW);
    watcher.run(readings(NOW, 1), |s| s.host_mut().synchronize());
    for nonce in 1..=5 {
        let body = MessageBody::SyncReply(SyncReply { random_reply: nonce });
        watcher.run(readings(NOW, nonce + 1), |s| s.host_mut().handle_message(&with_magic(9, body)));
    }
    watcher
}

fn show(bytes: &[u8], what: &str) -> String {
    let read: Result<Message, _> = bincode::deserialize(bytes);
    format!("bincode {} {what}", if read.is_ok() { "reads" } else { "refuses" })
}

fn input_bytes(count: u64, payload: usize) -> Vec<u8> {
    let mut bytes = vec![1, 0, 2, 0, 0, 0];
    bytes.extend(count.to_le_bytes());
    bytes.extend(vec![0; 5 * count as usize + 9]);
    bytes.extend((payload as u64).to_le_bytes());
    bytes.extend(vec![0; payload]);
    bytes
}

const CASES: [Case; 33] = [
    Case {
        given: "packet, start i32 max, two frames, none received yet",
        answer: "6",
        run: || {
            let mut end = fresh();
            hand(&mut end, packet(i32::MAX, 2));
            format!("announces frames {:?}; the wrapped one is skipped as old", frames(&end))
        },
    },
    Case {
        given: "advantage, round trip 71,582,790, fps 60, newest 0, local 0 (product)",
        answer: "6",
        run: || advantage(0, 71_582_790, 0),
    },
    Case {
        given: "the same with round trip 71,582,789",
        answer: "0, 2,147,483",
        run: || advantage(0, 71_582_789, 0),
    },
    Case {
        given: "advantage, newest i32 max, round trip 34, local 0 (sum)",
        answer: "6",
        run: || advantage(i32::MAX, 34, 0),
    },
    Case {
        given: "advantage, newest 0, round trip 0, local i32 min (difference)",
        answer: "6",
        run: || advantage(0, 0, i32::MIN),
    },
    Case {
        given: "checksum of frame i32 min + 30 with 32 stored, interval 1",
        answer: "6",
        run: || checksums(32, i32::MIN + 30),
    },
    Case { given: "the same with 31 stored", answer: "0, 32 stored", run: || checksums(31, i32::MIN + 30) },
    Case { given: "the 65th checksum, frames descending", answer: "5", run: || checksums(64, -1) },
    Case { given: "network_stats, start 5,000, epoch 4,999", answer: "15", run: || stats(5_000, 4_999) },
    Case {
        given: "synchronize in Synchronizing",
        answer: "2",
        run: || {
            let mut end = fresh();
            end.run(readings(NOW, 1), |p| p.synchronize());
            end.run(readings(NOW, 2), |p| p.synchronize());
            "done".to_owned()
        },
    },
    Case {
        given: "peer_connect_status of handle 2, two players",
        answer: "7",
        run: || format!("{:?}", fresh().protocol.peer_connect_status(2)),
    },
    Case {
        given: "send_input of frame -5 as the first",
        answer: "4",
        run: || {
            let mut end = connected();
            send(&mut end, -5, &[1], 2);
            format!("pending {:?}", end.snapshot().pending.iter().map(|p| p.frame).collect::<Vec<_>>())
        },
    },
    Case {
        given: "send_input of frame 0, then 5",
        answer: "0, then 4",
        run: || {
            let mut end = connected();
            send(&mut end, 0, &[1], 2);
            send(&mut end, 5, &[1], 2);
            format!("pending {:?}", end.snapshot().pending.iter().map(|p| p.frame).collect::<Vec<_>>())
        },
    },
    Case {
        given: "the same, then an ack of 0 and the next send",
        answer: "(the second is refused)",
        run: || {
            let mut end = connected();
            send(&mut end, 0, &[1], 2);
            send(&mut end, 5, &[1], 2);
            hand(&mut end, MessageBody::InputAck(InputAck { ack_frame: 0 }));
            send(&mut end, 6, &[1], 2);
            "done".to_owned()
        },
    },
    Case {
        given: "send_input with three statuses, two players",
        answer: "3",
        run: || {
            let mut end = connected();
            end.take_messages();
            send(&mut end, 0, &[1], 3);
            format!("a message of {} bytes", end.snapshot().queued.len())
        },
    },
    Case {
        given: "send_input of one byte more than the sending width",
        answer: "3",
        run: || {
            let mut end = connected();
            send(&mut end, 0, &[1, 2], 2);
            format!("pending input of {} bytes", end.snapshot().pending[0].bytes.len())
        },
    },
    Case {
        given: "the 130th pending input",
        answer: "5",
        run: || {
            let mut end = connected();
            for frame in 0..130 {
                send(&mut end, frame, &[1], 2);
            }
            let s = end.snapshot();
            format!("{} pending, {} Disconnected announced", s.pending.len(), s.events.len())
        },
    },
    Case {
        given: "a packet of 130 frames at W = 1",
        answer: "12",
        run: || {
            let mut end = fresh();
            hand(&mut end, packet(0, 130));
            format!("announces {} frames", frames(&end).len())
        },
    },
    Case {
        given: "641 events (five packets of 129 frames, never taken)",
        answer: "5 at the fifth",
        run: || {
            let mut end = fresh();
            for at in 0..5 {
                hand(&mut end, packet(129 * at, 129));
            }
            format!("{} events", end.snapshot().events.len())
        },
    },
    Case {
        given: "the 257th outstanding nonce",
        answer: "0, 256 outstanding: the oldest is forgotten",
        run: || format!("{} outstanding", asking().outstanding_nonces().len()),
    },
    Case {
        given: "the same, then a reply to the first of them",
        answer: "0, heard, and nothing else",
        run: || {
            let mut protocol = asking();
            let body = MessageBody::SyncReply(SyncReply { random_reply: 0 });
            readings(request_time(256), 257).set();
            protocol.handle_message(&with_magic(9, body));
            format!("announces {:?}", protocol.take_events())
        },
    },
    Case { given: "a KeepAlive and one byte more", answer: "13", run: || show(&[1, 0, 7, 0, 0, 0, 0], "it") },
    Case {
        given: "an Input of five statuses",
        answer: "12",
        run: || show(&input_bytes(5, 0), "it; the endpoint discards it"),
    },
    Case {
        given: "an Input of 8,257 payload bytes",
        answer: "12",
        run: || show(&input_bytes(2, 8_257), "it"),
    },
    Case {
        given: "setup with handles 1 and 1",
        answer: "1",
        run: || setup(|s| (s.handle_count, s.handles) = (2, [1, 1, 0, 0])),
    },
    Case { given: "setup with fps 0", answer: "1", run: || setup(|s| s.fps = 0) },
    Case { given: "setup with max_prediction 17", answer: "1", run: || setup(|s| s.max_prediction = 17) },
    Case {
        given: "setup with more local players than players",
        answer: "1",
        run: || setup(|s| s.local_players = 3),
    },
    Case {
        given: "setup with desync detection on, interval 0",
        answer: "1",
        run: || setup(|s| s.desync_on = true),
    },
    Case {
        given: "a message from another peer, given to the endpoint",
        answer: "0, nothing changes",
        run: || {
            let mut end = fresh();
            hand(&mut end, packet(0, 1));
            format!(
                "handles it ({} event): the session asks for the peer, not the endpoint",
                end.snapshot().events.len()
            )
        },
    },
    Case {
        given: "spectator, frames_behind with newest i32 max, current -1",
        answer: "6",
        run: || {
            let mut watcher = watching(|_| ());
            watcher
                .run(readings(NOW, 0), |s| s.host_mut().handle_message(&with_magic(9, packet(i32::MAX, 2))));
            watcher.run(readings(NOW, 0), |s| s.poll_remote_clients());
            format!("{}", watcher.run(Readings::default(), |s| s.frames_behind_host()))
        },
    },
    Case {
        given: "spectator, 257th outstanding nonce in a poll",
        answer: "0, 256 outstanding: the oldest is forgotten",
        run: || {
            let mut watcher = Watcher::new(&plain(), NOW);
            watcher.run(readings(NOW, 0), |s| s.host_mut().synchronize());
            for at in 1..=255 {
                watcher.run(readings(request_time(at), at), |s| s.poll_remote_clients());
            }
            readings(request_time(256), 256).set();
            watcher.session.poll_remote_clients();
            format!("{} outstanding", watcher.session.host().outstanding_nonces().len())
        },
    },
    Case {
        given: "a checksum report while desync detection is off",
        answer: "0, stored (interval 1)",
        run: || checksums(0, 4),
    },
];

pub fn print() -> Result<(), String> {
    let checks = if overflow_checks() { "on" } else { "off" };
    println!("overflow checks {checks}\n");
    println!("| given | the rules | the crate |\n|---|---|---|");
    for case in CASES {
        let outcome = catch_unwind(AssertUnwindSafe(case.run));
        let text = outcome.unwrap_or_else(|_| format!("panics, {}", first_line(&last_panic())));
        println!("| {} | {} | {text} |", case.given, case.answer);
    }
    Ok(())
}

fn first_line(text: &str) -> &str {
    text.lines().next().unwrap_or_default()
}
