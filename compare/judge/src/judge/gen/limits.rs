//! Scripts that run into one ceiling each: nonces, pending inputs, events, checksums, buffers,
//! clocks.

use super::good_setups::{any, plain};
use super::message::with_magic;
use super::moves::{act_record, answer, ask, ask_with, fill_events, fill_nonces, look, plain_input};
use super::script::{Gen, A, B};
use crate::judge::record::{Call, Record, Setup, BUFFER};
use crate::judge::refusals::{CLOCK_MAX, EVENTS_MAX, PENDING_MAX};
use crate::judge::snapshot::Phase;
use crate::judge::value;
use crate::network::messages::{
    ChecksumReport, Input, InputAck, MessageBody, QualityReply, QualityReport, SyncReply, SyncRequest,
};

/// The magic of whoever answers requests.
const MAGIC: u16 = 5;

/// 256 outstanding, then one of them again, then others, each of which forgets the oldest; replies to what was
/// forgotten and to what is left.
pub(crate) fn nonces(g: &mut Gen) {
    let setup = any(g);
    g.make(A, &setup);
    g.call(Call::Synchronize, A);
    fill_nonces(g, A);
    g.pass(201);
    refused_requests(g);
    let again = g.host(A).nonces[7];
    ask_with(g, A, again);
    for wait in [200, 1] {
        g.pass(wait);
        let mut r = act_record(g, A);
        r.buffer = g.host(A).queued.len() as u32 + 10;
        g.issue(r);
    }
    old_nonces_again(g);
    let more = g.rng.pick(&[0, 3, 44, 300]);
    for _ in 0..more {
        crowded_request(g);
    }
    replies_when_full(g);
    g.call(Call::TakeMessages, A);
    while g.phase(A) == Phase::Synchronizing {
        g.reply(A, MAGIC);
    }
    let late = g.host(A).nonces[0];
    answer(g, A, late, MAGIC);
}

/// A request that is due is refused by 8, by 3 and by 5: that forgets nothing.
fn refused_requests(g: &mut Gen) {
    let mut r = act_record(g, A);
    r.now = CLOCK_MAX + 1;
    g.issue(r);
    let mut r = act_record(g, A);
    r.status_count += 1;
    g.issue(r);
    let mut r = act_record(g, A);
    r.buffer = g.host(A).queued.len() as u32 + 9;
    g.issue(r);
}

/// The oldest is issued again, so the next request forgets the second. One that was forgotten is answered, issued
/// again, and answered once more.
fn old_nonces_again(g: &mut Gen) {
    let oldest = g.host(A).nonces[0];
    ask_with(g, A, oldest);
    ask(g, A);
    let forgotten = g.host(A).forgotten[0];
    answer(g, A, forgotten, MAGIC);
    ask_with(g, A, forgotten);
    answer(g, A, forgotten, MAGIC);
}

/// A request with a new nonce, one that is outstanding or one that was forgotten; now and then it is not due yet or is
/// refused.
fn crowded_request(g: &mut Gen) {
    let wait = g.rng.pick(&[200, 201, 201, 201, 900]);
    g.pass(wait);
    let mut r = act_record(g, A);
    let (held, forgotten) = (g.host(A).nonces.clone(), g.host(A).forgotten.clone());
    match g.rng.below(10) {
        0 => r.nonce = held[0],
        1 => r.nonce = g.rng.pick(&held),
        2 => r.nonce = g.rng.pick(&forgotten),
        3 => r.buffer = g.host(A).queued.len() as u32 + g.rng.below(11) as u32,
        4 => r.epoch = g.rng.pick(&[CLOCK_MAX, CLOCK_MAX + 1]),
        5 => r.status_count = g.rng.below(5) as u8,
        _ => (),
    }
    g.issue(r);
    if g.rng.chance(20) {
        let nonce = g.rng.pick(&forgotten);
        answer(g, A, nonce, MAGIC);
    }
    if g.host(A).queued.len() > 300 {
        g.call(Call::TakeMessages, A);
    }
}

/// A reply that counts spends its nonce first, so the next one forgets none. Where the next one is outstanding too, 255
/// are left, and only the second request after it forgets one.
fn replies_when_full(g: &mut Gen) {
    let spent = g.host(A).nonces[3];
    for _ in 0..2 {
        answer(g, A, spent, MAGIC);
    }
    let (spent, next) = (g.host(A).nonces[9], g.host(A).nonces[5]);
    let mut r = message_record(g, MessageBody::SyncReply(SyncReply { random_reply: spent }));
    r.nonce = next;
    g.issue(r);
    for _ in 0..2 {
        ask(g, A);
    }
    let forgotten = *g.host(A).forgotten.last().expect("the store was full");
    answer(g, A, forgotten, MAGIC);
}

/// 129 pending, the 130th, acknowledgements of some and of all, and a resend of the lot.
pub(crate) fn pending(g: &mut Gen) {
    let mut setup = any(g);
    setup.disconnect_timeout = 20_000;
    setup.disconnect_notify_start = 20_000;
    g.make(A, &setup);
    g.connect(A, 4);
    let first = g.rng.pick(&[0, 1, 500, i32::MAX - 131]);
    send_until(g, A, first, PENDING_MAX);
    g.send(A, first);
    g.pass(201);
    g.act(A);
    ack(g, A, first - 1);
    ack(g, A, first + 2);
    g.call(Call::TakeMessages, A);
    send_until(g, A, first, PENDING_MAX);
    ack(g, A, i32::MAX);
    g.send(A, first);
    g.send(A, first);
    g.pass(201);
    g.act(A);
}

fn send_until(g: &mut Gen, own: u8, first: i32, count: usize) {
    while g.host(own).pending.len() < count {
        if g.send(own, first).answer != 0 {
            // the frames of i32 are spent, or the buffer is full of earlier messages
            if g.host(own).queued.is_empty() {
                return;
            }
        }
        g.call(Call::TakeMessages, own);
        g.pass(1);
    }
}

fn ack(g: &mut Gen, own: u8, frame: i32) {
    let body = MessageBody::InputAck(InputAck { ack_frame: frame });
    let message = g.welcome(own, body);
    g.hand(own, &message);
}

/// 640 events in Synchronizing and in Running, and each call that would add one more.
pub(crate) fn events(g: &mut Gen) {
    let handle_count = g.rng.range(1, 4) as u32;
    let setup = Setup { handle_count, handles: [3, 1, 2, 0], ..plain() };
    g.make(A, &setup);
    g.call(Call::Synchronize, A);
    fill_events(g, A, EVENTS_MAX);
    g.reply(A, 6);
    g.call(Call::TakeEvents, A);
    while g.phase(A) == Phase::Synchronizing {
        g.reply(A, 6);
    }
    interrupted_when_full(g);
    full_when_sending(g);
}

/// An interruption as the 640th event; then whatever would end it, or announce a disconnect, is 5.
fn interrupted_when_full(g: &mut Gen) {
    g.make(B, &plain());
    g.connect(B, 6);
    g.call(Call::TakeEvents, B);
    fill_events(g, B, EVENTS_MAX - 1);
    g.pass(501);
    g.act(B);
    let bodies = [
        MessageBody::KeepAlive,
        MessageBody::SyncRequest(SyncRequest { random_request: 1 }),
        MessageBody::ChecksumReport(ChecksumReport { checksum: 1, frame: 0 }),
        MessageBody::QualityReport(QualityReport { frame_advantage: 1, ping: 2 }),
        MessageBody::Input(Input { start_frame: -5, ..Input::default() }),
        MessageBody::InputAck(InputAck { ack_frame: 0 }),
    ];
    for body in bodies.iter().chain(&bodies[..1]) {
        let message = g.welcome(B, body.clone());
        g.hand(B, &message);
    }
    g.pass(1_500);
    g.act(B);
    g.call(Call::TakeEvents, B);
    for body in &bodies[4..5] {
        let message = g.welcome(B, body.clone());
        g.hand(B, &message);
    }
    g.act(B);
}

/// 128 pending and 640 events: the 129th finds no room for its Disconnected.
fn full_when_sending(g: &mut Gen) {
    g.make(B, &Setup { disconnect_notify_start: 50_000, disconnect_timeout: 50_000, ..plain() });
    g.connect(B, 6);
    g.call(Call::TakeEvents, B);
    send_until(g, B, 0, PENDING_MAX - 1);
    fill_events(g, B, EVENTS_MAX);
    let start = g.host(B).newest() + 1;
    let one_more = plain_input(g, B, start, 1);
    g.hand(B, &one_more);
    g.send(B, 0);
    g.call(Call::TakeEvents, B);
    g.send(B, 0);
}

/// 64 checksums by descending frames, the 65th, one replaced, a clean-up, and both ends of i32.
pub(crate) fn checksums(g: &mut Gen) {
    for (interval, on) in [(1, false), (10, true), (10_000, true)] {
        let setup = Setup { desync_on: on, desync_interval: interval, ..any(g) };
        g.make(A, &setup);
        let top = g.rng.pick(&[100, -1, 2_000_000, i32::MAX - 5]);
        for below in 0..65 {
            checksum(g, A, top - below);
        }
        checksum(g, A, top);
        checksum(g, A, top - 40);
        let lowest = i32::MIN + 31 * interval as i32;
        checksum(g, A, lowest - 1);
        checksum(g, A, lowest);
        for above in [5, 29, 31, 60] {
            checksum(g, A, top.saturating_add(above * interval as i32));
        }
        checksum(g, A, i32::MIN);
        checksum(g, A, i32::MAX);
    }
}

fn checksum(g: &mut Gen, own: u8, frame: i32) {
    let checksum = u128::from(g.rng.next()) << 7;
    let body = MessageBody::ChecksumReport(ChecksumReport { checksum, frame });
    let message = g.welcome(own, body);
    g.hand(own, &message);
}

/// Each call that queues, with a buffer one byte short and with one that just holds it.
pub(crate) fn buffers(g: &mut Gen) {
    let mut setup = any(g);
    setup.disconnect_timeout = 5_000;
    setup.disconnect_notify_start = 5_000;
    g.make(A, &setup);
    let mut sync = g.record(Call::Synchronize, A);
    both_sizes(g, &mut sync, 10);
    for _ in 0..4 {
        tight_message(g, |nonce| MessageBody::SyncReply(SyncReply { random_reply: nonce }), 10);
    }
    g.reply(A, 0);
    tight_message(g, |_| MessageBody::SyncRequest(SyncRequest { random_request: 3 }), 10);
    tight_message(g, |_| MessageBody::QualityReport(QualityReport { frame_advantage: -1, ping: 1 }), 22);
    tight_input(g);
    tight_send(g);
    tight_acts(g);
    take_short(g);
    let mut report = g.record(Call::SendChecksumReport, A);
    report.payload = g.rng.bytes(16);
    both_sizes(g, &mut report, 26);
    nothing_queued_needs_no_buffer(g);
    look(g, A);
}

/// First one byte short of what is queued and `adds`, then exactly that.
fn both_sizes(g: &mut Gen, r: &mut Record, adds: usize) {
    for short in [1, 0] {
        r.buffer = (g.host(A).queued.len() + adds - short) as u32;
        g.issue(r.clone());
    }
}

fn message_record(g: &mut Gen, body: MessageBody) -> Record {
    let message = g.welcome(A, body);
    let mut r = g.record(Call::Datagram, A);
    r.number = g.host(A).peer;
    r.payload = bincode::serialize(&message).expect("messages serialize");
    r
}

fn tight_message(g: &mut Gen, body: fn(u32) -> MessageBody, adds: usize) {
    let nonce = g.host(A).nonces.last().copied().unwrap_or(0);
    let mut r = message_record(g, body(nonce));
    both_sizes(g, &mut r, adds);
}

fn tight_input(g: &mut Gen) {
    g.call(Call::TakeEvents, A);
    for frames in [0, 2] {
        let start = g.host(A).newest() + 1;
        let MessageBody::Input(body) = plain_input(g, A, start, frames).body else { return };
        let mut r = message_record(g, MessageBody::Input(body));
        both_sizes(g, &mut r, 10);
        g.call(Call::TakeEvents, A);
    }
}

fn tight_send(g: &mut Gen) {
    for sent in 1..=3 {
        let mut r = g.record(Call::SendInput, A);
        let s = g.host(A);
        (r.frame, r.status_count) = (sent - 1, s.num_players as u8);
        let adds = 31 + 5 * s.num_players + sent as usize * s.sending_width();
        let width = s.sending_width();
        r.payload = g.rng.bytes(width);
        both_sizes(g, &mut r, adds);
    }
}

/// A resend with a report, a report alone, a keepalive alone.
fn tight_acts(g: &mut Gen) {
    g.call(Call::TakeMessages, A);
    g.pass(201);
    let s = g.host(A);
    let resend = 31 + 5 * s.num_players + s.pending.len() * s.sending_width();
    let mut r = g.record(Call::Act, A);
    r.status_count = g.host(A).num_players as u8;
    both_sizes(g, &mut r, resend + 24);
    // an Input of old frames moves the input time, so that the keepalive comes without a resend
    ack(g, A, i32::MAX);
    g.pass(201);
    r.now = g.now;
    r.epoch = g.epoch;
    both_sizes(g, &mut r, 24);
    keepalive_alone(g);
}

/// The report's clock runs ahead of the send time only when the clock ran back in between.
fn keepalive_alone(g: &mut Gen) {
    let late = g.now;
    g.now -= 100;
    let mut report = g.record(Call::SendChecksumReport, A);
    report.payload = vec![1; 16];
    g.issue(report);
    g.now = late + 150;
    let mut r = g.record(Call::Act, A);
    r.status_count = g.host(A).num_players as u8;
    both_sizes(g, &mut r, 6);
    resend_spares_keepalive(g);
}

/// A resend without a report, late enough for a keepalive: again the clock ran back in between.
fn resend_spares_keepalive(g: &mut Gen) {
    g.send(A, 0);
    g.pass(201);
    g.act(A);
    let late = g.now;
    g.now -= 100;
    let start = g.host(A).newest() + 1;
    let message = plain_input(g, A, start, 1);
    g.hand(A, &message);
    g.now = late + 150;
    g.act(A);
}

fn take_short(g: &mut Gen) {
    let queued = g.host(A).queued.len();
    let mut r = Record::new(Call::TakeMessages, A);
    for buffer in [0, queued.saturating_sub(1), queued, 0] {
        r.buffer = buffer as u32;
        g.issue(r.clone());
    }
}

/// With a buffer shorter than what is queued, calls that add nothing are done.
fn nothing_queued_needs_no_buffer(g: &mut Gen) {
    for body in [MessageBody::KeepAlive, MessageBody::InputAck(InputAck { ack_frame: 9 })] {
        let mut r = message_record(g, body);
        r.buffer = 0;
        g.issue(r);
    }
    let mut r = g.record(Call::Act, A);
    r.status_count = g.host(A).num_players as u8;
    r.buffer = 0;
    g.issue(r);
    let mut r = g.record(Call::TakeMessages, A);
    r.buffer = BUFFER as u32;
    g.issue(r);
}

/// Every clocked call at the ceiling and above it, and a shutdown time beyond it.
pub(crate) fn clocks(g: &mut Gen) {
    let setup = any(g);
    (g.now, g.epoch) = (CLOCK_MAX - 3_000, CLOCK_MAX - 3_000);
    g.make(A, &setup);
    above(g, Call::Synchronize);
    g.connect(A, 3);
    for call in [Call::Act, Call::SendInput, Call::Disconnect, Call::SendChecksumReport] {
        above(g, call);
    }
    above(g, Call::Datagram);
    above(g, Call::Message);
    let mut stats = Record::new(Call::NetworkStats, A);
    for epoch in [0, CLOCK_MAX - 3_000, CLOCK_MAX - 2_001, CLOCK_MAX - 2_000, CLOCK_MAX, CLOCK_MAX + 1] {
        stats.epoch = epoch;
        g.issue(stats.clone());
    }
    (g.now, g.epoch) = (CLOCK_MAX, CLOCK_MAX);
    g.act(A);
    g.send(A, 0);
    let body = MessageBody::KeepAlive;
    let message = g.welcome(A, body);
    g.hand(A, &message);
    run_back(g);
    g.now = CLOCK_MAX;
    g.call(Call::Disconnect, A);
    g.act(A);
    g.now = CLOCK_MAX - 5_000;
    g.call(Call::Disconnect, A);
    g.now = CLOCK_MAX;
    g.act(A);
    g.now = CLOCK_MAX - 5_001;
    g.call(Call::Disconnect, A);
    g.now = CLOCK_MAX;
    g.act(A);
    above(g, Call::Act);
    above(g, Call::Datagram);
    above(g, Call::Disconnect);
    g.call(Call::Disconnect, A);
}

/// The same call with now, then with epoch, one above the ceiling.
fn above(g: &mut Gen, call: Call) {
    for wild in [(CLOCK_MAX + 1, g.epoch), (g.now, CLOCK_MAX + 1), (u64::MAX, u64::MAX)] {
        let mut r = g.record(call, A);
        r.number = g.host(A).peer;
        r.status_count = g.host(A).num_players as u8;
        if call == Call::Datagram {
            r.payload = bincode::serialize(&with_magic(3, MessageBody::KeepAlive)).expect("it does");
        }
        if call == Call::Message {
            r.payload = value::write(&with_magic(3, MessageBody::KeepAlive));
        }
        if call == Call::SendInput {
            r.payload = vec![0; g.host(A).sending_width()];
        }
        if call == Call::SendChecksumReport {
            r.payload = vec![0; 16];
        }
        r.now = wild.0;
        if r.epoch != 0 {
            r.epoch = wild.1;
        }
        if r.now > CLOCK_MAX || r.epoch > CLOCK_MAX {
            g.issue(r);
        }
    }
}

/// A clock that runs back: times are set to it, and nothing is due.
fn run_back(g: &mut Gen) {
    for now in [CLOCK_MAX - 50, 0, 200, 201, 1_000_000] {
        g.now = now;
        g.act(A);
        let message = g.welcome(A, MessageBody::KeepAlive);
        g.hand(A, &message);
        g.call(Call::TakeMessages, A);
    }
}

/// Every timer of Running at its exact time and one later; then an interruption that is cut short
/// by a disconnect, after which messages resume nothing.
pub(crate) fn thresholds(g: &mut Gen) {
    for (notify, timeout) in [(500, 700), (700, 500), (300, 300), (0, 0)] {
        let setup = Setup { disconnect_notify_start: notify, disconnect_timeout: timeout, ..any(g) };
        g.make(A, &setup);
        g.connect(A, 8);
        for round in 0..2 {
            let message = g.welcome(A, MessageBody::KeepAlive);
            g.hand(A, &message);
            g.send(A, 0);
            for wait in [notify.min(timeout), notify.max(timeout)] {
                exactly_and_later(g, wait);
            }
            if round == 1 {
                g.call(Call::Disconnect, A);
            }
            let message = g.welcome(A, MessageBody::KeepAlive);
            g.hand(A, &message);
            g.act(A);
        }
    }
}

/// act at the receive time plus `wait`, and one millisecond after.
fn exactly_and_later(g: &mut Gen, wait: u64) {
    for late in [0, 1] {
        let due = g.host(A).clocks.recv + wait + late;
        if due >= g.now {
            let millis = due - g.now;
            g.pass(millis);
            g.act(A);
        }
    }
}

/// The advantage at both sides of each step that may leave i32, for every kind of fps.
pub(crate) fn advantages(g: &mut Gen) {
    g.epoch = CLOCK_MAX;
    for (fps, newest) in [(1, 0), (1, i32::MAX), (60, 10), (60, i32::MAX - 6), (240, 0)] {
        g.make(A, &Setup { fps, ..plain() });
        advantage(g, 5);
        let packet = plain_input(g, A, newest, 1);
        g.hand(A, &packet);
        let most = 2 * (i32::MAX as u64 / u64::from(fps));
        for rtt in [0, 1, 100, 116, 117, most, most + 1, most + 2, 1 << 32, 1 << 40] {
            let pong = u128::from(g.epoch - rtt);
            let message = g.welcome(A, MessageBody::QualityReply(QualityReply { pong }));
            g.hand(A, &message);
            for local_frame in local_frames(newest, rtt, fps) {
                advantage(g, local_frame);
            }
        }
    }
}

/// -1, the newest, and the frames around which the difference leaves i32.
fn local_frames(newest: i32, rtt: u64, fps: u32) -> Vec<i32> {
    let ping = (rtt / 2).min(i32::MAX as u64) as i64;
    let remote = i64::from(newest) + ping * i64::from(fps) / 1000;
    let edge = remote - i64::from(i32::MAX);
    let frames = [-1, i64::from(newest), edge - 1, edge, i64::from(i32::MAX)];
    frames.iter().filter_map(|f| i32::try_from(*f).ok()).collect()
}

fn advantage(g: &mut Gen, local_frame: i32) {
    let mut r = Record::new(Call::UpdateLocalFrameAdvantage, A);
    r.frame = local_frame;
    g.issue(r);
}
