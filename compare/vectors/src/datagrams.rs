//! The datagrams: sound messages, and damaged copies of them.

use std::collections::HashSet;

use crate::answer::{MOST_PAYLOAD, MOST_STATUSES};
use crate::frame::{Frame, NULL_FRAME};
use crate::messages::{
    ChecksumReport, ConnectionStatus, Input, InputAck, MessageBody, QualityReply, QualityReport,
    SyncReply, SyncRequest,
};
use crate::random::Random;
use crate::wire::{bytes, message};

type Datagrams = Vec<Vec<u8>>;

const MAGIC: u16 = 0x1234;

// Values whose bytes all differ show a wrong order of bytes.
const NONCES: [u32; 5] = [0, 1, 0x0102_0304, 1 << 31, u32::MAX];
const FRAMES: [Frame; 7] = [NULL_FRAME, 0, 1, -2, 0x0102_0304, Frame::MIN, Frame::MAX];
const ADVANTAGES: [i16; 7] = [0, 1, -1, 0x0102, -256, i16::MIN, i16::MAX];
// A printer of two u64 halves works with powers of ten: at 10^19 and 10^38 the
// number of its parts changes, and zeros inside the number must not be lost.
const WIDE: [u128; 18] = [
    0,
    7,
    0x0102_0304_0506_0708_090a_0b0c_0d0e_0f10,
    10_u128.pow(19) - 1,
    10_u128.pow(19),
    10_u128.pow(19) + 1,
    u64::MAX as u128,
    1 << 64,
    (1 << 64) + 1,
    0xfedc_ba98_7654_3210 << 64,
    10_u128.pow(20),
    5 * 10_u128.pow(19) + 7,
    10_u128.pow(38) - 1,
    10_u128.pow(38),
    2 * 10_u128.pow(38) + 3 * 10_u128.pow(19) + 4,
    1 << 127,
    u128::MAX - 1,
    u128::MAX,
];

// Where the fields of a datagram stand, those of an Input after n statuses.
const KIND_AT: usize = 2;
const BODY_AT: usize = 6;
const STATUS_COUNT_AT: usize = BODY_AT;
const COUNT_SIZE: usize = 8;
const STATUSES_AT: usize = STATUS_COUNT_AT + COUNT_SIZE;
const STATUS_SIZE: usize = 5;

fn status_at(n: usize) -> usize {
    STATUSES_AT + n * STATUS_SIZE
}

fn disconnect_at(n: usize) -> usize {
    status_at(n)
}

fn payload_count_at(n: usize) -> usize {
    disconnect_at(n) + 1 + 4 + 4
}

fn datagram(body: MessageBody) -> Vec<u8> {
    bytes(&message(MAGIC, body))
}

fn sync_request(random_request: u32) -> MessageBody {
    MessageBody::SyncRequest(SyncRequest { random_request })
}

fn sync_reply(random_reply: u32) -> MessageBody {
    MessageBody::SyncReply(SyncReply { random_reply })
}

fn input_ack(ack_frame: Frame) -> MessageBody {
    MessageBody::InputAck(InputAck { ack_frame })
}

fn quality_report(frame_advantage: i16, ping: u128) -> MessageBody {
    MessageBody::QualityReport(QualityReport {
        frame_advantage,
        ping,
    })
}

fn quality_reply(pong: u128) -> MessageBody {
    MessageBody::QualityReply(QualityReply { pong })
}

fn checksum_report(checksum: u128, frame: Frame) -> MessageBody {
    MessageBody::ChecksumReport(ChecksumReport { checksum, frame })
}

/// n statuses, every second one disconnected, and `length` bytes of payload.
fn input(n: usize, length: usize) -> Input {
    Input {
        peer_connect_status: (0..n)
            .map(|i| ConnectionStatus {
                disconnected: i % 2 == 1,
                last_frame: 258 + i as Frame,
            })
            .collect(),
        disconnect_requested: false,
        start_frame: 7,
        ack_frame: NULL_FRAME,
        bytes: (0..length).map(|i| (i + i / 256) as u8).collect(),
    }
}

fn input_datagram(n: usize, length: usize) -> Vec<u8> {
    datagram(MessageBody::Input(input(n, length)))
}

/// The Input that is damaged has as many statuses as there can be, so that
/// each of them is.
const SAMPLE_STATUSES: usize = MOST_STATUSES as usize;

fn sample_input() -> Vec<u8> {
    input_datagram(SAMPLE_STATUSES, 3)
}

/// One message of each kind.
fn sample_bodies() -> Vec<MessageBody> {
    vec![
        sync_request(0x0102_0304),
        sync_reply(0x0506_0708),
        MessageBody::Input(input(SAMPLE_STATUSES, 3)),
        input_ack(NULL_FRAME),
        quality_report(-3, WIDE[2]),
        quality_reply(WIDE[2]),
        checksum_report(WIDE[2], 90),
        MessageBody::KeepAlive,
    ]
}

fn samples() -> Datagrams {
    sample_bodies().into_iter().map(datagram).collect()
}

fn magics() -> Datagrams {
    let each = |magic| {
        sample_bodies()
            .into_iter()
            .map(move |body| bytes(&message(magic, body)))
    };
    [0, 1, 256, u16::MAX].into_iter().flat_map(each).collect()
}

fn numbers() -> Datagrams {
    let mut bodies: Vec<MessageBody> = Vec::new();
    bodies.extend(NONCES.map(sync_request));
    bodies.extend(NONCES.map(sync_reply));
    bodies.extend(FRAMES.map(input_ack));
    bodies.extend(ADVANTAGES.map(|advantage| quality_report(advantage, 1_000)));
    bodies.extend(WIDE.map(|ping| quality_report(-1, ping)));
    bodies.extend(WIDE.map(quality_reply));
    bodies.extend(WIDE.map(|checksum| checksum_report(checksum, 0)));
    bodies.extend(FRAMES.map(|frame| checksum_report(1, frame)));
    bodies.into_iter().map(datagram).collect()
}

/// Each frame of an Input and each bool at its extremes, one at a time.
fn input_fields() -> Datagrams {
    let with = |change: &dyn Fn(&mut Input)| {
        let mut changed = input(1, 1);
        change(&mut changed);
        datagram(MessageBody::Input(changed))
    };
    let mut list = Datagrams::new();
    for frame in FRAMES {
        list.push(with(&|input| {
            input.peer_connect_status[0].last_frame = frame
        }));
        list.push(with(&|input| input.start_frame = frame));
        list.push(with(&|input| input.ack_frame = frame));
    }
    for flag in [false, true] {
        list.push(with(&|input| {
            input.peer_connect_status[0].disconnected = flag
        }));
        list.push(with(&|input| input.disconnect_requested = flag));
    }
    list
}

/// Every number of statuses with payloads of several lengths; 256 bytes show
/// every byte once.
fn input_sizes() -> Datagrams {
    let each = |n| [0, 1, 2, 17].map(|length| input_datagram(n, length));
    let mut list: Datagrams = (0..=MOST_STATUSES as usize).flat_map(each).collect();
    list.push(input_datagram(3, 256));
    list
}

/// The largest payload with all statuses and with none, one byte short and one
/// byte over; the last is one byte more than the longest message.
fn full_payloads() -> Datagrams {
    let full = input_datagram(MOST_STATUSES as usize, MOST_PAYLOAD as usize);
    let bare = input_datagram(0, MOST_PAYLOAD as usize);
    let short = bare[..bare.len() - 1].to_vec();
    let over = [full.as_slice(), &[0]].concat();
    vec![full, bare, short, over]
}

fn random_messages() -> Datagrams {
    let mut random = Random::new();
    let sound: Datagrams = (0..48).map(|i| random.datagram(i % 8)).collect();
    // Two Inputs more to damage for each message: most faults are theirs.
    let inputs: Datagrams = (0..96).map(|_| random.datagram(2)).collect();
    let damaged: Datagrams = sound
        .iter()
        .chain(&inputs)
        .map(|datagram| random.damaged(datagram))
        .collect();
    [sound, damaged].concat()
}

/// Every proper beginning.
fn cuts(datagram: &[u8]) -> Datagrams {
    (0..datagram.len())
        .map(|length| datagram[..length].to_vec())
        .collect()
}

/// A copy with other bytes in one place.
fn with(datagram: &[u8], at: usize, new: &[u8]) -> Vec<u8> {
    let mut copy = datagram.to_vec();
    copy[at..at + new.len()].copy_from_slice(new);
    copy
}

/// A copy with another field in one place: whole, without the bytes after that
/// field, and without its last byte.
fn with_and_cut(datagram: &[u8], at: usize, new: &[u8]) -> Datagrams {
    let whole = with(datagram, at, new);
    let end = at + new.len();
    vec![whole[..end].to_vec(), whole[..end - 1].to_vec(), whole]
}

fn bool_places() -> Vec<usize> {
    (0..SAMPLE_STATUSES)
        .map(status_at)
        .chain([disconnect_at(SAMPLE_STATUSES)])
        .collect()
}

/// Each bool neither 0 nor 1, also at the end of the bytes and in a message
/// with bytes after it.
fn bad_bools() -> Datagrams {
    let sample = sample_input();
    let mut list = Datagrams::new();
    for at in bool_places() {
        list.extend(with_and_cut(&sample, at, &[2]));
        list.extend(with_and_cut(&sample, at, &[255]));
        list.push([with(&sample, at, &[2]), vec![0]].concat());
    }
    list
}

/// Kinds above 7, also such that look good in their low or high bytes alone.
fn bad_kinds() -> Datagrams {
    const KINDS: [u32; 9] = [
        8,
        9,
        255,
        256,
        0x0001_0003,
        0x0700_0000,
        1 << 31,
        0xffff_ff07,
        u32::MAX,
    ];
    let sample = sample_input();
    KINDS
        .iter()
        .flat_map(|kind| with_and_cut(&sample, KIND_AT, &kind.to_le_bytes()))
        .collect()
}

/// An Input with other counts in one place.
fn recounted(input: &[u8], at: usize, counts: &[u64]) -> Datagrams {
    counts
        .iter()
        .flat_map(|count| with_and_cut(input, at, &count.to_le_bytes()))
        .collect()
}

/// Counts above `most`, some of them such that their low half is a good count
/// or that a sum with them wraps round.
fn big_counts(most: u64) -> Vec<u64> {
    vec![
        most + 1,
        most + 2,
        1 << 16,
        1 << 32,
        (1 << 32) + 3,
        1 << 63,
        u64::MAX - 7,
        u64::MAX,
    ]
}

fn too_long() -> Datagrams {
    let sample = sample_input();
    // Times the size of a status this wraps round to 4.
    let wrapping = u64::MAX / STATUS_SIZE as u64 + 1;
    let status_counts = [big_counts(MOST_STATUSES), vec![255, wrapping]].concat();
    let payload_counts = big_counts(MOST_PAYLOAD);
    // Sound but for their size: bincode reads these.
    let sound = vec![
        input_datagram(MOST_STATUSES as usize + 1, 0),
        input_datagram(MOST_STATUSES as usize + 2, 3),
        input_datagram(1, MOST_PAYLOAD as usize + 1),
    ];
    [
        recounted(&sample, STATUS_COUNT_AT, &status_counts),
        recounted(&sample, payload_count_at(SAMPLE_STATUSES), &payload_counts),
        sound,
    ]
    .concat()
}

/// Counts that are good by themselves, but not those of the elements there.
fn wrong_counts() -> Datagrams {
    let input = input_datagram(2, 3);
    [
        recounted(&input, STATUS_COUNT_AT, &[0, 1, 3, MOST_STATUSES]),
        recounted(
            &input,
            payload_count_at(2),
            &[0, 1, 2, 4, 256, MOST_PAYLOAD],
        ),
    ]
    .concat()
}

/// Two faults in one datagram: the first one wins.
fn two_faults() -> Datagrams {
    let sample = sample_input();
    let payload_count = payload_count_at(SAMPLE_STATUSES);
    let big_payload = with(&sample, payload_count, &u64::MAX.to_le_bytes());
    let mut list = Datagrams::new();
    for at in bool_places() {
        list.push(with(&big_payload, at, &[2]));
    }
    for count in [MOST_STATUSES + 1, u64::MAX] {
        let big = with(&sample, STATUS_COUNT_AT, &count.to_le_bytes());
        let bad_bool = with(&big, status_at(0), &[2]);
        list.push(bad_bool[..status_at(0) + 1].to_vec());
        list.push(with(&bad_bool, KIND_AT, &[8]));
        list.push(bad_bool);
    }
    list.push([big_payload, vec![0; 2]].concat());
    list
}

/// Bytes after the message: one, several, and the message once more.
fn extra(sample: &[u8]) -> Datagrams {
    let tails = [&[0][..], &[255], &[1, 2, 3], sample];
    tails.iter().map(|tail| [sample, tail].concat()).collect()
}

/// All of them, none twice.
pub fn all() -> Datagrams {
    let samples = samples();
    let mut list = [
        samples.clone(),
        magics(),
        numbers(),
        input_fields(),
        input_sizes(),
        full_payloads(),
        random_messages(),
        samples.iter().flat_map(|sample| cuts(sample)).collect(),
        bad_bools(),
        bad_kinds(),
        too_long(),
        wrong_counts(),
        two_faults(),
        samples.iter().flat_map(|sample| extra(sample)).collect(),
    ]
    .concat();
    let mut seen = HashSet::new();
    list.retain(|datagram| seen.insert(datagram.clone()));
    list
}
