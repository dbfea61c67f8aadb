//! The formats undo themselves, the digest is the common CRC-32, a script has one name; of 257 nonces the oldest is
//! forgotten, and in firm mode the 32 largest frames are held.

use std::collections::BTreeSet;

use super::canon::crc32;
use super::end::{End, Readings};
use super::gen::good_setups::plain;
use super::gen::message::{bodies, with_magic};
use super::gen::Plan;
use super::reader;
use super::record::{Call, Record, Setup, RECORD, SETUP};
use super::value;
use crate::network::messages::{ChecksumReport, ConnectionStatus};

#[test]
fn crc_of_the_nine_digits() {
    assert_eq!(crc32(b"123456789"), 0xCBF4_3926);
}

#[test]
fn a_record_is_read_back() {
    let mut record = Record::new(Call::SendInput, 1);
    record.now = 1 << 61;
    record.frame = i32::MIN;
    record.status_count = 255;
    record.statuses[3].last_frame = -1;
    record.payload = vec![1, 2, 3];
    let mut bytes = Vec::new();
    record.write(&mut bytes);
    assert_eq!(bytes.len(), RECORD + 3);
    bytes.push(9);
    assert_eq!(Record::read(&bytes), Some((record, &[9][..])));
}

#[test]
fn a_setup_is_read_back() {
    let setup = Setup { checksum_mode: 0x0201, ..plain() };
    let bytes = setup.write();
    assert_eq!(bytes.len(), SETUP);
    assert_eq!(bytes[68..72], [1, 2, 0, 0]);
    assert_eq!(Setup::read(&bytes), Some(setup));
}

#[test]
fn a_script_has_one_name_and_is_found_by_it() {
    let mut names = BTreeSet::new();
    for seed in 0..1_000 {
        let plan = Plan::of_seed(seed);
        let found = Plan::named(&plan.name()).expect("found");
        assert_eq!((found.number, found.scenario), (plan.number, plan.scenario));
        assert!(names.insert(plan.name()));
    }
    assert!(names.contains("135-nonces"));
}

#[test]
fn every_kind_is_read_back_as_a_value_and_as_a_datagram() {
    for body in bodies() {
        let message = with_magic(513, body);
        assert_eq!(value::read(&value::write(&message)), Some(message.clone()));
        let datagram = bincode::serialize(&message).unwrap();
        assert_eq!(reader::fault(&datagram), 0);
        for length in 0..datagram.len() {
            assert_eq!(reader::fault(&datagram[..length]), 9);
        }
    }
}

/// What is outstanding after a synchronize with the first nonce and a request every 201 ms with those that follow.
fn outstanding(nonces: impl IntoIterator<Item = u32>) -> Vec<u32> {
    let mut end = End::new(&plain(), 0);
    for (at, nonce) in (0..).zip(nonces) {
        let readings = Readings { now: Some(201 * at), epoch: Some(0), nonce: Some(nonce), magic: None };
        end.run(readings, |p| match at {
            0 => p.synchronize(),
            _ => p.act(&[ConnectionStatus::default(); 2]),
        });
    }
    end.snapshot().nonces
}

#[test]
fn of_257_nonces_the_oldest_is_forgotten() {
    let from_to = |first: u32, last: u32| (first..=last).collect::<Vec<_>>();
    assert_eq!(outstanding(1..=256), from_to(1, 256));
    assert_eq!(outstanding(1..=257), from_to(2, 257));
    assert_eq!(outstanding(1..=300), from_to(45, 300));
}

#[test]
fn a_nonce_issued_again_counts_once_from_its_latest_issue() {
    let held: Vec<u32> = (1..=6).chain(8..=256).chain([7]).collect();
    assert_eq!(outstanding((1..=256).chain([7])), held);
    assert_eq!(outstanding((1..=256).chain([7, 257])), [&held[1..], &[257]].concat());
}

/// What an endpoint in firm mode holds after reports of these frames, the k-th of which has the checksum k.
fn held(frames: impl IntoIterator<Item = i32>) -> Vec<(i32, u128)> {
    let mut end = End::new(&Setup { checksum_mode: 1, ..plain() }, 0);
    for (checksum, frame) in (1..).zip(frames) {
        end.count(ChecksumReport { checksum, frame });
    }
    end.snapshot().checksums
}

fn frames_held(frames: impl IntoIterator<Item = i32>) -> Vec<i32> {
    held(frames).into_iter().map(|(frame, _)| frame).collect()
}

#[test]
fn in_firm_mode_the_32_largest_frames_are_held() {
    let from_to = |first: i32, last: i32| (first..=last).collect::<Vec<_>>();
    let falling = || (100..=163).rev();
    assert_eq!(frames_held(falling().take(20)), from_to(144, 163));
    assert_eq!(frames_held(falling()), from_to(132, 163));
    assert_eq!(frames_held(falling().chain([99])), from_to(132, 163));
    assert_eq!(frames_held(falling().chain([164])), from_to(133, 164));
    assert_eq!(frames_held(falling().chain([164, 132])), from_to(133, 164));
    assert_eq!(frames_held((0..31).chain([i32::MIN])), [&[i32::MIN][..], &from_to(0, 30)].concat());
    assert_eq!(frames_held((0..31).chain([i32::MIN, 31])), from_to(0, 31));
}

#[test]
fn in_firm_mode_a_frame_has_its_latest_checksum() {
    assert_eq!(held([5, 5, 5]), [(5, 3)]);
    let held = held((0..32).chain([0, 7]));
    assert_eq!((held[0], held[6], held[7]), ((0, 33), (6, 7), (7, 34)));
}
