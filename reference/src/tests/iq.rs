//! Request 08: samples compared with strings of bits.

use super::{by_hand, field, lines, rsr_secondary, telemetry_by_hand, Frame};
use crate::iq::{pack, unpack, LISTED};
use crate::make::Rng;
use crate::record::{Refused, RSR};
use crate::sample_text::write_samples;
use crate::script::{crc32, Calls};
use crate::{ops, random, sample};

/// A record with this size and rate.
fn record(size: u8, rate: u16, data: &[u8]) -> Vec<u8> {
    let mut secondary = rsr_secondary();
    secondary[32] = size;
    secondary[34..36].copy_from_slice(&rate.to_be_bytes());
    by_hand(RSR, 240 + data.len() as u64, &secondary, data)
}

/// Table 3-2: each word as text, Q before I; in each half the samples from the right.
fn plainly(size: usize, data: &[u8]) -> Vec<i32> {
    let mut numbers = Vec::new();
    for word in data.chunks(4) {
        let bits: String = word.iter().map(|byte| format!("{byte:08b}")).collect();
        let (q, i) = bits.split_at(16);
        let sample = |half: &str, n: usize| {
            let text = &half[16 - size * (n + 1)..16 - size * n];
            let unsigned = i32::from_str_radix(text, 2).unwrap();
            let k = if text.starts_with('1') { unsigned - (1 << size) } else { unsigned };
            2 * k + 1
        };
        numbers.extend((0..16 / size).flat_map(|n| [sample(i, n), sample(q, n)]));
    }
    numbers
}

fn rate_of(size: u32) -> u32 {
    LISTED.iter().find(|(listed, _)| *listed == size).unwrap().1[0]
}

/// All 65,536 halves of a word at each width, as I and, in another order, as Q.
#[test]
fn every_half_word_at_every_width() {
    for size in [1, 2, 4, 8, 16] {
        for start in (0..65_536u32).step_by(4_096) {
            let halves = (start..start + 4_096).map(|i| [(i as u16).reverse_bits(), i as u16]);
            let data: Vec<u8> = halves.flatten().flat_map(|half| half.to_be_bytes()).collect();
            let count = data.len() * 8 / size;
            let mut list = vec![7; count + 1];
            let s = record(size as u8, rate_of(size as u32) as u16, &data);
            assert_eq!(unpack(&s, &mut list), Ok(count));
            assert_eq!(list.pop(), Some(7));
            assert!(list == plainly(size, &data), "{size} bits from {start}");
            let mut out = vec![165; data.len() + 1];
            assert_eq!(pack(size as u32, rate_of(size as u32), &list, &mut out), Ok(data.len()));
            assert_eq!(out.pop(), Some(165));
            assert!(out == data);
        }
    }
}

#[test]
fn known_words() {
    // [Q2, Q1], [I2, I1].
    let mut list = [0; 4];
    assert_eq!(unpack(&record(8, 1, &[0x7F, 0x80, 0xFF, 0x01]), &mut list), Ok(4));
    assert_eq!(list, [3, -255, -1, 255]);
    let mut list = [0; 2];
    assert_eq!(unpack(&record(16, 100, &[0x80, 0x00, 0x7F, 0xFF]), &mut list), Ok(2));
    assert_eq!(list, [65_535, -65_535]);
    let mut list = [0; 32];
    assert_eq!(unpack(&record(1, 16_000, &[0, 0, 0, 1]), &mut list), Ok(32));
    assert_eq!((list[0], &list[1..]), (-1, &[1; 31][..]));
}

#[test]
fn the_listed_pairs() {
    assert_eq!(LISTED.iter().map(|(_, rates)| rates.len()).sum::<usize>(), 36);
    let of = |size: u32| LISTED.iter().find(|(listed, _)| *listed == size).map_or(&[][..], |(_, rates)| *rates);
    for size in 0..=255u8 {
        for rate in (0..=4_100u16).chain([8_000, 16_000, 32_000, 65_535]) {
            let listed = of(size.into()).contains(&rate.into());
            let refused = |number| if listed { Ok(0) } else { Err(number) };
            assert_eq!(pack(size.into(), rate.into(), &[], &mut []), refused(19));
            if rate % 50 == 0 || rate < 30 {
                let answer = unpack(&record(size, rate, &[]), &mut []);
                assert_eq!(answer, refused(19).map_err(Refused::Number));
            }
        }
    }
    for (size, rate) in [(256 + 8, 1), (8, 65_536 + 1), (u32::MAX, 1)] {
        assert_eq!(pack(size, rate, &[], &mut []), Err(19));
    }
}

#[test]
fn refusals_of_samples() {
    let data = [1, 2, 3, 4, 5, 6];
    // 12, 19, 34, 35.
    let mut s = record(9, 1, &data);
    s[62..64].fill(0);
    let mut list = [7; 8];
    assert_eq!(unpack(&s, &mut list), Err(field(12, 62)));
    assert_eq!(unpack(&record(9, 1, &data), &mut list), Err(Refused::Number(19)));
    assert_eq!(unpack(&record(8, 1, &data), &mut list), Err(Refused::Number(34)));
    assert_eq!(unpack(&record(8, 1, &data[2..]), &mut list[..3]), Err(Refused::Number(35)));
    assert_eq!(list, [7; 8]);
    // 19, 34, 37, 35.
    let mut out = [165; 4];
    let numbers = [1, 3, 5, 256, 1];
    assert_eq!(pack(9, 1, &numbers, &mut out[..3]), Err(19));
    assert_eq!(pack(8, 1, &numbers, &mut out[..3]), Err(34));
    assert_eq!(pack(8, 1, &numbers[..4], &mut out[..3]), Err(37));
    assert_eq!(pack(8, 1, &[1, 3, 5, 255], &mut out[..3]), Err(35));
    assert_eq!(out, [165; 4]);
    for size in [1, 2, 4, 8, 16] {
        let bound = 1 << size;
        let with = |n: i32| pack(size, rate_of(size), &[[n; 1], [1]].concat().repeat(16 / size as usize), &mut [0; 4]);
        for n in [bound, bound + 1, -bound, -bound - 1, 0, 2, -2, i32::MAX, i32::MIN, i32::MIN + 1] {
            assert_eq!(with(n), Err(37), "{n} in {size} bits");
        }
        for n in [1, -1, bound - 1, 1 - bound] {
            assert_eq!(with(n), Ok(4), "{n} in {size} bits");
        }
    }
}

/// Unpacking then packing gives the same data, over the random scripts; and packing then unpacking the same numbers.
#[test]
fn samples_there_and_back() {
    let (mut unpacked, mut packed) = (0, 0);
    for f in random::script_of(5, 4_000, Some("samples")) {
        let mut list = vec![7; f.z as usize];
        if f.op == ops::UNPACK {
            let Ok(count) = unpack(&f.a, &mut list) else { continue };
            assert!(list[count..].iter().all(|n| *n == 7));
            let data = crate::record::data_part(&f.a);
            let (size, rate) = crate::iq::size_and_rate(&f.a);
            assert_eq!(list[..count], plainly(size as usize, data));
            let mut out = vec![0; data.len()];
            assert_eq!(pack(size, rate, &list[..count], &mut out), Ok(data.len()));
            assert_eq!(out, data);
            unpacked += 1;
        } else {
            let numbers: Vec<i32> = f.a.chunks(4).map(|bytes| i32::from_be_bytes(bytes.try_into().unwrap())).collect();
            let mut out = vec![165; f.z as usize];
            let Ok(length) = pack(f.x, f.y, &numbers, &mut out) else {
                assert!(out.iter().all(|byte| *byte == 165));
                continue;
            };
            assert_eq!(plainly(f.x as usize, &out[..length]), numbers);
            packed += 1;
        }
    }
    assert!(unpacked > 500 && packed > 500, "{unpacked} {packed}");
}

/// The longest record at the smallest size.
#[test]
fn the_most_samples() {
    let data = Rng::new(1).bytes(65_532);
    let mut list = vec![0; 16_383 * 32];
    assert_eq!(unpack(&record(1, 250, &data), &mut list), Ok(524_256));
    assert!(list == plainly(1, &data));
    assert_eq!(unpack(&record(1, 250, &data), &mut list[1..]), Err(Refused::Number(35)));
}

fn text(input: &[u8], raw: bool) -> (Vec<u8>, Option<String>) {
    let mut out = Vec::new();
    let stop = write_samples(input, raw, &mut out).unwrap();
    (out, stop.err().map(|reason| reason.to_string()))
}

#[test]
fn the_tone() {
    let tone = sample::sample("rsr/tone").unwrap();
    assert_eq!(tone.len(), 2 * 2_260);
    let (lines, stop) = text(&tone, false);
    let lines = String::from_utf8(lines).unwrap();
    assert_eq!((lines.lines().count(), stop), (2_000, None));
    assert_eq!(lines.lines().next(), Some("201 1"));
    // A quarter of a turn later, half of one later, and a whole one.
    let line = |n: usize| lines.lines().nth(n).unwrap();
    assert_eq!([line(12), line(24), line(36), line(48), line(1_008)], ["1 201", "-199 1", "1 -199", "201 1", "201 1"]);
    let raw = text(&tone, true).0;
    assert_eq!(raw.len(), 2_000 * 8);
    assert_eq!(raw[..8], [201, 0, 0, 0, 1, 0, 0, 0]);
    // The samples before a stop are written.
    let (lines, stop) = text(&tone[..4_000], false);
    assert_eq!(lines.split(|byte| *byte == b'\n').count(), 1_001);
    assert_eq!(stop.as_deref(), Some("stopped at byte 2260: 6 1740 fewer bytes are there than the label says"));
    let mut unlisted = tone.clone();
    unlisted[2_260 + 68] = 3;
    assert_eq!(
        text(&unlisted, false).1.as_deref(),
        Some("stopped at byte 2260: 19 0 the sample size and rate are not a listed pair")
    );
    unlisted[2_260 + 52] = 0;
    assert_eq!(text(&unlisted, false).1.as_deref(), Some("stopped at byte 2260: 12 2312 a field is out of its range"));
    assert_eq!(
        text(&telemetry_by_hand(100, &[]), false).1.as_deref(),
        Some("stopped at byte 0: 15 0 the record is not of the kind asked for, or that is neither 1 nor 2")
    );
}

#[test]
fn sample_lines() {
    let unpack = |z, a: &[u8]| Frame { op: ops::UNPACK, z, a: a.to_vec(), ..Frame::default() };
    let pack = |x, y, z, numbers: &[i32]| {
        let a = numbers.iter().flat_map(|n| n.to_be_bytes()).collect();
        Frame { op: ops::PACK, x, y, z, a, ..Frame::default() }
    };
    let crc = |numbers: &[i32]| crc32(&numbers.iter().flat_map(|n| n.to_be_bytes()).collect::<Vec<u8>>());
    let s = record(16, 1, &[0xFF, 0xFF, 0, 0]);
    let good = pack(16, 1, 5, &[1, -1]);
    assert_eq!(
        lines(&[
            unpack(3, &s),
            unpack(1, &s),
            unpack(1, &s[..100]),
            unpack(0, &record(16, 3, &[])),
            good.clone(),
            pack(16, 1, 3, &[1, -1]),
            pack(16, 1, 3, &[1, 2]),
            pack(16, 1, 0, &[1]),
            pack(16, 3, 70_000, &[]),
            unpack(131_073, &s),
        ]),
        [
            format!("0 2 {}", crc(&[1, -1, 7])),
            format!("35 {}", crc(&[7])),
            format!("6 100 {}", crc(&[7])),
            "19 0".to_string(),
            format!("0 4 {}", crc32(&[0xFF, 0xFF, 0, 0, 165])),
            format!("35 {}", crc32(&[165; 3])),
            format!("37 {}", crc32(&[165; 3])),
            "34 0".to_string(),
            format!("19 {}", crc32(&[165; 70_000])),
            "bad frame".to_string(),
        ]
    );
    let mut calls = Calls::default();
    assert_eq!(calls.line(&Frame { a: vec![0; 7], ..good.clone() }), None);
    assert_eq!(calls.line(&Frame { z: 70_001, ..good }), None);
}
