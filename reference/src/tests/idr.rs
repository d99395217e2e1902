//! Medium band records: the request's examples, and every field compared with a string of the header's bits.

use super::{lines, Slow};
use crate::idr::{self, Fields, Time, HEADER_WORDS, RECORD, SAMPLES};
use crate::script::{crc32, Frame};
use crate::{ops, random, sample, tapes};
use std::io::Read;

/// Words 1 to 28 of a record with a valid time tag, of which some are replaced.
fn tagged(put: &[(usize, u16)]) -> [u16; 28] {
    let mut words = [0; 28];
    for (n, word) in [(1, 0x8000), (3, 2_528), (6, 0x0010), (10, 0b10000), (11, 0b00100), (12, 0x00FE), (13, 0xDB08)]
        .iter()
        .chain(put)
    {
        words[n - 1] = *word;
    }
    words
}

fn record(words: &[u16]) -> Vec<u8> {
    let samples = (0..5_000).map(|i| (i % 251) as u8);
    words.iter().flat_map(|word| word.to_be_bytes()).chain(samples).collect()
}

fn fields(put: &[(usize, u16)]) -> Result<Option<Fields>, u32> {
    idr::read(&record(&tagged(put))).map(|record| record.fields)
}

fn block_size(stored: u32) -> Result<u32, u32> {
    fields(&[(12, (stored >> 16) as u16), (13, stored as u16)]).map(|fields| fields.unwrap().block_size)
}

#[test]
fn block_sizes() {
    assert_eq!(block_size(16_702_216), Ok(75_000));
    assert_eq!(block_size(8_388_608), Ok(8_388_608));
    assert_eq!(block_size(16_777_215), Ok(1));
    assert_eq!(block_size(0), Err(54));
    assert_eq!(block_size(8_388_607), Err(54));
}

/// Word 1 bits 5 to 8 are read and not tested.
#[test]
fn tape_types() {
    for (word, tape_type, tape_number) in [(0x8F01, 15, 1), (0x8000, 0, 0), (0xF0FF, 0, 255), (0x8801, 8, 1)] {
        let found = fields(&[(1, word)]).unwrap().unwrap();
        assert_eq!((found.tape_type, found.tape_number), (tape_type, tape_number));
    }
}

#[test]
fn rates() {
    // The codes as words 10 and 11 list them, speed by speed.
    let listed = ["10000", "01000", "00000", "10001", "01001", "00001", "10010", "01010", "00010", "10011", "01011"];
    let listed = [&listed[..], &["00011", "10100", "01100", "00100"]].concat();
    let thousands =
        [50.0, 62.5, 75.0, 100.0, 125.0, 150.0, 200.0, 250.0, 300.0, 400.0, 500.0, 600.0, 800.0, 1e3, 1.2e3];
    for code in 0..32u16 {
        let place = listed.iter().position(|bits| u16::from_str_radix(bits, 2) == Ok(code));
        let rate = place.map(|place| (thousands[place] * 1e3) as u32).ok_or(53);
        // The eleven bits before the code are undefined.
        assert_eq!(fields(&[(11, 0xFFE0 | code)]).map(|f| f.unwrap().sampling_rate), rate);
        let playback = if place.is_some_and(|place| place < 3) { rate } else { Err(53) };
        assert_eq!(fields(&[(10, 0x5540 | code)]).map(|f| f.unwrap().playback_rate), playback);
    }
}

#[test]
fn times() {
    let last = fields(&[(6, 0x3662), (7, 0x3595), (8, 0x9F42), (9, 0x3F00)]).unwrap().unwrap();
    assert_eq!(last.time, Time { day: 366, hour: 23, minute: 59, second: 59, microseconds: 999_999 });
    for words in [
        [(6, 0x3672), (7, 0x3595)],
        [(6, 0x0000), (7, 0x0000)],
        [(6, 0x0012), (7, 0x4000)],
        [(6, 0x0010), (7, 0x0600)],
        [(6, 0x0010), (7, 0x0006)],
        [(8, 0x0F42), (9, 0x4000)],
    ] {
        assert_eq!(fields(&words), Err(52), "{words:x?}");
    }
    // Each of the nine digits at 10 to 15.
    for (place, digit) in (0..9).flat_map(|place| (10..16).map(move |digit| (place, digit))) {
        let (n, shift) = (6 + place / 4, 12 - 4 * (place % 4));
        let word = if n == 6 { 0x0010 & !(0xF << shift) } else { 0 };
        assert_eq!(fields(&[(n, word | digit << shift)]), Err(52));
    }
}

/// 51 also if the time tag is not valid; 52 to 54 only if it is; in the order of the table.
#[test]
fn order() {
    let mut words = tagged(&[(3, 2_527), (6, 0), (10, 1), (12, 0)]);
    for (n, word, refusal) in [(3, 2_528, 51), (6, 0x0010, 52), (10, 0, 53), (12, 0x00FE, 54)] {
        assert_eq!(idr::read(&record(&words)).unwrap_err(), refusal);
        assert_eq!(idr::read(&record(&words)[1..]).unwrap_err(), 50);
        let mut out = vec![165; RECORD];
        assert_eq!(idr::write(&words, &[0; SAMPLES], &mut out), Err(refusal));
        assert!(out.iter().all(|byte| *byte == 165));
        words[0] = 0;
        assert_eq!(idr::read(&record(&words)).err(), if refusal == 51 { Some(51) } else { None });
        words[0] = 0x8000;
        words[n - 1] = word;
    }
    assert!(idr::read(&record(&words)).is_ok());
    let samples = [0; SAMPLES];
    assert_eq!(idr::write(&words, &samples, &mut [0; RECORD - 1]), Err(50));
    assert_eq!(idr::write(&words[1..], &samples, &mut [0; RECORD]), Err(50));
    assert_eq!(idr::write(&words, &samples[1..], &mut [0; RECORD]), Err(50));
}

/// The header as text, from which a field is cut out.
struct Bits(String);

impl Bits {
    /// Words and bits count from 1; the last bit is included. A field may go on into the next word.
    fn cut(&self, (n, first): (usize, usize), (last_n, last): (usize, usize)) -> u64 {
        u64::from_str_radix(&self.0[16 * (n - 1) + first - 1..16 * (last_n - 1) + last], 2).unwrap()
    }

    fn bits(&self, n: usize, first: usize, last: usize) -> u64 {
        self.cut((n, first), (n, last))
    }

    fn decimal(&self, from: (usize, usize), to: (usize, usize)) -> u64 {
        format!("{:x}", self.cut(from, to)).parse().unwrap()
    }
}

#[test]
fn fields_are_cut_out_of_the_bits() {
    let (mut with_fields, mut without) = (0, 0);
    for frame in random::script_of(1, 3_000, Some("tapes")).iter().filter(|frame| frame.op == ops::READ_TAPE) {
        let Ok(record) = idr::read(&frame.a) else { continue };
        let s = Bits(frame.a[..56].iter().map(|byte| format!("{byte:08b}")).collect());
        assert_eq!(
            record.header.words().map(u64::from).collect::<Vec<_>>(),
            (1..=28).map(|n| s.bits(n, 1, 16)).collect::<Vec<_>>()
        );
        assert_eq!(record.samples, &frame.a[56..]);
        assert_eq!(record.fields.is_some(), s.bits(1, 1, 1) == 1);
        let Some(f) = record.fields else {
            without += 1;
            continue;
        };
        let found: [u64; 32] = [
            f.first_of_run.into(),
            f.source_error.into(),
            f.tape_type.into(),
            f.tape_number.into(),
            f.record_number.into(),
            f.spacecraft.into(),
            f.station.into(),
            f.dra_tape_number.into(),
            f.time.day.into(),
            f.time.hour.into(),
            f.time.minute.into(),
            f.time.second.into(),
            f.time.microseconds.into(),
            f.input.into(),
            f.pps_absent.into(),
            f.clock_out_of_sync.into(),
            f.recorder_b.into(),
            f.microseconds_abnormal.into(),
            f.time_track_in_sync.into(),
            f.bypass.into(),
            f.decimation.into(),
            f.pps_track.into(),
            f.time_track.into(),
            f.channel.into(),
            f.block_size.into(),
            f.reduction_day.into(),
            f.reduction_second.into(),
            f.overflow.into(),
            f.pps_out_of_sync.into(),
            f.bit_slip.into(),
            f.decimation_counter.into(),
            f.sample_count.map_or(u64::MAX, u64::from),
        ];
        let second_of_day = s.bits(23, 16, 16) << 16 | s.bits(24, 1, 16);
        let expected = [
            s.bits(1, 2, 2),
            s.bits(1, 3, 3),
            s.bits(1, 5, 8),
            s.bits(1, 9, 16),
            s.bits(2, 1, 16),
            s.bits(4, 1, 8),
            s.bits(4, 9, 16),
            s.bits(5, 1, 16),
            s.decimal((6, 1), (6, 12)),
            s.decimal((6, 13), (7, 4)),
            s.decimal((7, 5), (7, 12)),
            s.decimal((7, 13), (8, 4)),
            s.cut((8, 5), (9, 8)),
            s.bits(9, 9, 11),
            s.bits(9, 12, 12),
            s.bits(9, 13, 13),
            s.bits(9, 14, 14),
            s.bits(9, 15, 15),
            s.bits(9, 16, 16),
            s.bits(12, 1, 1),
            8 - s.bits(12, 2, 4),
            s.bits(12, 5, 5),
            s.bits(12, 6, 6),
            1 + s.bits(12, 7, 8),
            (1 << 24) - s.cut((12, 9), (13, 16)),
            s.bits(23, 1, 9),
            second_of_day,
            s.bits(26, 9, 9),
            s.bits(26, 10, 10),
            s.bits(26, 11, 11),
            8 - s.bits(26, 14, 16),
            if s.bits(1, 4, 4) == 1 { s.cut((27, 1), (28, 16)) } else { u64::MAX },
        ];
        assert_eq!(found, expected);
        with_fields += 1;
    }
    assert!(with_fields > 300 && without > 150, "{with_fields} {without}");
}

#[test]
fn round_trip() {
    let mut tried = 0;
    for frame in random::script_of(2, 2_000, Some("tapes")) {
        if frame.op == ops::READ_TAPE {
            let Ok(record) = idr::read(&frame.a) else { continue };
            let mut out = vec![0; RECORD];
            let words: Vec<u16> = record.header.words().collect();
            assert_eq!(idr::write(&words, record.samples, &mut out), Ok(()));
            assert!(out == frame.a);
        } else {
            let words: Vec<u16> = frame.a.chunks(2).map(|pair| u16::from_be_bytes([pair[0], pair[1]])).collect();
            let mut out = vec![7; frame.z as usize];
            if idr::write(&words, &frame.b, &mut out).is_err() {
                assert!(out.iter().all(|byte| *byte == 7));
                continue;
            }
            let record = idr::read(&out).unwrap();
            assert!(record.header.words().eq(words) && record.samples == frame.b);
        }
        tried += 1;
    }
    assert!(tried > 500);
}

#[test]
fn tape_lines() {
    let words = tagged(&[(1, 0x9007), (27, 1), (28, 2)]);
    let (header, samples) = (words.iter().flat_map(|word| word.to_be_bytes()).collect::<Vec<u8>>(), vec![9; SAMPLES]);
    let read = |a: &[u8]| Frame { op: ops::READ_TAPE, a: a.to_vec(), ..Frame::default() };
    let write = |z, a: &[u8]| Frame { op: ops::WRITE_TAPE, z, a: a.to_vec(), b: samples.clone(), ..Frame::default() };
    let good = [&header[..], &samples].concat();
    let mut untagged = good.clone();
    untagged[0] = 0;
    let crc = crc32(&samples);
    let printed = |words: &[u16]| words.iter().map(|word| word.to_string()).collect::<Vec<_>>().join(" ");
    let fields = "0 0 7 0 0 0 0 1 0 0 0 0 0 0 0 0 0 0 50000 1200000 0 8 0 0 1 75000 0 0 0 0 0 8 65538";
    assert_eq!(
        lines(&[
            read(&good),
            read(&untagged),
            read(&good[1..]),
            write(RECORD as u32, &header),
            write(3, &header),
            write(RECORD as u32, &header[2..]),
            write(8_192, &[]),
            write(8_193, &header),
        ]),
        [
            format!("0 {} {fields} {crc}", printed(&words)),
            format!("0 {} {crc}", printed(&[&[7][..], &words[1..]].concat())),
            "50".to_string(),
            format!("0 {}", crc32(&good)),
            format!("50 {}", crc32(&[165; 3])),
            format!("50 {}", crc32(&[165; RECORD])),
            format!("50 {}", crc32(&[165; 8_192])),
            "bad frame".to_string(),
        ]
    );
    assert_eq!(lines(&[write(RECORD as u32, &header[1..])]), ["bad frame"]);
    assert_eq!(words.len(), HEADER_WORDS);
}

fn listed(input: impl Read) -> String {
    let mut out = Vec::new();
    tapes::list(input, &mut out).unwrap().unwrap();
    String::from_utf8(out).unwrap()
}

#[test]
fn tape_listing() {
    let tape = sample::sample("tapes/good-tape").unwrap();
    let text = "place tape record spacecraft station day time playback sampling decimation
0 1 1 32 43 238 03:24:05.000012 75000 300000 1
5056 1 2 32 43 - - - - -
10112 1 61 32 43 238 03:24:06.000012 75000 300000 1
15168 0 end of tape
";
    assert_eq!(listed(&tape[..]), text);
    assert_eq!(listed(Slow { bytes: &tape, good: usize::MAX }), text);
    assert_eq!(listed(&[][..]).lines().last(), Some("0 0 end of tape"));
    let mut out = Vec::new();
    let failure = tapes::list(Slow { bytes: &tape, good: 6_000 }, &mut out).unwrap().unwrap_err();
    assert_eq!(failure.to_string(), "the tape tore");
    assert_eq!(String::from_utf8(out).unwrap().lines().count(), 2);
    for sample in &tapes::TAPES {
        let tape = sample::sample(sample.name).unwrap();
        assert_eq!(listed(&tape[..]).lines().last(), Some(sample.last_line));
    }
}
