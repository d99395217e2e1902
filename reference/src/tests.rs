//! Document 01's worked examples, and calls compared with plainer or other definitions of themselves.

use crate::book::{self, Book, Call};
use crate::coverage::Coverage;
use crate::ledger::{self, Report};
use crate::make::{self, Rng};
use crate::record::{self, Fields, Record, Refused, Rsr, Telemetry, RSR, TELEMETRY};
use crate::script::{self, Frame};
use crate::stream::{self, Cursor, Entry, Step, Stop};
use crate::{keys, list, nights, ops, privacy, random, sample};
use std::collections::BTreeSet;
use std::io::{self, Read};

mod bill;
mod dates;
mod gain;
mod idr;
mod iq;
mod receive;
mod replay;
mod rsr_rows;
mod samples;
mod season;
mod settings;
mod strikes;

/// A record written by hand from the paper's first table. Its label length is as given, the rest is right.
fn by_hand(kind: u32, label_length: u64, secondary: &[u8], data: &[u8]) -> Vec<u8> {
    let (description, aggregation, secondary_type, length) =
        if kind == TELEMETRY { (b"0800", 92u16, 78u16, 80u16) } else { (b"C997", 232, 104, 220) };
    assert_eq!(secondary.len(), length as usize);
    let mut s = b"NJPL2I00".to_vec();
    s.extend(description);
    s.extend(label_length.to_be_bytes());
    s.extend([0, 1]);
    s.extend(aggregation.to_be_bytes());
    s.extend([0, 2, 0, 4, 21, 4, 255, 0]);
    s.extend(secondary_type.to_be_bytes());
    s.extend(length.to_be_bytes());
    s.extend(secondary);
    s.extend([0, 10]);
    s.extend((data.len() as u16).to_be_bytes());
    s.extend(data);
    s
}

fn telemetry_by_hand(label_length: u64, data: &[u8]) -> Vec<u8> {
    by_hand(TELEMETRY, label_length, &[0; 80], data)
}

/// An RSR secondary value with every tested field in range.
fn rsr_secondary() -> Vec<u8> {
    let mut value = vec![0; 220];
    value[14] = b'S';
    value[15] = b'K';
    value[16] = 1;
    value[19] = 127;
    value[24..28].copy_from_slice(&[0x07, 0xD8, 0x01, 0x6E]);
    value
}

fn field(number: u32, offset: usize) -> Refused {
    Refused::Field { number, offset }
}

fn short(number: u32, bytes: usize) -> Refused {
    Refused::Short { number, bytes }
}

fn fresh() -> Vec<u8> {
    let mut s = vec![0xAA; 6_968];
    assert_eq!(ledger::fresh(&mut s), Ok(()));
    s
}

fn one_row(first: u32) -> Vec<u8> {
    let mut s = fresh();
    assert_eq!(ledger::enrol(&mut s, 760_930_632_193, first), Ok(0));
    s
}

/// The numbers ticked in row 0.
fn ticked(s: &[u8]) -> Vec<u32> {
    let row = &s[24..168];
    let first = u32::from_be_bytes(row[12..16].try_into().unwrap());
    (0..1_024u32).filter(|i| row[16 + *i as usize / 8] >> (i % 8) & 1 == 1).map(|i| first.wrapping_add(i)).collect()
}

#[test]
fn p1_shortest_telemetry() {
    let s = telemetry_by_hand(100, &[]);
    assert_eq!(record::read_one(&s), Ok(Record { kind: 1, length: 120, primary: [21, 4, 255, 0] }));
    assert!(record::data_part(&s).is_empty());
    assert_eq!(record::secondary_part(&s).len(), 80);
    assert_eq!(record::read_one(&telemetry_by_hand(99, &[])), Err(field(5, 12)));
}

#[test]
fn p2_longest_telemetry() {
    let data = vec![3; 65_535];
    let s = telemetry_by_hand(65_635, &data);
    assert_eq!(record::read_one(&s).map(|r| r.length), Ok(65_655));
    assert_eq!(record::data_part(&s), &data[..]);
    assert_eq!(record::read_one(&telemetry_by_hand(65_636, &data)), Err(field(5, 12)));
}

#[test]
fn p3_shortest_rsr() {
    let s = by_hand(RSR, 240, &[0; 220], &[]);
    assert_eq!(record::read_one(&s).map(|r| (r.kind, r.length)), Ok((2, 260)));
    assert_eq!(record::read_one(&by_hand(RSR, 239, &[0; 220], &[])), Err(field(5, 12)));
    assert_eq!(record::read_one(&by_hand(RSR, 65_776, &[0; 220], &[])), Err(field(5, 12)));
    assert_eq!(record::read_one(&by_hand(RSR, 65_775, &[0; 220], &[])), Err(short(6, 260)));
}

#[test]
fn p4_spacecraft() {
    let mut s = telemetry_by_hand(100, &[]);
    s[38] = 254;
    s[39] = 5;
    match record::read_headers(&s, TELEMETRY) {
        Ok((_, Fields::Telemetry(Telemetry { spacecraft, .. }))) => assert_eq!(spacecraft, 517),
        other => panic!("{other:?}"),
    }
}

#[test]
fn p5_key() {
    assert_eq!(keys::telemetry_key(177, 43, 2, 1), Ok(760_930_632_193));
}

#[test]
fn p6_signed_byte() {
    for (byte, value) in [(128, -128), (255, -1), (127, 127)] {
        let mut secondary = rsr_secondary();
        secondary[18] = byte;
        match record::read_headers(&by_hand(RSR, 240, &secondary, &[]), RSR) {
            Ok((_, Fields::Rsr(Rsr { expected_px_no, .. }))) => assert_eq!(expected_px_no, value),
            other => panic!("{other:?}"),
        }
    }
}

#[test]
fn p7_wrap() {
    let mut s = one_row(4_294_967_290);
    assert_eq!(ledger::position(760_930_632_193, 4_294_967_290, 3), Some(9));
    ledger::open(&mut s, 0, 0).unwrap();
    assert_eq!(ledger::tick(&mut s, 0, 3), Ok(()));
    assert_eq!(s[4_632 + 148 + 16 + 1], 1 << 1);
    assert_eq!(ledger::tick(&mut s, 0, 1_017), Ok(()));
    assert_eq!(s[4_632 + 291], 1 << 7);
    assert_eq!(ledger::tick(&mut s, 0, 1_018), Err(28));
    assert_eq!(ledger::tick(&mut s, 0, 4_294_967_289), Err(28));
}

#[test]
fn p8_report() {
    let mut s = one_row(1);
    assert_eq!(ledger::report(&s, 0), Ok(Report { ticked: 0, missing: 0, lowest: None }));
    ledger::open(&mut s, 0, 0).unwrap();
    for n in [1, 2, 4] {
        ledger::tick(&mut s, 0, n).unwrap();
    }
    ledger::save(&mut s, 0).unwrap();
    assert_eq!(ledger::report(&s, 0), Ok(Report { ticked: 3, missing: 1, lowest: Some(3) }));
    assert_eq!(ledger::first_gap(&s), Ok(Some((3, 0))));
}

/// Reports on rows of every shape, compared position by position.
#[test]
fn reports_are_those_of_the_positions() {
    let rng = Rng::new(6);
    for _ in 0..2_000 {
        let s = nights::sheet_with(&rng, 1, 0, 0);
        let (row, first) = (ledger::row(&s, 0), ledger::first(ledger::row(&s, 0)));
        let modulus = if row[4..12] < [0, 0, 4, 0, 0, 0, 0, 0][..] { 1 << 32 } else { 1u64 << 16 };
        let is_ticked = |i: u32| row[16 + i as usize / 8] >> (i % 8) & 1 == 1;
        let highest = (0..1_024).rev().find(|i| is_ticked(*i)).unwrap_or(0);
        let missing: Vec<u32> = (0..highest).filter(|i| !is_ticked(*i)).collect();
        let report = Report {
            ticked: (0..1_024).filter(|i| is_ticked(*i)).count() as u32,
            missing: missing.len() as u32,
            lowest: missing.first().map(|i| ((first as u64 + *i as u64) % modulus) as u32),
        };
        assert_eq!(ledger::first_gap(&s), Ok(report.lowest.map(|number| (number, 0))));
        assert_eq!(ledger::report_row(row), report);
        assert_eq!(ledger::report(&s, 0), Ok(report));
    }
}

#[test]
fn p9_stale() {
    let (a, b) = (0, 1);
    let mut s = one_row(1);
    ledger::open(&mut s, a, 0).unwrap();
    ledger::open(&mut s, b, 0).unwrap();
    ledger::tick(&mut s, a, 1).unwrap();
    ledger::tick(&mut s, b, 2).unwrap();
    assert_eq!(ledger::save(&mut s, a), Ok(()));
    assert_eq!(ledger::save(&mut s, b), Err(31));
    assert_eq!(ticked(&s), [1]);
    assert_eq!(ledger::save(&mut s, b), Err(27));
    ledger::open(&mut s, b, 0).unwrap();
    ledger::tick(&mut s, b, 2).unwrap();
    assert_eq!(ledger::save(&mut s, b), Ok(()));
    assert_eq!(ticked(&s), [1, 2]);
}

#[test]
fn p10_not_stale_again() {
    let (a, b) = (0, 1);
    let mut s = one_row(1);
    ledger::open(&mut s, a, 0).unwrap();
    ledger::open(&mut s, b, 0).unwrap();
    ledger::tick(&mut s, b, 5).unwrap();
    ledger::save(&mut s, b).unwrap();
    ledger::open(&mut s, b, 0).unwrap();
    ledger::untick(&mut s, b, 5).unwrap();
    ledger::save(&mut s, b).unwrap();
    ledger::tick(&mut s, a, 7).unwrap();
    assert_eq!(ledger::save(&mut s, a), Ok(()));
    assert_eq!(ticked(&s), [7]);
}

fn listed(input: impl Read) -> String {
    let mut out = Vec::new();
    list::list(input, &mut out).unwrap().unwrap();
    String::from_utf8(out).unwrap()
}

#[test]
fn listing_example() {
    let mut s = telemetry_by_hand(100, &[]);
    s[57] = 7;
    assert_eq!(listed(&s[..]), "place length kind number\n0 120 T 7\n120 0 0\n");
    assert_eq!(listed(&s[..119]), "place length kind number\n0 6 119\n");
    assert_eq!(listed(&s[..19]), "place length kind number\n0 1 19\n");
    assert_eq!(listed(&s[..0]), "place length kind number\n0 0 0\n");
}

/// A reader that gives one byte at a time, and fails after `good` bytes.
struct Slow<'a> {
    bytes: &'a [u8],
    good: usize,
}

impl Read for Slow<'_> {
    fn read(&mut self, out: &mut [u8]) -> io::Result<usize> {
        if self.good == 0 {
            return Err(io::Error::other("the tape tore"));
        }
        self.good -= 1;
        self.bytes.read(&mut out[..1])
    }
}

#[test]
fn listing_is_that_of_the_whole_stream() {
    let mut s = Vec::new();
    sample::big(400_000, &mut s).unwrap();
    s.extend(telemetry_by_hand(65_516, &vec![1; 65_416]));
    s.extend(by_hand(RSR, 240, &rsr_secondary(), &[]));
    s.extend(telemetry_by_hand(65_517, &vec![1; 65_417]));
    let mut entries = vec![Entry::default(); s.len() / 120];
    let stop = stream::table(&s, &mut entries);
    let mut expected = "place length kind number\n".to_string();
    let whole = stop.count as usize - 1;
    for e in &entries[..whole] {
        expected += &format!("{} {} {} {}\n", e.place, e.length, if e.kind == 1 { "T" } else { "R" }, e.number);
    }
    assert_eq!((stop.number, entries[whole].length), (0, 65_537));
    expected += &format!("{} 17 0\n", entries[whole].place);
    assert_eq!(listed(&s[..]), expected);
    assert_eq!(listed(Slow { bytes: &s, good: usize::MAX }), expected);
    // 17 comes before 6: the label alone is enough.
    let label_only = &s[..entries[whole].place as usize + 20];
    assert_eq!(listed(label_only), expected);
}

#[test]
fn a_failed_read_is_not_the_end() {
    let s = telemetry_by_hand(100, &[]).repeat(2_000);
    let mut out = Vec::new();
    let failure = list::list(Slow { bytes: &s, good: 70_000 }, &mut out).unwrap().unwrap_err();
    assert_eq!(failure.to_string(), "the tape tore");
    assert_eq!(String::from_utf8(out).unwrap().lines().last(), Some("65400 120 T 0"));
}

#[test]
fn crc_check_value() {
    assert_eq!(script::crc32(b"123456789"), 0xCBF4_3926);
    assert_eq!(script::crc32(b""), 0);
}

#[test]
fn round_trip() {
    let rng = Rng::new(5);
    for _ in 0..500 {
        let kind = make::kind(&rng);
        let primary = [(); 4].map(|_| rng.byte());
        let (secondary, data) = (rng.bytes(if kind == 1 { 80 } else { 220 }), rng.bytes(make::short_length(&rng)));
        let mut out = vec![165; 700];
        let n = record::write_one(kind, primary, &secondary, &data, &mut out).unwrap();
        assert_eq!(out[..n], by_hand_with(primary, by_hand(kind, n as u64 - 20, &secondary, &data)));
        assert!(out[n..].iter().all(|byte| *byte == 165));
        assert_eq!(record::read_one(&out), Ok(Record { kind, length: n, primary }));
        assert_eq!(record::secondary_part(&out), secondary);
        assert_eq!(record::data_part(&out), data);
    }
}

fn by_hand_with(primary: [u8; 4], mut s: Vec<u8>) -> Vec<u8> {
    s[28..32].copy_from_slice(&primary);
    s
}

#[test]
fn what_is_read_is_written_again() {
    let mut accepted = 0;
    for frame in random::script(3, 4_000) {
        let Ok(Record { kind, length, primary }) = record::read_one(&frame.a) else { continue };
        let mut out = vec![0; length];
        let (secondary, data) = (record::secondary_part(&frame.a), record::data_part(&frame.a));
        assert_eq!(record::write_one(kind, primary, secondary, data, &mut out), Ok(length));
        assert_eq!(out, frame.a[..length]);
        accepted += 1;
    }
    assert!(accepted > 100);
}

/// In an accepted record each block ends within the field that encloses it, and they fill the record to its last byte.
#[test]
fn accepted_records_nest() {
    let end = |s: &[u8], label: usize| label + 4 + u16::from_be_bytes([s[label + 2], s[label + 3]]) as usize;
    let mut accepted = 0;
    for s in (10..14).flat_map(|seed| random::script(seed, 2_000)).map(|frame| frame.a) {
        let Ok(Record { length, .. }) = record::read_one(&s) else { continue };
        let aggregation = end(&s, 20);
        assert_eq!((end(&s, 24), end(&s, 32)), (32, aggregation));
        assert!(aggregation <= length && length <= s.len());
        assert_eq!(end(&s, aggregation), length);
        accepted += 1;
    }
    assert!(accepted > 500);
}

#[test]
fn writer_refusals() {
    let mut out = vec![165; 300];
    assert_eq!(record::write_one(0, [0; 4], &[0; 80], &[], &mut out), Err(14));
    assert_eq!(record::write_one(3, [0; 4], &[0; 80], &[], &mut out), Err(14));
    assert_eq!(record::write_one(1, [0; 4], &[0; 79], &[], &mut out), Err(14));
    assert_eq!(record::write_one(2, [0; 4], &[0; 80], &[], &mut out), Err(14));
    assert_eq!(record::write_one(1, [0; 4], &[0; 80], &[0; 65_536], &mut out), Err(14));
    assert_eq!(record::write_one(1, [0; 4], &[0; 80], &[0; 65_535], &mut out), Err(13));
    assert_eq!(record::write_one(2, [0; 4], &[0; 220], &[0; 41], &mut out), Err(13));
    assert!(out.iter().all(|byte| *byte == 165));
    assert_eq!(record::write_one(2, [0; 4], &[0; 220], &[0; 40], &mut out), Ok(300));
}

/// The order of the table: each refusal is given although all later ones hold too. Type comes before length.
#[test]
fn the_higher_refusal_is_given() {
    let good = by_hand(RSR, 244, &rsr_secondary(), &[1, 2, 3, 4]);
    let damages: [(u32, usize, usize, u8); 15] = [
        (2, 0, 3, 1),
        (3, 4, 7, 1),
        (4, 8, 8, 1),
        (5, 12, 16, 1),
        (7, 20, 20, 9),
        (7, 22, 23, 9),
        (8, 24, 25, 9),
        (8, 26, 26, 9),
        (9, 32, 33, 9),
        (9, 34, 35, 9),
        (10, 256, 257, 9),
        (11, 258, 259, 9),
        (12, 28, 28, 9),
        (12, 52, 52, 9),
        (12, 62, 62, 9),
    ];
    let mut s = good.clone();
    for (number, offset, at, value) in damages.into_iter().rev() {
        s[at] = value;
        assert_eq!(record::read_headers(&s, RSR), Err(field(number, offset)));
        if number <= 11 {
            assert_eq!(record::read_one(&s), Err(field(number, offset)));
        }
        if number >= 7 {
            assert_eq!(record::read_one(&s[..263]), Err(short(6, 263)));
        }
    }
    for length in [0, 19] {
        assert_eq!(record::read_one(&s[..length]), Err(short(1, length)));
    }
    assert_eq!(record::read_headers(&good, TELEMETRY), Err(Refused::Number(15)));
    assert_eq!(record::read_headers(&good, 3), Err(Refused::Number(15)));
}

/// Whatever byte of the labels is changed, the refusal is that of its field.
#[test]
fn every_byte_of_the_labels_is_judged() {
    for (kind, data_label, s) in
        [(TELEMETRY, 116, telemetry_by_hand(104, b"data")), (RSR, 256, by_hand(RSR, 244, &rsr_secondary(), b"data"))]
    {
        // First byte and width of each field, with its refusal.
        let fields = [
            (0, 4, 2),
            (4, 4, 3),
            (8, 4, 4),
            (20, 2, 7),
            (22, 2, 7),
            (24, 2, 8),
            (26, 2, 8),
            (32, 2, 9),
            (34, 2, 9),
            (data_label, 2, 10),
            (data_label + 2, 2, 11),
        ];
        for (first, width, number) in fields {
            for (at, bit) in (first..first + width).flat_map(|at| (0..8).map(move |bit| (at, bit))) {
                let mut wrong = s.clone();
                wrong[at] ^= 1 << bit;
                assert_eq!(record::read_one(&wrong), Err(field(number, first)), "kind {kind}, byte {at}");
                let prefix = telemetry_by_hand(101, b"1");
                let stop = Stop { count: 1, place: 121, number, detail: 121 + first as u64 };
                assert_eq!(stream::walk(&[prefix, wrong].concat()), stop);
            }
        }
    }
}

#[test]
fn rsr_ranges() {
    // Offset from the record's start, the values in range at the edges, and those just outside.
    let ranges: [(usize, &[u16], &[u16]); 12] = [
        (28, &[21], &[20, 22]),
        (29, &[4], &[3, 5]),
        (31, &[0], &[1, 255]),
        (50, &[83, 88, 75], &[85, 0, 115]),
        (51, &[83, 88, 75], &[85, 0, 115]),
        (52, &[1, 3], &[0, 4]),
        (55, &[1, 127], &[0, 128]),
        (57, &[0, 63], &[64, 255]),
        (58, &[0, 128], &[129, 255]),
        (59, &[0, 128], &[129, 255]),
        (60, &[1900, 3000], &[1899, 3001, 0, 65_535]),
        (62, &[1, 366], &[0, 367, 65_535]),
    ];
    for (at, inside, outside) in ranges {
        for (value, right) in inside.iter().map(|v| (v, true)).chain(outside.iter().map(|v| (v, false))) {
            let mut s = by_hand(RSR, 240, &rsr_secondary(), &[]);
            s[62..64].copy_from_slice(&[0, 200]);
            if at >= 60 {
                s[at..at + 2].copy_from_slice(&value.to_be_bytes());
            } else {
                s[at] = *value as u8;
            }
            let answer = record::read_headers(&s, RSR);
            assert_eq!(answer.err(), if right { None } else { Some(field(12, at)) }, "{at} {value}");
        }
    }
}

#[test]
fn telemetry_band() {
    for (mode, band, answer) in [
        (0, b'?', Ok(None)),
        (1, b'S', Ok(None)),
        (2, b'U', Ok(Some(b'U'))),
        (3, b'K', Ok(Some(b'K'))),
        (0b1111_1101, b'?', Ok(None)),
        (0b1111_1110, b'X', Ok(Some(b'X'))),
        (2, b'?', Err(field(12, 58))),
    ] {
        let mut s = telemetry_by_hand(100, &[]);
        s[58] = band;
        s[60] = mode;
        let read = record::read_headers(&s, TELEMETRY).map(|(_, fields)| match fields {
            Fields::Telemetry(t) => t.uplink_band,
            Fields::Rsr(_) => panic!("not this kind"),
        });
        assert_eq!(read, answer);
    }
}

#[test]
fn keys_at_their_widths() {
    assert_eq!(keys::telemetry_key(1_023, 255, 65_535, 255), Ok((1 << 42) - 1));
    assert_eq!(keys::rsr_key(0, 0, 0, 0), Ok(1 << 42));
    assert_eq!(keys::rsr_key(255, 255, 255, 255), Ok((1 << 42) + (1 << 32) - 1));
    for i in 0..4 {
        let mut parts = [1_023, 255, 65_535, 255];
        parts[i] += 1;
        assert_eq!(keys::telemetry_key(parts[0], parts[1], parts[2], parts[3]), Err(22));
        let mut parts = [255; 4];
        parts[i] += 1;
        assert_eq!(keys::rsr_key(parts[0], parts[1], parts[2], parts[3]), Err(22));
    }
    for (key, valid) in
        [(0, true), ((1 << 42) + (1 << 32) - 1, true), ((1 << 42) + (1 << 32), false), (u64::MAX, false)]
    {
        assert_eq!(keys::valid(key), valid);
    }
}

#[test]
fn walks_and_lists() {
    let (t, r) = (telemetry_by_hand(100, &[]), by_hand(RSR, 242, &rsr_secondary(), &[1, 2]));
    let s = [&t[..], &r, &t, &r[..30]].concat();
    let stop = |count, place, number, detail| Stop { count, place, number, detail };
    assert_eq!(stream::walk(&s), stop(3, 502, 6, 30));
    assert_eq!(stream::walk(&s[..502]), stop(3, 502, 0, 0));
    assert_eq!(stream::walk(&s[..521]), stop(3, 502, 1, 19));
    assert_eq!(stream::walk(&[]), stop(0, 0, 0, 0));
    assert_eq!(Cursor { place: 502 }.step(&s), Step::Refused(short(6, 30), Cursor { place: 502 }));
    assert_eq!(Cursor { place: 1 }.step(&s), Step::Refused(field(2, 0), Cursor { place: 1 }));
    assert_eq!(Cursor { place: u64::MAX }.step(&s), Step::Done(Cursor { place: u64::MAX }));
    let mut places = [9; 3];
    let (mut lengths, mut kinds, mut numbers) = ([9; 2], [9; 4], [9; 3]);
    let stopped = stream::number_lists(&s, &mut places, &mut lengths, &mut kinds, &mut numbers);
    assert_eq!(stopped, stop(2, 382, 16, 0));
    assert_eq!((places, lengths, kinds, numbers), ([0, 120, 9], [120, 262], [1, 2, 9, 9], [0, 0, 9]));
    // No entry is free, but there is no whole record either.
    assert_eq!(stream::table(&s[382..440], &mut []), stop(0, 0, 6, 58));
    assert_eq!(stream::table(&[], &mut []), stop(0, 0, 0, 0));
}

/// Request 12: one entry for each 120 bytes of the stream, or for each 260 if all is RSR, is enough; one less is not.
#[test]
fn how_long_a_list_must_be() {
    let rng = Rng::new(12);
    let shortest = |kind| {
        by_hand(
            kind,
            if kind == TELEMETRY { 100 } else { 240 },
            &vec![0; if kind == TELEMETRY { 80 } else { 220 }],
            &[],
        )
    };
    let mut streams: Vec<Vec<u8>> = random::script(12, 4_000).into_iter().map(|frame| frame.a).collect();
    for kind in [TELEMETRY, RSR] {
        let length = shortest(kind).len();
        for _ in 0..100 {
            let mut stream = shortest(kind).repeat(rng.index(20));
            stream.extend(rng.bytes(rng.index(length)));
            streams.push(stream);
        }
    }
    let mut full = 0;
    for s in streams {
        let mut entries = vec![Entry::default(); s.len() / 120];
        let stop = stream::table(&s, &mut entries);
        assert!(stop.number != 16 && stop == stream::walk(&s) && stop.count as usize <= s.len() / 120);
        let found = &entries[..stop.count as usize];
        let least = if found.iter().all(|entry| entry.kind == RSR) { 260 } else { 120 };
        assert!(found.len() <= s.len() / least);
        assert_eq!(stream::table(&s, &mut vec![Entry::default(); s.len() / least]), stop);
        if !found.is_empty() && found.len() == s.len() / least {
            assert_eq!(stream::table(&s, &mut vec![Entry::default(); s.len() / least - 1]).number, 16);
            full += 1;
        }
    }
    assert!(full > 150);
}

/// The call of the book that a frame makes, if it makes one.
fn call_of(f: &Frame) -> Option<Call> {
    match f.op {
        ops::ENROL => Some(Call::Enrol(f.key, f.x)),
        ops::OPEN => Some(Call::Open(f.x, f.y)),
        ops::TICK => Some(Call::Tick(f.x, f.y)),
        ops::UNTICK => Some(Call::Untick(f.x, f.y)),
        ops::SAVE => Some(Call::Save(f.x)),
        ops::DROP => Some(Call::Drop(f.x)),
        ops::STRIKE => Some(Call::Strike(f.x)),
        _ => None,
    }
}

/// Runs random scripts on the sheet and, from each fresh or right sheet on, on the plain book.
#[test]
fn the_ledger_is_the_book_laid_out() {
    let mut compared = 0;
    for seed in 0..10 {
        let mut calls = script::Calls::default();
        let mut book = None;
        for f in random::script_of(seed, 2_000, Some("ledger")) {
            let line = calls.line(&f).unwrap();
            let mut words = line.split(' ');
            let mut word = || words.next().unwrap().parse::<u32>().ok();
            match f.op {
                ops::NEW_SHEET => {
                    book = Book::of_sheet(&calls.sheet);
                    assert_eq!(ledger::is_sheet(&calls.sheet), book.is_some());
                }
                ops::FRESH if calls.sheet.len() == 6_968 => book = Some(Book::new()),
                // tests/replay.rs compares what a replay leaves with the book, and tests/receive.rs what a receive
                // leaves.
                ops::REPLAY | ops::REPLAY_ON | ops::RECEIVE => book = Book::of_sheet(&calls.sheet),
                ops::CONVERT => {
                    book = Book::of_sheet_as(&book::OLD, &f.a).filter(|_| f.z == 6_968);
                    assert_eq!(word(), Some(if book.is_some() { 0 } else { 20 }));
                    let left = book.as_ref().map_or(vec![165; f.z as usize], Book::laid_out);
                    assert!(calls.sheet == left);
                }
                _ => {}
            }
            let Some(book) = &mut book else { continue };
            if let Some(call) = call_of(&f) {
                let answer = book.call(call);
                assert_eq!(word(), Some(answer.err().unwrap_or(0)), "{call:?}");
                if let (ops::ENROL, Ok(row)) = (f.op, answer) {
                    assert_eq!(word(), Some(row as u32));
                }
                assert_eq!(book.laid_out(), calls.sheet);
                compared += 1;
            }
            if f.op == ops::FIND {
                assert_eq!(ledger::find(&calls.sheet, f.key), book.find(f.key));
            }
            if f.op == ops::ROW_REPORT {
                let answer =
                    ledger::report(&calls.sheet, f.x).map(|r| (r.ticked as usize, r.missing as usize, r.lowest));
                assert_eq!(answer, book.report(f.x));
            }
            if f.op == ops::FIRST_GAP {
                assert_eq!(ledger::first_gap(&calls.sheet), Ok(book.first_gap()));
            }
        }
    }
    assert!(compared > 5_000);
}

/// Request 09; and that the law needs that the desk makes no save.
#[test]
fn what_is_not_saved_is_not_told() {
    let tried = privacy::try_pairs(1, 3_000, false);
    assert!(tried.told == 0 && tried.differed > 500, "{tried:?}");
    assert!(privacy::try_pairs(1, 300, true).told > 10);
}

#[test]
fn a_fresh_sheet_judges_only_the_length() {
    for length in [0, 6_776, 6_967, 6_969] {
        let mut s = vec![1; length];
        assert_eq!(ledger::fresh(&mut s), Err(20));
        assert_eq!(s, vec![1; length]);
    }
    assert_eq!(fresh(), Book::new().laid_out());
}

/// Changes every bit of a fresh sheet, of one with a desk open, of one with every row used and desk open, and of one
/// with free rows between: the sheet is right only if it is the layout of a book.
#[test]
fn every_bit_of_a_sheet_counts() {
    let mut underway = one_row(1);
    ledger::open(&mut underway, 3, 0).unwrap();
    let mut full = fresh();
    (0..32).for_each(|key| assert_eq!(ledger::enrol(&mut full, key, key as u32), Ok(key as usize)));
    for desk in 0..8 {
        ledger::open(&mut full, desk, 31 - desk).unwrap();
        ledger::tick(&mut full, desk, 100 + desk).unwrap();
    }
    let mut holes = full.clone();
    for row in [0, 5, 23] {
        ledger::strike(&mut holes, row).unwrap();
    }
    for mut s in [full, holes, fresh(), underway] {
        assert!(ledger::is_sheet(&s));
        for (at, bit) in (0..s.len()).flat_map(|at| (0..8).map(move |bit| (at, bit))) {
            s[at] ^= 1 << bit;
            assert_eq!(ledger::is_sheet(&s), Book::of_sheet(&s).is_some(), "byte {at}, bit {bit}");
            s[at] ^= 1 << bit;
        }
    }
}

fn lines(frames: &[Frame]) -> Vec<String> {
    let mut bytes = Vec::new();
    frames.iter().for_each(|frame| frame.write(&mut bytes).unwrap());
    lines_of(&bytes)
}

fn lines_of(script: &[u8]) -> Vec<String> {
    let mut lines = Vec::new();
    script::run(script, |_, line| {
        lines.push(line.to_string());
        Ok(())
    })
    .unwrap();
    lines
}

#[test]
fn script_lines() {
    let t = telemetry_by_hand(100, &[]);
    let mut secondary = rsr_secondary();
    secondary[18] = 255;
    let r = by_hand(RSR, 243, &secondary, b"abc");
    let of = |op, x, a: &[u8]| Frame { op, x, a: a.to_vec(), ..Frame::default() };
    let list = Frame { op: ops::LIST_NUMBERS, x: 2, y: 1, z: 1, w: 0, a: t.clone(), ..Frame::default() };
    let step = |key| Frame { op: ops::STEP, key, a: t.clone(), ..Frame::default() };
    let write = |z| Frame { op: ops::WRITE_ONE, x: 1, y: 0x0102_0304, z, a: vec![0; 80], ..Frame::default() };
    assert_eq!(
        lines(&[
            of(ops::READ_ONE, 0, &t),
            of(ops::READ_ONE, 0, &t[..50]),
            of(ops::SECONDARY_PART, 0, &t[..50]),
            of(ops::DATA_PART, 0, &r),
            of(ops::READ_HEADERS, 1, &t),
            of(ops::READ_HEADERS, 2, &r),
            of(ops::READ_HEADERS, 3, &r),
            write(0),
            of(ops::WALK, 0, &t),
            of(ops::WALK, 0, &t[..119]),
            list,
            step(0),
            step(119),
            step(120),
            step(121),
            of(ops::RSR_KEY, 256, &[]),
            of(ops::FRESH, 0, &[]),
            of(ops::NEW_SHEET, 0, &[]),
            of(ops::FRESH, 0, &[]),
        ]),
        [
            "0 1 120 21 4 255 0",
            "6 50",
            "0 0",
            "3 891568578",
            "0 1 120 21 4 255 0 0 0 0 0 none 0 0 0 0 0 0 0",
            "0 2 263 21 4 255 0 0 0 0 0 0 0 0 0 83 75 1 0 -1 127 0 0 0 0 2008 366 0 4398046511104 39811",
            "15",
            "13 0",
            "1 120 0 0",
            "0 0 6 119",
            "0 0 16 0 7 7 7 7",
            "0 1 120 21 4 255 0 120",
            "1 1 119",
            "done 120",
            "done 121",
            "22",
            &format!("0 {}", script::crc32(&Book::new().laid_out())),
            "0 0",
            "20 0",
        ]
    );
}

#[test]
fn bad_frames() {
    let good = Frame { op: ops::TELEMETRY_KEY, ..Frame::default() };
    let mut bytes = Vec::new();
    good.write(&mut bytes).unwrap();
    assert_eq!(lines_of(&[]), [""; 0]);
    assert_eq!(lines_of(&bytes), ["0 0"]);
    assert_eq!(lines_of(&[&bytes[..], &bytes[..39]].concat()), ["0 0", "bad frame"]);
    for op in [0, 18, 43, u32::MAX] {
        assert_eq!(lines(&[good.clone(), Frame { op, ..Frame::default() }, good.clone()]), ["0 0", "bad frame"]);
    }
    let most = Frame { op: ops::WALK, a: vec![0; 131_072], b: vec![0; 66_000], ..Frame::default() };
    assert_eq!(lines(&[most]), ["0 0 2 0"]);
    assert_eq!(lines(&[Frame { op: ops::WALK, a: vec![0; 131_073], ..Frame::default() }]), ["bad frame"]);
    assert_eq!(lines(&[Frame { op: ops::WALK, b: vec![0; 66_001], ..Frame::default() }]), ["bad frame"]);
}

#[test]
fn random_scripts_meet_every_refusal() {
    let mut behind = BTreeSet::new();
    for seed in 100..140 {
        let mut script = Vec::new();
        random::script(seed, 2_000).iter().for_each(|frame| frame.write(&mut script).unwrap());
        let coverage = Coverage::of(&script);
        assert!(coverage.is_whole(), "seed {seed}, missing: {:?}", coverage.missing());
        assert!(script.len() <= 2_200_000, "seed {seed}: {} bytes", script.len());
        behind.extend(coverage.behind());
    }
    assert!(behind.into_iter().eq((0..=11).chain([16])));
}

#[test]
fn samples_are_stored_and_told_of() {
    let folder = concat!(env!("CARGO_MANIFEST_DIR"), "/../samples");
    let page = std::fs::read_to_string(format!("{folder}/README.md")).unwrap();
    for sample in sample::stored() {
        let told = match sample.last_line {
            "" => format!("| `{}` | {} |", sample.name, sample.about),
            last_line => format!("| `{}` | `{last_line}` | {} |", sample.name, sample.about),
        };
        assert!(page.contains(&told), "{}", sample.name);
        let stored = std::fs::read(format!("{folder}/{}", sample.name)).unwrap();
        assert!(sample::sample(sample.name).unwrap() == stored, "{}", sample.name);
    }
}

#[test]
fn samples_stop_as_named() {
    for sample in sample::SAMPLES.iter().chain(&sample::LESSONS).chain(&sample::LISTED) {
        let stream = sample::sample(sample.name).unwrap();
        let text = listed(&stream[..]);
        assert_eq!(text.lines().last(), Some(sample.last_line), "{}", sample.name);
        if let Some(number) = sample.name.strip_prefix("refusal-") {
            assert_eq!(sample.last_line.split(' ').nth(1), Some(number.trim_start_matches('0')));
        }
        assert!(stream.len() <= 250_000);
    }
}
