//! The stored samples compared, field by field, with what source documents 000, 001 and 004 allow (`ranges`). Each
//! has exactly the wrong fields that it is kept for.

use crate::idr;
use crate::keys::FIRST_RSR;
use crate::ranges::{self, Kind, TELEMETRY_BLOCKS};
use crate::record::{self, Fields, RSR, TELEMETRY};
use crate::sample::{self, LESSONS, RSR_STREAMS, SAMPLES, SHEETS};
use crate::tapes::TAPES;
use crate::{convert, ledger, wrong_sheets};
use std::collections::BTreeMap;

/// What is wrong in each sample of records, and the place of the record that has it. A sample that is not listed has
/// nothing wrong.
const WRONG: [(&str, usize, &[&str]); 22] = [
    ("refusal-02", 2_564, &["control authority"]),
    ("refusal-03", 2_564, &["label version"]),
    ("refusal-04", 2_564, &["data description"]),
    ("refusal-05", 2_564, &["label length", "the label's length is N - 20"]),
    ("refusal-07", 2_564, &["aggregation length"]),
    ("refusal-08", 2_564, &["primary type"]),
    ("refusal-09", 2_564, &["secondary type"]),
    ("refusal-10", 2_564, &["data type"]),
    ("refusal-11", 2_564, &["the data's length is N - 120"]),
    ("lessons/outer-length", 0, &["aggregation length", "secondary type", "the data's length is N - 120"]),
    ("rsr/refusal-12", 2_260, &["uplink band"]),
    ("rsr/refusal-19", 2_260, &["size and rate are a listed pair"]),
    ("rsr/refusal-34", 2_260, &["the data are as long as the pair's"]),
    ("tapes/refusal-51", 5_056, &["length word"]),
    ("tapes/refusal-52", 5_056, &["the day is 1 to 366"]),
    ("tapes/refusal-53", 5_056, &["playback rate"]),
    ("tapes/refusal-54", 5_056, &["block size", "the block size is the playback rate"]),
    // Records that are cut: what is there is the beginning of a right record.
    ("refusal-01", 2_564, &["cut"]),
    ("refusal-06", 2_564, &["cut"]),
    ("tapes/refusal-50", 5_056, &["cut"]),
    // Right records: one too long for the listing's buffer, one of another kind than is asked for.
    ("refusal-17", 2_564, &[]),
    ("rsr/refusal-15", 2_260, &[]),
];

fn wrong_in(name: &str, place: usize) -> &'static [&'static str] {
    WRONG.iter().find(|(sample, at, _)| (*sample, *at) == (name, place)).map_or(&[], |(_, _, wrong)| wrong)
}

/// The records of a sample: place, kind, bytes. In streams a wrong record is a telemetry record, of the length given
/// here.
fn records(name: &str) -> Vec<(usize, Kind, Vec<u8>)> {
    let stream = sample::sample(name).unwrap();
    let mut found = Vec::new();
    let mut place = 0;
    while place < stream.len() {
        let rest = &stream[place..];
        let (kind, length) = match record::read_one(rest) {
            _ if name.starts_with("tapes/") => (Kind::Tape, idr::RECORD),
            Ok(record) => (Kind::of_record(record.kind), record.length),
            Err(_) => (Kind::Telemetry, 140),
        };
        found.push((place, kind, rest[..length.min(rest.len())].to_vec()));
        place += length;
    }
    found
}

fn streams_and_tapes() -> impl Iterator<Item = &'static str> {
    SAMPLES.iter().chain(&LESSONS).chain(&RSR_STREAMS).chain(&TAPES).map(|sample| sample.name)
}

#[test]
fn every_field_is_what_the_documents_allow() {
    let mut met = 0;
    for name in streams_and_tapes() {
        for (place, kind, record) in records(name) {
            let told = wrong_in(name, place);
            met += usize::from(WRONG.iter().any(|(sample, at, _)| (*sample, *at) == (name, place)));
            if told != ["cut"] {
                assert_eq!(ranges::wrong(kind, &record), told, "{name} at {place}");
            }
        }
    }
    assert_eq!(met, WRONG.len());
}

#[test]
fn a_cut_record_is_the_beginning_of_a_right_one() {
    let whole = [("refusal-01", "refusal-11"), ("refusal-06", "refusal-11"), ("tapes/refusal-50", "tapes/refusal-51")];
    for (cut, spoilt) in whole {
        let (cut, spoilt) = (sample::sample(cut).unwrap(), sample::sample(spoilt).unwrap());
        let differ: Vec<usize> = (0..cut.len()).filter(|at| cut[*at] != spoilt[*at]).collect();
        // Except for the other's wrong field: the data length, the length word.
        assert!(differ.iter().all(|at| [2_564 + 119, 5_056 + 5].contains(at)), "{differ:?}");
    }
}

/// Every bit of every header is in exactly one field, and no two fields have the same name.
#[test]
fn the_ranges_leave_no_bit_out() {
    for (kind, header) in [(Kind::Telemetry, 120), (Kind::Rsr, 260), (Kind::Tape, idr::HEADER)] {
        let mut names = Vec::new();
        let mut bit = 0;
        for block in kind.blocks() {
            assert_eq!(bit, 8 * block.at, "{}", block.section);
            for field in block.fields {
                assert_eq!(ranges::in_record(block, field), bit, "{}", field.name);
                bit += field.width;
                names.push(field.name);
            }
            assert_eq!(bit, 8 * (block.at + block.length), "{}", block.section);
        }
        assert_eq!(bit, 8 * header);
        let count = names.len();
        names.sort_unstable();
        names.dedup();
        assert_eq!(names.len(), count, "{kind:?}");
    }
}

fn a_record(kind: Kind) -> Vec<u8> {
    match kind {
        Kind::Telemetry => records("refusal-11").remove(0).2,
        Kind::Rsr => records("rsr/tone").remove(0).2,
        Kind::Tape => records("tapes/good-tape").remove(0).2,
    }
}

fn put_bits(s: &mut [u8], bit: usize, width: usize, number: u128) {
    for i in 0..width {
        let (at, mask) = ((bit + i) / 8, 0x80 >> ((bit + i) % 8));
        let set = number >> (width - 1 - i) & 1 == 1;
        s[at] = if set { s[at] | mask } else { s[at] & !mask };
    }
}

/// The checker can fail: it names a field whose value is not allowed, for every field that does not allow all numbers.
#[test]
fn a_number_out_of_range_is_told_of() {
    let (mut fields, mut bounded) = (0, 0);
    for kind in [Kind::Telemetry, Kind::Rsr, Kind::Tape] {
        let right = a_record(kind);
        assert!(ranges::wrong(kind, &right).is_empty());
        for block in kind.blocks() {
            for field in block.fields {
                let (bit, ones) = (ranges::in_record(block, field), u128::MAX >> (128 - field.width));
                let told = [0, 1, 4, ones / 2 + 1, ones].into_iter().filter(|number| *number <= ones).any(|number| {
                    let mut spoilt = right.clone();
                    put_bits(&mut spoilt, bit, field.width, number);
                    ranges::wrong(kind, &spoilt).contains(&field.name)
                });
                assert_eq!(told, !field.is_free(), "{kind:?} {}", field.name);
                bounded += usize::from(told);
                fields += 1;
            }
        }
    }
    // samples/README.md has these numbers.
    assert_eq!((fields, bounded), (225, 161));
}

/// Fields written into a right record so that they no longer agree, and what the checker says.
const DISAGREE: [(Kind, &[(&str, u64)], &str); 24] = [
    (Kind::Telemetry, &[("label length", 102)], "the label's length is N - 20"),
    (Kind::Telemetry, &[("data length", 2)], "the data's length is N - 120"),
    (Kind::Telemetry, &[("data length", 1)], "the data's length is even"),
    (Kind::Telemetry, &[("number of bits", 1)], "there are no more bits than the data have"),
    (Kind::Telemetry, &[("extended resolution", 1)], RESOLUTION),
    (Kind::Telemetry, &[("extended resolution valid", 1), ("extended resolution", 1_000)], RESOLUTION),
    (Kind::Telemetry, &[("frame sync mode", 4)], "one frame sync mode, unless it is bypassed"),
    (Kind::Telemetry, &[("frame sync bypass", 0)], "one frame sync mode, unless it is bypassed"),
    (Kind::Telemetry, &[("minor class", 10)], "frame aligned classes have a frame sync mode"),
    (Kind::Telemetry, &[("arrayed stations", 128)], "stations are arrayed only in an array"),
    (Kind::Telemetry, &[("virtual stream", 127)], "the virtual stream is none of the two reserved"),
    (Kind::Telemetry, &[("equipment number", 12)], "the equipment is a known one"),
    (Kind::Rsr, &[("label length", 2_242)], "the label's length is N - 20"),
    (Kind::Rsr, &[("data length", 2_002)], "the data's length is N - 260"),
    (Kind::Rsr, &[("sample rate", 3)], "size and rate are a listed pair"),
    (Kind::Rsr, &[("sample rate", 2)], "the data are as long as the pair's"),
    (Kind::Rsr, &[("year", 2_009), ("day", 366)], "both time tags are dates"),
    (Kind::Rsr, &[("downlink band", b'S' as u64)], "the oscillator of the downlink band"),
    (Kind::Rsr, &[("down converter's oscillator", 321)], "the subchannel's frequency takes the predicted one to zero"),
    (Kind::Rsr, &[("peak", 3)], "the peak is not below the RMS"),
    (Kind::Tape, &[("tens of days", 7), ("hundreds of days", 3)], "the day is 1 to 366"),
    (Kind::Tape, &[("tens of hours", 2), ("hours", 4)], "the hour is 0 to 23"),
    (Kind::Tape, &[("block size", (1 << 24) - 50_000)], "the block size is the playback rate"),
    (Kind::Tape, &[("sample count", 2)], "a record with a valid time has sample count 1"),
];
const RESOLUTION: &str = "extended resolution only where it is valid, in its unit";
/// Cutting a record breaks this rule.
const TAPE_WORDS: &str = "the record has 2,528 words";

/// Each rule over several fields can fail.
#[test]
fn fields_that_do_not_agree_are_told_of() {
    for (kind, fields, words) in DISAGREE {
        let mut record = a_record(kind);
        for (name, number) in fields {
            let (bit, width) = ranges::field(kind.blocks(), name);
            put_bits(&mut record, bit, width, u128::from(*number));
        }
        assert_eq!(ranges::wrong(kind, &record).iter().filter(|wrong| **wrong == words).count(), 1, "{fields:?}");
    }
    assert_eq!(ranges::wrong(Kind::Tape, &a_record(Kind::Tape)[..5_055]), [TAPE_WORDS]);
    let rules =
        [Kind::Telemetry, Kind::Rsr, Kind::Tape].into_iter().flat_map(Kind::together).map(|(_, words, _)| words);
    for words in rules.filter(|words| **words != TAPE_WORDS) {
        assert!(DISAGREE.iter().any(|(_, _, told)| told == words), "{words}");
    }
}

/// The records of one stream: numbers one apart; a receiver's seconds one apart in both time tags; received times
/// that rise; one night.
#[test]
fn a_streams_records_follow_each_other() {
    let mut pairs = 0;
    for name in ["good-night", "rsr/tone"] {
        let mut last: BTreeMap<u64, Vec<u8>> = BTreeMap::new();
        for (_, kind, record) in records(name) {
            let key = key_of(kind, &record);
            if let Some(before) = last.insert(key, record.clone()) {
                follows(kind, &before, &record);
                pairs += 1;
            }
        }
    }
    assert_eq!(pairs, 240 - 5 + 1);
}

/// The stream key, from a record that read headers accepts.
fn key_of(kind: Kind, record: &[u8]) -> u64 {
    match (kind, record::read_headers(record, if matches!(kind, Kind::Rsr) { RSR } else { TELEMETRY }).unwrap().1) {
        (Kind::Telemetry, Fields::Telemetry(fields)) => fields.key,
        (Kind::Rsr, Fields::Rsr(fields)) => fields.key,
        _ => panic!("no stream's record"),
    }
}

fn follows(kind: Kind, before: &[u8], record: &[u8]) {
    let both = |name| (ranges::get(kind.blocks(), before, name), ranges::get(kind.blocks(), record, name));
    let (number, next) = both("record number");
    if matches!(kind, Kind::Telemetry) {
        assert_eq!(next, (number + 1) % (1 << 32));
        assert_eq!(both("received day"), (18_503, 18_503));
        let (then, now) = both("received milliseconds");
        assert!(then < now);
        return;
    }
    assert_eq!(next, (number + 1) % (1 << 16));
    for year in ["converter's year", "year"] {
        assert_eq!(both(year), (2_008, 2_008));
    }
    for day in ["converter's day", "day"] {
        assert_eq!(both(day), (242, 242));
    }
    let (then, now) = both("converter's second");
    assert_eq!(now, then + 1);
    let (then, now) = both("second");
    assert_eq!(f64::from_bits(now), f64::from_bits(then) + 1.0);
    assert_eq!(f64::from_bits(now), both("converter's second").1 as f64);
}

/// The first and the third record of the tape are a whole second apart.
#[test]
fn a_tapes_seconds_follow_each_other() {
    let found = records("tapes/good-tape");
    let second = |i: usize| ranges::get(found[i].1.blocks(), &found[i].2, "seconds");
    assert_eq!((second(0), second(2)), (5, 6));
    // 60 records of 5,000 samples are a second of 300,000.
    let number = |i: usize| ranges::get(found[i].1.blocks(), &found[i].2, "record number");
    assert_eq!(number(2) - number(0), 300_000 / 5_000);
}

/// The keys of a sheet are made from numbers that the documents allow.
#[test]
fn sheets_have_streams_of_the_documents() {
    for sample in &SHEETS {
        let bytes = (sample.make)();
        let mut sheet = vec![0; ledger::SHEET];
        if bytes.len() == ledger::SHEET {
            sheet.copy_from_slice(&bytes);
        } else {
            convert::convert(&bytes, &mut sheet).unwrap();
        }
        assert!(ledger::is_sheet(&sheet), "{}", sample.name);
        for row in ledger::used_rows(&sheet) {
            let key = ledger::key(ledger::row(&sheet, row));
            let (stream, receiver) = (key & 0xFF, key >> 8 & 0xFF);
            if key < FIRST_RSR {
                assert!(ranges::equipment_known(key >> 8 & 0xFFFF) && ![126, 127].contains(&stream), "{}", sample.name);
            } else {
                assert!((1..=16).contains(&receiver) && (1..=4).contains(&stream), "{}", sample.name);
            }
        }
    }
}

/// A sheet that is not right differs from a right one in exactly the bytes that its text names.
#[test]
fn wrong_sheets_are_wrong_where_they_say() {
    let right = wrong_sheets::right();
    assert!(ledger::is_sheet(&right));
    for sample in &wrong_sheets::SHEETS {
        let sheet = (sample.make)();
        assert!(!ledger::is_sheet(&sheet), "{}", sample.name);
        let words = sample.about.split(|c: char| !c.is_ascii_digit()).filter(|word| !word.is_empty());
        let mut numbers = words.map(|word| word.parse::<usize>().unwrap());
        let first = numbers.next().unwrap();
        let last = if sample.about.starts_with("Bytes") { numbers.next().unwrap() } else { first };
        let differ: Vec<usize> = (0..ledger::SHEET).filter(|at| sheet.get(*at) != Some(&right[*at])).collect();
        assert!(
            !differ.is_empty() && differ.iter().all(|at| (first..=last).contains(at)),
            "{}: {differ:?}",
            sample.name
        );
    }
}

/// A reader that takes the top bits of byte 38 puts the lesson's record into the other row.
#[test]
fn the_lessons_record_goes_astray_by_the_top_bits() {
    let record = sample::sample("lessons/bit-8").unwrap();
    let spacecraft = ranges::get(&TELEMETRY_BLOCKS, &record, "spacecraft");
    let by_top_bits = u64::from(record[38] >> 6) << 8 | u64::from(record[39]);
    assert_eq!((spacecraft, by_top_bits), (517, 5));
    let sheet = sample::sample("sheets/two-spacecraft").unwrap();
    for (row, spacecraft) in [(0, 5), (1, 517)] {
        let key = crate::keys::telemetry_key(spacecraft, 43, 2, 1).unwrap();
        assert_eq!(ledger::find(&sheet, key), Ok(row));
    }
    assert_eq!(key_of(Kind::Telemetry, &record), crate::keys::telemetry_key(517, 43, 2, 1).unwrap());
}
