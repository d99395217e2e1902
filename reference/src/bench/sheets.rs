//! Benchmarks of the calls on sheets.

use super::Bench;
use crate::keys;
use crate::ledger::{self, POSITIONS, ROW_PLACES, SHEET};
use crate::make::{put, Rng};
use crate::random::traces;
use crate::record::{self, Fields, TELEMETRY};
use crate::replay::{self, MOST_ENTRIES};
use crate::season::MOST_SHEETS;
use crate::{nights, sample};
use std::hint::black_box;

/// Records of the long stream, all of one row.
const RECORDS: u32 = 100_000;
const RECORD: usize = 120;
/// Keys that are the same modulo this fall into one slot of the library's first table.
const SLOTS: u64 = 7_699;

/// Whether a slice is a sheet, and the calls that hardly do more.
pub fn checks(bench: &Bench) {
    let full = nights::full_sheet(&Rng::new(1));
    for (name, s) in [
        ("is it a sheet: fresh", &fresh_sheet()),
        ("is it a sheet: one row, one desk open", &one_row_sheet()),
        ("is it a sheet: 16 rows", &nights::sheet_with(&Rng::new(1), 16, 0, 0)),
        ("is it a sheet: 16 rows, 16 struck", &nights::sheet_with(&Rng::new(1), 16, 16, 0)),
        ("is it a sheet: 32 rows", &nights::sheet_with(&Rng::new(1), 32, 0, 0)),
        ("is it a sheet: 32 rows, 8 desks open", &full),
    ] {
        bench.compare(name, 1.0, |i| (i.is_sheet)(black_box(s)));
    }
    ticks("a tick or untick: one row", &mut one_row_sheet(), bench);
    ticks("a tick or untick: 32 rows, 8 desks open", &mut full.clone(), bench);
    for (name, s) in [("row report: one row", &one_row_sheet()), ("row report: 32 rows, 8 desks open", &full)] {
        bench.compare(name, 1.0, |i| (i.report)(black_box(s), 0));
    }
}

/// Ticks a number and unticks it (or the other way about), which leaves the sheet as it was.
fn ticks(name: &str, s: &mut [u8], bench: &Bench) {
    let n = ledger::number_at(&ledger::desk(s, 0)[ledger::WORKED..], 100);
    let _ = ledger::untick(s, 0, n);
    bench.compare(name, 2.0, |i| (i.tick)(black_box(s), 0, n) << 8 | (i.untick)(black_box(s), 0, n));
}

fn fresh_sheet() -> Vec<u8> {
    let mut s = vec![0; SHEET];
    ledger::fresh(&mut s).expect("the length is right");
    s
}

fn one_row_sheet() -> Vec<u8> {
    let mut s = fresh_sheet();
    ledger::enrol(&mut s, 760_930_632_193, 1).expect("a fresh sheet");
    ledger::open(&mut s, 0, 0).expect("a closed desk");
    for n in [1, 2, 4, 900] {
        ledger::tick(&mut s, 0, n).expect("not ticked");
    }
    ledger::save(&mut s, 0).expect("not stale");
    ledger::open(&mut s, 0, 0).expect("a closed desk");
    s
}

/// Reports on a sheet of one row: the counting alone, and the call with its sheet's check.
pub fn reports(bench: &Bench) {
    for (row, ticked) in [
        ("no tick", Vec::new()),
        ("gap at the start", (1..POSITIONS).collect()),
        ("gap at the end", (0..POSITIONS).filter(|n| *n != POSITIONS - 2).collect()),
        ("whole", (0..POSITIONS).collect()),
    ] {
        let s = ticked_sheet(&ticked);
        bench.compare(&format!("counting alone: {row}"), 1.0, |i| (i.count)(black_box(&s), black_box(0)));
        bench.compare(&format!("row report, one row: {row}"), 1.0, |i| (i.report)(black_box(&s), black_box(0)));
    }
}

/// A sheet of one row, in which these numbers are ticked.
fn ticked_sheet(numbers: &[u32]) -> Vec<u8> {
    let mut s = fresh_sheet();
    ledger::enrol(&mut s, 760_930_632_193, 0).expect("a fresh sheet");
    ledger::open(&mut s, 0, 0).expect("a closed desk");
    for n in numbers {
        ledger::tick(&mut s, 0, *n).expect("not ticked");
    }
    ledger::save(&mut s, 0).expect("not stale");
    s
}

/// A night of 4,000 calls played again, from nothing and over a sheet: the time of one.
pub fn replays(bench: &Bench) {
    let night = traces::recorded(&Rng::new(1), MOST_ENTRIES);
    let trace = replay::write_trace(&night);
    let fresh = fresh_sheet();
    let mut s = fresh.clone();
    bench.compare("replay, a call: 4,000", MOST_ENTRIES as f64, |i| (i.replay)(black_box(&trace), black_box(&mut s)));
    bench.compare("replay on, a call: 4,000", MOST_ENTRIES as f64, |i| {
        s.copy_from_slice(&fresh);
        (i.replay_on)(black_box(&trace), black_box(&mut s))
    });
}

pub fn questions(bench: &Bench) {
    let full = nights::full_sheet(&Rng::new(1));
    let keys: Vec<u64> = (0..1_000).map(|i| i * 4_402_341_478 % keys::PAST_RSR).collect();
    bench.compare("parts of a key", keys.len() as f64, |i| {
        black_box(&keys).iter().fold(0, |all, key| all ^ (i.parts)(*key))
    });
    bench.compare("row: 32 rows, 8 desks open", 1.0, |i| (i.row)(black_box(&full), 31));
    bench.compare("desk: 32 rows, 8 desks open", 1.0, |i| (i.desk)(black_box(&full), 0));
    bench.compare("unsaved: 32 rows, 8 desks open", 1.0, |i| (i.unsaved)(black_box(&full), 0));
}

/// A row whose every second number is missing.
pub fn missing(bench: &Bench) {
    let ticked: Vec<u32> = (0..POSITIONS).filter(|n| n % 2 == 1).collect();
    let s = ticked_sheet(&ticked);
    let mut list = vec![0; POSITIONS as usize];
    bench.compare("missing list: every second number", 1.0, |i| (i.missing)(black_box(&s), 0, black_box(&mut list)));
}

/// A stream whose records are numbered round and round the positions of one row: from the second round on a record is ticked already.
pub fn receives(bench: &Bench) {
    for (name, records, rows) in [
        ("receive, a record: 100,000 of one row", RECORDS, 1),
        ("receive, a record: 1,024 of one row, all new", POSITIONS, 1),
        ("receive, a record: 1,024 of row 31 of 32", POSITIONS, ROW_PLACES),
    ] {
        let stream = row_stream(records);
        let start = enrolled(stream_key(&stream), rows);
        let mut s = start.clone();
        let mut list = vec![0; records as usize];
        bench.compare(name, records as f64, |i| {
            s.copy_from_slice(&start);
            (i.receive)(black_box(&mut s), 0, black_box(&stream), black_box(&mut list))
                ^ list[records as usize - 1] as u64
        });
    }
}

fn row_stream(records: u32) -> Vec<u8> {
    let mut stream = sample::telemetry_stream(records, RECORD);
    let (at, width) = record::number_field(TELEMETRY);
    for (number, record) in (0..).zip(stream.chunks_exact_mut(RECORD)) {
        put(record, at, width, number % u64::from(POSITIONS));
    }
    stream
}

fn stream_key(stream: &[u8]) -> u64 {
    match record::read_headers(stream, TELEMETRY) {
        Ok((_, Fields::Telemetry(fields))) => fields.key,
        _ => unreachable!("a telemetry record"),
    }
}

/// A sheet with so many rows, the last of them the stream's.
fn enrolled(key: u64, rows: usize) -> Vec<u8> {
    let mut s = fresh_sheet();
    for other in 1..rows as u64 {
        ledger::enrol(&mut s, key ^ other, 0).expect("a free row");
    }
    ledger::enrol(&mut s, key, 0).expect("a free row");
    s
}

/// 16 sheets of 32 rows.
pub fn seasons(bench: &Bench) {
    let rng = Rng::new(1);
    let count = (MOST_SHEETS * ROW_PLACES) as u64;
    let random: Vec<u64> = (0..count).map(|i| i << 33 | rng.below(1 << 32)).collect();
    let fields: Vec<u64> = (0..count).map(|i| 82 << 32 | (i % 8) << 24 | (i / 8 % 8) << 8 | i / 64).collect();
    let rising: Vec<u64> = (0..count).map(|i| 5 + i * SLOTS).collect();
    for (name, keys, chance) in [
        ("season, a row: keys at random, whole", shuffled(&rng, &random), 100),
        ("season, a row: keys at random, ticks too", shuffled(&rng, &random), 50),
        ("season, a row: keys that differ in fields", fields, 50),
        ("season, a row: one slot, rising", rising.clone(), 100),
        ("season, a row: one slot, shuffled", shuffled(&rng, &rising), 50),
        ("season, a row: one slot, no tick", shuffled(&rng, &rising), 0),
    ] {
        let s = season(&rng, &keys, chance);
        bench.compare(name, count as f64, |i| (i.season)(black_box(&s)));
    }
}

fn shuffled(rng: &Rng, keys: &[u64]) -> Vec<u64> {
    let mut keys = keys.to_vec();
    for i in (1..keys.len()).rev() {
        keys.swap(i, rng.index(i + 1));
    }
    keys
}

/// Sheets with these keys, in each row so many positions of a hundred ticked.
fn season(rng: &Rng, keys: &[u64], chance: u64) -> Vec<u8> {
    let mut season = Vec::with_capacity(MOST_SHEETS * SHEET);
    for keys in keys.chunks(ROW_PLACES) {
        let mut s = fresh_sheet();
        for (row, key) in (0..).zip(keys) {
            ledger::enrol(&mut s, *key, 0).expect("a free row");
            ledger::open(&mut s, 0, row).expect("a closed desk");
            for n in (0..POSITIONS).filter(|_| rng.percent(chance)) {
                ledger::tick(&mut s, 0, n).expect("not ticked");
            }
            ledger::save(&mut s, 0).expect("not stale");
        }
        season.extend(s);
    }
    season
}
