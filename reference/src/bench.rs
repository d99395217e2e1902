//! Benchmarks: each call on fixed inputs, in nanoseconds per call, the best of several passes. With the feature
//! `rattle` every line also has the proved library's time, and the ratio.

use crate::idr::{self, Idr};
use crate::receive::{self, Received};
use crate::record::{Fields, Record, Refused, Rsr, Telemetry, RSR, TELEMETRY};
use crate::replay::{self, Replayed};
use crate::season::{self, Season};
use crate::stream;
use crate::{dates, iq, keys, ledger, record, sample};
use std::hint::black_box;
use std::time::Instant;

mod programs;
mod sheets;

/// Many short passes: some of them meet no other work on the machine.
const PASSES: usize = 150;
/// How long a pass takes, about.
const PASS_SECONDS: f64 = 0.002;
/// Runs of a program.
const LISTED_PASSES: usize = 11;

/// The calls that are timed. Each returns a number computed from its answer, so that implementations can be compared.
pub struct Implementation {
    pub name: &'static str,
    pub read_headers: fn(&[u8], u32) -> u64,
    pub walk: fn(&[u8]) -> u64,
    pub read_tape: fn(&[u8]) -> u64,
    pub date_of: fn(u32) -> u64,
    /// Unpacks a record's samples into the list.
    pub unpack: fn(&[u8], &mut [i32]) -> u64,
    /// Packs numbers into bytes, for a size and a rate.
    pub pack: fn(u32, u32, &[i32], &mut [u8]) -> u64,
    pub is_sheet: fn(&[u8]) -> u64,
    pub tick: fn(&mut [u8], u32, u32) -> u64,
    pub untick: fn(&mut [u8], u32, u32) -> u64,
    pub report: fn(&[u8], u32) -> u64,
    /// The counting alone: the report of a row of a right sheet. Does not check the sheet.
    pub count: fn(&[u8], u32) -> u64,
    pub replay: fn(&[u8], &mut [u8]) -> u64,
    pub replay_on: fn(&[u8], &mut [u8]) -> u64,
    pub parts: fn(u64) -> u64,
    pub row: fn(&[u8], u32) -> u64,
    pub desk: fn(&[u8], u32) -> u64,
    pub unsaved: fn(&[u8], u32) -> u64,
    /// The missing numbers of a row into the list.
    pub missing: fn(&[u8], u32, &mut [u32]) -> u64,
    /// Desk, stream, and the list of outcomes.
    pub receive: fn(&mut [u8], u32, &[u8], &mut [u32]) -> u64,
    pub season: fn(&[u8]) -> u64,
}

pub const REFERENCE: Implementation = Implementation {
    name: "reference",
    read_headers: |s, wanted| headers_number(record::read_headers(s, wanted)),
    // The count of whole records.
    walk: |s| black_box(stream::walk(s)).count,
    read_tape: |s| tape_number(idr::read(s)),
    // 1,000 times the year, plus the day.
    date_of: |count| dates::date_of(count).map_or_else(u64::from, |(year, day)| 1_000 * year as u64 + day as u64),
    unpack: |s, list| iq::unpack(s, list).map_or_else(|refused| refused.number() as u64, |count| count as u64),
    pack: |size, rate, numbers, out| iq::pack(size, rate, numbers, out).map_or_else(u64::from, |count| count as u64),
    is_sheet: |s| ledger::is_sheet(s) as u64,
    tick: |s, desk, n| ledger::tick(s, desk, n).err().unwrap_or(0) as u64,
    untick: |s, desk, n| ledger::untick(s, desk, n).err().unwrap_or(0) as u64,
    report: |s, row| report_number(ledger::report(s, row)),
    count: |s, row| report_number(Ok(ledger::report_row(ledger::row(s, row as usize)))),
    replay: |t, s| replay_number(replay::replay(t, s)),
    replay_on: |t, s| replay_number(replay::replay_on(t, s)),
    parts: |key| parts_number(keys::parts(key)),
    row: |s, row| few_number(ledger::row_of(s, row).map(|(key, first)| [key, first.into()])),
    desk: |s, desk| few_number(ledger::desk_of(s, desk).map(desk_numbers)),
    unsaved: |s, desk| few_number(ledger::unsaved(s, desk).map(|(ticks, unticks)| [ticks.into(), unticks.into()])),
    missing: |s, row, list| ledger::missing_numbers(s, row, list).map_or_else(u64::from, |count| count as u64),
    receive: |s, desk, stream, list| received_number(receive::receive(s, desk, stream, list)),
    season: |s| season_number(season::season(s)),
};

/// The numbers of the answer, one on the other.
fn few_number(answer: Result<[u64; 2], u32>) -> u64 {
    answer.map_or_else(u64::from, |[first, second]| first ^ second)
}

/// A closed desk has neither: two times all ones.
fn desk_numbers(open: Option<(usize, bool)>) -> [u64; 2] {
    open.map_or([u64::MAX; 2], |(row, stale)| [row as u64, stale as u64])
}

fn parts_number(answer: Result<(u32, [u32; 4]), u32>) -> u64 {
    answer.map_or_else(u64::from, |(kind, numbers)| numbers.iter().fold(kind, |all, number| all ^ number).into())
}

fn received_number(answer: Result<Received, u32>) -> u64 {
    match answer {
        Ok(Received { stop, ticked }) => stop.count ^ stop.place ^ stop.number as u64 ^ stop.detail ^ ticked,
        Err(refusal) => refusal as u64,
    }
}

/// How many sheets the season has and its counts in all, one on the other.
fn season_number(answer: Result<Season, u32>) -> u64 {
    let counts = |season: Season| {
        season.total.ticked ^ season.total.missing ^ season.total.per_million() ^ season.sheets.len() as u32
    };
    answer.map_or(0, |season| counts(season).into())
}

/// The sum of the answer's numbers.
fn replay_number(answer: Result<Replayed, u32>) -> u64 {
    match answer {
        Ok(Replayed::Same) => 0,
        Ok(Replayed::Differs(entry, answer)) => entry as u64 + answer.number as u64 + answer.row as u64,
        Err(refusal) => refusal as u64,
    }
}

/// The exclusive or of every number of the answer, so that every field is read. Px/No is in two's complement; a value
/// that is not there is all ones.
fn headers_number(answer: Result<(Record, Fields), Refused>) -> u64 {
    match answer {
        Ok((record, Fields::Telemetry(fields))) => record_number(&record) ^ telemetry_number(&fields),
        Ok((record, Fields::Rsr(fields))) => record_number(&record) ^ rsr_number(&fields),
        Err(refused) => refused.number() as u64 ^ refused.detail(0),
    }
}

fn record_number(record: &Record) -> u64 {
    let primary = record.primary.iter().fold(0, |number, value| number ^ *value as u64);
    record.kind as u64 ^ record.length as u64 ^ primary
}

fn telemetry_number(t: &Telemetry) -> u64 {
    let band = t.uplink_band.map_or(u64::MAX, u64::from);
    t.spacecraft as u64
        ^ t.source as u64
        ^ t.received
        ^ t.number as u64
        ^ band
        ^ t.mode as u64
        ^ t.stream as u64
        ^ t.equipment as u64
        ^ t.key
        ^ t.received_days as u64
        ^ t.received_milliseconds as u64
        ^ t.received_extended as u64
}

fn rsr_number(r: &Rsr) -> u64 {
    let source = r.software as u64
        ^ r.number as u64
        ^ r.complex as u64
        ^ r.station as u64
        ^ r.receiver as u64
        ^ r.subchannel as u64
        ^ r.spacecraft as u64
        ^ r.pass as u64;
    let signal = r.uplink_band as u64
        ^ r.downlink_band as u64
        ^ r.mode as u64
        ^ r.uplink_station as u64
        ^ r.expected_px_no as i64 as u64
        ^ r.bandwidth as u64
        ^ r.override_flag as u64
        ^ r.attenuation as u64
        ^ r.rms as u64
        ^ r.peak as u64;
    let time = r.year as u64 ^ r.day as u64 ^ r.override_frequency;
    source ^ signal ^ time ^ r.key ^ r.day_count as u64
}

/// The exclusive or of every number of the fields, with flags as 0 or 1; 0 if there are no fields.
fn tape_number(answer: Result<Idr, u32>) -> u64 {
    let f = match answer {
        Ok(Idr { fields: Some(fields), .. }) => fields,
        Ok(_) => return 0,
        Err(refusal) => return refusal as u64,
    };
    let flags = f.first_of_run
        ^ f.source_error
        ^ f.pps_absent
        ^ f.clock_out_of_sync
        ^ f.recorder_b
        ^ f.microseconds_abnormal
        ^ f.time_track_in_sync
        ^ f.bypass
        ^ f.overflow
        ^ f.pps_out_of_sync
        ^ f.bit_slip;
    let bytes = f.tape_type
        ^ f.tape_number
        ^ f.spacecraft
        ^ f.station
        ^ f.time.hour
        ^ f.time.minute
        ^ f.time.second
        ^ f.input
        ^ f.decimation
        ^ f.pps_track
        ^ f.time_track
        ^ f.channel
        ^ f.decimation_counter;
    let words = f.record_number ^ f.dra_tape_number ^ f.time.day ^ f.reduction_day;
    let longs = f.time.microseconds ^ f.playback_rate ^ f.sampling_rate ^ f.block_size ^ f.reduction_second;
    (flags as u32 ^ bytes as u32 ^ words as u32 ^ longs ^ f.sample_count.unwrap_or(0)) as u64
}

/// One number of the ticked count, the missing count and the lowest missing number.
fn report_number(answer: Result<ledger::Report, u32>) -> u64 {
    match answer {
        Ok(report) => ((report.ticked as u64) << 32 | report.missing as u64) ^ report.lowest.map_or(0, u64::from),
        Err(refusal) => refusal as u64,
    }
}

pub fn implementations() -> Vec<Implementation> {
    #[cfg(feature = "rattle")]
    return vec![REFERENCE, crate::rattle::RATTLE];
    #[cfg(not(feature = "rattle"))]
    vec![REFERENCE]
}

/// How many tries a pass has.
fn tries(mut try_once: impl FnMut() -> u64) -> usize {
    let start = Instant::now();
    black_box(try_once());
    (PASS_SECONDS / start.elapsed().as_secs_f64().max(1e-9)).clamp(1.0, 1e6) as usize
}

/// The seconds of one try, in a pass of several.
fn pass(tries: usize, mut try_once: impl FnMut() -> u64) -> f64 {
    let start = Instant::now();
    for _ in 0..tries {
        black_box(try_once());
    }
    start.elapsed().as_secs_f64() / tries as f64
}

/// What is timed: these implementations, in the lines whose names have a word in them.
struct Bench<'a> {
    each: Vec<Implementation>,
    word: &'a str,
}

impl Bench<'_> {
    fn heading(&self) {
        let names: Vec<String> = self.each.iter().map(|i| format!(" {:>12} {:>6}", i.name, "times")).collect();
        println!("{:44}{}", "nanoseconds a call", names.concat());
    }

    /// One line: the best pass of each implementation, and the ratio of the others to the first. The passes take turns,
    /// so that a busy machine slows all of them.
    fn compare(&self, name: &str, calls: f64, mut run: impl FnMut(&Implementation) -> u64) {
        if !name.contains(self.word) {
            return;
        }
        let expected = run(&self.each[0]);
        for implementation in &self.each {
            assert_eq!(run(implementation), expected, "{name}: {} answers otherwise", implementation.name);
        }
        let tries = tries(|| run(&self.each[0]));
        let mut best = vec![f64::INFINITY; self.each.len()];
        for _ in 0..PASSES {
            for (implementation, best) in self.each.iter().zip(&mut best) {
                *best = best.min(pass(tries, || run(implementation)));
            }
        }
        self.line(name, calls, &best);
    }

    fn line(&self, name: &str, calls: f64, best: &[f64]) {
        let times = best.iter().map(|time| format!(" {:12.2} {:6.2}", time * 1e9 / calls, time / best[0]));
        println!("{name:44}{}", times.collect::<String>());
    }
}

/// Times the calls whose lines have the word in their names; every line has the empty one.
pub fn run(word: &str) {
    let bench = Bench { each: implementations(), word };
    bench.heading();
    records(&bench);
    samples(&bench);
    sheets::checks(&bench);
    sheets::reports(&bench);
    sheets::questions(&bench);
    sheets::missing(&bench);
    sheets::receives(&bench);
    sheets::replays(&bench);
    sheets::seasons(&bench);
    programs::listings(&bench);
}

fn records(bench: &Bench) {
    for (name, kind) in [("read headers, telemetry", TELEMETRY), ("read headers, RSR", RSR)] {
        let s = sample::headers_sample(kind);
        bench.compare(name, 1.0, |i| (i.read_headers)(black_box(&s), black_box(kind)));
    }
    for (name, records, length) in [
        ("walk, a record of 120 bytes, in cache", 1_000, 120),
        ("walk, a record of 120 bytes", 100_000, 120),
        ("walk, a record of 1,000 bytes", 100_000, 1_000),
    ] {
        let s = sample::telemetry_stream(records, length);
        bench.compare(name, records as f64, |i| (i.walk)(black_box(&s)));
    }
    let counts: Vec<u32> = (0..1_000).map(|i| i * 7_919 % (dates::LAST_COUNT + 1)).collect();
    bench.compare("the date of a day count", counts.len() as f64, |i| {
        black_box(&counts).iter().fold(0, |all, count| all ^ (i.date_of)(*count))
    });
    for (name, sample) in [("read a medium band record", 0), ("read one without a valid time tag", 1)] {
        let tape = sample::sample("tapes/good-tape").expect("a sample");
        let s = &tape[sample * idr::RECORD..][..idr::RECORD];
        bench.compare(name, 1.0, |i| (i.read_tape)(black_box(s)));
    }
}

/// The longest record of samples at each width, in nanoseconds per byte of data. One divided by it is gigabytes per
/// second.
fn samples(bench: &Bench) {
    for (size, rates) in iq::LISTED {
        let s = sample::samples_record(size, rates[0]);
        let bytes = record::data_part(&s).len();
        let mut list = vec![0; 8 * bytes];
        let count = iq::unpack(&s, &mut list).expect("a good record");
        let mut numbers = list[..count].to_vec();
        bench.compare(&format!("unpack, {size} bits, a byte"), bytes as f64, |i| {
            (i.unpack)(black_box(&s), black_box(&mut numbers))
        });
        let mut out = vec![0; bytes];
        bench.compare(&format!("pack, {size} bits, a byte"), bytes as f64, |i| {
            (i.pack)(black_box(size), black_box(rates[0]), black_box(&numbers), black_box(&mut out))
        });
    }
}
