//! Sample streams for lessons, and long mixed streams for benchmarks.

use crate::make::{self, put, Rng};
use crate::pass;
use crate::random::old_sheets::as_old;
use crate::record::{self, RSR_LAYOUT, TELEMETRY, TELEMETRY_LAYOUT};
use crate::{iq, keys, ledger, list, tapes, wrong_sheets};
use std::io::{self, Write};

const SEED: u64 = 1;

pub struct Sample {
    pub name: &'static str,
    /// The last line of its listing: where and why it stops.
    pub last_line: &'static str,
    /// What the sample shows, for samples/README.md.
    pub about: &'static str,
    pub(crate) make: fn() -> Vec<u8>,
}

pub static SAMPLES: [Sample; 13] = [
    Sample {
        name: "good-night",
        last_line: "238462 0 0",
        about: "48 seconds of a night: 240 records of five streams, both kinds; virtual stream 1 wraps past number \
            4294967295, subchannel 2 past 65535.",
        make: good_night,
    },
    Sample {
        name: "refusal-01",
        last_line: "2564 1 19",
        about: "Under 20 bytes: after three records stand the first 19 bytes of a label.",
        make: || spoilt(|r| r.truncate(19)),
    },
    Sample {
        name: "refusal-02",
        last_line: "2564 2 2564",
        about: "Authority wrong: the fourth record spells NJPl at its bytes 0 to 3.",
        make: || stopped(|r| r[3] = b'l'),
    },
    Sample {
        name: "refusal-03",
        last_line: "2564 3 2568",
        about: "Bytes 4 to 7 wrong: label version 1 at byte 4 of the fourth record.",
        make: || stopped(|r| r[4] = b'1'),
    },
    Sample {
        name: "refusal-04",
        last_line: "2564 4 2572",
        about: "Kind unknown: C998 at bytes 8 to 11 of the fourth record.",
        make: || stopped(|r| r[8..12].copy_from_slice(b"C998")),
    },
    Sample {
        name: "refusal-05",
        last_line: "2564 5 2576",
        about: "Label length 99 at bytes 12 to 19 of the fourth record; a telemetry label says at least 100.",
        make: || stopped(|r| put(r, 12, 8, 99)),
    },
    Sample {
        name: "refusal-06",
        last_line: "2564 6 139",
        about: "Under N bytes: the fourth record lacks its last byte, and the stream ends.",
        make: || spoilt(|r| r.truncate(r.len() - 1)),
    },
    Sample {
        name: "refusal-07",
        last_line: "2564 7 2586",
        about: "Aggregation label wrong: length 96 where 92 is right, at byte 22 of the fourth record.",
        make: || stopped(|r| put(r, 22, 2, 96)),
    },
    Sample {
        name: "refusal-08",
        last_line: "2564 8 2588",
        about: "Primary label wrong: type 3 where 2 is right, at byte 24 of the fourth record.",
        make: || stopped(|r| put(r, 24, 2, 3)),
    },
    Sample {
        name: "refusal-09",
        last_line: "2564 9 2596",
        about: "Secondary label wrong: type 104 (RSR) at byte 32 of the fourth record, a telemetry one.",
        make: || stopped(|r| put(r, 32, 2, 104)),
    },
    Sample {
        name: "refusal-10",
        last_line: "2564 10 2680",
        about: "Data type wrong: 11 where 10 is right, at byte 116 of the fourth record.",
        make: || stopped(|r| put(r, 116, 2, 11)),
    },
    Sample {
        name: "refusal-11",
        last_line: "2564 11 2682",
        about:
            "Data length wrong: 40 where 20 is right, at byte 118 of the fourth record (the label's 20 added twice).",
        make: || stopped(|r| put(r, 118, 2, 40)),
    },
    Sample {
        name: "refusal-17",
        last_line: "2564 17 0",
        about: "N 65538, two over the program's buffer: the fourth record, whole, with 65418 bytes of data.",
        make: too_long,
    },
];

/// Streams on which the listing program is run besides the samples.
pub static LISTED: [Sample; 5] = [
    Sample {
        name: "example",
        last_line: "120 0 0",
        about: "Document 01's example: one telemetry record of 120 bytes, number 7.",
        make: || plain(7, 0),
    },
    Sample { name: "empty", last_line: "0 0 0", about: "No byte.", make: Vec::new },
    Sample {
        name: "longest",
        last_line: "65776 0 0",
        about: "The longest record that fits the program's buffer, between two of 120 bytes; the greatest number.",
        make: || [plain(1, 0), plain(2, list::WINDOW - TELEMETRY_LAYOUT.data_value), plain(u32::MAX, 0)].concat(),
    },
    Sample {
        name: "mixed",
        last_line: "167372 0 0",
        about: "Records of many lengths: the buffer is filled anew several times.",
        make: mixed,
    },
    Sample {
        name: "over-cut",
        last_line: "120 17 0",
        about: "The stream ends behind the label of a record one byte too long for the buffer: 17 stands before 6.",
        make: || {
            [&plain(7, 0)[..], &plain(8, list::WINDOW + 1 - TELEMETRY_LAYOUT.data_value)[..record::LABEL]].concat()
        },
    },
];

/// Ledger sheets.
pub static SHEETS: [Sample; 6] = [
    Sample {
        name: "sheets/old-night",
        last_line: "",
        about:
            "A sheet of 6,776 bytes, as sheets were before rows could be struck: three rows, and desks 0 and 3 open.",
        make: || as_old(&night_sheet()),
    },
    Sample {
        name: "sheets/new-night",
        last_line: "",
        about: "The same, converted: 6,968 bytes, each row with its used word.",
        make: night_sheet,
    },
    Sample {
        name: "sheets/two-spacecraft",
        last_line: "",
        about: "Row 0 is of spacecraft 5, row 1 of spacecraft 517, the same station, equipment and virtual stream; \
            both have numbers 1 to 9 but 7.",
        make: two_spacecraft,
    },
    Sample {
        name: "season/april",
        last_line: "",
        about: "A season's first sheet: two rows, ticked without a gap.",
        make: || month(4, &[(0, 40), (1, 25)], &[]),
    },
    Sample {
        name: "season/may",
        last_line: "",
        about: "Its second, an old one (6,776 bytes): three rows, of which the third has gaps.",
        make: || as_old(&month(5, &[(0, 90), (1, 12), (2, 31)], &[(2, 7), (2, 8), (2, 20)])),
    },
    Sample {
        name: "season/june",
        last_line: "",
        about: "Its third: row 1 was struck, and row 2 has a gap.",
        make: || {
            let mut s = month(6, &[(0, 64), (1, 5), (2, 130)], &[(2, 100)]);
            ledger::strike(&mut s, 1).expect("a row that no desk has open");
            s
        },
    },
];

/// Two streams that differ only in bit 7 of the spacecraft's first byte.
fn two_spacecraft() -> Vec<u8> {
    let mut s = vec![0; ledger::SHEET];
    let mut work = || -> Result<(), u32> {
        ledger::fresh(&mut s)?;
        for (row, spacecraft) in [5, 517].into_iter().enumerate() {
            ledger::enrol(&mut s, keys::telemetry_key(spacecraft, 43, 2, 1)?, 1)?;
            ledger::open(&mut s, 0, row as u32)?;
            for number in (1..=9).filter(|number| *number != 7) {
                ledger::tick(&mut s, 0, number)?;
            }
            ledger::save(&mut s, 0)?;
        }
        Ok(())
    };
    work().expect("no call is refused");
    s
}

/// A sheet with rows for virtual streams of one month's equipment. The first numbers of each are ticked, except some.
fn month(equipment: u32, rows: &[(u32, u32)], left_out: &[(u32, u32)]) -> Vec<u8> {
    let mut s = vec![0; ledger::SHEET];
    let mut work = || -> Result<(), u32> {
        ledger::fresh(&mut s)?;
        for (row, count) in rows {
            ledger::enrol(&mut s, keys::telemetry_key(177, 43, equipment, *row)?, 1)?;
            ledger::open(&mut s, 0, *row)?;
            for n in (1..=*count).filter(|n| !left_out.contains(&(*row, *n))) {
                ledger::tick(&mut s, 0, n)?;
            }
            ledger::save(&mut s, 0)?;
        }
        Ok(())
    };
    work().expect("no call is refused");
    s
}

/// Two telemetry streams, and one of RSR whose numbers pass 65,535. Desk 0 has unsaved work on the first; desk 3 has
/// the third open.
pub(crate) fn night_sheet() -> Vec<u8> {
    let mut s = vec![0; ledger::SHEET];
    let keys = [keys::telemetry_key(177, 43, 2, 1), keys::telemetry_key(177, 43, 2, 2), keys::rsr_key(177, 43, 1, 2)];
    let mut night = || -> Result<(), u32> {
        ledger::fresh(&mut s)?;
        for (key, first) in keys.into_iter().zip([1, 4_294_967_270, 65_510]) {
            ledger::enrol(&mut s, key?, first)?;
        }
        for (row, numbers) in [(0, [1, 2, 4]), (1, [4_294_967_295, 0, 1]), (2, [65_510, 65_535, 1])] {
            ledger::open(&mut s, 0, row)?;
            numbers.iter().try_for_each(|n| ledger::tick(&mut s, 0, *n))?;
            ledger::save(&mut s, 0)?;
        }
        ledger::open(&mut s, 0, 0)?;
        ledger::tick(&mut s, 0, 3)?;
        ledger::open(&mut s, 3, 2)
    };
    night().expect("no call is refused");
    s
}

/// Streams to unpack. In all but the first, the second record is spoilt.
pub static RSR_STREAMS: [Sample; 5] = [
    Sample {
        name: "rsr/tone",
        last_line: "",
        about: "Two seconds of a tone, two records: samples of 8 bits, 1,000 a second, 48 to a period.",
        make: || [tone(0), tone(1)].concat(),
    },
    Sample {
        name: "rsr/refusal-12",
        last_line: "",
        about: "Field out of range: uplink band U at byte 2310, byte 50 of the second record. \
            A telemetry record may say U, a receiver's says S, X or K.",
        make: || behind_one(|r| r[50] = b'U'),
    },
    Sample {
        name: "rsr/refusal-15",
        last_line: "",
        about: "Another kind: the second record, at byte 2260, is a telemetry record, and a right one.",
        make: || behind_one(|r| *r = pass::telemetry(1, 1, 7, &[])),
    },
    Sample {
        name: "rsr/refusal-19",
        last_line: "",
        about: "Sample size 8 with rate 3, no pair of table 3-1: bytes 2328, and 2330 and 2331.",
        make: || behind_one(|r| put(r, iq::RATE, 2, 3)),
    },
    Sample {
        name: "rsr/refusal-34",
        last_line: "",
        about: "No whole words: the second record's data are 2,002 bytes (its data length, bytes 2518 and 2519).",
        make: || behind_one(|r| *r = pass::rsr(1, 1, 1, &[&r[RSR_LAYOUT.data_value..], &[0, 0]].concat())),
    },
];

/// What the samples program is run on besides.
pub static UNPACKED: [Sample; 1] = [Sample {
    name: "widest",
    last_line: "",
    about: "A record of the row of table 3-1 that has the most numbers: samples of 1 bit in 25,000 bytes, 200,000 numbers.",
    make: || {
        let mut record = pass::rsr(0, 1, 7, &Rng::new(SEED).bytes(25_000));
        record[iq::SIZE] = 1;
        put(&mut record, iq::RATE, 2, 4_000);
        record
    },
}];

/// One second of the tone, and the next one spoilt.
fn behind_one(spoil: fn(&mut Vec<u8>)) -> Vec<u8> {
    let mut last = tone(1);
    spoil(&mut last);
    [tone(0), last].concat()
}

/// One second of a tone, so many seconds after it began.
fn tone(second: u32) -> Vec<u8> {
    let turns = (0..1_000).map(|n| n + 1_000 * second as usize);
    // Every number is odd.
    let numbers: Vec<i32> = turns.flat_map(|n| [cosine(n), cosine(n + 36)]).map(|c| c >> 1 << 1 | 1).collect();
    let mut data = [0; SECOND];
    iq::pack(8, 1, &numbers, &mut data).expect("every number has a code");
    pass::rsr(second.into(), 1, second, &data)
}

/// 200 times the cosine of n 48ths of a turn.
fn cosine(n: usize) -> i32 {
    const QUARTER: [i32; 13] = [200, 198, 193, 185, 173, 159, 141, 122, 100, 77, 52, 26, 0];
    match n % 48 {
        n @ 0..=12 => QUARTER[n],
        n @ 13..=24 => -QUARTER[24 - n],
        n @ 25..=36 => -QUARTER[n - 24],
        n => QUARTER[48 - n],
    }
}

/// Records for the lessons of docs/LESSONS.md.
pub static LESSONS: [Sample; 2] = [
    Sample {
        name: "lessons/outer-length",
        last_line: "0 7 22",
        about: "The label is right and three blocks are not: aggregation length 96 where 92 is right (byte 22), \
            secondary type 104 where 78 is right (byte 32), data length 40 where 20 is right (byte 118).",
        make: outer_length,
    },
    Sample {
        name: "lessons/bit-8",
        last_line: "120 0 0",
        about:
            "Record 7 of spacecraft 517 (bytes 38 and 39: 2, 5). A reader of the top bits takes it for spacecraft 5.",
        make: || {
            let mut record = pass::telemetry(0, 1, 7, &[]);
            put(&mut record, SPACECRAFT, 2, 517);
            record
        },
    },
];

/// Bytes 6 and 7 of a telemetry record's secondary block.
const SPACECRAFT: usize = record::SECONDARY + 6;

fn outer_length() -> Vec<u8> {
    let mut record = pass::telemetry(3, 1, 9, &Rng::new(SEED).bytes(20));
    for (at, wrong) in [(22, 96), (32, 104), (118, 40)] {
        put(&mut record, at, 2, wrong);
    }
    record
}

/// What is stored in samples/.
pub fn stored() -> impl Iterator<Item = &'static Sample> {
    SAMPLES.iter().chain(&LESSONS).chain(&tapes::TAPES).chain(&SHEETS).chain(&wrong_sheets::SHEETS).chain(&RSR_STREAMS)
}

pub fn sample(name: &str) -> Option<Vec<u8>> {
    stored().chain(&LISTED).chain(&UNPACKED).find(|sample| sample.name == name).map(|sample| (sample.make)())
}

/// A telemetry record that is all zero except for its number.
fn plain(number: u32, data: usize) -> Vec<u8> {
    let mut record = make::record(TELEMETRY, [0; 4], &[0; 80], &vec![0; data]);
    let (at, width) = record::number_field(TELEMETRY);
    put(&mut record, at, width, number as u64);
    record
}

fn mixed() -> Vec<u8> {
    let mut stream = Vec::new();
    big(150_000, &mut stream).expect("memory");
    stream
}

/// How many bytes one second of 1,000 samples of 8 bits has.
const SECOND: usize = 2_000;

fn good_night() -> Vec<u8> {
    let rng = Rng::new(SEED);
    let mut stream = Vec::new();
    for second in 0..48u32 {
        for virtual_stream in 1..=3 {
            let first = if virtual_stream == 1 { 4_294_967_270 } else { 1 };
            let data = rng.bytes(2 * rng.index(30));
            stream.extend(pass::telemetry(second.into(), virtual_stream, second.wrapping_add(first), &data));
        }
        for subchannel in 1..=2 {
            let first = if subchannel == 2 { 65_510 } else { 0 };
            stream.extend(pass::rsr(second.into(), subchannel, second + first, &rng.bytes(SECOND)));
        }
    }
    stream
}

/// Two telemetry records, one of RSR, and a telemetry record with 20 bytes of data that `spoil` spoils.
fn spoilt(spoil: fn(&mut Vec<u8>)) -> Vec<u8> {
    let rng = Rng::new(SEED);
    let mut last = pass::telemetry(3, 1, 9, &rng.bytes(20));
    spoil(&mut last);
    let first = [pass::telemetry(0, 1, 7, &[]), pass::rsr(1, 1, 300, &rng.bytes(SECOND))];
    [first.concat(), pass::telemetry(2, 1, 8, &rng.bytes(64)), last].concat()
}

/// The same, and a good record after it, which the listing does not reach.
fn stopped(spoil: fn(&mut Vec<u8>)) -> Vec<u8> {
    let mut stream = spoilt(spoil);
    stream.extend(pass::telemetry(4, 1, 10, &[]));
    stream
}

/// With a data length that is even.
fn too_long() -> Vec<u8> {
    stopped(|r| {
        let data = Rng::new(SEED).bytes(list::WINDOW + 2 - TELEMETRY_LAYOUT.data_value);
        *r = pass::telemetry(3, 1, 9, &data);
    })
}

/// A stream of whole records, at least `bytes` bytes long. It repeats some megabytes.
pub fn big(bytes: u64, out: &mut impl Write) -> io::Result<()> {
    let rng = Rng::new(SEED);
    let batch: Vec<Vec<u8>> = (0..2_000).map(|_| mixed_record(&rng)).collect();
    let joined = batch.concat();
    let mut written = 0;
    while written + joined.len() as u64 <= bytes {
        out.write_all(&joined)?;
        written += joined.len() as u64;
    }
    for record in &batch {
        if written >= bytes {
            break;
        }
        out.write_all(record)?;
        written += record.len() as u64;
    }
    Ok(())
}

/// A record of a length that is usual in a night: short or framed telemetry, or RSR at one of several sample rates.
pub fn mixed_record(rng: &Rng) -> Vec<u8> {
    let number = rng.word() >> rng.below(32);
    let telemetry = |stream, data| pass::telemetry(0, stream, number, &rng.bytes(data));
    let rsr = |subchannel, data| pass::rsr(0, subchannel, number, &rng.bytes(data));
    match rng.below(20) {
        0..=8 => telemetry(1, rng.between(0, 280)),
        9..=15 => telemetry(2, 1_264),
        16..=18 => rsr(1, 2_000),
        _ => rsr(2, rng.pick(&[16_000, 20_000, 25_000])),
    }
}

/// Streams of records all of one length, for benchmarks.
pub fn telemetry_stream(records: u32, record_length: usize) -> Vec<u8> {
    let data = Rng::new(SEED).bytes(record_length - TELEMETRY_LAYOUT.data_value);
    let mut record = pass::telemetry(0, 1, 0, &data);
    let mut stream = Vec::with_capacity(records as usize * record_length);
    let (at, width) = record::number_field(TELEMETRY);
    for number in 0..records {
        put(&mut record, at, width, number as u64);
        stream.extend_from_slice(&record);
    }
    stream
}

/// A record with the most samples of a size, for benchmarks.
pub fn samples_record(size: u32, rate: u32) -> Vec<u8> {
    let mut record = pass::rsr(0, 1, 7, &Rng::new(SEED).bytes(65_532));
    record[iq::SIZE] = size as u8;
    put(&mut record, iq::RATE, 2, rate.into());
    record
}

pub fn headers_sample(kind: u32) -> Vec<u8> {
    let rng = Rng::new(SEED);
    if kind == TELEMETRY {
        pass::telemetry(0, 1, 7, &rng.bytes(1_264))
    } else {
        pass::rsr(0, 1, 7, &rng.bytes(SECOND))
    }
}
