//! Tapes of medium band records, one after the other: the listing of a tape, and samples. Request 04.

use crate::idr::{self, Fields, Idr, HEADER_WORDS, LENGTH_WORD, RECORD, SAMPLES};
use crate::sample::Sample;
use std::io::{self, Read, Write};

pub const HEADING: &str = "place tape record spacecraft station day time playback sampling decimation";

/// The words of a stop number, in the last line.
pub fn reason(number: u32) -> &'static str {
    match number {
        0 => "end of tape",
        50 => "not a whole record",
        51 => "length word not 2528",
        52 => "not a time",
        53 => "rate not listed",
        _ => "block size zero or positive",
    }
}

/// Lists one tape. The outer error is of `out`, the inner one of a read. After an inner error the stop is not known,
/// and no last line is written.
pub fn list(mut input: impl Read, out: &mut impl Write) -> io::Result<io::Result<()>> {
    let mut bytes = [0; RECORD];
    let mut place = 0u64;
    writeln!(out, "{HEADING}")?;
    loop {
        let held = match read_record(&mut input, &mut bytes) {
            Ok(length) => &bytes[..length],
            Err(reason) => return Ok(Err(reason)),
        };
        match idr::read(held) {
            Ok(record) => writeln!(out, "{place} {}", line(&record))?,
            Err(refusal) => {
                let number = if held.is_empty() { 0 } else { refusal };
                writeln!(out, "{place} {number} {}", reason(number))?;
                return Ok(Ok(()));
            }
        }
        place += RECORD as u64;
    }
}

/// Reads until the record is full or the input ends. Answers how many bytes it has.
fn read_record(input: &mut impl Read, bytes: &mut [u8; RECORD]) -> io::Result<usize> {
    let mut length = 0;
    while length < RECORD {
        match input.read(&mut bytes[length..]) {
            Ok(0) => break,
            Ok(count) => length += count,
            Err(reason) if reason.kind() == io::ErrorKind::Interrupted => {}
            Err(reason) => return Err(reason),
        }
    }
    Ok(length)
}

/// The line of a record: its numbers, and if the time tag is valid, the time and how the record was reduced.
fn line(record: &Idr) -> String {
    let header = record.header;
    let origin =
        [header.bits(1, 9, 16), header.word(2), header.bits(4, 1, 8), header.bits(4, 9, 16)].map(|n| n.to_string());
    format!("{} {}", origin.join(" "), record.fields.map_or("- - - - -".to_string(), |fields| reduction(&fields)))
}

fn reduction(f: &Fields) -> String {
    let t = f.time;
    format!(
        "{} {:02}:{:02}:{:02}.{:06} {} {} {}",
        t.day, t.hour, t.minute, t.second, t.microseconds, f.playback_rate, f.sampling_rate, f.decimation
    )
}

pub static TAPES: [Sample; 6] = [
    Sample {
        name: "tapes/good-tape",
        last_line: "15168 0 end of tape",
        about: "Records 1, 2 and 61 of a run; the time tag of the second is not valid.",
        make: || [tagged(1, 5), untagged(2, 5), tagged(61, 6)].concat(),
    },
    Sample {
        name: "tapes/refusal-50",
        last_line: "5056 50 not a whole record",
        about: "The second record lacks its last byte.",
        make: || behind_one(|tape| tape.truncate(2 * RECORD - 1)),
    },
    Sample {
        name: "tapes/refusal-51",
        last_line: "5056 51 length word not 2528",
        about: "Word 3 of the second record says 2527 (byte 5060).",
        make: || behind_one(|tape| put_word(tape, 3, LENGTH_WORD - 1)),
    },
    Sample {
        name: "tapes/refusal-52",
        last_line: "5056 52 not a time",
        about: "Day 367 in word 6 of the second record (byte 5066).",
        make: || behind_one(|tape| put_word(tape, 6, 0x3670)),
    },
    Sample {
        name: "tapes/refusal-53",
        last_line: "5056 53 rate not listed",
        about: "Playback code 00010 in word 10 of the second record (byte 5074), which is a sampling rate alone.",
        make: || behind_one(|tape| put_word(tape, 10, 0b00010)),
    },
    Sample {
        name: "tapes/refusal-54",
        last_line: "5056 54 block size zero or positive",
        about: "Block size 75000, not negative, in words 12 and 13 of the second record (bytes 5079 to 5081).",
        make: || {
            behind_one(|tape| {
                put_word(tape, 12, 0b111 << 12 | 1);
                put_word(tape, 13, (75_000 - 65_536) as u16);
            })
        },
    },
];

/// Puts a header word of the tape's second record.
fn put_word(tape: &mut [u8], n: usize, word: u16) {
    tape[RECORD + 2 * (n - 1)..][..2].copy_from_slice(&word.to_be_bytes());
}

fn behind_one(spoil: fn(&mut Vec<u8>)) -> Vec<u8> {
    let mut tape = [tagged(1, 5), tagged(61, 6)].concat();
    spoil(&mut tape);
    tape
}

/// A record of day 238, 3:24 and so many seconds, with a valid time tag and sample count.
fn tagged(number: u16, second: u16) -> Vec<u8> {
    let first_of_run = (number == 1) as u16;
    let mut words = header(number, second);
    words[0] |= 1 << 15 | first_of_run << 14 | 1 << 12;
    record(&words)
}

/// A record between two whole seconds. Its words 6 to 28 are those of the second before, and not valid.
fn untagged(number: u16, second: u16) -> Vec<u8> {
    record(&header(number, second))
}

/// Tape 1, spacecraft 32, station 43, DRA tape 7: recorded at 300,000 samples a second, played back at 75,000.
fn header(number: u16, second: u16) -> [u16; HEADER_WORDS] {
    let mut words = [0; HEADER_WORDS];
    words[..5].copy_from_slice(&[1, number, LENGTH_WORD, 32 << 8 | 43, 7]);
    words[5] = 0x2380;
    words[6] = 0x3240;
    words[7] = second << 12;
    // 12 microseconds; input 2, the time track in sync.
    words[8] = 12 << 8 | 0b001_00001;
    words[10] = 0b00010;
    let block_size = (1 << 24) - 75_000;
    words[11] = 0b111 << 12 | (block_size >> 16) as u16;
    words[12] = block_size as u16;
    words[22] = 240 << 7;
    words[23] = 40_000;
    words[25] = 0b111;
    words[27] = 1;
    words
}

fn record(words: &[u16]) -> Vec<u8> {
    // A tone, up and down around the middle.
    let samples: Vec<u8> = (0..SAMPLES).map(|i| 96 + (i % 64).min(64 - i % 64) as u8 * 2).collect();
    let mut out = vec![0; RECORD];
    idr::write(words, &samples, &mut out).expect("a good header");
    out
}
