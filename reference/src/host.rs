//! What the comparison through C (host/calls.c) needs beside call scripts: calls that no script has, and scripts with slices of every length.

use crate::make::{self, Rng};
use crate::record::{self, RSR, TELEMETRY};
use crate::script::Frame;
use crate::{dates, keys, ops, texts};
use std::io::{self, Write};

/// Lines `call argument.. = number..`, bytes in hexadecimal; of a text's line the text behind a colon.
pub fn lines(seed: u64, count: usize, out: &mut impl Write) -> io::Result<()> {
    let rng = Rng::new(seed);
    for _ in 0..count {
        parts(&rng, out)?;
        rooms(&rng, out)?;
        dates_and_keys(&rng, out)?;
    }
    let chosen = (0..200).chain([u32::MAX, u32::MAX - 1, 256 + 1, 65536 + 1]);
    for number in chosen.chain((0..count).map(|_| rng.word())) {
        writeln!(out, "refusal_text {number} : {}", texts::text(number))?;
    }
    Ok(())
}

/// Where the parts of a record lie: sometimes cut off, damaged, or with bytes behind it.
fn parts(rng: &Rng, out: &mut impl Write) -> io::Result<()> {
    let kind = make::kind(rng);
    let data = rng.pick(&[0, 0, 1, 7, 40]);
    let mut s = make::good_record(rng, kind, data);
    match rng.below(5) {
        0 => s.truncate(rng.index(s.len() + 1)),
        1 => {
            let at = rng.index(36);
            s[at] ^= 1 << rng.below(8);
        }
        2 => s.extend(rng.bytes(9)),
        _ => {}
    }
    let hex: String = s.iter().map(|byte| format!("{byte:02x}")).collect();
    for (call, part) in [("secondary_part", record::secondary_part(&s)), ("data_part", record::data_part(&s))] {
        let offset = part.as_ptr() as usize - s.as_ptr() as usize;
        writeln!(out, "{call} x{hex} = 0 {offset} {}", part.len())?;
    }
    Ok(())
}

/// The most records that so many bytes can hold: as many as the shortest records that fill them.
fn rooms(rng: &Rng, out: &mut impl Write) -> io::Result<()> {
    let shortest = |kind| make::good_record(rng, kind, 0).len() as u64;
    let (telemetry, rsr) = (shortest(TELEMETRY), shortest(RSR));
    let near = rng.pick(&[telemetry, rsr]) * rng.below(1 << 20);
    let bytes = rng.pick(&[near, near.wrapping_sub(1), rng.next() >> rng.below(64), u64::MAX]);
    writeln!(out, "most_records {bytes} = 0 {}", bytes / telemetry)?;
    writeln!(out, "most_rsr_records {bytes} = 0 {}", bytes / rsr)
}

fn dates_and_keys(rng: &Rng, out: &mut impl Write) -> io::Result<()> {
    let year = rng.pick(&[rng.between(1898, 3003) as u32, rng.between(1898, 3003) as u32, 1900, 3000, rng.word() & 0xFFFF]);
    let day = rng.pick(&[rng.below(368) as u32, 0, 1, 365, 366, 367, rng.word() & 0xFFFF]);
    let count = dates::day_count(year, day).map_or(u64::MAX, u64::from);
    writeln!(out, "day_count {year} {day} = 0 {count}")?;
    let key = rng.pick(&[1 << 42, (1 << 42) - 1, (1 << 42) + (1 << 32) - 1, (1 << 42) + (1 << 32), rng.next() >> rng.below(64)]);
    writeln!(out, "key_valid {key} = 0 {}", keys::valid(key) as u32)
}

/// A script whose slices have every length from 0 to behind the end of a record, and the lengths around a tape record's and a sheet's.
pub fn lengths(seed: u64) -> Vec<Frame> {
    let rng = Rng::new(seed);
    let mut frames = Vec::new();
    for kind in [TELEMETRY, RSR] {
        let mut s = make::good_record(&rng, kind, 3);
        let n = s.len() as u32;
        let secondary = s[36..36 + if kind == TELEMETRY { 80 } else { 220 }].to_vec();
        s.push(0);
        for length in 0..=s.len() {
            let a = s[..length].to_vec();
            for op in [ops::READ_ONE, ops::SECONDARY_PART, ops::DATA_PART, ops::READ_HEADERS, ops::WALK, ops::STEP] {
                frames.push(Frame { op, x: kind, a: a.clone(), ..Frame::default() });
            }
            frames.push(Frame { op: ops::STEP, key: length as u64, a: s.clone(), ..Frame::default() });
        }
        for z in 0..=n + 1 {
            let y = rng.word();
            frames.push(Frame { op: ops::WRITE_ONE, x: kind, y, z, a: secondary.clone(), b: vec![1, 2, 3], ..Frame::default() });
        }
        lists(&s, &mut frames);
    }
    tapes_and_sheets(&rng, &mut frames);
    frames
}

/// Lists of 0 to 3 numbers each.
fn lists(s: &[u8], frames: &mut Vec<Frame>) {
    let two = [&s[..s.len() - 1], s].concat();
    for i in 0..256u32 {
        let [x, y, z, w] = [i % 4, i / 4 % 4, i / 16 % 4, i / 64];
        frames.push(Frame { op: ops::LIST_NUMBERS, x, y, z, w, a: two.clone(), ..Frame::default() });
    }
}

fn tapes_and_sheets(rng: &Rng, frames: &mut Vec<Frame>) {
    let tape = rng.bytes(5057);
    let mut words = vec![0; 56];
    (words[4], words[5]) = (9, 224);
    for length in (0..70).chain(5040..=5057) {
        frames.push(Frame { op: ops::READ_TAPE, a: tape[..length].to_vec(), ..Frame::default() });
        let z = length as u32;
        frames.push(Frame { op: ops::WRITE_TAPE, z, a: words.clone(), b: tape[..5000].to_vec(), ..Frame::default() });
        let some = length.min(64) / 2 * 2;
        frames.push(Frame { op: ops::WRITE_TAPE, z: 5056, a: tape[..some].to_vec(), b: tape[..5000].to_vec(), ..Frame::default() });
    }
    for length in (0..64).chain(6960..=6970) {
        frames.push(Frame { op: ops::NEW_SHEET, a: vec![0; length], ..Frame::default() });
        frames.extend([ops::FRESH, ops::FIND, ops::ROW_REPORT, ops::SAVE].map(|op| Frame { op, ..Frame::default() }));
    }
}
