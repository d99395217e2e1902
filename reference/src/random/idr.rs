//! Medium band records in random scripts: every field at the ends of its range, and what the writer is lent.

use super::Generator;
use crate::idr::{HEADER, HEADER_WORDS, LENGTH_WORD, PLAYBACK_RATES, RATES, RECORD, SAMPLES};
use crate::make::Rng;
use crate::ops;
use crate::script::{Frame, MOST_TAPE_SLICE};

#[derive(Clone, Copy)]
pub enum TapeCase {
    /// Every field in range, the rest random.
    Good,
    /// The time tag is not valid, so only the length word is tested.
    Untagged,
    /// Word 3, with the time tag valid or not.
    LengthWord(u16, bool),
    /// One of the nine digits, from the day's hundreds on.
    Digit(usize, u16),
    Day(u16),
    Hour(u16),
    Minute(u16),
    Second(u16),
    Microseconds(u32),
    Playback(u16),
    Sampling(u16),
    /// The block size as stored.
    Block(u32),
    /// Several of time, rates and block size at once.
    Several,
    /// Bit 4 of word 1, and the sample count.
    SampleCount(bool, u32),
    /// The lent record's length.
    Length(usize),
    /// The writer's words, samples and slice.
    Lent(usize, usize, usize),
    Noise,
}

/// The cases by kind, with the refused ones separate. Each kind comes up as often as the others.
pub fn tape_cases() -> Vec<Vec<TapeCase>> {
    use TapeCase::*;
    let lengths = [0, 1, LENGTH_WORD - 1, LENGTH_WORD + 1, LENGTH_WORD ^ 0x8000, LENGTH_WORD.swap_bytes(), u16::MAX];
    let mut times: Vec<TapeCase> = (0..9).flat_map(|place| [0, 1].map(|digit| Digit(place, digit))).collect();
    times.extend([1, 9, 10, 99, 100, 299, 300, 359, 360, 365, 366].map(Day));
    times.extend([0, 9, 10, 19, 20, 23].map(Hour));
    times.extend([0, 9, 10, 59].into_iter().flat_map(|n| [Minute(n), Second(n)]));
    times.extend([0, 1, 255, 256, 65_535, 65_536, 999_999].map(Microseconds));
    let mut no_times: Vec<TapeCase> = (0..9).flat_map(|place| [10, 15].map(|digit| Digit(place, digit))).collect();
    no_times.extend([0, 367, 370, 399, 400, 999].map(Day));
    no_times.extend([24, 29, 30, 99].map(Hour));
    no_times.extend([60, 99].into_iter().flat_map(|n| [Minute(n), Second(n)]));
    no_times.extend([1_000_000, 1_048_575].map(Microseconds));
    let codes = RATES.map(|(code, _)| code);
    let unlisted = (0..32).filter(|code| !codes.contains(code));
    let unlisted_playback = (0..32).filter(|code| !codes[..PLAYBACK_RATES].contains(code));
    let records = [0, 1, HEADER - 1, HEADER, SAMPLES, RECORD - 2, RECORD - 1, RECORD + 1, RECORD + 2, 2 * RECORD];
    let slices = [0, RECORD - 1, RECORD + 1, MOST_TAPE_SLICE as usize].map(|slice| Lent(HEADER_WORDS, SAMPLES, slice));
    let words = [0, HEADER_WORDS - 1, HEADER_WORDS + 1].map(|words| Lent(words, SAMPLES, RECORD));
    let samples = [0, SAMPLES - 1, SAMPLES + 1].map(|samples| Lent(HEADER_WORDS, samples, RECORD));
    vec![
        vec![Good],
        vec![Untagged],
        lengths.into_iter().flat_map(|word| [true, false].map(|tagged| LengthWord(word, tagged))).collect(),
        times,
        no_times,
        codes[..PLAYBACK_RATES].iter().map(|code| Playback(*code)).chain(codes.map(Sampling)).collect(),
        unlisted_playback.map(Playback).chain(unlisted.map(Sampling)).collect(),
        [8_388_608, 8_388_609, 16_702_216, 16_711_679, 16_711_680, 16_777_215].map(Block).to_vec(),
        [0, 1, 75_000, 8_388_607].map(Block).to_vec(),
        vec![Several],
        [true, false].into_iter().flat_map(|set| [0, 1, 65_536, u32::MAX].map(|n| SampleCount(set, n))).collect(),
        [&records.map(Length)[..], &slices, &words, &samples].concat(),
        vec![Noise],
    ]
}

impl Generator {
    /// A record read, written, or both.
    pub fn tapes(&mut self) {
        let kind = self.tape_kinds.deal(&self.rng);
        let case = self.tapes[kind].deal(&self.rng);
        let mut words = tagged_words(&self.rng);
        spoil(&self.rng, &mut words, case);
        let samples = self.rng.bytes(SAMPLES);
        let header: Vec<u8> = words.iter().flat_map(|word| word.to_be_bytes()).collect();
        let mut write =
            Frame { op: ops::WRITE_TAPE, z: RECORD as u32, a: header.clone(), b: samples.clone(), ..Frame::default() };
        let mut read = Frame { op: ops::READ_TAPE, a: [header, samples].concat(), ..Frame::default() };
        match case {
            TapeCase::Lent(words, samples, slice) => {
                write.a.resize(2 * words, 0);
                write.b.resize(samples, 1);
                write.z = slice as u32;
                self.emit(write);
            }
            TapeCase::Length(length) => {
                read.a.resize(length, 0);
                self.emit(read);
            }
            _ => match self.rng.below(8) {
                0..=3 => self.emit(read),
                4..=6 => self.emit(write),
                _ => {
                    self.emit(read);
                    self.emit(write);
                }
            },
        }
    }
}

/// The header words of a record with a valid time tag, every tested field in range, and the rest random.
fn tagged_words(rng: &Rng) -> [u16; HEADER_WORDS] {
    let mut words = [0; HEADER_WORDS].map(|_: u16| rng.word() as u16);
    words[0] |= 1 << 15;
    words[2] = LENGTH_WORD;
    put_day(&mut words, 1 + rng.below(366) as u16);
    put_pair(&mut words, 3, rng.below(24) as u16);
    put_pair(&mut words, 5, rng.below(60) as u16);
    put_pair(&mut words, 7, rng.below(60) as u16);
    put_microseconds(&mut words, rng.below(1_000_000) as u32);
    put_code(&mut words[9], rng.pick(&RATES[..PLAYBACK_RATES]).0);
    put_code(&mut words[10], rng.pick(&RATES).0);
    put_block(&mut words, (1 << 23) + rng.below(1 << 23) as u32);
    words
}

fn spoil(rng: &Rng, words: &mut [u16; HEADER_WORDS], case: TapeCase) {
    use TapeCase::*;
    match case {
        Good | Length(_) | Lent(..) => {}
        Untagged => {
            *words = words.map(|_| rng.word() as u16);
            words[0] &= !(1 << 15);
            words[2] = LENGTH_WORD;
        }
        LengthWord(word, tagged) => {
            words[2] = word;
            words[0] = words[0] << 1 >> 1 | (tagged as u16) << 15;
        }
        Digit(place, digit) => {
            // A time with small digits, so that only the one digit decides.
            put_day(words, 111);
            [3, 5, 7].into_iter().for_each(|place| put_pair(words, place, 11));
            put_digit(words, place, digit);
        }
        Day(day) => put_day(words, day),
        Hour(hour) => put_pair(words, 3, hour),
        Minute(minute) => put_pair(words, 5, minute),
        Second(second) => put_pair(words, 7, second),
        Microseconds(microseconds) => put_microseconds(words, microseconds),
        Playback(code) => put_code(&mut words[9], code),
        Sampling(code) => put_code(&mut words[10], code),
        Block(stored) => put_block(words, stored),
        Several => {
            if rng.percent(40) {
                put_day(words, rng.pick(&[0, 367]));
            }
            if rng.percent(40) {
                put_code(&mut words[9], rng.below(32) as u16);
            }
            if rng.percent(40) {
                put_code(&mut words[10], rng.below(32) as u16);
            }
            if rng.percent(60) {
                put_block(words, rng.below(1 << 24) as u32);
            }
            if rng.percent(15) {
                words[2] = rng.word() as u16;
            }
            if rng.percent(20) {
                words[0] &= !(1 << 15);
            }
        }
        SampleCount(set, count) => {
            words[0] = words[0] & !(1 << 12) | (set as u16) << 12;
            words[26] = (count >> 16) as u16;
            words[27] = count as u16;
        }
        Noise => *words = words.map(|_| rng.word() as u16),
    }
}

/// One of the nine digits of words 6 to 8, from the day's hundreds on.
fn put_digit(words: &mut [u16; HEADER_WORDS], place: usize, digit: u16) {
    let (word, shift) = (5 + place / 4, 12 - 4 * (place % 4));
    words[word] = words[word] & !(0xF << shift) | digit << shift;
}

fn put_pair(words: &mut [u16; HEADER_WORDS], place: usize, value: u16) {
    put_digit(words, place, value / 10);
    put_digit(words, place + 1, value % 10);
}

fn put_day(words: &mut [u16; HEADER_WORDS], day: u16) {
    put_digit(words, 0, day / 100);
    put_pair(words, 1, day % 100);
}

fn put_microseconds(words: &mut [u16; HEADER_WORDS], microseconds: u32) {
    words[7] = words[7] & 0xF000 | (microseconds >> 8) as u16;
    words[8] = words[8] & 0x00FF | (microseconds << 8) as u16;
}

/// The lowest five bits of a word.
fn put_code(word: &mut u16, code: u16) {
    *word = *word & !0b11111 | code;
}

fn put_block(words: &mut [u16; HEADER_WORDS], stored: u32) {
    words[11] = words[11] & 0xFF00 | (stored >> 16) as u16;
    words[12] = stored as u16;
}
