//! Unpacks and packs the samples of RSR records. Request 08, with sections 3.5 and 3.6 of source document 004: the
//! data are words of 32 bits, with quadrature (Q) in the upper half and in-phase (I) in the lower, and in each half
//! the earlier sample in the lower bits. A sample whose bits are k in two's complement stands for 2 k + 1.

use crate::record::{data_part, number, read_headers, Refused, RSR, SECONDARY};

/// Table 3-1: the sample sizes in bits, and for each the rates in thousands of samples per second.
pub const LISTED: [(u32, &[u32]); 5] = [
    (1, &[250, 500, 1_000, 2_000, 4_000, 8_000, 16_000]),
    (2, &[250, 500, 1_000, 2_000, 4_000, 8_000]),
    (4, &[250, 500, 1_000, 2_000]),
    (8, &[1, 2, 4, 8, 16, 25, 50, 100, 250, 500, 1_000]),
    (16, &[1, 2, 4, 8, 16, 25, 50, 100]),
];

pub const SIZE: usize = SECONDARY + 36;
pub const RATE: usize = SECONDARY + 38;
const WORD: usize = 4;
const HALF: u32 = 16;

fn judge_pair(size: u32, rate: u32) -> Result<(), u32> {
    if LISTED.iter().any(|(listed, rates)| *listed == size && rates.contains(&rate)) {
        Ok(())
    } else {
        Err(19)
    }
}

/// How many numbers a word holds: I and Q of each of its samples.
fn numbers_in_word(size: u32) -> usize {
    2 * (HALF / size) as usize
}

/// The sample size and rate in an RSR record's header.
pub fn size_and_rate(s: &[u8]) -> (u32, u32) {
    (s[SIZE].into(), number(s, RATE, 2) as u32)
}

/// Unpacks a record's samples into the list, I before Q. Answers how many numbers it wrote.
pub fn unpack(s: &[u8], list: &mut [i32]) -> Result<usize, Refused> {
    read_headers(s, RSR)?;
    let (size, rate) = size_and_rate(s);
    judge_pair(size, rate).map_err(Refused::Number)?;
    let (words, []) = data_part(s).as_chunks() else {
        return Err(Refused::Number(34));
    };
    let count = words.len() * numbers_in_word(size);
    let list = list.get_mut(..count).ok_or(Refused::Number(35))?;
    match size {
        1 => unpack_words::<1, 32>(words, list),
        2 => unpack_words::<2, 16>(words, list),
        4 => unpack_words::<4, 8>(words, list),
        8 => unpack_words::<8, 4>(words, list),
        _ => unpack_words::<16, 2>(words, list),
    }
    Ok(count)
}

fn unpack_words<const SIZE: u32, const NUMBERS: usize>(words: &[[u8; WORD]], list: &mut [i32]) {
    let (pairs, _) = list.as_chunks_mut::<NUMBERS>();
    for (word, pairs) in words.iter().zip(pairs) {
        let word = u32::from_be_bytes(*word);
        let (pairs, _) = pairs.as_chunks_mut();
        for (i, pair) in pairs.iter_mut().enumerate() {
            let shift = SIZE * i as u32;
            *pair = [value::<SIZE>(word >> shift), value::<SIZE>(word >> HALF >> shift)];
        }
    }
}

/// The value of the sample in the lowest bits.
fn value<const SIZE: u32>(bits: u32) -> i32 {
    let unused = u32::BITS - SIZE;
    2 * ((bits << unused) as i32 >> unused) + 1
}

/// Packs numbers, I before Q, into bytes. Answers how many bytes it wrote.
pub fn pack(size: u32, rate: u32, numbers: &[i32], out: &mut [u8]) -> Result<usize, u32> {
    judge_pair(size, rate)?;
    let in_word = numbers_in_word(size);
    if !numbers.len().is_multiple_of(in_word) {
        return Err(34);
    }
    if !all_have_codes(size, numbers) {
        return Err(37);
    }
    let length = WORD * (numbers.len() / in_word);
    let (words, _) = out.get_mut(..length).ok_or(35u32)?.as_chunks_mut();
    match size {
        1 => pack_words::<1, 32>(numbers, words),
        2 => pack_words::<2, 16>(numbers, words),
        4 => pack_words::<4, 8>(numbers, words),
        8 => pack_words::<8, 4>(numbers, words),
        _ => pack_words::<16, 2>(numbers, words),
    }
    Ok(length)
}

/// Whether each number is the value of a code: odd, and less than 2^size away from zero.
fn all_have_codes(size: u32, numbers: &[i32]) -> bool {
    let bound = 1 << size;
    let has_none = |n: i32| n & 1 == 0 || (n.wrapping_add(bound) as u32) >= 2 * bound as u32;
    // No early exit.
    !numbers.iter().fold(false, |none, n| none | has_none(*n))
}

fn pack_words<const SIZE: u32, const NUMBERS: usize>(numbers: &[i32], words: &mut [[u8; WORD]]) {
    let (pairs, _) = numbers.as_chunks::<NUMBERS>();
    for (word, pairs) in words.iter_mut().zip(pairs) {
        let (pairs, _) = pairs.as_chunks();
        let mut packed = 0;
        for (n, [i, q]) in pairs.iter().enumerate() {
            packed |= (code::<SIZE>(*i) | code::<SIZE>(*q) << HALF) << (SIZE * n as u32);
        }
        *word = packed.to_be_bytes();
    }
}

/// The bits of (number - 1) / 2.
fn code<const SIZE: u32>(number: i32) -> u32 {
    (number >> 1) as u32 & (u32::MAX >> (u32::BITS - SIZE))
}
