//! The ledger sheet. Document 01: 'The ledger sheet'; request 02: ticks are counted by words; request 03: RSR numbers
//! have 16 bits; request 10: rows are struck and used again. Each call first tests the sheet (20), then the other
//! refusals in the order of the table. `trusted` has the same calls for a sheet that is known to be right.

use crate::keys;
use crate::record::number;

pub const SHEET: usize = 6_968;
pub const ROW_PLACES: usize = 32;
pub const ROWS: usize = 24;
pub const ROW: usize = 144;
pub const DESK_PLACES: usize = 8;
pub const DESKS: usize = 4_632;
pub const DESK: usize = 292;
pub const POSITIONS: u32 = 1_024;
const TICK_WORDS: usize = 16;

// Offsets in the header, a row and a desk. A row starts with its used word. A desk starts with 1 if it is open.
pub const ROWS_USED: usize = 4;
pub const KEY: usize = 4;
pub const FIRST: usize = 12;
pub const TICKS: usize = 16;
pub const ROW_NAMED: usize = 1;
pub const OPENED: usize = 4;
pub const WORKED: usize = 148;

const FREE: u64 = 0;
const USED: u64 = 1;

pub fn row_place(row: usize) -> usize {
    ROWS + row * ROW
}

pub fn desk_place(desk: usize) -> usize {
    DESKS + desk * DESK
}

pub fn row(s: &[u8], row: usize) -> &[u8; ROW] {
    s[row_place(row)..][..ROW].try_into().expect("a row's bytes")
}

pub fn desk(s: &[u8], desk: usize) -> &[u8; DESK] {
    s[desk_place(desk)..][..DESK].try_into().expect("a desk's bytes")
}

pub fn rows_used(s: &[u8]) -> usize {
    number(s, ROWS_USED, 4) as usize
}

fn used_word(row: &[u8]) -> u64 {
    number(row, 0, 4)
}

pub fn is_used(s: &[u8], r: usize) -> bool {
    used_word(row(s, r)) == USED
}

pub fn used_rows(s: &[u8]) -> impl Iterator<Item = usize> + '_ {
    (0..ROW_PLACES).filter(|r| is_used(s, *r))
}

pub fn key(row: &[u8]) -> u64 {
    number(row, KEY, 8)
}

pub fn first(row: &[u8]) -> u32 {
    number(row, FIRST, 4) as u32
}

fn ticks(row: &[u8]) -> &[u8] {
    &row[TICKS..ROW]
}

/// Whether all bytes are zero, by words of four bytes; rows and desks are made of these.
fn all_zero<const LENGTH: usize>(s: &[u8; LENGTH]) -> bool {
    let (words, _) = s.as_chunks::<4>();
    words.iter().fold(0, |all, word| all | u32::from_ne_bytes(*word)) == 0
}

fn write_header(s: &mut [u8], used: usize) {
    let header = [SHEET, used, ROW_PLACES, ROWS, DESK_PLACES, DESKS];
    for (i, value) in header.iter().enumerate() {
        s[4 * i..4 * i + 4].copy_from_slice(&(*value as u32).to_be_bytes());
    }
}

/// Whether this is a right sheet of request 10, as document 01 says: 'A sheet is right when'.
pub fn is_sheet(s: &[u8]) -> bool {
    s.len() == SHEET && header_right(s) && rows_right(s) && (0..DESK_PLACES).all(|d| desk_right(s, d))
}

/// The header's fixed numbers. `rows_right` tests the count of used rows.
fn header_right(s: &[u8]) -> bool {
    let header = |i: usize| number(s, 4 * i, 4) as usize;
    header(0) == SHEET && header(2) == ROW_PLACES && header(3) == ROWS && header(4) == DESK_PLACES && header(5) == DESKS
}

/// Free rows are all zero. Used rows are as many as the header counts, with valid keys, all different, and first
/// numbers of their streams.
fn rows_right(s: &[u8]) -> bool {
    let mut keys = [0; ROW_PLACES];
    let mut used = 0;
    for r in 0..ROW_PLACES {
        let row = row(s, r);
        match used_word(row) {
            FREE if all_zero(row) => {}
            USED if keys::valid(key(row)) && keys::is_number(key(row), first(row)) => {
                keys[used] = key(row);
                used += 1;
            }
            _ => return false,
        }
    }
    used == rows_used(s) && all_different(&mut keys[..used])
}

fn all_different(keys: &mut [u64]) -> bool {
    keys.sort_unstable();
    keys.windows(2).all(|pair| pair[0] != pair[1])
}

/// The desk is closed and all zero; or it is open with a used row, two zeros, and copies with that row's used word,
/// key and first number.
fn desk_right(s: &[u8], d: usize) -> bool {
    let desk = desk(s, d);
    let named = desk[ROW_NAMED] as usize;
    match desk[0] {
        0 => all_zero(desk),
        1 => {
            desk[2..OPENED] == [0, 0]
                && named < ROW_PLACES
                && is_used(s, named)
                && desk[OPENED..][..TICKS] == row(s, named)[..TICKS]
                && desk[WORKED..][..TICKS] == row(s, named)[..TICKS]
        }
        _ => false,
    }
}

pub fn judge_sheet(s: &[u8]) -> Result<(), u32> {
    if is_sheet(s) {
        Ok(())
    } else {
        Err(20)
    }
}

/// The desk, if it is one of the eight (21).
fn judge_desk(desk: u32) -> Result<usize, u32> {
    if (desk as usize) < DESK_PLACES {
        Ok(desk as usize)
    } else {
        Err(21)
    }
}

/// The row, if it is a used one (25).
fn judge_row(s: &[u8], row: u32) -> Result<usize, u32> {
    let row = row as usize;
    if row < ROW_PLACES && is_used(s, row) {
        Ok(row)
    } else {
        Err(25)
    }
}

/// The desk of a right sheet, if it has no row open (21, 26).
pub fn judge_closed_desk(s: &[u8], d: u32) -> Result<usize, u32> {
    let d = judge_desk(d)?;
    if desk(s, d)[0] == 1 {
        Err(26)
    } else {
        Ok(d)
    }
}

/// The desk of a right sheet, if it has a row open (21, 27).
fn judge_open_desk(s: &[u8], d: u32) -> Result<usize, u32> {
    let d = judge_desk(d)?;
    if desk(s, d)[0] == 1 {
        Ok(d)
    } else {
        Err(27)
    }
}

fn row_with(s: &[u8], wanted: u64) -> Option<usize> {
    used_rows(s).find(|r| key(row(s, *r)) == wanted)
}

fn clear_desk(s: &mut [u8], desk: usize) {
    s[desk_place(desk)..][..DESK].fill(0);
}

/// Makes a fresh sheet. Tests only the length.
pub fn fresh(s: &mut [u8]) -> Result<(), u32> {
    if s.len() != SHEET {
        return Err(20);
    }
    s.fill(0);
    write_header(s, 0);
    Ok(())
}

pub fn enrol(s: &mut [u8], key: u64, first: u32) -> Result<usize, u32> {
    judge_sheet(s)?;
    if !keys::valid(key) {
        return Err(22);
    }
    if !keys::is_number(key, first) {
        return Err(32);
    }
    if row_with(s, key).is_some() {
        return Err(23);
    }
    let Some(free) = (0..ROW_PLACES).find(|r| !is_used(s, *r)) else {
        return Err(24);
    };
    let row = &mut s[row_place(free)..][..ROW];
    row[..KEY].copy_from_slice(&(USED as u32).to_be_bytes());
    row[KEY..FIRST].copy_from_slice(&key.to_be_bytes());
    row[FIRST..TICKS].copy_from_slice(&first.to_be_bytes());
    row[TICKS..].copy_from_slice(&[0; ROW - TICKS]);
    write_header(s, rows_used(s) + 1);
    Ok(free)
}

/// Strikes a row: it is free again, and enrolments can use it.
pub fn strike(s: &mut [u8], r: u32) -> Result<(), u32> {
    judge_sheet(s)?;
    let r = judge_row(s, r)?;
    if (0..DESK_PLACES).any(|d| desk(s, d)[0] == 1 && desk(s, d)[ROW_NAMED] as usize == r) {
        return Err(36);
    }
    s[row_place(r)..][..ROW].fill(0);
    write_header(s, rows_used(s) - 1);
    Ok(())
}

pub fn find(s: &[u8], key: u64) -> Result<usize, u32> {
    judge_sheet(s)?;
    trusted::find(s, key)
}

pub fn open(s: &mut [u8], d: u32, r: u32) -> Result<(), u32> {
    judge_sheet(s)?;
    trusted::open(s, d, r)
}

/// (n - first) modulo the stream's modulus, if n is a number of the stream and in the row.
pub fn position(key: u64, first: u32, n: u32) -> Option<u32> {
    if !keys::is_number(key, n) {
        return None;
    }
    let position = n.wrapping_sub(first) & (keys::modulus(key) - 1) as u32;
    (position < POSITIONS).then_some(position)
}

fn ticked(ticks: &[u8], position: u32) -> bool {
    ticks[position as usize / 8] >> (position % 8) & 1 == 1
}

pub fn tick(s: &mut [u8], desk: u32, n: u32) -> Result<(), u32> {
    judge_sheet(s)?;
    trusted::set_tick(s, desk, n, true)
}

pub fn untick(s: &mut [u8], desk: u32, n: u32) -> Result<(), u32> {
    judge_sheet(s)?;
    trusted::set_tick(s, desk, n, false)
}

pub fn save(s: &mut [u8], d: u32) -> Result<(), u32> {
    judge_sheet(s)?;
    trusted::save(s, d)
}

pub fn drop_desk(s: &mut [u8], desk: u32) -> Result<(), u32> {
    judge_sheet(s)?;
    trusted::drop_desk(s, desk)
}

/// The calls that a record's visit makes, on a sheet that is known to be right.
pub mod trusted {
    use super::*;

    pub fn find(s: &[u8], key: u64) -> Result<usize, u32> {
        if !keys::valid(key) {
            return Err(22);
        }
        row_with(s, key).ok_or(25)
    }

    pub fn open(s: &mut [u8], d: u32, r: u32) -> Result<(), u32> {
        judge_desk(d)?;
        let r = judge_row(s, r)?;
        let d = judge_closed_desk(s, d)?;
        let place = desk_place(d);
        s[place] = 1;
        s[place + ROW_NAMED] = r as u8;
        let row = row_place(r)..row_place(r) + ROW;
        s.copy_within(row.clone(), place + OPENED);
        s.copy_within(row, place + WORKED);
        Ok(())
    }

    /// Changes one bit of the desk's worked copy. Tests 29 and 30 on that copy.
    pub fn set_tick(s: &mut [u8], desk: u32, n: u32, wanted: bool) -> Result<(), u32> {
        let desk = judge_open_desk(s, desk)?;
        let worked = &mut s[desk_place(desk) + WORKED..][..ROW];
        let Some(position) = position(key(worked), first(worked), n) else {
            return Err(28);
        };
        if ticked(ticks(worked), position) == wanted {
            return Err(if wanted { 29 } else { 30 });
        }
        worked[TICKS + position as usize / 8] ^= 1 << (position % 8);
        Ok(())
    }

    pub fn save(s: &mut [u8], d: u32) -> Result<(), u32> {
        let d = judge_open_desk(s, d)?;
        let r = desk(s, d)[ROW_NAMED] as usize;
        let stale = is_stale(s, d);
        if !stale {
            let worked = desk_place(d) + WORKED;
            s.copy_within(worked..worked + ROW, row_place(r));
        }
        clear_desk(s, d);
        if stale {
            Err(31)
        } else {
            Ok(())
        }
    }

    pub fn drop_desk(s: &mut [u8], desk: u32) -> Result<(), u32> {
        let desk = judge_open_desk(s, desk)?;
        clear_desk(s, desk);
        Ok(())
    }
}

/// Whether the row of an open desk is no longer what the desk opened.
fn is_stale(s: &[u8], d: usize) -> bool {
    let r = desk(s, d)[ROW_NAMED] as usize;
    row(s, r) != &desk(s, d)[OPENED..WORKED]
}

// Questions.

/// A row's key and first number.
pub fn row_of(s: &[u8], r: u32) -> Result<(u64, u32), u32> {
    judge_sheet(s)?;
    let r = judge_row(s, r)?;
    Ok((key(row(s, r)), first(row(s, r))))
}

/// The row that a desk has open, and whether a save would be stale now; none if the desk is closed.
pub fn desk_of(s: &[u8], d: u32) -> Result<Option<(usize, bool)>, u32> {
    judge_sheet(s)?;
    let d = judge_desk(d)?;
    if desk(s, d)[0] == 0 {
        return Ok(None);
    }
    Ok(Some((desk(s, d)[ROW_NAMED] as usize, is_stale(s, d))))
}

/// How many ticks and unticks an open desk has not saved: positions that are ticked in its worked copy and not in its
/// opened one, and positions that are ticked in its opened copy and not in its worked one.
pub fn unsaved(s: &[u8], d: u32) -> Result<(u32, u32), u32> {
    judge_sheet(s)?;
    let d = judge_open_desk(s, d)?;
    let (opened, worked) = (tick_words(&desk(s, d)[OPENED..WORKED]), tick_words(&desk(s, d)[WORKED..]));
    let only = |here: &[u64; TICK_WORDS], there: &[u64; TICK_WORDS]| {
        here.iter().zip(there).map(|(here, there)| (here & !there).count_ones()).sum()
    };
    Ok((only(&worked, &opened), only(&opened, &worked)))
}

#[derive(Debug, PartialEq)]
pub struct Report {
    pub ticked: u32,
    pub missing: u32,
    pub lowest: Option<u32>,
}

pub fn report(s: &[u8], r: u32) -> Result<Report, u32> {
    judge_sheet(s)?;
    let r = judge_row(s, r)?;
    Ok(report_row(row(s, r)))
}

/// The report of a row's bytes. Counts the ticked positions; those unticked below the highest ticked one are missing.
pub fn report_row(row: &[u8]) -> Report {
    let words = tick_words(row);
    let end = ticks_end(&words);
    if end == 0 {
        return Report { ticked: 0, missing: 0, lowest: None };
    }
    let ticked = words.iter().map(|word| word.count_ones()).sum();
    let lowest = lowest_unticked(&words).filter(|position| *position < end);
    Report { ticked, missing: end - ticked, lowest: lowest.map(|position| number_at(row, position)) }
}

/// Writes the numbers of a row's missing records to the start of the list, in the order of their positions. Answers
/// how many.
pub fn missing_numbers(s: &[u8], r: u32, list: &mut [u32]) -> Result<usize, u32> {
    judge_sheet(s)?;
    let r = judge_row(s, r)?;
    missing_in(row(s, r), list)
}

/// The same for a row's bytes. 60 if the list is too short.
pub fn missing_in(row: &[u8], list: &mut [u32]) -> Result<usize, u32> {
    let words = tick_words(row);
    let end = ticks_end(&words);
    let ticked: u32 = words.iter().map(|word| word.count_ones()).sum();
    let Some(list) = list.get_mut(..(end - ticked) as usize) else {
        return Err(60);
    };
    let (first, mask) = (first(row), (keys::modulus(key(row)) - 1) as u32);
    let mut count = 0;
    for (k, word) in (0..).zip(words) {
        let start = first.wrapping_add(64 * k);
        let mut unticked = !word & below(end.saturating_sub(64 * k));
        while unticked != 0 {
            list[count] = start.wrapping_add(unticked.trailing_zeros()) & mask;
            count += 1;
            unticked &= unticked - 1;
        }
    }
    Ok(count)
}

/// A word whose lowest so many bits are set; all of them, for 64 or more.
fn below(bits: u32) -> u64 {
    if bits < 64 {
        (1 << bits) - 1
    } else {
        u64::MAX
    }
}

/// The ticks as words of 64: bit i of word k is position 64 k + i.
fn tick_words(row: &[u8]) -> [u64; TICK_WORDS] {
    let mut words = [0; TICK_WORDS];
    for (word, bytes) in words.iter_mut().zip(ticks(row).chunks_exact(8)) {
        *word = u64::from_le_bytes(bytes.try_into().expect("eight bytes"));
    }
    words
}

/// One more than the highest ticked position; 0 if none is ticked.
fn ticks_end(words: &[u64; TICK_WORDS]) -> u32 {
    let last = words.iter().rposition(|word| *word != 0);
    last.map_or(0, |k| 64 * (k as u32 + 1) - words[k].leading_zeros())
}

fn lowest_unticked(words: &[u64; TICK_WORDS]) -> Option<u32> {
    let k = words.iter().position(|word| *word != u64::MAX)?;
    Some(64 * k as u32 + (!words[k]).trailing_zeros())
}

/// (first + position) modulo the stream's modulus.
pub fn number_at(row: &[u8], position: u32) -> u32 {
    first(row).wrapping_add(position) & (keys::modulus(key(row)) - 1) as u32
}

fn lowest_missing_number(row: &[u8]) -> Option<u32> {
    let words = tick_words(row);
    let position = lowest_unticked(&words).filter(|position| *position < ticks_end(&words))?;
    Some(number_at(row, position))
}

/// The first missing number, and its row.
pub fn first_gap(s: &[u8]) -> Result<Option<(u32, usize)>, u32> {
    judge_sheet(s)?;
    let gap = |r| lowest_missing_number(row(s, r)).map(|number| (number, r));
    Ok(used_rows(s).find_map(gap))
}
