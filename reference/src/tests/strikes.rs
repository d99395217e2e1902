//! Request 10: rows that are struck, and old sheets that are converted.

use super::{fresh, lines, ticked, Frame};
use crate::book::{Book, OLD};
use crate::convert::convert;
use crate::ledger::{self, Report};
use crate::make::Rng;
use crate::ops;
use crate::random::old_sheets::as_old;
use crate::script::crc32;
use crate::{nights, sample};

#[test]
fn struck_rows_are_used_again() {
    let mut s = fresh();
    for key in 0..32 {
        assert_eq!(ledger::enrol(&mut s, key, 1), Ok(key as usize));
    }
    assert_eq!(ledger::enrol(&mut s, 99, 1), Err(24));
    ledger::open(&mut s, 2, 5).unwrap();
    ledger::tick(&mut s, 2, 7).unwrap();
    ledger::save(&mut s, 2).unwrap();
    ledger::open(&mut s, 2, 5).unwrap();
    assert_eq!(ledger::strike(&mut s, 5), Err(36));
    ledger::drop_desk(&mut s, 2).unwrap();
    assert_eq!(ledger::strike(&mut s, 5), Ok(()));
    assert_eq!(ledger::strike(&mut s, 5), Err(25));
    assert_eq!(ledger::strike(&mut s, 20), Ok(()));
    assert_eq!(ledger::rows_used(&s), 30);
    assert_eq!(s[24 + 5 * 144..24 + 6 * 144], [0; 144]);
    // A free row is no row, in every call.
    assert_eq!(ledger::open(&mut s, 2, 5), Err(25));
    assert_eq!(ledger::find(&s, 5), Err(25));
    assert_eq!(ledger::report(&s, 5), Err(25));
    for row in [32, 255, 256 + 6, u32::MAX] {
        assert_eq!(ledger::strike(&mut s, row), Err(25));
    }
    // Enrol uses the lowest free row, with no ticks. The key may come back, and then the next free row is used.
    assert_eq!(ledger::enrol(&mut s, 5, 1), Ok(5));
    assert_eq!(ledger::report(&s, 5), Ok(Report { ticked: 0, missing: 0, lowest: None }));
    assert_eq!(ledger::enrol(&mut s, 5, 1), Err(23));
    assert_eq!(ledger::enrol(&mut s, 99, 1), Ok(20));
    assert_eq!(ledger::enrol(&mut s, 100, 1), Err(24));
}

/// Strike gives 20, then 25, then 36. A refused strike changes nothing.
#[test]
fn strike_refusals() {
    let mut s = vec![0; 6_968];
    assert_eq!(ledger::strike(&mut s, 0), Err(20));
    assert_eq!(s, vec![0; 6_968]);
    let mut s = nights::full_sheet(&Rng::new(3));
    let before = s.clone();
    for desk in 0..8 {
        let row = ledger::desk(&s, desk)[1] as u32;
        assert_eq!(ledger::strike(&mut s, row), Err(36));
    }
    assert_eq!(ledger::strike(&mut s, 32), Err(25));
    assert_eq!(s, before);
}

#[test]
fn sizes() {
    assert_eq!(24 + 32 * 144, 4_632);
    assert_eq!(4_632 + 8 * (4 + 2 * 144), 6_968);
    assert_eq!(ledger::DESK, 292);
    let header: Vec<u8> = [6_968u32, 0, 32, 24, 8, 4_632].iter().flat_map(|word| word.to_be_bytes()).collect();
    assert_eq!(fresh()[..24], header);
}

/// Rows keep their places, open desks stay open, and calls go on.
#[test]
fn an_old_night_goes_on() {
    let mut s = fresh();
    for key in [760_930_632_193, 1 << 42] {
        ledger::enrol(&mut s, key, 1).unwrap();
    }
    ledger::open(&mut s, 6, 1).unwrap();
    ledger::tick(&mut s, 6, 3).unwrap();
    let old = as_old(&s);
    assert_eq!(old.len(), 6_776);
    assert!(!ledger::is_sheet(&old));
    let mut new = vec![165; 6_968];
    assert_eq!(convert(&old, &mut new), Ok(()));
    assert_eq!(new, s);
    assert_eq!(ledger::save(&mut new, 6), Ok(()));
    assert_eq!(ledger::report(&new, 1), Ok(Report { ticked: 1, missing: 2, lowest: Some(1) }));
    assert!(ticked(&new).is_empty());
    // A new sheet is no old one, nor is a damaged one; then nothing is written.
    let mut slice = vec![165; 6_968];
    for (a, length) in [(&new[..], 6_968), (&old[..6_775], 6_968), (&old, 6_967), (&old, 6_969), (&old, 6_776)] {
        slice.resize(length, 165);
        assert_eq!(convert(a, &mut slice), Err(20));
        assert!(slice.iter().all(|byte| *byte == 165));
    }
    assert_eq!(convert(&Book::new().laid_out_as(&OLD), &mut new), Ok(()));
    assert_eq!(new, fresh());
}

/// Changes every bit of old sheets: they are converted exactly if they are then the old layout of a book, and to that
/// book.
#[test]
fn every_bit_of_an_old_sheet_counts() {
    let mut s = fresh();
    for key in [0, 7, 1 << 42, (1 << 42) + 1] {
        ledger::enrol(&mut s, key, 60_000).unwrap();
    }
    for (desk, row) in [(0, 3), (5, 0), (7, 3)] {
        ledger::open(&mut s, desk, row).unwrap();
        ledger::tick(&mut s, desk, 60_009 + desk).unwrap();
    }
    for mut old in [as_old(&s), as_old(&fresh())] {
        for (at, bit) in (0..old.len()).flat_map(|at| (0..8).map(move |bit| (at, bit))) {
            old[at] ^= 1 << bit;
            let mut new = vec![165; 6_968];
            let answer = convert(&old, &mut new);
            match Book::of_sheet_as(&OLD, &old) {
                Some(book) => assert!(answer == Ok(()) && new == book.laid_out(), "byte {at}"),
                None => assert!(answer == Err(20) && new == [165; 6_968], "byte {at}"),
            }
            old[at] ^= 1 << bit;
        }
    }
}

#[test]
fn the_sample_sheets() {
    let [old, new] = ["sheets/old-night", "sheets/new-night"].map(|name| sample::sample(name).unwrap());
    let mut converted = vec![0; 6_968];
    assert_eq!(convert(&old, &mut converted), Ok(()));
    assert_eq!(converted, new);
    assert_eq!(ledger::report(&new, 2), Ok(Report { ticked: 3, missing: 25, lowest: Some(65_511) }));
}

#[test]
fn strike_and_convert_lines() {
    let of = |op, x, key| Frame { op, x, key, ..Frame::default() };
    let convert = |z, a: &[u8]| Frame { op: ops::CONVERT, z, a: a.to_vec(), ..Frame::default() };
    let mut one = fresh();
    ledger::enrol(&mut one, 7, 1).unwrap();
    let (old, empty, one_crc) = (as_old(&one), crc32(&fresh()), crc32(&one));
    assert_eq!(
        lines(&[
            of(ops::FRESH, 0, 0),
            of(ops::STRIKE, 0, 0),
            of(ops::ENROL, 1, 7),
            of(ops::STRIKE, 0, 0),
            convert(6_968, &old),
            of(ops::FIND, 0, 7),
            convert(3, &old),
            of(ops::STRIKE, 0, 0),
            convert(8_193, &old)
        ]),
        [
            format!("0 {empty}"),
            format!("25 {empty}"),
            format!("0 0 {one_crc}"),
            format!("0 {empty}"),
            format!("0 {one_crc}"),
            format!("0 0 {one_crc}"),
            format!("20 {}", crc32(&[165; 3])),
            format!("20 {}", crc32(&[165; 3])),
            "bad frame".to_string(),
        ]
    );
}
