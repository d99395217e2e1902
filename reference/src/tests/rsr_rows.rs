//! Request 03: rows of RSR streams, whose record numbers have 16 bits.

use super::{fresh, lines, Frame};
use crate::ledger::{self, Report};
use crate::ops;

const RSR_KEY: u64 = (1 << 42) + (177 << 24) + (43 << 16) + (1 << 8) + 2;

fn opened(key: u64, first: u32) -> Vec<u8> {
    let mut s = fresh();
    assert_eq!(ledger::enrol(&mut s, key, first), Ok(0));
    assert_eq!(ledger::open(&mut s, 0, 0), Ok(()));
    s
}

#[test]
fn number_2_stands_at_position_8() {
    assert_eq!(ledger::position(RSR_KEY, 65_530, 2), Some(8));
    assert_eq!(ledger::position(RSR_KEY, 65_530, 65_535), Some(5));
    assert_eq!(ledger::position(RSR_KEY, 65_530, 0), Some(6));
    assert_eq!(ledger::position(RSR_KEY, 65_530, 65_529), None);
    assert_eq!(ledger::position(RSR_KEY, 65_530, 1_017), Some(1_023));
    assert_eq!(ledger::position(RSR_KEY, 65_530, 1_018), None);
    // 65,538 is no number of the stream, though it is 2 modulo 65,536.
    assert_eq!(ledger::position(RSR_KEY, 65_530, 65_538), None);
    assert_eq!(ledger::position((1 << 42) - 1, 65_530, 65_538), Some(8));
    assert_eq!(ledger::position((1 << 42) - 1, 65_530, 2), None);
}

#[test]
fn a_night_that_wraps() {
    let mut s = opened(RSR_KEY, 65_530);
    for n in (65_530..65_536).chain(0..10).filter(|n| ![65_534, 3].contains(n)) {
        assert_eq!(ledger::tick(&mut s, 0, n), Ok(()), "{n}");
    }
    assert_eq!(ledger::tick(&mut s, 0, 2), Err(29));
    assert_eq!(ledger::tick(&mut s, 0, 65_536), Err(28));
    assert_eq!(ledger::untick(&mut s, 0, 65_538), Err(28));
    assert_eq!(ledger::save(&mut s, 0), Ok(()));
    assert_eq!(ledger::report(&s, 0), Ok(Report { ticked: 14, missing: 2, lowest: Some(65_534) }));
    ledger::open(&mut s, 0, 0).unwrap();
    ledger::tick(&mut s, 0, 65_534).unwrap();
    ledger::save(&mut s, 0).unwrap();
    assert_eq!(ledger::report(&s, 0), Ok(Report { ticked: 15, missing: 1, lowest: Some(3) }));
    assert_eq!(ledger::first_gap(&s), Ok(Some((3, 0))));
}

#[test]
fn enrolments() {
    let mut s = fresh();
    assert_eq!(ledger::enrol(&mut s, RSR_KEY, 65_536), Err(32));
    assert_eq!(ledger::enrol(&mut s, (1 << 42) + (1 << 32), 65_536), Err(22));
    assert_eq!(ledger::enrol(&mut s, RSR_KEY, 65_535), Ok(0));
    // 32 comes before 23.
    assert_eq!(ledger::enrol(&mut s, RSR_KEY, 65_536), Err(32));
    assert_eq!(ledger::enrol(&mut s, RSR_KEY, 65_535), Err(23));
    assert_eq!(ledger::enrol(&mut s, (1 << 42) - 1, u32::MAX), Ok(1));
}

#[test]
fn a_sheet_with_a_number_too_wide() {
    for (key, first, right) in [(RSR_KEY, 65_535, true), (RSR_KEY, 65_536, false), ((1 << 42) - 1, 65_536, true)] {
        let mut s = opened(key, 0);
        for copy in [24, 4_632 + 4, 4_632 + 148] {
            s[copy + 12..copy + 16].copy_from_slice(&u32::to_be_bytes(first));
        }
        assert_eq!(ledger::is_sheet(&s), right);
    }
}

#[test]
fn rsr_lines() {
    let of = |op, x, y, key| Frame { op, x, y, key, ..Frame::default() };
    let lines = lines(&[
        of(ops::FRESH, 0, 0, 0),
        of(ops::ENROL, 65_536, 0, RSR_KEY),
        of(ops::ENROL, 65_535, 0, RSR_KEY),
        of(ops::OPEN, 3, 0, 0),
        of(ops::TICK, 3, 0, 0),
    ]);
    let answers: Vec<&str> = lines.iter().map(|line| line.split(' ').next().unwrap()).collect();
    assert_eq!(answers, ["0", "32", "0", "0", "0"]);
}
