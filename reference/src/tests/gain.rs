//! Request 14: the gain multiplier.

use super::{by_hand, field, lines, rsr_secondary, short, telemetry_by_hand, Frame};
use crate::gain::{gain, gain_by_settings};
use crate::ops;
use crate::record::{Refused, RSR};
use crate::settings::{self, Setting};

/// Bytes 240 to 243 are 1 to 4; the bytes around them are others.
fn record() -> Vec<u8> {
    let mut secondary = rsr_secondary();
    secondary[200..212].copy_from_slice(&[9, 8, 7, 6, 1, 2, 3, 4, 5, 4, 3, 2]);
    by_hand(RSR, 240, &secondary, &[])
}

#[test]
fn gains() {
    let s = record();
    assert_eq!(s[240..244], [1, 2, 3, 4]);
    assert_eq!(gain(&s, 2), Ok(Some(0x0102_0304)));
    assert_eq!(gain(&s, 1), Ok(None));
    for edition in [0, 3, 258, u32::MAX] {
        assert_eq!(gain(&s, edition), Err(Refused::Number(44)));
    }
    // The refusals of read headers come first.
    assert_eq!(gain(&s[..259], 3), Err(short(6, 259)));
    assert_eq!(gain(&telemetry_by_hand(100, &[]), 3), Err(Refused::Number(15)));
    let mut late = s.clone();
    late[61] = 0xD9;
    assert_eq!(gain(&late, 3), Err(field(12, 62)));
}

#[test]
fn gains_by_settings() {
    let s = record();
    let mut sheet = vec![0; 784];
    assert_eq!(gain_by_settings(&s, &sheet), Err(Refused::Number(43)));
    settings::make_empty(&mut sheet).unwrap();
    assert_eq!(gain_by_settings(&s, &sheet), Err(Refused::Number(47)));
    // The record is of mission 255 and of the last day of 2008, which is day 39,811.
    for (mission, edition, first_day, answer) in [
        (254, 2, 0, Err(Refused::Number(47))),
        (255, 2, 39_812, Err(Refused::Number(47))),
        (255, 1, 39_000, Ok(None)),
        (255, 2, 39_811, Ok(Some(0x0102_0304))),
    ] {
        settings::add(&mut sheet, mission, Setting { edition, first_day, frame_length: 0 }).unwrap();
        assert_eq!(gain_by_settings(&s, &sheet), answer);
    }
    assert_eq!(gain_by_settings(&s[1..], &[]), Err(field(2, 0)));
}

#[test]
fn gain_lines() {
    let of = |x, a: &[u8]| Frame { op: ops::GAIN, x, a: a.to_vec(), ..Frame::default() };
    let s = record();
    let lines = lines(&[of(2, &s), of(1, &s), of(3, &s), of(2, &s[..259]), of(2, &telemetry_by_hand(100, &[]))]);
    assert_eq!(lines, ["0 16909060", "0 none", "44", "6 259", "15"]);
}
