//! Request 01: every date of the 1,101 years and every count, compared with a calendar that counts day by day.

use super::{by_hand, field, lines, rsr_secondary, telemetry_by_hand, Frame};
use crate::dates::{date_of, day_count};
use crate::ops;
use crate::record::{read_headers, Fields, RSR, TELEMETRY};

/// Month lengths, with 29 February in a leap year: another rule than the reference's.
fn months(year: u32) -> [u32; 12] {
    let february = match (year % 400, year % 100, year % 4) {
        (0, _, _) => 29,
        (_, 0, _) => 28,
        (_, _, 0) => 29,
        _ => 28,
    };
    [31, february, 31, 30, 31, 30, 31, 31, 30, 31, 30, 31]
}

#[test]
fn every_date_and_every_count() {
    let mut count = 0;
    for year in 1900..=3000 {
        let days: u32 = months(year).iter().sum();
        for day in 1..=days {
            assert_eq!(day_count(year, day), Some(count));
            assert_eq!(date_of(count), Ok((year, day)));
            count += 1;
        }
        assert_eq!((day_count(year, 0), day_count(year, days + 1)), (None, None));
    }
    assert_eq!(count - 1, 402_131);
    for past in [402_132, 402_133, 1 << 31, u32::MAX] {
        assert_eq!(date_of(past), Err(33));
    }
    assert_eq!((day_count(1899, 365), day_count(3001, 1), day_count(u32::MAX, 1)), (None, None, None));
    assert_eq!((day_count(1958, 1), day_count(3000, 1)), (Some(21_184), Some(401_767)));
}

#[test]
fn telemetry_days_are_counted_from_1958() {
    for (days, date) in [(0, (1958, 1)), (1, (1958, 2)), (365, (1959, 1)), (18_262, (2008, 1)), (65_535, (2137, 157))] {
        assert_eq!(date_of(21_184 + days), Ok(date), "{days}");
    }
}

#[test]
fn the_received_time_is_split() {
    let mut s = telemetry_by_hand(100, &[]);
    s[46..54].copy_from_slice(&[0x12, 0x34, 0xFF, 0xFE, 0xFD, 0xFC, 0xAB, 0xCD]);
    let Ok((_, Fields::Telemetry(fields))) = read_headers(&s, TELEMETRY) else { panic!("it is telemetry") };
    assert_eq!(fields.received, 0x1234_FFFE_FDFC_ABCD);
    let split = (fields.received_days, fields.received_milliseconds, fields.received_extended);
    assert_eq!(split, (0x1234, 0xFFFE_FDFC, 0xABCD));
}

#[test]
fn day_366_is_a_leap_year_s() {
    for year in 1890..=3010u16 {
        let mut secondary = rsr_secondary();
        secondary[24..26].copy_from_slice(&year.to_be_bytes());
        let answer = read_headers(&by_hand(RSR, 240, &secondary, &[]), RSR);
        match answer {
            _ if !(1900..=3000).contains(&year) => assert_eq!(answer, Err(field(12, 60))),
            Ok((_, Fields::Rsr(fields))) => {
                assert_eq!(months(year.into())[1], 29);
                assert_eq!(date_of(fields.day_count), Ok((year.into(), 366)));
            }
            _ => assert!(months(year.into())[1] == 28 && answer == Err(field(12, 62))),
        }
    }
}

#[test]
fn date_lines() {
    let of = |x| Frame { op: ops::DATE_OF, x, ..Frame::default() };
    let lines = lines(&[of(0), of(21_184), of(402_131), of(402_132), of(u32::MAX)]);
    assert_eq!(lines, ["0 1900 1", "0 1958 1", "0 3000 365", "33", "33"]);
}
