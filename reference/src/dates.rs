//! Day counts from 1 January 1900, for the years 1900 to 3000, by the Gregorian rule. Request 01.

pub const FIRST_YEAR: u32 = 1900;
pub const LAST_YEAR: u32 = 3000;
/// The day count of the last day of the last year.
pub const LAST_COUNT: u32 = 402_131;
/// 1 January 1958, from which telemetry records count their days.
pub const DAY_OF_1958: u32 = 21_184;

pub fn is_leap(year: u32) -> bool {
    year.is_multiple_of(4) && (!year.is_multiple_of(100) || year.is_multiple_of(400))
}

pub fn days_in(year: u32) -> u32 {
    365 + is_leap(year) as u32
}

/// How many leap years there are from year 1 to this one.
const fn leap_years(year: u32) -> u32 {
    year / 4 - year / 100 + year / 400
}

/// The day count of 1 January of a year.
fn new_year(year: u32) -> u32 {
    365 * (year - FIRST_YEAR) + leap_years(year - 1) - leap_years(FIRST_YEAR - 1)
}

/// The day count of a date; day 1 is 1 January. None if there is no such date, or the year is not 1900 to 3000.
pub fn day_count(year: u32, day: u32) -> Option<u32> {
    let is_date = (FIRST_YEAR..=LAST_YEAR).contains(&year) && (1..=days_in(year)).contains(&day);
    is_date.then(|| new_year(year) + day - 1)
}

/// The year, and the day of the year. 33 past the last day.
pub fn date_of(count: u32) -> Result<(u32, u32), u32> {
    if count > LAST_COUNT {
        return Err(33);
    }
    // 400 years have 146,097 days, so this is at most one year off.
    let mut year = FIRST_YEAR + count * 400 / 146_097;
    if new_year(year) > count {
        year -= 1;
    }
    let mut day = count - new_year(year);
    if day >= days_in(year) {
        day -= days_in(year);
        year += 1;
    }
    Ok((year, day + 1))
}
