//! Mission settings: the receiver edition and the expected frame length, by mission and first day. Request 14.

use crate::record::number;

pub const SETTINGS: usize = 784;
pub const PLACES: usize = 64;
pub const ENTRIES: usize = 16;
pub const ENTRY: usize = 12;

// Offsets in the header and in an entry; an entry starts with its mission.
pub const COUNT: usize = 4;
pub const EDITION: usize = 1;
pub const ZEROS: usize = 2;
pub const FIRST_DAY: usize = 4;
pub const FRAME_LENGTH: usize = 8;

/// 1 is the older edition of the receiver, 2 the newer.
pub fn is_edition(edition: u32) -> bool {
    edition == 1 || edition == 2
}

#[derive(Clone, Copy, Debug, PartialEq)]
pub struct Setting {
    pub edition: u32,
    pub first_day: u32,
    pub frame_length: u32,
}

fn count(s: &[u8]) -> usize {
    number(s, COUNT, 4) as usize
}

/// The entries in use, each with its mission.
fn settings(s: &[u8]) -> impl Iterator<Item = (u8, Setting)> + '_ {
    s[ENTRIES..].chunks_exact(ENTRY).take(count(s)).map(|entry| {
        let setting = Setting {
            edition: entry[EDITION].into(),
            first_day: number(entry, FIRST_DAY, 4) as u32,
            frame_length: number(entry, FRAME_LENGTH, 4) as u32,
        };
        (entry[0], setting)
    })
}

/// The header is right; used entries come first, each with a known edition and zeros, no mission and day twice;
/// unused entries are all zero.
pub fn is_settings(s: &[u8]) -> bool {
    s.len() == SETTINGS && header_right(s) && entries_right(s)
}

fn header_right(s: &[u8]) -> bool {
    let header = |i: usize| number(s, 4 * i, 4) as usize;
    header(0) == SETTINGS && header(1) <= PLACES && header(2) == PLACES && header(3) == ENTRIES
}

fn entries_right(s: &[u8]) -> bool {
    let (used, unused) = s[ENTRIES..].split_at(count(s) * ENTRY);
    let right = |entry: &[u8]| is_edition(entry[EDITION].into()) && entry[ZEROS..FIRST_DAY] == [0, 0];
    used.chunks_exact(ENTRY).all(right) && unused.iter().all(|byte| *byte == 0) && no_day_twice(s)
}

fn no_day_twice(s: &[u8]) -> bool {
    let mut days = [0; PLACES];
    for (day, (mission, setting)) in days.iter_mut().zip(settings(s)) {
        *day = u64::from(mission) << 32 | u64::from(setting.first_day);
    }
    let days = &mut days[..count(s)];
    days.sort_unstable();
    days.windows(2).all(|pair| pair[0] != pair[1])
}

fn judge_settings(s: &[u8]) -> Result<(), u32> {
    if is_settings(s) {
        Ok(())
    } else {
        Err(43)
    }
}

/// Makes an empty settings sheet. Tests only the length.
pub fn make_empty(s: &mut [u8]) -> Result<(), u32> {
    if s.len() != SETTINGS {
        return Err(43);
    }
    s.fill(0);
    for (i, value) in [SETTINGS, 0, PLACES, ENTRIES].into_iter().enumerate() {
        s[4 * i..4 * i + 4].copy_from_slice(&(value as u32).to_be_bytes());
    }
    Ok(())
}

/// Adds a setting in the first unused entry.
pub fn add(s: &mut [u8], mission: u8, setting: Setting) -> Result<(), u32> {
    judge_settings(s)?;
    if !is_edition(setting.edition) {
        return Err(44);
    }
    if settings(s).any(|(of, there)| of == mission && there.first_day == setting.first_day) {
        return Err(45);
    }
    let next = count(s);
    if next == PLACES {
        return Err(46);
    }
    let entry = &mut s[ENTRIES + next * ENTRY..][..ENTRY];
    entry[0] = mission;
    entry[EDITION] = setting.edition as u8;
    entry[FIRST_DAY..FRAME_LENGTH].copy_from_slice(&setting.first_day.to_be_bytes());
    entry[FRAME_LENGTH..].copy_from_slice(&setting.frame_length.to_be_bytes());
    s[COUNT..COUNT + 4].copy_from_slice(&(next as u32 + 1).to_be_bytes());
    Ok(())
}

/// The mission's setting with the latest first day on or before this one.
pub fn ask(s: &[u8], mission: u8, day: u32) -> Result<Setting, u32> {
    judge_settings(s)?;
    let old_enough = settings(s).filter(|(of, setting)| *of == mission && setting.first_day <= day);
    old_enough.map(|(_, setting)| setting).max_by_key(|setting| setting.first_day).ok_or(47)
}
