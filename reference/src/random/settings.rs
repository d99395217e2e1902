//! Mission settings in random scripts: adding, asking, and settings sheets, right and damaged.

use super::Generator;
use crate::dates::LAST_COUNT;
use crate::make::{put, Rng};
use crate::ops;
use crate::record::number;
use crate::script::{Frame, MOST_SETTINGS};
use crate::settings::{self, Setting, COUNT, EDITION, ENTRIES, ENTRY, FIRST_DAY, PLACES, SETTINGS, ZEROS};

/// Few missions and days, so that many are in the sheet already.
const MISSIONS: [u8; 5] = [0, 1, 74, 177, 255];
const DAYS: [u32; 12] = [0, 1, 2, 39_000, 39_001, 40_000, 65_535, 65_536, LAST_COUNT, 1 << 31, u32::MAX - 1, u32::MAX];
const BAD_EDITIONS: [u32; 7] = [0, 3, 255, 256, 257, 65_537, u32::MAX];

/// What a scene starts from.
#[derive(Clone, Copy)]
pub enum SettingsCase {
    /// Starts from an empty sheet: adds settings, with questions between.
    Season,
    /// A sheet with some settings, and calls on it.
    With,
    Full,
    Damaged,
}

pub const SETTINGS_CASES: [SettingsCase; 6] = [
    SettingsCase::Season,
    SettingsCase::With,
    SettingsCase::Full,
    SettingsCase::Damaged,
    SettingsCase::Damaged,
    SettingsCase::Damaged,
];

#[derive(Clone, Copy)]
pub enum Damage {
    Length(usize),
    Header(usize, u32),
    /// How many settings there are, and how many the header counts.
    Count(usize, u32),
    Edition(u8),
    /// Offset in a used entry.
    Zeros(usize),
    SameDay,
    /// Offset in an unused entry.
    Unused(usize),
    AnyBit,
    AllZero,
}

pub fn damages() -> Vec<Damage> {
    let (length, places) = (SETTINGS as u32, PLACES as u32);
    let mut damages = [0, 1, SETTINGS - 1, SETTINGS + 1, MOST_SETTINGS].map(Damage::Length).to_vec();
    damages.extend(
        [(0, length - 1), (0, 0), (2, places - 1), (2, places + 1), (3, 12), (3, 0x1000)]
            .map(|(i, word)| Damage::Header(i, word)),
    );
    damages.extend(
        [(3, 2), (3, 4), (PLACES, places + 1), (PLACES, places - 1), (1, u32::MAX)]
            .map(|(n, said)| Damage::Count(n, said)),
    );
    damages.extend([0, 3, 255].map(Damage::Edition));
    damages.extend([ZEROS, ZEROS + 1].map(Damage::Zeros));
    damages.extend([0, EDITION, ZEROS, ZEROS + 1, FIRST_DAY, ENTRY - 1].map(Damage::Unused));
    damages.extend([Damage::SameDay, Damage::SameDay, Damage::AnyBit, Damage::AllZero]);
    damages
}

impl Generator {
    pub fn settings(&mut self) {
        match self.settings.deal(&self.rng) {
            SettingsCase::Season => {
                if self.calls.settings.len() != SETTINGS {
                    // The slice does not have the right length, so no empty sheet can be made in it.
                    self.emit(Frame { op: ops::MAKE_EMPTY, ..Frame::default() });
                    self.emit(Frame { op: ops::NEW_SETTINGS, a: vec![1; SETTINGS], ..Frame::default() });
                }
                self.emit(Frame { op: ops::MAKE_EMPTY, ..Frame::default() });
                self.ask_setting();
                for _ in 0..self.rng.between(2, 8) {
                    self.add_setting();
                    if self.rng.percent(60) {
                        self.ask_setting();
                    }
                }
                self.add_refused();
            }
            SettingsCase::With => {
                let count = self.rng.pick(&[0, 1, 5, 30, PLACES - 1]);
                self.emit(Frame { op: ops::NEW_SETTINGS, a: settings_with(&self.rng, count), ..Frame::default() });
                for _ in 0..self.rng.between(1, 3) {
                    self.add_setting();
                    self.ask_setting();
                }
            }
            SettingsCase::Full => {
                self.emit(Frame { op: ops::NEW_SETTINGS, a: settings_with(&self.rng, PLACES), ..Frame::default() });
                self.add_setting();
                self.ask_setting();
                self.add_refused();
            }
            SettingsCase::Damaged => {
                let damage = self.damaged_settings.deal(&self.rng);
                self.emit(Frame { op: ops::NEW_SETTINGS, a: damaged(&self.rng, damage), ..Frame::default() });
                self.add_setting();
                self.ask_setting();
            }
        }
    }

    fn add_setting(&mut self) {
        let rng = &self.rng;
        let edition = if rng.percent(15) { rng.pick(&BAD_EDITIONS) } else { 1 + rng.below(2) as u32 };
        let x = rng.pick(&MISSIONS).into();
        self.emit(Frame { op: ops::ADD, x, y: edition, z: day(rng), w: frame_length(rng), ..Frame::default() });
    }

    /// A mission and day that are in the sheet, with an edition that is not known and with one that is; and the same
    /// day for another mission.
    fn add_refused(&mut self) {
        let rng = &self.rng;
        let s = &self.calls.settings;
        if !settings::is_settings(s) {
            // The script is full, and the settings were not added.
            return;
        }
        let count = number(s, COUNT, 4) as usize;
        let entry = &s[ENTRIES + rng.index(count.max(1)) * ENTRY..][..ENTRY];
        let (mission, z, w) = (entry[0], number(entry, FIRST_DAY, 4) as u32, frame_length(rng));
        let bad = rng.pick(&BAD_EDITIONS);
        for (mission, y) in [(mission, bad), (mission, 1), (mission, 2), (mission ^ 1, 2)] {
            self.emit(Frame { op: ops::ADD, x: mission.into(), y, z, w, ..Frame::default() });
        }
    }

    fn ask_setting(&mut self) {
        let rng = &self.rng;
        let x = if rng.percent(90) { rng.pick(&MISSIONS) } else { rng.byte() }.into();
        let y = rng.pick(&[day(rng), day(rng).wrapping_add(1), day(rng).wrapping_sub(1)]);
        self.emit(Frame { op: ops::ASK, x, y, ..Frame::default() });
    }
}

fn day(rng: &Rng) -> u32 {
    match rng.below(4) {
        0 => rng.word(),
        1 => 39_000 + rng.below(40) as u32,
        _ => rng.pick(&DAYS),
    }
}

fn frame_length(rng: &Rng) -> u32 {
    rng.pick(&[0, 1_115, 8_920, 10_232, u32::MAX, rng.word()])
}

/// A right settings sheet with so many settings.
pub fn settings_with(rng: &Rng, count: usize) -> Vec<u8> {
    let mut s = vec![0; SETTINGS];
    settings::make_empty(&mut s).expect("the length is right");
    let mut added = 0;
    while added < count {
        let setting =
            Setting { edition: 1 + rng.below(2) as u32, first_day: day(rng), frame_length: frame_length(rng) };
        added += settings::add(&mut s, rng.pick(&MISSIONS), setting).is_ok() as usize;
    }
    s
}

fn damaged(rng: &Rng, damage: Damage) -> Vec<u8> {
    let count = match damage {
        Damage::Count(count, _) => count,
        Damage::Unused(_) => rng.pick(&[0, 1, PLACES - 1]),
        Damage::SameDay => rng.pick(&[2, 3, PLACES]),
        _ => rng.pick(&[1, 2, 10, PLACES]),
    };
    let mut s = settings_with(rng, count);
    let entry = |i: usize| ENTRIES + i * ENTRY;
    let one = rng.index(count.max(1));
    match damage {
        Damage::Length(length) => s.resize(length, 0),
        Damage::Header(i, word) => put(&mut s, 4 * i, 4, word.into()),
        Damage::Count(_, said) => put(&mut s, COUNT, 4, said.into()),
        Damage::Edition(edition) => s[entry(one) + EDITION] = edition,
        Damage::Zeros(at) => s[entry(one) + at] = 1 << rng.below(8),
        Damage::SameDay => {
            let other = (one + 1 + rng.index(count - 1)) % count;
            let (mission, day) = (s[entry(one)], s[entry(one) + FIRST_DAY..][..4].to_vec());
            // Another mission may have a setting for the same day.
            s[entry(other)] = if rng.percent(75) { mission } else { mission ^ 1 };
            s[entry(other) + FIRST_DAY..][..4].copy_from_slice(&day);
        }
        Damage::Unused(at) => s[entry(rng.between(count, PLACES - 1)) + at] = 1 << rng.below(8),
        Damage::AnyBit => s[rng.index(SETTINGS)] ^= 1 << rng.below(8),
        Damage::AllZero => s.fill(0),
    }
    s
}
