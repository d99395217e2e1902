//! Scripts have no call for the agreed gain. This module makes cases of it with their expected answers;
//! `host/agreed.c` makes the calls.

use crate::dates::day_count;
use crate::gain::gain_by_settings;
use crate::make::{self, Rng};
use crate::record::{Refused, RSR, TELEMETRY};
use crate::settings::{self, Setting, SETTINGS};
use std::collections::BTreeMap;
use std::io::{self, Write};

/// An answer has this many numbers of eight bytes, most significant byte first.
const NUMBERS: usize = 32;

/// What is wrong in a case, or which of the mission's settings applies to the record.
#[derive(Clone, Copy, Debug, PartialEq, Eq, PartialOrd, Ord)]
enum Case {
    FirstSetting,
    MiddleSetting,
    LastSetting,
    SettingOfThatDay,
    BeforeTheFirst,
    OtherMissionAlone,
    NoSetting,
    BrokenSheet,
    ShortSheet,
    Telemetry,
    DamagedRecord,
    DamagedRecordAndSheet,
}

const CASES: [Case; 12] = [
    Case::FirstSetting,
    Case::MiddleSetting,
    Case::LastSetting,
    Case::SettingOfThatDay,
    Case::BeforeTheFirst,
    Case::OtherMissionAlone,
    Case::NoSetting,
    Case::BrokenSheet,
    Case::ShortSheet,
    Case::Telemetry,
    Case::DamagedRecord,
    Case::DamagedRecordAndSheet,
];

/// Writes all cases, so many rounds of them: the sheet and the record, each after its length in four bytes, and the
/// answer's 256 bytes. Prints how often each number is answered. Returns false if a number that the call can give is
/// not among them.
pub fn write(seed: u64, rounds: usize, out: &mut impl Write) -> io::Result<bool> {
    let rng = Rng::new(seed);
    let mut answered: BTreeMap<u32, usize> = BTreeMap::new();
    for case in (0..rounds).flat_map(|_| CASES) {
        let (sheet, record) = made(&rng, case);
        let answer = numbers(gain_by_settings(&record, &sheet));
        *answered.entry(answer[0] as u32).or_default() += 1;
        for slice in [&sheet, &record] {
            out.write_all(&(slice.len() as u32).to_be_bytes())?;
            out.write_all(slice)?;
        }
        answer.iter().try_for_each(|number| out.write_all(&number.to_be_bytes()))?;
    }
    Ok([0, 15, 43, 47].iter().all(|number| answered.contains_key(number)))
}

fn numbers(answer: Result<Option<u32>, Refused>) -> [u64; NUMBERS] {
    let mut numbers = [0; NUMBERS];
    (numbers[0], numbers[1]) = match answer {
        Ok(Some(gain)) => (0, gain.into()),
        Ok(None) => (0, u64::MAX),
        Err(Refused::Number(number)) => (number.into(), 0),
        Err(Refused::Short { number, bytes }) => (number.into(), bytes as u64),
        Err(Refused::Field { number, offset }) => (number.into(), offset as u64),
    };
    numbers
}

fn made(rng: &Rng, case: Case) -> (Vec<u8>, Vec<u8>) {
    let kind = if case == Case::Telemetry { TELEMETRY } else { RSR };
    let mut record = make::good_record(rng, kind, make::short_length(rng));
    // The mission is byte 30 of the record, its day bytes 60 to 63.
    let mission = record[30];
    let field = |at: usize| u32::from(u16::from_be_bytes([record[at], record[at + 1]]));
    let day = day_count(field(60), field(62)).unwrap_or(0);
    let mut sheet = vec![0; SETTINGS];
    settings::make_empty(&mut sheet).expect("a sheet's length");
    let mut add = |mission: u8, first_day: u32| {
        let setting = Setting { edition: 1 + rng.below(2) as u32, first_day, frame_length: rng.word() };
        settings::add(&mut sheet, mission, setting).expect("it is the first of that day");
    };
    add(mission ^ 1, 0);
    match case {
        Case::OtherMissionAlone => add(mission ^ 2, day),
        Case::NoSetting => {}
        Case::BeforeTheFirst => [1, 2, 900].iter().for_each(|later| add(mission, day + later)),
        Case::FirstSetting => [0, 1, 50].iter().for_each(|later| add(mission, day.saturating_sub(1) + 2 * later)),
        Case::LastSetting => [0, 1, 2].iter().for_each(|more| add(mission, (day / 3).max(1) * more)),
        Case::SettingOfThatDay => [day, day + 1, day / 2 + 1_000_000].iter().for_each(|first| add(mission, *first)),
        // Settings that begin later stand before it and after it.
        _ => [day + 7, day / 2, day + 1, day / 3 + 2_000_000].iter().for_each(|first| add(mission, *first)),
    }
    if matches!(case, Case::BrokenSheet | Case::DamagedRecordAndSheet) {
        sheet[rng.pick(&[3, 7, 11, 15, SETTINGS - 1])] ^= 0x40;
    }
    if case == Case::ShortSheet {
        sheet.truncate(rng.index(SETTINGS));
    }
    if matches!(case, Case::DamagedRecord | Case::DamagedRecordAndSheet) {
        record[rng.pick(&[0, 4, 8, 20, 24, 32])] ^= 0x21;
    }
    (sheet, record)
}
