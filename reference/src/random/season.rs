//! Seasons in random scripts: sheets one after another, with different streams or with common ones, right and damaged.

use super::Generator;
use crate::keys::FIRST_RSR;
use crate::ledger::{self, DESK_PLACES, ROW, ROW_PLACES, SHEET, TICKS};
use crate::make::Rng;
use crate::nights::{sheet_case, ticks};
use crate::ops;
use crate::script::Frame;
use crate::season::MOST_SHEETS;

#[derive(Clone, Copy)]
pub enum SeasonCase {
    /// So many sheets with different streams.
    Sheets(usize),
    /// The same with every row used.
    Full(usize),
    /// No sheet has a gap, or only the last one.
    Whole(bool),
    /// So many bytes more or less than a sheet.
    Length(isize),
    TooMany,
    /// Two sheets have a stream in common, and sometimes one is damaged too.
    SameKey(bool),
    Damaged,
}

/// How often each of `season_cases` comes up. As many seasons are accepted as refused, and each refusal comes up soon.
pub const SEASON_KINDS: [usize; 6] = [0, 0, 1, 2, 2, 3];

pub fn season_cases() -> [Vec<SeasonCase>; 4] {
    use SeasonCase::*;
    let accepted = [0, 1, 1, 2, 2, 3, 4, MOST_SHEETS].map(Sheets).into_iter();
    let lengths = [-(SHEET as isize) + 1, -1, 1, 100].map(Length);
    [
        accepted.chain([Full(1), Full(2), Whole(true), Whole(false)]).collect(),
        lengths.into_iter().chain([TooMany]).collect(),
        vec![SameKey(false), SameKey(false), SameKey(false), SameKey(false), SameKey(true)],
        vec![Damaged],
    ]
}

impl Generator {
    pub fn seasons(&mut self) {
        let kind = self.season_kinds.deal(&self.rng);
        let case = self.seasons[kind].deal(&self.rng);
        let damage = self.sheets.deal(&self.rng);
        let rng = &self.rng;
        let mut streams = Streams::default();
        let mut sheets: Vec<Vec<u8>> = match case {
            SeasonCase::Sheets(count) => (0..count).map(|_| streams.sheet(rng, rng.index(6))).collect(),
            SeasonCase::Full(count) => (0..count).map(|_| streams.sheet(rng, ROW_PLACES)).collect(),
            SeasonCase::TooMany => vec![streams.sheet(rng, 0); MOST_SHEETS + 1],
            _ => (0..2).map(|_| streams.sheet(rng, rng.between(1, 5))).collect(),
        };
        match case {
            SeasonCase::Whole(last_too) => {
                let count = sheets.len() - !last_too as usize;
                sheets[..count].iter_mut().for_each(|sheet| close_gaps(rng, sheet));
            }
            SeasonCase::Length(more) => {
                let length = SHEET.saturating_add_signed(more);
                sheets[1].resize(length, 0);
            }
            SeasonCase::SameKey(damaged) => {
                let there: Vec<usize> = ledger::used_rows(&sheets[1]).collect();
                let key = ledger::key(ledger::row(&sheets[1], rng.pick(&there)));
                ledger::enrol(&mut sheets[0], key, 0).expect("a stream of another sheet");
                if damaged {
                    sheets[rng.index(2)][0] ^= 1;
                }
            }
            SeasonCase::Damaged => sheets[rng.index(2)] = sheet_case(rng, damage, true),
            _ => {}
        }
        self.emit(Frame { op: ops::SEASON, a: sheets.concat(), ..Frame::default() });
    }
}

/// Streams such that no two sheets share one.
#[derive(Default)]
pub struct Streams {
    given: u64,
}

impl Streams {
    fn next_key(&mut self, rng: &Rng) -> u64 {
        self.given += 1;
        // Spread out, so that a sheet does not have them in order.
        let number = self.given * 0x9E37 % 65_536;
        rng.pick(&[0, 1 << 41, FIRST_RSR]) + number
    }

    /// A right sheet with so many rows, with free rows between them if it is not full, and sometimes an open desk.
    pub fn sheet(&mut self, rng: &Rng, rows: usize) -> Vec<u8> {
        let mut s = vec![0; SHEET];
        ledger::fresh(&mut s).expect("the length is right");
        let struck = if rows < 30 { rng.index(2) } else { 0 };
        for _ in 0..rows + struck {
            let row = ledger::enrol(&mut s, self.next_key(rng), rng.word() >> 16).expect("a new stream");
            s[ledger::row_place(row) + TICKS..][..ROW - TICKS].copy_from_slice(&ticks(rng));
        }
        for _ in 0..struck {
            ledger::strike(&mut s, rng.index(rows + struck) as u32).expect("a used row");
        }
        if let Some(row) = ledger::used_rows(&s).last().filter(|_| rng.percent(30)) {
            ledger::open(&mut s, rng.index(DESK_PLACES) as u32, row as u32).expect("a closed desk");
        }
        s
    }
}

/// Ticks every row from its start up to some position, and closes all desks.
fn close_gaps(rng: &Rng, s: &mut [u8]) {
    for desk in 0..DESK_PLACES as u32 {
        let _ = ledger::drop_desk(s, desk);
    }
    let rows: Vec<usize> = ledger::used_rows(s).collect();
    for row in rows {
        let ticks = &mut s[ledger::row_place(row) + TICKS..][..ROW - TICKS];
        let full = rng.index(ticks.len() + 1);
        ticks.fill(0);
        ticks[..full].fill(0xFF);
    }
}
