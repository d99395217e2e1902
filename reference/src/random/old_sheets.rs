//! Old sheets in random scripts, right and damaged: converted, and passed to new calls.

use super::Generator;
use crate::convert::{OLD_DESKS, OLD_SHEET};
use crate::ledger::{self, DESK_PLACES, OPENED, ROW_PLACES, SHEET, WORKED};
use crate::make::{put, Rng};
use crate::nights::{sheet_case, sheet_cases, used_first_sheet, SheetCase};
use crate::ops;
use crate::record::number;
use crate::script::{Frame, MOST_SHEET};

#[derive(Clone, Copy)]
pub enum OldCase {
    Right,
    Length(usize),
    /// A new sheet as it is.
    New,
    /// A new sheet, right or damaged, with its bytes at the old places.
    As(SheetCase),
    /// The new slice's length.
    Slice(usize),
}

pub fn old_cases() -> Vec<OldCase> {
    use OldCase::*;
    let mut cases = vec![Right; 12];
    cases.extend([0, OLD_SHEET - 1, OLD_SHEET + 1, SHEET].map(Length));
    cases.extend([New; 2]);
    cases.extend([0, OLD_SHEET, SHEET - 1, SHEET + 1, MOST_SHEET].map(Slice));
    cases.extend(sheet_cases().into_iter().filter(|case| !matches!(case, SheetCase::Length(_))).map(As));
    cases
}

impl Generator {
    /// Converts an old sheet and makes a few calls on the result; sometimes passes the old sheet to them.
    pub fn old_sheets(&mut self) {
        let case = self.old_sheets.deal(&self.rng);
        let old = old_case(&self.rng, case);
        if self.rng.percent(20) {
            self.emit(Frame { op: ops::NEW_SHEET, a: old.clone(), ..Frame::default() });
            let op = self.sheet_ops.deal(&self.rng);
            self.call(op);
        }
        let z = if let OldCase::Slice(length) = case { length } else { SHEET } as u32;
        self.emit(Frame { op: ops::CONVERT, z, a: old, ..Frame::default() });
        for _ in 0..self.rng.between(1, 4) {
            let op = self.sheet_ops.deal(&self.rng);
            self.call(op);
        }
    }
}

fn old_case(rng: &Rng, case: OldCase) -> Vec<u8> {
    match case {
        OldCase::Right | OldCase::Slice(_) => as_old(&used_first_sheet(rng)),
        OldCase::Length(length) => {
            let mut old = as_old(&used_first_sheet(rng));
            old.resize(length, 0);
            old
        }
        OldCase::New => used_first_sheet(rng),
        OldCase::As(case) => as_old(&sheet_case(rng, case, false)),
    }
}

/// A new sheet's bytes at document 01's places: without the used words, and with the old sizes in the header if the
/// new ones were right.
pub fn as_old(new: &[u8]) -> Vec<u8> {
    let without_word = |at: usize| &new[at + ledger::KEY..at + ledger::ROW];
    let mut old = new[..ledger::ROWS].to_vec();
    for (at, right, old_right) in [(0, SHEET, OLD_SHEET), (20, ledger::DESKS, OLD_DESKS)] {
        if number(new, at, 4) == right as u64 {
            put(&mut old, at, 4, old_right as u64);
        }
    }
    for row in 0..ROW_PLACES {
        old.extend(without_word(ledger::row_place(row)));
    }
    for desk in 0..DESK_PLACES {
        let place = ledger::desk_place(desk);
        old.extend(&new[place..place + OPENED]);
        old.extend(without_word(place + OPENED));
        old.extend(without_word(place + WORKED));
    }
    old
}
