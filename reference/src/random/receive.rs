//! Streams that a desk receives in random scripts, and missing lists of rows. The streams are those of the sheet's
//! rows and others, with numbers near the rows' ends, so that every outcome comes up.

use super::{damaged, damages, Generator};
use crate::keys;
use crate::ledger::{self, DESK_PLACES, POSITIONS};
use crate::make::{self, put_secondary, Rng};
use crate::nights::{self, sheet_case};
use crate::ops;
use crate::record::{LABEL, RSR, TELEMETRY};
use crate::script::{Frame, MOST_NUMBERS};

#[derive(Clone, Copy)]
pub enum ReceiveCase {
    /// A fresh sheet with a few rows, and a stream of so many records.
    Rows(usize),
    /// One row that passes the end of the stream's numbers.
    Wrap,
    /// A right sheet with ticks everywhere.
    Underway,
    Empty,
    Cut,
    DamagedInside,
    Trailing,
    /// Records with a field out of range.
    Unread,
    /// The same numbers twice in the stream, and the stream twice.
    Twice,
    DamagedSheet,
    BadDesk,
    OpenDesk,
}

pub fn receive_cases() -> Vec<ReceiveCase> {
    use ReceiveCase::*;
    let mut cases = [1, 2, 5, 12, 40].map(Rows).to_vec();
    cases.extend([Wrap, Wrap, Underway, Underway, Underway, Empty, Cut, Cut, DamagedInside, DamagedInside, Trailing]);
    cases.extend([Unread, Unread, Unread, Twice, Twice, DamagedSheet, DamagedSheet, BadDesk, OpenDesk, OpenDesk]);
    cases
}

impl Generator {
    pub fn receives(&mut self) {
        let case = self.receives.deal(&self.rng);
        self.lay_out_sheet(case);
        let (stream, records) = self.stream_for(case);
        let x = match case {
            ReceiveCase::BadDesk => self.rng.pick(&nights::BAD_DESKS),
            ReceiveCase::OpenDesk => self.some_desk(true),
            _ => self.some_desk(false),
        };
        let times = if matches!(case, ReceiveCase::Twice) { 2 } else { 1 };
        for _ in 0..times {
            let z = self.list_length(records);
            self.emit(Frame { op: ops::RECEIVE, x, z, a: stream.clone(), ..Frame::default() });
        }
        for _ in 0..self.rng.between(1, 3) {
            self.call(ops::MISSING_NUMBERS);
        }
        if self.rng.percent(30) {
            let op = self.rng.pick(&[ops::ROW_REPORT, ops::ROW, ops::DESK, ops::FIRST_GAP]);
            self.call(op);
        }
    }

    fn lay_out_sheet(&mut self, case: ReceiveCase) {
        let rng = &self.rng;
        let sheet = match case {
            ReceiveCase::Underway => nights::sheet_with(rng, rng.pick(&[1, 2, 5, 32]), rng.pick(&[0, 1]), 30),
            ReceiveCase::OpenDesk => nights::sheet_with(rng, rng.pick(&[1, 3]), 0, 60),
            ReceiveCase::DamagedSheet => sheet_case(rng, self.sheets.deal(rng), true),
            ReceiveCase::Wrap => wrapping_sheet(rng),
            // Mostly the current sheet, if it has rows.
            _ if ledger::is_sheet(&self.calls.sheet) && rng.percent(50) => return,
            _ => {
                let mut s = nights::sheet_with(rng, rng.between(1, 4), 0, 0);
                if rng.percent(70) {
                    clear_ticks(&mut s);
                }
                s
            }
        };
        self.emit(Frame { op: ops::NEW_SHEET, a: sheet, ..Frame::default() });
    }

    /// A stream for the sheet's rows, and how many records it was made from.
    fn stream_for(&mut self, case: ReceiveCase) -> (Vec<u8>, usize) {
        let records = match case {
            ReceiveCase::Rows(records) => records,
            ReceiveCase::Empty => 0,
            ReceiveCase::BadDesk | ReceiveCase::OpenDesk | ReceiveCase::DamagedSheet => self.rng.index(3),
            _ => self.rng.between(2, 10),
        };
        let damaged_one = self.rng.index(records.max(1));
        let mut stream = Vec::new();
        for i in 0..records {
            let (key, n) = self.arrival();
            let mut bytes = record_of(&self.rng, key, n, matches!(case, ReceiveCase::Unread));
            if matches!(case, ReceiveCase::DamagedInside) && i == damaged_one {
                let kind = if key < keys::FIRST_RSR { TELEMETRY } else { RSR };
                damaged(&self.rng, &mut bytes, kind, self.rng.pick(&damages()));
            }
            if matches!(case, ReceiveCase::Twice) && self.rng.percent(40) {
                stream.extend(bytes.clone());
            }
            stream.extend(bytes);
        }
        match case {
            ReceiveCase::Cut => stream.truncate(stream.len() - self.rng.between(1, 60)),
            ReceiveCase::Trailing => stream.extend(vec![b'N'; self.rng.between(1, LABEL - 1)]),
            _ => {}
        }
        (stream, records)
    }

    /// The key and number of a record, mostly for an enrolled row, near its ends and its first positions.
    fn arrival(&self) -> (u64, u32) {
        let (view, rng) = (self.view(), &self.rng);
        let used: Vec<usize> = ledger::used_rows(&view).collect();
        if used.is_empty() || rng.percent(12) {
            let key = nights::new_key(rng);
            return (key, nights::first_number(rng, key));
        }
        let row = ledger::row(&view, rng.pick(&used));
        let position = match rng.below(20) {
            0..=10 => rng.below(12) as u32,
            11..=14 => rng.below(POSITIONS as u64) as u32,
            15..=16 => rng.pick(&[POSITIONS - 1, POSITIONS - 2, 63, 64, 511, 512]),
            17..=18 => rng.pick(&[POSITIONS, POSITIONS + 1, u32::MAX, 1 << 15, 1 << 31]),
            _ => rng.word(),
        };
        (ledger::key(row), ledger::number_at(row, position))
    }

    fn some_desk(&self, open: bool) -> u32 {
        let view = self.view();
        let such: Vec<u32> =
            (0..DESK_PLACES).filter(|d| (ledger::desk(&view, *d)[0] == 1) == open).map(|d| d as u32).collect();
        if such.is_empty() {
            return self.rng.below(DESK_PLACES as u64) as u32;
        }
        self.rng.pick(&such)
    }

    /// A list length near the number of records, or none, or the most.
    fn list_length(&self, records: usize) -> u32 {
        let near = records as u32;
        let chosen = [near, near, near + 1, near + 3, near.saturating_sub(1), near / 2, 0, MOST_NUMBERS];
        self.rng.pick(&chosen)
    }

    /// A call for a missing list, with a list of about the right length.
    pub fn missing_list(&mut self) {
        let (view, x) = (self.view(), self.row());
        let missing = ledger::report(&view, x).map_or(3, |report| report.missing);
        let lengths = [missing, missing, missing + 1, missing + 2, missing.saturating_sub(1), missing / 2, 0];
        let z = self.rng.pick(&[self.rng.pick(&lengths), self.rng.pick(&lengths), 1_023, MOST_NUMBERS]);
        self.emit(Frame { op: ops::MISSING_NUMBERS, x, z, ..Frame::default() });
    }

    /// A call that receives a short stream, whatever the sheet.
    pub fn short_receive(&mut self) {
        let records = self.rng.index(4);
        let stream = (0..records).flat_map(|_| {
            let (key, n) = self.arrival();
            record_of(&self.rng, key, n, false)
        });
        let (stream, x) = (stream.collect(), self.desk());
        let z = self.list_length(records);
        self.emit(Frame { op: ops::RECEIVE, x, z, a: stream, ..Frame::default() });
    }
}

/// A record of the stream with this key, mostly without data. If `odd`, mostly with a field out of range.
fn record_of(rng: &Rng, key: u64, n: u32, odd: bool) -> Vec<u8> {
    let (kind, [a, b, c, d]) = keys::parts(key).expect("a valid key");
    let mut secondary = make::secondary(rng, kind);
    let mut set = |at, width, value: u32| put_secondary(&mut secondary, at, width, value.into());
    let (fields, number) = if kind == TELEMETRY {
        // The spacecraft field's upper bits belong to another field.
        let upper = (rng.byte() as u32 & 0b1111_1100) << 8;
        ([(6, 2, upper + a), (10, 1, b), (74, 2, c), (30, 1, d)], (22, 4))
    } else {
        ([(15, 1, a), (11, 1, b), (12, 1, c), (13, 1, d)], (8, 2))
    };
    fields.into_iter().for_each(|(at, width, value)| set(at, width, value));
    set(number.0, number.1, if kind == RSR { n & 0xFFFF } else { n });
    if odd && rng.percent(70) {
        odd_fields(rng, kind).into_iter().for_each(|(at, width, value)| set(at, width, value));
    }
    let data = rng.bytes(rng.pick(&[0, 0, 0, 1, 9]));
    make::record(kind, make::primary(rng, kind), &secondary, &data)
}

/// Fields that are mostly out of range. Telemetry: the band, which counts if the mode has two bits. RSR: a range, or
/// day 366.
fn odd_fields(rng: &Rng, kind: u32) -> [(usize, usize, u32); 2] {
    match (kind, rng.percent(50)) {
        (TELEMETRY, _) => [(26, 1, rng.pick(b"LsU").into()), (28, 1, rng.pick(&[1, 2, 3, 255]))],
        (_, true) => [(28, 2, rng.pick(&[2000, 2001, 1900, 3000])), (30, 2, 366)],
        (_, false) => [(20, 1, rng.below(6) as u32), (25, 1, rng.pick(&[63, 64]))],
    }
}

/// One row whose numbers pass the end: of 32 bits, or of 16.
fn wrapping_sheet(rng: &Rng) -> Vec<u8> {
    let mut s = vec![0; ledger::SHEET];
    ledger::fresh(&mut s).expect("the length is right");
    let (key, first) =
        rng.pick(&[(7, u32::MAX - 4), (keys::FIRST_RSR + 7, 65_531), (8, u32::MAX - 600), (keys::FIRST_RSR, 65_000)]);
    ledger::enrol(&mut s, key, first).expect("a fresh sheet");
    s
}

fn clear_ticks(s: &mut [u8]) {
    for r in ledger::used_rows(s).collect::<Vec<_>>() {
        s[ledger::row_place(r) + ledger::TICKS..][..ledger::ROW - ledger::TICKS].fill(0);
    }
}
