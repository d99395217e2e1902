//! Traces in random scripts: recorded nights, whole or in pieces; traces that differ from the calls' answers; traces
//! that are not well formed.

use super::Generator;
use crate::convert::OLD_SHEET;
use crate::keys::FIRST_RSR;
use crate::ledger::{self, SHEET};
use crate::make::{put, Rng};
use crate::ops;
use crate::replay::{write_trace, Answer, Call, ANSWER, DESK, ENTRY, HEADER, KEY, MOST_ENTRIES, NUMBER, ROW};
use crate::script::Frame;

#[derive(Clone, Copy)]
pub enum TraceCase {
    /// So many calls with the answers that they got.
    Recorded(usize),
    /// Another answer in one entry, also a number that is no refusal's.
    OtherAnswer,
    /// Another row in an accepted enrolment.
    OtherRow,
    /// One byte changed, anywhere.
    AnyByte,
    /// A byte that the call does not use, at this offset of an entry.
    Unused(usize),
    /// Another call's number in an entry.
    CallNumber(u8),
    /// A number of the header, and what is added to it.
    Header(usize, i64),
    /// So many bytes less; or more.
    Cut(usize),
    Longer(usize),
    /// Only the first so many bytes.
    Short(usize),
    /// A sheet of another length.
    SheetLength(usize),
}

/// How often each of `trace_cases` comes up.
pub const TRACE_KINDS: [usize; 6] = [0, 0, 1, 2, 2, 3];

pub fn trace_cases() -> [Vec<TraceCase>; 4] {
    use TraceCase::*;
    let recorded = [0, 1, 5, 5, 20, 20, 20, 60, 60, 60, 200, MOST_ENTRIES].map(Recorded);
    let mut formed = vec![OtherAnswer, OtherAnswer, OtherAnswer, OtherRow, OtherRow, AnyByte];
    formed.extend([2, 3, 4, 5, 6, 7].map(CallNumber));
    let mut wrong = [DESK, ROW, NUMBER, NUMBER + 3, KEY, KEY + 7].map(Unused).to_vec();
    wrong.extend([0, 8, 255].map(CallNumber));
    wrong.extend((0..3).flat_map(|i| [1, -1, 16, 1 << 31].map(|more| Header(i, more))));
    wrong.extend([1, ENTRY].map(Cut));
    wrong.extend([1, ENTRY].map(Longer));
    wrong.extend([0, HEADER - 1, HEADER].map(Short));
    wrong.extend([AnyByte, AnyByte, Recorded(MOST_ENTRIES + 1)]);
    let lengths = [0, OLD_SHEET, SHEET - 1, SHEET + 1].map(SheetLength);
    [recorded.to_vec(), formed, wrong, lengths.to_vec()]
}

impl Generator {
    pub fn traces(&mut self) {
        let kind = self.trace_kinds.deal(&self.rng);
        let case = self.traces[kind].deal(&self.rng);
        let length = if let TraceCase::SheetLength(length) = case { length } else { SHEET };
        if self.calls.sheet.len() != length {
            self.emit(Frame { op: ops::NEW_SHEET, a: vec![0; length], ..Frame::default() });
        }
        match case {
            TraceCase::Recorded(count) if count <= MOST_ENTRIES && self.rng.percent(50) => self.pieces_of_night(count),
            _ => {
                let op = self.rng.pick(&[ops::REPLAY, ops::REPLAY, ops::REPLAY_ON]);
                if op == ops::REPLAY_ON && self.rng.percent(80) {
                    self.emit(Frame { op: ops::FRESH, ..Frame::default() });
                }
                let trace = trace_case(&self.rng, case);
                self.emit(Frame { op, a: trace, ..Frame::default() });
            }
        }
        for _ in 0..self.rng.below(3) {
            let op = self.sheet_ops.deal(&self.rng);
            self.call(op);
        }
    }
}

impl Generator {
    /// A night in pieces: the first is replayed over a fresh sheet, each other over what the one before left.
    /// Sometimes an answer in one of them differs.
    fn pieces_of_night(&mut self, count: usize) {
        let log = recorded(&self.rng, count);
        let mut cuts = vec![0, log.len()];
        (0..self.rng.between(1, 3)).for_each(|_| cuts.push(self.rng.index(log.len() + 1)));
        cuts.sort();
        for (i, piece) in cuts.windows(2).enumerate() {
            let mut trace = write_trace(&log[piece[0]..piece[1]]);
            if trace.len() > HEADER && self.rng.percent(15) {
                trace[HEADER + ANSWER] = self.rng.pick(&[0, 25, 29]);
                trace[HEADER + ROW] = 0;
            }
            let op = if i == 0 { ops::REPLAY } else { ops::REPLAY_ON };
            self.emit(Frame { op, a: trace, ..Frame::default() });
        }
    }

    /// A few calls over the sheet as it is, with the answers that they get there, or that they would get on a fresh
    /// sheet.
    pub fn short_replay(&mut self) {
        let rng = &self.rng;
        let start = if rng.percent(80) { self.view() } else { fresh_sheet() };
        let log = recorded_on(rng, start, rng.index(6), 0);
        let a = write_trace(&log);
        self.emit(Frame { op: ops::REPLAY_ON, a, ..Frame::default() });
    }
}

fn trace_case(rng: &Rng, case: TraceCase) -> Vec<u8> {
    let count = match case {
        TraceCase::Recorded(count) => count,
        _ => rng.pick(&[3, 12, 12, 30]),
    };
    let log = recorded(rng, count);
    let mut trace = write_trace(&log);
    let entry = |i: usize| HEADER + ENTRY * i;
    let one = rng.index(count.max(1));
    match case {
        TraceCase::Recorded(_) => {}
        TraceCase::OtherAnswer => {
            let answers: Vec<u8> = (0..=255).filter(|answer| u32::from(*answer) != log[one].1.number).collect();
            let likely = [0, 20, 23, 24, 25, 26, 27, 28, 29, 30, 31, 36];
            let answer = if rng.percent(70) { rng.pick(&likely) } else { rng.pick(&answers) };
            trace[entry(one) + ANSWER] = answer;
            if answer != 0 && trace[entry(one)] == 1 {
                trace[entry(one) + ROW] = 0;
            }
        }
        TraceCase::OtherRow => {
            let accepted = |(call, answer): &(Call, Answer)| matches!(call, Call::Enrol { .. }) && answer.number == 0;
            let one = log.iter().position(accepted).unwrap_or(one);
            trace[entry(one) + ROW] ^= rng.pick(&[1, 2, 32, 128]);
        }
        TraceCase::AnyByte => {
            let at = rng.index(trace.len());
            trace[at] ^= 1 << rng.below(8);
        }
        TraceCase::Unused(at) => trace[entry(one) + at] |= 1 << rng.below(8),
        TraceCase::CallNumber(call) => trace[entry(one)] = call,
        TraceCase::Header(i, more) => {
            let right = [trace.len(), count, HEADER][i] as i64;
            put(&mut trace, 4 * i, 4, (right + more) as u32 as u64);
            if rng.percent(30) {
                // The header's length is made to agree with its count.
                let length = (trace.len() as i64 + ENTRY as i64 * more) as u32;
                put(&mut trace, 0, 4, length.into());
            }
        }
        TraceCase::Cut(by) => trace.truncate(trace.len() - by),
        TraceCase::Longer(by) => {
            trace.resize(trace.len() + by, 0);
            if rng.percent(50) {
                let length = trace.len() as u64;
                put(&mut trace, 0, 4, length);
            }
        }
        TraceCase::Short(length) => trace.truncate(length),
        TraceCase::SheetLength(_) => {
            if rng.percent(40) {
                trace[HEADER] = 9;
            }
        }
    }
    trace
}

/// Calls made one after the other on a fresh sheet, with their answers.
pub fn recorded(rng: &Rng, count: usize) -> Vec<(Call, Answer)> {
    recorded_on(rng, fresh_sheet(), count, 3)
}

fn fresh_sheet() -> Vec<u8> {
    let mut s = vec![0; SHEET];
    ledger::fresh(&mut s).expect("the length is right");
    s
}

/// The same on this sheet. The first so many are enrolments.
fn recorded_on(rng: &Rng, mut s: Vec<u8>, count: usize, enrolments: usize) -> Vec<(Call, Answer)> {
    let mut log = Vec::new();
    while log.len() < count {
        let call = if log.len() < enrolments { enrolment(rng) } else { call(rng) };
        let answer = call.make(&mut s);
        // Keeps only half of the refused calls, except 31, which closes the desk.
        if [0, 31].contains(&answer.number) || rng.percent(50) || log.len() < enrolments {
            log.push((call, answer));
        }
    }
    log
}

fn enrolment(rng: &Rng) -> Call {
    let key = rng.pick(&[0, 5, 760_930_632_193, FIRST_RSR, FIRST_RSR + 77, 1 << 50, rng.below(FIRST_RSR)]);
    Call::Enrol { key, first: rng.pick(&[0, 1, 65_530, 65_530, 65_536, u32::MAX - 3]) }
}

/// Few desks, rows and numbers, so that calls affect each other.
fn call(rng: &Rng) -> Call {
    let desk = rng.below(if rng.percent(4) { 256 } else { 5 }) as u8;
    let row = rng.below(if rng.percent(4) { 256 } else { 4 }) as u8;
    let n = rng.pick(&[0, 65_530, u32::MAX - 3]).wrapping_add(rng.below(10) as u32);
    match rng.below(100) {
        0..=6 => enrolment(rng),
        7..=28 => Call::Open { desk, row },
        29..=58 => Call::Tick { desk, n },
        59..=68 => Call::Untick { desk, n },
        69..=84 => Call::Save { desk },
        85..=92 => Call::Drop { desk },
        _ => Call::Strike { row },
    }
}
