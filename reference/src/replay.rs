//! Replays a night's calls from a trace, over a fresh sheet (request 11) or over a sheet as it is.

use crate::ledger::{self, SHEET};
use crate::record::number;

pub const HEADER: usize = 12;
pub const ENTRY: usize = 16;
pub const MOST_ENTRIES: usize = 4_000;

// Offsets in an entry, which starts with the call.
pub const DESK: usize = 1;
pub const ROW: usize = 2;
pub const ANSWER: usize = 3;
pub const NUMBER: usize = 4;
pub const KEY: usize = 8;

/// A call that a trace can hold.
#[derive(Clone, Copy, Debug, PartialEq)]
pub enum Call {
    Enrol { key: u64, first: u32 },
    Open { desk: u8, row: u8 },
    Tick { desk: u8, n: u32 },
    Untick { desk: u8, n: u32 },
    Save { desk: u8 },
    Drop { desk: u8 },
    Strike { row: u8 },
}

/// What a replay compares of an answer: the refusal number or 0, and the row of an accepted enrolment, else 0.
#[derive(Clone, Copy, Debug, PartialEq)]
pub struct Answer {
    pub number: u32,
    pub row: usize,
}

impl Call {
    pub fn make(self, s: &mut [u8]) -> Answer {
        let answer = match self {
            Call::Enrol { key, first } => ledger::enrol(s, key, first),
            Call::Open { desk, row } => ledger::open(s, desk.into(), row.into()).map(|()| 0),
            Call::Tick { desk, n } => ledger::tick(s, desk.into(), n).map(|()| 0),
            Call::Untick { desk, n } => ledger::untick(s, desk.into(), n).map(|()| 0),
            Call::Save { desk } => ledger::save(s, desk.into()).map(|()| 0),
            Call::Drop { desk } => ledger::drop_desk(s, desk.into()).map(|()| 0),
            Call::Strike { row } => ledger::strike(s, row.into()).map(|()| 0),
        };
        match answer {
            Ok(row) => Answer { number: 0, row },
            Err(number) => Answer { number, row: 0 },
        }
    }
}

#[derive(Clone, Copy, Debug, PartialEq)]
pub enum Replayed {
    Same,
    /// The first entry that differs, counted from 0, and what its call answered.
    Differs(usize, Answer),
}

/// Makes the sheet fresh and replays the trace over it. Leaves the sheet as after the last call, or after the first
/// call whose answer differs from the trace's.
pub fn replay(trace: &[u8], s: &mut [u8]) -> Result<Replayed, u32> {
    if s.len() != SHEET {
        return Err(20);
    }
    let entries = read_trace(trace)?;
    ledger::fresh(s)?;
    Ok(play(&entries, s))
}

/// Replays the trace over the sheet as it is. Entries count from the first of this trace.
pub fn replay_on(trace: &[u8], s: &mut [u8]) -> Result<Replayed, u32> {
    ledger::judge_sheet(s)?;
    let entries = read_trace(trace)?;
    Ok(play(&entries, s))
}

fn play(entries: &[(Call, Answer)], s: &mut [u8]) -> Replayed {
    for (i, (call, written)) in entries.iter().enumerate() {
        let answer = call.make(s);
        if answer != *written {
            return Replayed::Differs(i, answer);
        }
    }
    Replayed::Same
}

/// The calls and answers of a trace; 40 if the trace is not well formed.
fn read_trace(trace: &[u8]) -> Result<Vec<(Call, Answer)>, u32> {
    let entries = entries(trace).ok_or(40u32)?;
    entries.iter().map(read_entry).collect::<Option<_>>().ok_or(40)
}

/// The entries of a trace whose header is right.
fn entries(trace: &[u8]) -> Option<&[[u8; ENTRY]]> {
    let (header, rest) = trace.split_at_checked(HEADER)?;
    let header = |i: usize| number(header, 4 * i, 4) as usize;
    let (entries, []) = rest.as_chunks() else { return None };
    let right = [header(0), header(1), header(2)] == [trace.len(), entries.len(), HEADER];
    (right && entries.len() <= MOST_ENTRIES).then_some(entries)
}

/// The call and answer of an entry; none if there is no such call, or a field that it does not use is not zero.
fn read_entry(entry: &[u8; ENTRY]) -> Option<(Call, Answer)> {
    let [call, desk, row, answer, ..] = *entry;
    let n = number(entry, NUMBER, 4) as u32;
    let key = number(entry, KEY, 8);
    let (call, unused_is_zero) = match call {
        1 => (Call::Enrol { key, first: n }, desk == 0 && (row == 0 || answer == 0)),
        2 => (Call::Open { desk, row }, n == 0 && key == 0),
        3 => (Call::Tick { desk, n }, row == 0 && key == 0),
        4 => (Call::Untick { desk, n }, row == 0 && key == 0),
        5 => (Call::Save { desk }, row == 0 && n == 0 && key == 0),
        6 => (Call::Drop { desk }, row == 0 && n == 0 && key == 0),
        7 => (Call::Strike { row }, desk == 0 && n == 0 && key == 0),
        _ => return None,
    };
    let row = if matches!(call, Call::Enrol { .. }) { row.into() } else { 0 };
    unused_is_zero.then_some((call, Answer { number: answer.into(), row }))
}

/// The trace of a log of calls with their answers.
pub fn write_trace(log: &[(Call, Answer)]) -> Vec<u8> {
    let length = HEADER + ENTRY * log.len();
    let mut trace: Vec<u8> = [length, log.len(), HEADER].iter().flat_map(|word| (*word as u32).to_be_bytes()).collect();
    for (call, answer) in log {
        let (number, desk, row, n, key) = match *call {
            Call::Enrol { key, first } => (1, 0, answer.row as u8, first, key),
            Call::Open { desk, row } => (2, desk, row, 0, 0),
            Call::Tick { desk, n } => (3, desk, 0, n, 0),
            Call::Untick { desk, n } => (4, desk, 0, n, 0),
            Call::Save { desk } => (5, desk, 0, 0, 0),
            Call::Drop { desk } => (6, desk, 0, 0, 0),
            Call::Strike { row } => (7, 0, row, 0, 0),
        };
        trace.extend([number, desk, row, answer.number as u8]);
        trace.extend(n.to_be_bytes());
        trace.extend(key.to_be_bytes());
    }
    trace
}
