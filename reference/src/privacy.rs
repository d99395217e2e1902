//! Request 09 as a property: what a desk has not saved is its own. Pairs of random nights on fresh sheets that differ
//! only in one desk's ticks and unticks, and in which that desk makes no save.

use crate::keys::{self, FIRST_RSR};
use crate::ledger::{self, DESKS, DESK_PLACES, SHEET, WORKED};
use crate::make::Rng;

#[derive(Clone, Copy, Debug, PartialEq)]
enum Call {
    Enrol(u64, u32),
    Find(u64),
    Open(u32, u32),
    Tick(u32, u32),
    Untick(u32, u32),
    Save(u32),
    Drop(u32),
    Strike(u32),
    Report(u32),
    FirstGap,
}

/// The numbers of a call's answer: the refusal, or 0 and the values.
type Answer = [Option<u32>; 4];

impl Call {
    fn is_mark_of(self, desk: u32) -> bool {
        matches!(self, Call::Tick(of, _) | Call::Untick(of, _) if of == desk)
    }

    fn make(self, s: &mut [u8]) -> Answer {
        let done = |answer: Result<(), u32>| [Some(answer.err().unwrap_or(0)), None, None, None];
        let row = |answer: Result<usize, u32>| match answer {
            Ok(row) => [Some(0), Some(row as u32), None, None],
            Err(refusal) => [Some(refusal), None, None, None],
        };
        match self {
            Call::Enrol(key, first) => row(ledger::enrol(s, key, first)),
            Call::Find(key) => row(ledger::find(s, key)),
            Call::Open(desk, row) => done(ledger::open(s, desk, row)),
            Call::Tick(desk, n) => done(ledger::tick(s, desk, n)),
            Call::Untick(desk, n) => done(ledger::untick(s, desk, n)),
            Call::Save(desk) => done(ledger::save(s, desk)),
            Call::Drop(desk) => done(ledger::drop_desk(s, desk)),
            Call::Strike(row) => done(ledger::strike(s, row)),
            Call::Report(row) => match ledger::report(s, row) {
                Ok(report) => [Some(0), Some(report.ticked), Some(report.missing), report.lowest],
                Err(refusal) => [Some(refusal), None, None, None],
            },
            Call::FirstGap => match ledger::first_gap(s) {
                Ok(gap) => [Some(0), gap.map(|(number, _)| number), gap.map(|(_, row)| row as u32), None],
                Err(refusal) => [Some(refusal), None, None, None],
            },
        }
    }
}

const KEYS: [u64; 6] = [0, 7, FIRST_RSR - 1, FIRST_RSR, FIRST_RSR + 9, 1 << 50];

/// There are few desks, rows, streams and numbers, so that calls affect each other.
fn desk(rng: &Rng) -> u32 {
    rng.below(if rng.percent(3) { 10 } else { 4 }) as u32
}

fn row(rng: &Rng) -> u32 {
    rng.below(if rng.percent(3) { 40 } else { 3 }) as u32
}

/// Numbers near 0, where every row starts or passes.
fn record_number(rng: &Rng) -> u32 {
    rng.pick(&[0, 65_530, u32::MAX - 5]).wrapping_add(rng.below(12) as u32)
}

fn mark(rng: &Rng, desk: u32) -> Call {
    let n = record_number(rng);
    if rng.percent(70) {
        Call::Tick(desk, n)
    } else {
        Call::Untick(desk, n)
    }
}

fn enrol(rng: &Rng) -> Call {
    let key = rng.pick(&KEYS);
    let first = if keys::modulus(key) == 1 << 16 { rng.pick(&[0, 65_530]) } else { rng.pick(&[0, u32::MAX - 5]) };
    Call::Enrol(key, first)
}

fn call(rng: &Rng) -> Call {
    match rng.below(100) {
        0..=7 => enrol(rng),
        8..=10 => Call::Find(rng.pick(&KEYS)),
        11..=32 => Call::Open(desk(rng), row(rng)),
        33..=67 => mark(rng, desk(rng)),
        68..=79 => Call::Save(desk(rng)),
        80..=85 => Call::Drop(desk(rng)),
        86..=90 => Call::Strike(row(rng)),
        91..=96 => Call::Report(row(rng)),
        _ => Call::FirstGap,
    }
}

/// A night, and another that is the same once one desk's marks are left out of both.
fn nights(rng: &Rng, of: u32, with_saves: bool) -> [Vec<Call>; 2] {
    let mut one: Vec<Call> = (0..rng.between(1, 3)).map(|_| enrol(rng)).collect();
    one.extend((0..rng.between(5, 60)).map(|_| call(rng)));
    one.retain(|call| with_saves || *call != Call::Save(of));
    let mut other: Vec<Call> = one.iter().filter(|call| !call.is_mark_of(of)).copied().collect();
    for _ in 0..rng.below(20) {
        other.insert(rng.index(other.len() + 1), mark(rng, of));
    }
    [one, other]
}

/// The answers of all calls except the desk's marks, and the sheet at the end.
fn play(night: &[Call], of: u32) -> (Vec<Answer>, Vec<u8>) {
    let mut s = vec![0; SHEET];
    ledger::fresh(&mut s).expect("the length is right");
    let mut answers = Vec::new();
    for call in night {
        let answer = call.make(&mut s);
        if !call.is_mark_of(of) {
            answers.push(answer);
        }
    }
    (answers, s)
}

/// Whether two sheets are the same except for what the desk has worked on.
fn alike(one: &[u8], other: &[u8], of: u32) -> bool {
    let desks_alike = (0..DESK_PLACES).all(|desk| {
        let seen = if desk == of as usize { WORKED } else { ledger::DESK };
        ledger::desk(one, desk)[..seen] == ledger::desk(other, desk)[..seen]
    });
    one[..DESKS] == other[..DESKS] && desks_alike
}

#[derive(Debug, Default)]
pub struct Tried {
    pub pairs: usize,
    /// How many pairs differed at the end in the desk's unsaved work.
    pub differed: usize,
    /// How many pairs differed in an answer, a row or another desk.
    pub told: usize,
}

/// Tries pairs of nights. If the desk also saves, others see what it worked on.
pub fn try_pairs(seed: u64, pairs: usize, with_saves: bool) -> Tried {
    let rng = Rng::new(seed);
    let mut tried = Tried { pairs, ..Tried::default() };
    for _ in 0..pairs {
        let of = desk(&rng);
        let [one, other] = nights(&rng, of, with_saves).map(|night| play(&night, of));
        tried.told += (one.0 != other.0 || !alike(&one.1, &other.1, of)) as usize;
        tried.differed += (one.1 != other.1) as usize;
    }
    tried
}
