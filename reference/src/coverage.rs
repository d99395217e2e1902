//! What the calls of a script met: which refusals, and for refused records which wrong fields.

use crate::ops;
use crate::script::{self, Calls, Frame, BAD_FRAME};
use std::collections::BTreeMap;
use std::io::{self, Write};
use std::ops::RangeInclusive;

/// The refusals that a random script of 2,000 calls must meet. Only the listing program gives 17.
const REFUSALS: &[RangeInclusive<u32>] = &[
    // Records and streams.
    1..=16,
    // Samples.
    19..=19,
    34..=35,
    37..=37,
    // Dates.
    33..=33,
    // The ledger.
    20..=32,
    36..=36,
    // Traces; seasons.
    40..=42,
    // Mission settings.
    43..=47,
    // Medium band records.
    50..=54,
    // Missing lists.
    60..=60,
];

/// The outcomes of received records that it must meet.
const OUTCOMES: [u32; 5] = [0, 12, 25, 28, 29];

/// The wrong fields that it must meet: the refusal, and the field's offset in the record.
const FIELDS: &[(u32, &[u64])] = &[
    (2, &[0]),
    (3, &[4]),
    (4, &[8]),
    (5, &[12]),
    (7, &[20, 22]),
    (8, &[24, 26]),
    (9, &[32, 34]),
    (10, &[116, 256]),
    (11, &[118, 258]),
    (12, &[28, 29, 31, 50, 51, 52, 55, 57, 58, 59, 60, 62]),
];

#[derive(Default)]
pub struct Coverage {
    bytes: usize,
    calls: usize,
    /// For each refusal, how often each op gave it; 0 is an accepted call.
    refusals: BTreeMap<u32, BTreeMap<u32, usize>>,
    /// For each refusal and offset in the record, how often.
    fields: BTreeMap<(u32, u64), usize>,
    /// For each refusal, how many walks and lists it stopped after at least one record.
    behind: BTreeMap<u32, usize>,
    /// For each outcome, how many records were received with it.
    outcomes: BTreeMap<u32, usize>,
    bad_frame: bool,
}

impl Coverage {
    pub fn of(script: &[u8]) -> Coverage {
        let mut coverage = Coverage { bytes: script.len(), ..Coverage::default() };
        let mut calls = Calls::default();
        script::run_on(&mut calls, script, |frame, line| {
            match frame {
                Some(frame) => coverage.count(frame, line),
                None => coverage.bad_frame = true,
            }
            Ok(())
        })
        .expect("nothing is written");
        coverage.outcomes = calls.outcomes;
        coverage
    }

    fn count(&mut self, frame: &Frame, line: &str) {
        let words: Vec<u64> = line.split(' ').map(|word| word.parse().unwrap_or(0)).collect();
        let refusal = script::refusal_in(frame.op, line);
        self.calls += 1;
        *self.refusals.entry(refusal).or_default().entry(frame.op).or_default() += 1;
        match frame.op {
            // A refused line of this op ends in a crc.
            ops::UNPACK if words.len() > 2 && refusal != 0 => *self.fields.entry((refusal, words[1])).or_default() += 1,
            ops::READ_ONE | ops::READ_HEADERS | ops::STEP | ops::GAIN if words.len() > 1 && refusal != 0 => {
                *self.fields.entry((refusal, words[1])).or_default() += 1
            }
            ops::WALK | ops::LIST_NUMBERS if words[1] > 0 => *self.behind.entry(refusal).or_default() += 1,
            _ => {}
        }
    }

    /// The refusals that stopped a walk or a list behind at least one record.
    pub fn behind(&self) -> impl Iterator<Item = u32> + '_ {
        self.behind.keys().copied()
    }

    /// What it must meet and has not met.
    pub fn missing(&self) -> Vec<String> {
        let refusals = REFUSALS.iter().cloned().flatten().filter(|number| !self.refusals.contains_key(number));
        let fields = FIELDS
            .iter()
            .flat_map(|(number, offsets)| offsets.iter().map(|offset| (*number, *offset)))
            .filter(|field| !self.fields.contains_key(field));
        let mut missing: Vec<String> = refusals.map(|number| number.to_string()).collect();
        let outcomes = OUTCOMES.iter().filter(|outcome| !self.outcomes.contains_key(outcome));
        missing.extend(outcomes.map(|outcome| format!("a record's {outcome}")));
        missing.extend(fields.map(|(number, offset)| format!("{number} at {offset}")));
        missing
    }

    /// Whether every frame was good and nothing is missing.
    pub fn is_whole(&self) -> bool {
        !self.bad_frame && self.missing().is_empty()
    }

    pub fn write(&self, out: &mut impl Write) -> io::Result<()> {
        writeln!(out, "{} calls, {} bytes", self.calls, self.bytes)?;
        for (refusal, by_op) in &self.refusals {
            let ops: Vec<String> = by_op.iter().map(|(op, count)| format!("op {op}: {count}")).collect();
            writeln!(out, "{refusal:3} {:7}   {}", by_op.values().sum::<usize>(), ops.join(", "))?;
        }
        for (number, offsets) in FIELDS {
            let count = |offset| self.fields.get(&(*number, offset)).unwrap_or(&0);
            let counts: Vec<String> = offsets.iter().map(|offset| format!("at {offset}: {}", count(*offset))).collect();
            writeln!(out, "{number:3} {}", counts.join(", "))?;
        }
        let behind: Vec<String> = self.behind.iter().map(|(number, count)| format!("{number}: {count}")).collect();
        writeln!(out, "walks and lists stopped behind a record, {}", behind.join(", "))?;
        let outcomes: Vec<String> = self.outcomes.iter().map(|(number, count)| format!("{number}: {count}")).collect();
        writeln!(out, "records received, {}", outcomes.join(", "))?;
        let missing = self.missing();
        writeln!(out, "missing: {}", if missing.is_empty() { "none".to_string() } else { missing.join(", ") })?;
        if self.bad_frame {
            writeln!(out, "{BAD_FRAME}")?;
        }
        Ok(())
    }
}
