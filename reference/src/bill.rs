//! What a night costs without the rule of the stale save. Desks tick records that came in, at the same time and in
//! one row: once with the library's ledger, and once with a ledger that accepts every save.

use crate::make::Rng;
use crate::{keys, ledger};
use std::collections::VecDeque;

const VISITS: u32 = 40;
/// How many records a visit ticks.
const BATCH: u32 = 5;

#[derive(Clone, Copy, PartialEq)]
pub enum Rule {
    /// A save is stale if the row is no longer what the desk opened; the desk then makes the visit again.
    Stale,
    /// Every save is kept: the later one wins.
    LastSaveWins,
}

/// The bill of several nights.
#[derive(Clone, Copy, Debug, Default, PartialEq)]
pub struct Bill {
    /// How many saves were stale.
    pub stale: u32,
    /// How many records are on the shelf and also on the order list.
    pub ordered_again: u32,
    /// How many nights have such a record.
    pub nights: u32,
}

/// The first number of a desk's visit, and the visit's next step: open, tick, or save.
struct Visit {
    first: u32,
    steps: u32,
}

/// Nights in which exactly the ticked numbers are on the shelf. What is missing at the end is ordered again.
pub fn nights(seed: u64, count: u32, desks: usize, rule: Rule) -> Bill {
    let rng = Rng::new(seed);
    let mut bill = Bill::default();
    for _ in 0..count {
        let (missing, stale) = night(&rng, desks, rule).expect("no call is refused but a stale save");
        bill.stale += stale;
        bill.ordered_again += missing;
        bill.nights += u32::from(missing > 0);
    }
    bill
}

/// How many records are missing at the end, and how many saves were stale.
fn night(rng: &Rng, desks: usize, rule: Rule) -> Result<(u32, u32), u32> {
    let mut s = vec![0; ledger::SHEET];
    ledger::fresh(&mut s)?;
    ledger::enrol(&mut s, keys::telemetry_key(177, 43, 2, 2)?, 1)?;
    let mut parcels: VecDeque<u32> = (0..VISITS).map(|visit| 1 + visit * BATCH).collect();
    let mut at_desks: Vec<Option<Visit>> = (0..desks).map(|_| None).collect();
    let mut stale = 0;
    while !parcels.is_empty() || at_desks.iter().any(Option::is_some) {
        let desk = rng.index(desks);
        let begun = at_desks[desk].take();
        let Some(mut visit) = begun.or_else(|| parcels.pop_front().map(|first| Visit { first, steps: 0 })) else {
            continue;
        };
        let done = step(&mut s, desk as u32, &visit, rule)?;
        stale += u32::from(done == Done::Stale);
        visit.steps = if done == Done::Stale { 0 } else { visit.steps + 1 };
        at_desks[desk] = (done != Done::Saved).then_some(visit);
    }
    Ok((ledger::report(&s, 0)?.missing, stale))
}

#[derive(PartialEq)]
enum Done {
    Step,
    Saved,
    Stale,
}

fn step(s: &mut [u8], desk: u32, visit: &Visit, rule: Rule) -> Result<Done, u32> {
    match visit.steps {
        0 => ledger::open(s, desk, 0).map(|()| Done::Step),
        n @ 1..=BATCH => ledger::tick(s, desk, visit.first + n - 1).map(|()| Done::Step),
        _ => save(s, desk, rule),
    }
}

fn save(s: &mut [u8], desk: u32, rule: Rule) -> Result<Done, u32> {
    if rule == Rule::LastSaveWins {
        // As if the desk had opened the row as it is now.
        let (row, opened) = (ledger::row_place(0), ledger::desk_place(desk as usize) + ledger::OPENED);
        s.copy_within(row..row + ledger::ROW, opened);
    }
    match ledger::save(s, desk) {
        Ok(()) => Ok(Done::Saved),
        Err(31) => Ok(Done::Stale),
        Err(number) => Err(number),
    }
}

/// The bill of both ledgers, as text.
pub fn told(seed: u64, count: u32, desks: usize) -> String {
    let with = nights(seed, count, desks, Rule::Stale);
    let without = nights(seed, count, desks, Rule::LastSaveWins);
    format!(
        "{count} nights of {desks} desks: {VISITS} visits to one row, {BATCH} records each
with the rule: {} saves stale and made again, {} records ordered again
without it: {} records ordered again, in {} of the nights
",
        with.stale, with.ordered_again, without.ordered_again, without.nights
    )
}
