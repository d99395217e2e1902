//! Samples in random scripts: every listed size and rate, unpacked and packed, and the refusals.

use super::{damaged, damages, header_case, Generator};
use crate::iq::{LISTED, RATE, SIZE};
use crate::make::{self, put, Rng};
use crate::ops;
use crate::record::{RSR, TELEMETRY};
use crate::script::Frame;

/// What is wrong, if anything. Some cases have several faults, to test the order of refusals.
#[derive(Clone, Copy)]
pub enum IqCase {
    /// The call is lent exactly what it needs, or more.
    Good(u32, u32),
    /// Not a listed pair, and perhaps more faults.
    Unlisted(u32, u32),
    /// The data or the numbers do not fill whole words: there are so many bytes or numbers too many.
    Ragged(usize),
    /// The lent slice is one number, or one byte, too short.
    Short,
    /// Packing: a number that has no code.
    NoCode(Bad),
    /// Unpacking: what read headers refuses.
    Refused(usize),
}

#[derive(Clone, Copy)]
pub enum Bad {
    Even,
    Zero,
    /// Just out of the size's range, above or below.
    Above,
    Below,
    Far,
}

/// How often each of `iq_cases` comes up.
pub const IQ_KINDS: [usize; 8] = [0, 0, 0, 1, 2, 3, 4, 5];

pub fn iq_cases() -> [Vec<IqCase>; 6] {
    use IqCase::*;
    let good = LISTED.iter().flat_map(|(size, rates)| rates.iter().map(|rate| Good(*size, *rate))).collect();
    let unlisted = [
        (0, 1),
        (3, 250),
        (5, 8),
        (16, 250),
        (16, 0),
        (24, 1),
        (32, 1),
        (255, 1),
        (8, 2_000),
        (8, 3),
        (8, 0),
        (4, 4_000),
        (4, 3_000),
        (4, 100),
        (2, 16_000),
        (2, 100),
        (1, 32_000),
        (1, 100),
        (1, 65_535),
    ];
    [
        good,
        unlisted.map(|(size, rate)| Unlisted(size, rate)).to_vec(),
        [1, 2, 3].map(Ragged).to_vec(),
        vec![Short],
        [Bad::Even, Bad::Zero, Bad::Above, Bad::Below, Bad::Far].map(NoCode).to_vec(),
        (0..3).map(Refused).collect(),
    ]
}

impl Generator {
    pub fn samples(&mut self) {
        for _ in 0..2 {
            let kind = self.iq_kinds.deal(&self.rng);
            let case = self.samples[kind].deal(&self.rng);
            let unpacks = match case {
                IqCase::NoCode(_) => false,
                IqCase::Refused(_) => true,
                _ => self.rng.percent(50),
            };
            let frame = if unpacks { self.unpack_case(case) } else { pack_case(&self.rng, case) };
            self.emit(frame);
        }
    }

    fn unpack_case(&mut self, case: IqCase) -> Frame {
        let rng = &self.rng;
        let (size, rate) = pair_of(rng, case);
        let ragged = if let IqCase::Ragged(more) = case { more } else { sometimes_ragged(rng, case) };
        let length = 4 * rng.pick(&[0, 1, 2, 5, 30]) + ragged;
        let kind = if matches!(case, IqCase::Refused(0)) { TELEMETRY } else { RSR };
        let mut a = make::good_record(rng, kind, length);
        match case {
            IqCase::Refused(1) => damaged(rng, &mut a, RSR, rng.pick(&damages())),
            IqCase::Refused(2) => {
                let case = self.headers.deal(&self.rng);
                a = header_case(&self.rng, case).a;
            }
            _ => {}
        }
        let rng = &self.rng;
        if a.len() > RATE + 2 {
            a[SIZE] = size as u8;
            put(&mut a, RATE, 2, rate.into());
        }
        let needed = (8 * length / size.max(1) as usize) as u32;
        Frame { op: ops::UNPACK, z: lent(rng, case, needed), a, ..Frame::default() }
    }
}

fn pack_case(rng: &Rng, case: IqCase) -> Frame {
    let (size, rate) = pair_of(rng, case);
    // A size that exists, if this one does not.
    let real = if [1, 2, 4, 8, 16].contains(&size) { size } else { 8 };
    let words = match case {
        IqCase::NoCode(_) | IqCase::Short => rng.pick(&[1, 2, 5, 20]),
        _ => rng.pick(&[0, 1, 2, 5, 20]),
    };
    let ragged = if let IqCase::Ragged(more) = case { more } else { sometimes_ragged(rng, case) };
    // One number too many does not fill a word. Two fill a word of 16 bits.
    let ragged = if real == 16 { ragged % 2 } else { ragged };
    let ragged = if matches!(case, IqCase::Ragged(_)) { ragged.max(1) } else { ragged };
    let count = words * 32 / real as usize + ragged;
    let mut numbers: Vec<i32> = (0..count).map(|_| any_value(rng, real)).collect();
    if let IqCase::NoCode(bad) = case {
        let bound = 1 << real;
        let at = rng.pick(&[0, count - 1, rng.index(count)]);
        numbers[at] = match bad {
            Bad::Even => numbers[at] & !1,
            Bad::Zero => 0,
            Bad::Above => rng.pick(&[bound, bound + 1]),
            Bad::Below => rng.pick(&[-bound, -bound - 1]),
            Bad::Far => {
                rng.pick(&[i32::MIN, i32::MIN + 1, i32::MAX, i32::MAX - 1, (1 << 20) + 1, rng.word() as i32 | 1 << 17])
            }
        };
    }
    let needed = (count * real as usize / 8) as u32;
    let z = lent(rng, case, needed);
    let a = numbers.iter().flat_map(|n| n.to_be_bytes()).collect();
    Frame { op: ops::PACK, x: size, y: rate, z, a, ..Frame::default() }
}

fn pair_of(rng: &Rng, case: IqCase) -> (u32, u32) {
    match case {
        IqCase::Good(size, rate) | IqCase::Unlisted(size, rate) => (size, rate),
        _ => {
            let (size, rates) = rng.pick(&LISTED);
            (size, rng.pick(rates))
        }
    }
}

fn sometimes_ragged(rng: &Rng, case: IqCase) -> usize {
    let may = matches!(case, IqCase::Unlisted(..));
    if may && rng.percent(30) {
        rng.between(1, 3)
    } else {
        0
    }
}

/// How much is lent, if this much is needed.
fn lent(rng: &Rng, case: IqCase, needed: u32) -> u32 {
    match case {
        IqCase::Short => rng.pick(&[needed.saturating_sub(1), needed / 2, 0]),
        IqCase::Good(..) => needed + rng.pick(&[0, 0, 1, 9]),
        _ => rng.pick(&[needed, needed, needed + 5, needed.saturating_sub(1), 0]),
    }
}

/// The value of any code of this size, often at the ends of its range.
fn any_value(rng: &Rng, size: u32) -> i32 {
    let bound = 1 << size;
    rng.pick(&[1, -1, bound - 1, 1 - bound, 2 * (rng.below(bound as u64) as i32) + 1 - bound])
}
