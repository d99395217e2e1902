//! The gain multiplier in random scripts.

use super::{damaged, damages, header_case, Generator};
use crate::make;
use crate::ops;
use crate::record::{RSR, TELEMETRY};
use crate::script::Frame;

#[derive(Clone, Copy)]
pub enum GainCase {
    /// A good record, and the edition.
    Edition(u32),
    Telemetry,
    /// A damaged record.
    Damaged,
    /// A record with a field at or around its bounds.
    Headers,
}

pub fn gain_cases() -> Vec<GainCase> {
    use GainCase::*;
    let mut cases = [1, 1, 2, 2, 2, 2, 0, 3, 257, 258, 1 << 31 | 2, u32::MAX].map(Edition).to_vec();
    cases.extend([Telemetry, Damaged, Damaged, Headers, Headers]);
    cases
}

impl Generator {
    pub fn gains(&mut self) {
        for _ in 0..2 {
            let case = self.gains.deal(&self.rng);
            let rng = &self.rng;
            let any = rng.pick(&[1, 2, 2, 3]);
            let length = make::short_length(rng);
            let (edition, kind) = match case {
                GainCase::Edition(edition) => (edition, RSR),
                GainCase::Telemetry => (any, TELEMETRY),
                _ => (any, RSR),
            };
            let mut a = make::good_record(rng, kind, length);
            match case {
                GainCase::Damaged => damaged(rng, &mut a, RSR, rng.pick(&damages())),
                GainCase::Headers => {
                    let case = self.headers.deal(rng);
                    a = header_case(rng, case).a;
                }
                _ => {}
            }
            self.emit(Frame { op: ops::GAIN, x: edition, a, ..Frame::default() });
        }
    }
}
