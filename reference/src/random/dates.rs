//! Day counts in random scripts.

use super::Generator;
use crate::dates::{day_count, DAY_OF_1958, FIRST_YEAR, LAST_COUNT, LAST_YEAR};
use crate::ops;
use crate::script::Frame;

#[derive(Clone, Copy)]
pub enum DateCase {
    Count(u32),
    /// Near 1 January of a year: any year, one that four divides, or a hundredth.
    NewYear(u32),
    Any,
}

pub fn date_cases() -> Vec<DateCase> {
    use DateCase::*;
    let mut cases =
        [0, 1, DAY_OF_1958, DAY_OF_1958 + 65_535, LAST_COUNT - 1, LAST_COUNT, LAST_COUNT + 1, 1 << 31, u32::MAX]
            .map(Count)
            .to_vec();
    cases.extend([[NewYear(1); 4], [NewYear(4); 4], [NewYear(100); 4], [Any; 4]].concat());
    cases
}

impl Generator {
    pub fn dates(&mut self) {
        for _ in 0..4 {
            let rng = &self.rng;
            let x = match self.dates.deal(rng) {
                DateCase::Count(count) => count,
                DateCase::NewYear(step) => {
                    let steps = (LAST_YEAR - FIRST_YEAR) / step;
                    let year = FIRST_YEAR + step * rng.below(u64::from(steps) + 1) as u32;
                    let count = day_count(year, 1).expect("it is a date") + rng.pick(&[0, 1, 2, 364, 365, 366]);
                    count.saturating_sub(1)
                }
                DateCase::Any => rng.below(LAST_COUNT.into()) as u32,
            };
            self.emit(Frame { op: ops::DATE_OF, x, ..Frame::default() });
        }
    }
}
