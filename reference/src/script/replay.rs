//! `REPLAY` and `REPLAY_ON`: the replay of a trace over a fresh sheet, or over the sheet as it is.

use super::Frame;
use crate::ops;
use crate::replay::{self, Replayed};

/// The line without the crc of the sheet, which every line has.
pub fn answer(s: &mut [u8], f: &Frame) -> Result<String, u32> {
    let play = if f.op == ops::REPLAY { replay::replay } else { replay::replay_on };
    play(&f.a, s).map(|replayed| match replayed {
        Replayed::Same => " same".to_string(),
        Replayed::Differs(entry, answer) => format!(" {entry} {} {}", answer.number, answer.row),
    })
}
