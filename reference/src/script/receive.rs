//! The ops on a sheet that are also lent a list: `MISSING_NUMBERS` and `RECEIVE`.

use super::{crc32, Calls, Frame, LIST_FILL};
use crate::receive::Received;
use crate::{ledger, ops, receive};

/// The longest list that a frame can ask for.
pub const MOST_NUMBERS: u32 = 1_100;

/// Each line ends with the crc of the whole list, with numbers of 4 bytes, and that of the sheet. None if the list
/// would be too long.
pub fn line(calls: &mut Calls, f: &Frame) -> Option<String> {
    if f.z > MOST_NUMBERS {
        return None;
    }
    let mut list = vec![LIST_FILL; f.z as usize];
    let answer = match f.op {
        ops::MISSING_NUMBERS => ledger::missing_numbers(&calls.sheet, f.x, &mut list).map(|count| format!("0 {count}")),
        _ => received(calls, f, &mut list),
    };
    let words = answer.unwrap_or_else(|refusal| refusal.to_string());
    let bytes: Vec<u8> = list.iter().flat_map(|number| number.to_be_bytes()).collect();
    Some(format!("{words} {} {}", crc32(&bytes), crc32(&calls.sheet)))
}

fn received(calls: &mut Calls, f: &Frame, list: &mut [u32]) -> Result<String, u32> {
    let Received { stop, ticked } = receive::receive(&mut calls.sheet, f.x, &f.a, list)?;
    for outcome in &list[..stop.count as usize] {
        *calls.outcomes.entry(*outcome).or_default() += 1;
    }
    Ok(format!("0 {} {} {} {} {ticked}", stop.count, stop.place, stop.number, stop.detail))
}
