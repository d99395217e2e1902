//! `UNPACK` and `PACK`: samples of RSR records. Each line has the crc of all that is lent.

use super::{crc32, refusal_words, Frame, LIST_FILL, MOST_SLICE, SLICE_FILL};
use crate::iq;

const MOST_NUMBERS: u32 = 131_072;

pub fn unpack(f: &Frame) -> Option<String> {
    if f.z > MOST_NUMBERS {
        return None;
    }
    let mut list = vec![LIST_FILL as i32; f.z as usize];
    let answer = match iq::unpack(&f.a, &mut list) {
        Ok(count) => format!("0 {count}"),
        Err(refused) => refusal_words(refused),
    };
    let bytes: Vec<u8> = list.iter().flat_map(|n| n.to_be_bytes()).collect();
    Some(format!("{answer} {}", crc32(&bytes)))
}

pub fn pack(f: &Frame) -> Option<String> {
    let (numbers, []) = f.a.as_chunks() else { return None };
    if f.z > MOST_SLICE {
        return None;
    }
    let numbers: Vec<i32> = numbers.iter().map(|bytes| i32::from_be_bytes(*bytes)).collect();
    let mut slice = vec![SLICE_FILL; f.z as usize];
    let answer = match iq::pack(f.x, f.y, &numbers, &mut slice) {
        Ok(length) => format!("0 {length}"),
        Err(refusal) => refusal.to_string(),
    };
    Some(format!("{answer} {}", crc32(&slice)))
}
