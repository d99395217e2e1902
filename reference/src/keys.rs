//! Stream keys. Document 01: 'Stream key'; request 03: how many record numbers a stream has; and the parts of a key.

use crate::record::{RSR, TELEMETRY};

/// RSR keys start here. There are 2^32 of them.
pub const FIRST_RSR: u64 = 1 << 42;
pub const PAST_RSR: u64 = FIRST_RSR + (1 << 32);

pub fn valid(key: u64) -> bool {
    key < FIRST_RSR || (FIRST_RSR..PAST_RSR).contains(&key)
}

/// How many record numbers a stream has: 2^32 in telemetry, 2^16 in RSR.
pub fn modulus(key: u64) -> u64 {
    if key < FIRST_RSR {
        1 << 32
    } else {
        1 << 16
    }
}

/// Whether records of the stream can have the number.
pub fn is_number(key: u64, number: u32) -> bool {
    (number as u64) < modulus(key)
}

fn fits(number: u32, bits: u32) -> bool {
    (number as u64) < 1 << bits
}

pub fn telemetry_key(spacecraft: u32, source: u32, equipment: u32, stream: u32) -> Result<u64, u32> {
    if !(fits(spacecraft, 10) && fits(source, 8) && fits(equipment, 16) && fits(stream, 8)) {
        return Err(22);
    }
    Ok(of_telemetry(spacecraft, source, equipment, stream))
}

pub fn rsr_key(spacecraft: u32, station: u32, receiver: u32, subchannel: u32) -> Result<u64, u32> {
    if !(fits(spacecraft, 8) && fits(station, 8) && fits(receiver, 8) && fits(subchannel, 8)) {
        return Err(22);
    }
    Ok(of_rsr(spacecraft, station, receiver, subchannel))
}

/// The key of numbers that each fit their fields.
pub(crate) fn of_telemetry(spacecraft: u32, source: u32, equipment: u32, stream: u32) -> u64 {
    ((spacecraft as u64) << 32) + ((source as u64) << 24) + ((equipment as u64) << 8) + stream as u64
}

/// The key of numbers that each fit their fields.
pub(crate) fn of_rsr(spacecraft: u32, station: u32, receiver: u32, subchannel: u32) -> u64 {
    FIRST_RSR + ((spacecraft as u64) << 24) + ((station as u64) << 16) + ((receiver as u64) << 8) + subchannel as u64
}

/// The kind of a stream, and its four numbers in the order of the call that makes the key.
pub fn parts(key: u64) -> Result<(u32, [u32; 4]), u32> {
    if !valid(key) {
        return Err(22);
    }
    let (kind, widths) = if key < FIRST_RSR { (TELEMETRY, [10, 8, 16, 8]) } else { (RSR, [8, 8, 8, 8]) };
    let mut rest = key;
    let mut numbers = widths.map(|_| 0);
    for (number, width) in numbers.iter_mut().zip(widths).rev() {
        *number = (rest & ((1 << width) - 1)) as u32;
        rest >>= width;
    }
    Ok((kind, numbers))
}
