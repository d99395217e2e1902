//! `READ_TAPE` and `WRITE_TAPE`: medium band records.

use super::{crc32, or_none, Frame, SLICE_FILL};
use crate::idr::{self, Fields};

pub const MOST_TAPE_SLICE: u32 = 8_192;

pub fn read(f: &Frame) -> String {
    match idr::read(&f.a) {
        Ok(record) => {
            let mut words: Vec<String> = record.header.words().map(|word| word.to_string()).collect();
            words.extend(record.fields.map(|fields| field_words(&fields)));
            format!("0 {} {}", words.join(" "), crc32(record.samples))
        }
        Err(refusal) => refusal.to_string(),
    }
}

pub fn write(f: &Frame) -> Option<String> {
    if f.z > MOST_TAPE_SLICE || !f.a.len().is_multiple_of(2) {
        return None;
    }
    let words: Vec<u16> = f.a.chunks_exact(2).map(|pair| u16::from_be_bytes([pair[0], pair[1]])).collect();
    let mut slice = vec![SLICE_FILL; f.z as usize];
    let answer = idr::write(&words, &f.b, &mut slice);
    Some(format!("{} {}", answer.err().unwrap_or(0), crc32(&slice)))
}

/// The fields in document 001's order, flags as 0 or 1. The line has no tape type.
fn field_words(f: &Fields) -> String {
    let flag = |flag: bool| flag as u64;
    [
        flag(f.first_of_run),
        flag(f.source_error),
        f.tape_number.into(),
        f.record_number.into(),
        f.spacecraft.into(),
        f.station.into(),
        f.dra_tape_number.into(),
        f.time.day.into(),
        f.time.hour.into(),
        f.time.minute.into(),
        f.time.second.into(),
        f.time.microseconds.into(),
        f.input.into(),
        flag(f.pps_absent),
        flag(f.clock_out_of_sync),
        flag(f.recorder_b),
        flag(f.microseconds_abnormal),
        flag(f.time_track_in_sync),
        f.playback_rate.into(),
        f.sampling_rate.into(),
        flag(f.bypass),
        f.decimation.into(),
        f.pps_track.into(),
        f.time_track.into(),
        f.channel.into(),
        f.block_size.into(),
        f.reduction_day.into(),
        f.reduction_second.into(),
        flag(f.overflow),
        flag(f.pps_out_of_sync),
        flag(f.bit_slip),
        f.decimation_counter.into(),
    ]
    .map(|number: u64| number.to_string())
    .join(" ")
        + " "
        + &or_none(f.sample_count)
}
