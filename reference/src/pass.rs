//! Records of one pass, for samples and benchmarks: spacecraft 177 over station 43 (Canberra), on the night of 29
//! August 2008, from 9:00 UTC on. Source documents 000 and 004 allow the value of every field, whether the library
//! tests it or not; `ranges` checks the stored samples.

use crate::dates::{self, DAY_OF_1958};
use crate::make::{self, put_secondary};
use crate::record::{RSR, TELEMETRY};

const YEAR: u32 = 2_008;
const DAY: u32 = 242;
/// The second of the day at which the pass begins.
const BEGIN: u64 = 32_400;
const PASS: u64 = 4_021;

const SPACECRAFT: u64 = 177;
const STATION: u64 = 43;

/// Spacecraft telemetry that is not frame aligned; the number is no mission's; the station formatted it.
const TELEMETRY_PRIMARY: [u8; 4] = [1, 7, 254, 0];
const RSR_PRIMARY: [u8; 4] = [21, 4, 255, 0];

/// A field of a secondary block: its first byte in the block, how many bytes, the number.
type Put = (usize, usize, u64);

fn single(value: f32) -> u64 {
    value.to_bits().into()
}

/// "NaN" as document 004 spells it, for a term that its receiver leaves out.
const NAN: u64 = 0x7FFF_FFFF_FFFF_FFFF;

fn secondary<const LENGTH: usize>(fields: &[Put]) -> [u8; LENGTH] {
    let mut value = [0; LENGTH];
    for (at, width, number) in fields {
        put_secondary(&mut value, *at, *width, *number);
    }
    value
}

/// A record of a virtual stream, received so many seconds after the pass began. Bytes that have no field here are
/// reserved, or not in use, and zero.
pub fn telemetry(second: u64, stream: u64, number: u32, data: &[u8]) -> Vec<u8> {
    let day = dates::day_count(YEAR, DAY).expect("a date") - DAY_OF_1958;
    // Each stream gives the extended resolution in its own way: not at all, in microseconds, in tenths of them.
    let (flags, extended) = match stream {
        2 => (0b100, 625),
        3 => (0b110, 6_250),
        _ => (0, 0),
    };
    let fields = [
        (4, 1, 48),
        (5, 1, 48),
        (6, 2, SPACECRAFT),
        (8, 2, PASS),
        (10, 1, STATION),
        (12, 1, flags),
        (14, 2, day.into()),
        (16, 4, 1_000 * (BEGIN + second) + 200 * stream),
        (20, 2, extended),
        (22, 4, number.into()),
        // Two-way at X band.
        (26, 1, b'X'.into()),
        (27, 1, b'X'.into()),
        (28, 1, 2),
        (30, 1, stream),
        (31, 1, stream),
        // Carrier, subcarrier and symbols are in lock; convolutional decoding. There is no array, frame synchronizer,
        // Reed-Solomon or turbo decoder.
        (32, 2, 0b10_00_10_10_10_00_00_00),
        (34, 4, 8 * data.len() as u64),
        (38, 4, single(1_000.0)),
        (42, 4, single(22.5)),
        (46, 4, single(5.25)),
        (50, 4, single(-142.5)),
        // The frame synchronizer is bypassed.
        (58, 1, 1),
        // A turbo decoder's processor, iterations, code rate and frame size. They are not in use, and within their
        // ranges.
        (65, 1, 1),
        (66, 1, 1),
        (68, 1, 1),
        (69, 1, 2),
        (70, 2, 1_784),
        (74, 2, 2),
        (76, 1, b'C'.into()),
        (77, 1, 4),
    ];
    make::record(TELEMETRY, TELEMETRY_PRIMARY, &secondary::<80>(&fields), data)
}

/// One second of a subchannel, so many seconds after the pass began: samples of 8 bits, 1,000 per second.
pub fn rsr(second: u64, subchannel: u64, number: u32, data: &[u8]) -> Vec<u8> {
    let of_day = BEGIN + second;
    let (intermediate, converter) = (8_100, 320);
    // The oscillator brings the predicted frequency to zero: it is the sum of the two oscillators before it, less
    // that frequency.
    let predicted = 8_418_750_000.0;
    let oscillator = 1_000_000.0 * (intermediate + converter) as f64 - predicted;
    let fields = [
        (4, 1, 48),
        (5, 1, 48),
        (6, 2, 4),
        (8, 2, u64::from(number) & 0xFFFF),
        (10, 1, 40),
        (11, 1, STATION),
        (12, 1, 1),
        (13, 1, subchannel),
        (15, 1, SPACECRAFT),
        (16, 2, PASS),
        (18, 1, b'X'.into()),
        (19, 1, b'X'.into()),
        (20, 1, 2),
        // 40 dB-Hz expected in 100 MHz; 10 dB taken off before the converter.
        (22, 1, 40),
        (23, 1, 100),
        (25, 1, 20),
        (26, 1, 24),
        (27, 1, 90),
        (28, 2, YEAR.into()),
        (30, 2, DAY.into()),
        (32, 4, of_day),
        (36, 1, 8),
        (38, 2, 1),
        (40, 2, converter),
        (42, 2, intermediate),
        (44, 2, YEAR.into()),
        (46, 2, DAY.into()),
        (48, 8, (of_day as f64).to_bits()),
        (96, 8, predicted.to_bits()),
        (104, 8, NAN),
        (112, 8, NAN),
        (120, 8, oscillator.to_bits()),
        (128, 8, NAN),
        (136, 8, NAN),
        (144, 8, oscillator.to_bits()),
        (152, 8, NAN),
        (160, 8, NAN),
        // Whole turns since the pass began.
        (168, 8, (oscillator * second as f64).to_bits()),
        (184, 8, NAN),
        (192, 8, NAN),
        (200, 8, NAN),
        (208, 4, single(1.0)),
    ];
    make::record(RSR, RSR_PRIMARY, &secondary::<220>(&fields), data)
}
