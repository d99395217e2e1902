//! Every field of a record's header, and what source documents 000, 001 and 004 allow in it, whether the library
//! tests it or not. Written from the papers, and separately from `pass` and `tapes`, which make the samples;
//! `tests/samples` checks each stored sample.
//!
//! Bits count from 1, the top bit of a byte, as the documents count them.

use crate::record::{RSR, TELEMETRY};

pub enum Rule {
    /// The document names no bound.
    Any,
    Is(u64),
    Between(u64, u64),
    OneOf(&'static [u64]),
    /// Single precision; no number so small that it is denormalized (000, 1.5.3).
    Single(f32, f32),
    Double(f64, f64),
    /// What 004 calls "NaN".
    Nan,
}
use Rule::{Any, Between, Double, Is, Nan, OneOf, Single};

/// Reserved, undefined or spare fields are zero (000, 1.5.2 g).
const ZERO: Rule = Is(0);
const FLAG: Rule = Any;

pub struct Field {
    pub name: &'static str,
    /// The first bit, counted from 0 at the block's start, and how many there are.
    pub bit: usize,
    pub width: usize,
    rule: Rule,
}

impl Field {
    /// Whether every number is allowed.
    pub fn is_free(&self) -> bool {
        matches!(self.rule, Any)
    }
}

const fn bytes(at: usize, width: usize, name: &'static str, rule: Rule) -> Field {
    Field { name, bit: 8 * at, width: 8 * width, rule }
}

const fn bits(byte: usize, first: usize, last: usize, name: &'static str, rule: Rule) -> Field {
    Field { name, bit: 8 * byte + first - 1, width: last - first + 1, rule }
}

/// A run of bytes at its place in a record, with all its fields.
pub struct Block {
    pub section: &'static str,
    pub at: usize,
    pub length: usize,
    pub fields: &'static [Field],
}

const fn letters(text: &[u8; 4]) -> u64 {
    u32::from_be_bytes(*text) as u64
}

const BANDS: Rule = OneOf(&[b'S' as u64, b'X' as u64, b'K' as u64]);
const BANDS_OR_UNKNOWN: Rule = OneOf(&[b'U' as u64, b'S' as u64, b'X' as u64, b'K' as u64]);
/// Table 3-5: not in use, in lock, out of lock; 1 is no code.
const LOCK: Rule = OneOf(&[0, 2, 3]);

pub static TELEMETRY_BLOCKS: [Block; 5] = [
    Block {
        section: "000, 3.2",
        at: 0,
        length: 20,
        fields: &[
            bytes(0, 4, "control authority", Is(letters(b"NJPL"))),
            bytes(4, 1, "label version", Is(b'2' as u64)),
            bytes(5, 1, "label class", Is(b'I' as u64)),
            bytes(6, 2, "label reserved", Is(0x3030)),
            bytes(8, 4, "data description", Is(letters(b"0800"))),
            bytes(12, 8, "label length", Between(100, 65_635)),
        ],
    },
    Block {
        section: "000, 3.3",
        at: 20,
        length: 4,
        fields: &[bytes(0, 2, "aggregation type", Is(1)), bytes(2, 2, "aggregation length", Is(92))],
    },
    Block {
        section: "000, 3.4",
        at: 24,
        length: 8,
        fields: &[
            bytes(0, 2, "primary type", Is(2)),
            bytes(2, 2, "primary length", Is(4)),
            bytes(4, 1, "major class", Is(1)),
            bytes(5, 1, "minor class", Between(7, 17)),
            bytes(6, 1, "mission", Any),
            bytes(7, 1, "format", Is(0)),
        ],
    },
    Block {
        section: "000, 3.5",
        at: 32,
        length: 84,
        fields: &[
            bytes(0, 2, "secondary type", Is(78)),
            bytes(2, 2, "secondary length", Is(80)),
            bytes(4, 1, "originator", Is(48)),
            bytes(5, 1, "last modifier", Is(48)),
            bits(6, 1, 6, "reserved before spacecraft", ZERO),
            bits(6, 7, 16, "spacecraft", Any),
            bytes(8, 2, "pass", Between(0, 9_999)),
            bytes(10, 1, "data source", Any),
            bytes(11, 1, "arrayed stations", Any),
            bits(12, 1, 1, "reserved for AMMOS", ZERO),
            bits(12, 2, 2, "split QPSK", FLAG),
            bits(12, 3, 3, "odd half frame", FLAG),
            bits(12, 4, 4, "sync change", FLAG),
            bits(12, 5, 5, "received time of the first bit", FLAG),
            bits(12, 6, 6, "extended resolution valid", FLAG),
            bits(12, 7, 7, "extended resolution in tenths", FLAG),
            bits(12, 8, 8, "received time invalid", Is(0)),
            bits(13, 1, 1, "CRC check", FLAG),
            bits(13, 2, 2, "noise temperature not measured", FLAG),
            bits(13, 3, 3, "CRC passed", FLAG),
            bits(13, 4, 4, "derandomized", FLAG),
            bits(13, 5, 5, "arrayed", FLAG),
            bits(13, 6, 6, "signal to noise of bits", FLAG),
            bits(13, 7, 7, "low threshold", FLAG),
            bits(13, 8, 8, "diagnostic mode", Is(0)),
            bytes(14, 2, "received day", Any),
            bytes(16, 4, "received milliseconds", Between(0, 86_400_000)),
            bytes(20, 2, "extended resolution", Between(0, 9_999)),
            bytes(22, 4, "record number", Any),
            bytes(26, 1, "uplink band", BANDS_OR_UNKNOWN),
            bytes(27, 1, "downlink band", BANDS_OR_UNKNOWN),
            bits(28, 1, 6, "reserved before predicts mode", ZERO),
            bits(28, 7, 8, "predicts mode", Any),
            bytes(29, 1, "uplink station", Any),
            bytes(30, 1, "virtual stream", Any),
            bytes(31, 1, "virtual channel", Any),
            bits(32, 1, 2, "lock of the carrier", LOCK),
            bits(32, 3, 4, "lock of the array", LOCK),
            bits(32, 5, 6, "lock of the subcarrier", LOCK),
            bits(32, 7, 8, "lock of the symbols", LOCK),
            bits(33, 1, 2, "lock of the convolutional decoder", LOCK),
            bits(33, 3, 4, "lock of the frame synchronizer", LOCK),
            bits(33, 5, 6, "lock of the Reed-Solomon decoder", LOCK),
            bits(33, 7, 8, "lock of the turbo decoder", LOCK),
            bytes(34, 4, "number of bits", Any),
            bytes(38, 4, "bit rate", Single(2.0, 13.2e6)),
            bytes(42, 4, "noise temperature", Single(10.0, 2_000.0)),
            bytes(46, 4, "signal to noise", Single(-10.0, 40.0)),
            bytes(50, 4, "signal level", Single(-190.0, -85.0)),
            bytes(54, 1, "acquisition tolerance", Between(0, 31)),
            bytes(55, 1, "maintenance tolerance", Between(0, 31)),
            bytes(56, 1, "verify count", Between(0, 31)),
            bytes(57, 1, "flywheel count", Between(0, 31)),
            bits(58, 1, 1, "forced resynchronization", FLAG),
            bits(58, 2, 2, "reserved in frame sync mode", ZERO),
            bits(58, 3, 3, "polarity correction", FLAG),
            bits(58, 4, 7, "frame sync mode", OneOf(&[0, 1, 2, 4, 8])),
            bits(58, 8, 8, "frame sync bypass", FLAG),
            bits(59, 1, 1, "polarity", FLAG),
            bits(59, 2, 2, "sync marker left out", FLAG),
            bits(59, 3, 5, "reserved before bit slip", ZERO),
            bits(59, 6, 8, "bit slip", OneOf(&[0, 1, 2, 3, 5, 6, 7])),
            bytes(60, 1, "sync marker errors", Is(0)),
            bits(61, 1, 4, "reserved before buffer size", ZERO),
            bits(61, 5, 8, "buffer size", Any),
            bits(62, 1, 1, "parity left out", FLAG),
            bits(62, 2, 4, "reserved before Reed-Solomon status", ZERO),
            bits(62, 5, 8, "Reed-Solomon status", Between(0, 3)),
            bytes(63, 1, "corrected symbols", Is(0)),
            bits(64, 1, 5, "reserved before turbo status", ZERO),
            bits(64, 6, 6, "turbo extra bits", FLAG),
            bits(64, 7, 7, "turbo success", FLAG),
            bits(64, 8, 8, "turbo symbols", FLAG),
            bits(65, 1, 3, "reserved before processor", ZERO),
            bits(65, 4, 8, "turbo processor", Between(1, 31)),
            bytes(66, 1, "turbo iterations", Between(1, 255)),
            bytes(67, 1, "reserved before code rate", ZERO),
            bytes(68, 1, "code rate numerator", Between(1, 31)),
            bytes(69, 1, "code rate denominator", Between(1, 31)),
            bytes(70, 2, "turbo frame size", OneOf(&[1_784, 3_568, 7_136, 8_920])),
            bytes(72, 2, "decoder confidence", Any),
            // Appendix A.1.1. `equipment_known` has the rest of it.
            bits(74, 1, 4, "equipment type", Between(0, 2)),
            bits(74, 5, 8, "reserved in equipment", ZERO),
            bytes(75, 1, "equipment number", Any),
            bytes(76, 1, "software level", Between(b'A' as u64, b'Z' as u64)),
            bytes(77, 1, "software revision", Any),
            bytes(78, 6, "reserved at the end", ZERO),
        ],
    },
    Block {
        section: "000, 3.6",
        at: 116,
        length: 4,
        fields: &[bytes(0, 2, "data type", Is(10)), bytes(2, 2, "data length", Any)],
    },
];

/// 8 MHz and 8 kHz a second either way.
const OFFSET: Rule = Double(-8e6, 8e6);
const RATE: Rule = Double(-8e3, 8e3);
const FINITE: Rule = Double(f64::MIN, f64::MAX);

pub static RSR_BLOCKS: [Block; 5] = [
    Block {
        section: "004, 3.2",
        at: 0,
        length: 20,
        fields: &[
            bytes(0, 4, "control authority", Is(letters(b"NJPL"))),
            bytes(4, 1, "label version", Is(b'2' as u64)),
            bytes(5, 1, "label class", Is(b'I' as u64)),
            bytes(6, 2, "label reserved", Is(0x3030)),
            bytes(8, 4, "data description", Is(letters(b"C997"))),
            // "Always < 31K".
            bytes(12, 8, "label length", Between(240, 31 * 1_024 - 1)),
        ],
    },
    Block {
        section: "004, 3.3",
        at: 20,
        length: 4,
        fields: &[bytes(0, 2, "aggregation type", Is(1)), bytes(2, 2, "aggregation length", Is(232))],
    },
    Block {
        section: "004, 3.4",
        at: 24,
        length: 8,
        fields: &[
            bytes(0, 2, "primary type", Is(2)),
            bytes(2, 2, "primary length", Is(4)),
            bytes(4, 1, "major class", Is(21)),
            bytes(5, 1, "minor class", Is(4)),
            bytes(6, 1, "mission", Is(255)),
            bytes(7, 1, "format", Is(0)),
        ],
    },
    Block {
        section: "004, 3.5",
        at: 32,
        length: 224,
        fields: &[
            bytes(0, 2, "secondary type", Is(104)),
            bytes(2, 2, "secondary length", Is(220)),
            bytes(4, 1, "originator", Is(48)),
            bytes(5, 1, "last modifier", Is(48)),
            bytes(6, 2, "software", Any),
            bytes(8, 2, "record number", Any),
            bytes(10, 1, "complex", OneOf(&[10, 40, 60, 21])),
            bytes(11, 1, "station", Any),
            bytes(12, 1, "receiver", Between(1, 16)),
            bytes(13, 1, "subchannel", Between(1, 4)),
            bytes(14, 1, "reserved before spacecraft", ZERO),
            bytes(15, 1, "spacecraft", Any),
            bytes(16, 2, "pass", Any),
            bytes(18, 1, "uplink band", BANDS),
            bytes(19, 1, "downlink band", BANDS),
            bytes(20, 1, "tracking mode", Between(1, 3)),
            bytes(21, 1, "uplink station", Any),
            bytes(22, 1, "Px/No", Any),
            bytes(23, 1, "bandwidth", Between(1, 127)),
            bytes(24, 1, "override flag", Any),
            bytes(25, 1, "attenuation", Between(0, 63)),
            bytes(26, 1, "RMS", Between(0, 128)),
            bytes(27, 1, "peak", Between(0, 128)),
            bytes(28, 2, "converter's year", Between(1_900, 3_000)),
            bytes(30, 2, "converter's day", Between(1, 366)),
            bytes(32, 4, "converter's second", Between(0, 86_400)),
            bytes(36, 1, "sample size", OneOf(&[1, 2, 4, 8, 16])),
            bytes(37, 1, "data errors", Is(0)),
            bytes(38, 2, "sample rate", Any),
            bytes(40, 2, "down converter's oscillator", Between(265, 375)),
            bytes(42, 2, "intermediate frequency's oscillator", Any),
            bytes(44, 2, "year", Between(1_900, 3_000)),
            bytes(46, 2, "day", Between(1, 366)),
            bytes(48, 8, "second", Double(0.0, 86_400.0)),
            // In a standard pass.
            bytes(56, 8, "predicts' time shift", Double(0.0, 0.0)),
            bytes(64, 8, "override frequency", FINITE),
            bytes(72, 8, "frequency rate", RATE),
            bytes(80, 8, "frequency offset", OFFSET),
            bytes(88, 8, "subchannel's frequency offset", OFFSET),
            bytes(96, 8, "frequency point 1", FINITE),
            bytes(104, 8, "frequency point 2", Nan),
            bytes(112, 8, "frequency point 3", Nan),
            bytes(120, 8, "subchannel's frequency point 1", FINITE),
            bytes(128, 8, "subchannel's frequency point 2", Nan),
            bytes(136, 8, "subchannel's frequency point 3", Nan),
            bytes(144, 8, "frequency coefficient 1", FINITE),
            bytes(152, 8, "frequency coefficient 2", Nan),
            bytes(160, 8, "frequency coefficient 3", Nan),
            bytes(168, 8, "accumulated phase", FINITE),
            bytes(176, 8, "phase coefficient 1", FINITE),
            bytes(184, 8, "phase coefficient 2", Nan),
            bytes(192, 8, "phase coefficient 3", Nan),
            bytes(200, 8, "phase coefficient 4", Nan),
            bytes(208, 4, "gain multiplier", Single(f32::MIN, f32::MAX)),
            bytes(212, 12, "reserved at the end", ZERO),
        ],
    },
    Block {
        section: "004, 3.6",
        at: 256,
        length: 4,
        fields: &[bytes(0, 2, "data type", Is(10)), bytes(2, 2, "data length", Any)],
    },
];

/// A digit's four bits.
const DIGIT: Rule = Between(0, 9);
const PLAYBACK: Rule = OneOf(&[0b10000, 0b01000, 0b00000]);
const SAMPLING: Rule = OneOf(&[
    0b10000, 0b01000, 0b00000, 0b10001, 0b01001, 0b00001, 0b10010, 0b01010, 0b00010, 0b10011, 0b01011, 0b00011,
    0b10100, 0b01100, 0b00100,
]);

/// Bits of a 16-bit word; words count from 1.
const fn word(n: usize, first: usize, last: usize, name: &'static str, rule: Rule) -> Field {
    bits(2 * (n - 1), first, last, name, rule)
}

pub static TAPE_BLOCKS: [Block; 1] = [Block {
    section: "001, D",
    at: 0,
    length: 56,
    fields: &[
        word(1, 1, 1, "time tag valid", FLAG),
        word(1, 2, 2, "first record of a run", FLAG),
        word(1, 3, 3, "source error", Is(0)),
        word(1, 4, 4, "sample count valid", FLAG),
        word(1, 5, 8, "tape type", Is(0)),
        word(1, 9, 16, "tape number", Any),
        word(2, 1, 16, "record number", Any),
        word(3, 1, 16, "length word", Is(2_528)),
        word(4, 1, 8, "spacecraft", Any),
        word(4, 9, 16, "station", Any),
        word(5, 1, 16, "DRA tape number", Any),
        word(6, 1, 4, "hundreds of days", Between(0, 3)),
        word(6, 5, 8, "tens of days", DIGIT),
        word(6, 9, 12, "days", DIGIT),
        word(6, 13, 16, "tens of hours", Between(0, 2)),
        word(7, 1, 4, "hours", DIGIT),
        word(7, 5, 8, "tens of minutes", Between(0, 5)),
        word(7, 9, 12, "minutes", DIGIT),
        word(7, 13, 16, "tens of seconds", Between(0, 5)),
        word(8, 1, 4, "seconds", DIGIT),
        word(8, 5, 24, "microseconds", Between(0, 999_999)),
        word(9, 9, 11, "input selection", Is(1)),
        word(9, 12, 12, "1 pps absent", Is(0)),
        word(9, 13, 13, "clock out of sync", Is(0)),
        word(9, 14, 14, "recorder B", FLAG),
        word(9, 15, 15, "microsecond time abnormal", Is(0)),
        word(9, 16, 16, "time track in sync", Is(1)),
        word(10, 1, 11, "undefined before playback rate", ZERO),
        word(10, 12, 16, "playback rate", PLAYBACK),
        word(11, 1, 11, "undefined before sampling rate", ZERO),
        word(11, 12, 16, "sampling rate", SAMPLING),
        word(12, 1, 1, "bypass", Is(0)),
        word(12, 2, 4, "decimation", Any),
        word(12, 5, 5, "1 pps track", FLAG),
        word(12, 6, 6, "time track", FLAG),
        word(12, 7, 8, "channel", Any),
        // Negative in two's complement.
        word(12, 9, 32, "block size", Between(1 << 23, (1 << 24) - 1)),
        word(14, 1, 64, "undefined in words 14 to 17", ZERO),
        word(18, 1, 64, "undefined in words 18 to 21", ZERO),
        word(22, 1, 16, "undefined in word 22", ZERO),
        word(23, 1, 9, "reduction day", Between(1, 366)),
        word(23, 10, 15, "undefined after reduction day", ZERO),
        word(23, 16, 32, "reduction second", Between(0, 86_400)),
        word(25, 1, 16, "undefined in word 25", ZERO),
        word(26, 1, 8, "undefined before status", ZERO),
        word(26, 9, 9, "overflow", Is(0)),
        word(26, 10, 10, "1 pps out of sync", Is(0)),
        word(26, 11, 11, "bit slip", Is(0)),
        word(26, 12, 13, "spares", ZERO),
        word(26, 14, 16, "decimation counter", Any),
        word(27, 1, 32, "sample count", Any),
    ],
}];

/// The number in so many bits, 96 at most.
pub fn bits_of(s: &[u8], bit: usize, width: usize) -> u128 {
    (bit..bit + width).fold(0, |number, bit| number << 1 | u128::from(s[bit / 8] >> (7 - bit % 8) & 1))
}

fn allows(rule: &Rule, number: u128) -> bool {
    let number = match u64::try_from(number) {
        Ok(number) => number,
        Err(_) => return false,
    };
    match rule {
        Any => true,
        Is(value) => number == *value,
        Between(low, high) => (*low..=*high).contains(&number),
        OneOf(values) => values.contains(&number),
        Single(low, high) => {
            let value = f32::from_bits(number as u32);
            !value.is_subnormal() && (*low..=*high).contains(&value)
        }
        Double(low, high) => (*low..=*high).contains(&f64::from_bits(number)),
        Nan => number == 0x7FFF_FFFF_FFFF_FFFF,
    }
}

/// The bit at which a field begins, counted from the record's start.
pub fn in_record(block: &Block, field: &Field) -> usize {
    8 * block.at + field.bit
}

pub fn field(blocks: &'static [Block], name: &str) -> (usize, usize) {
    let found =
        blocks.iter().find_map(|b| b.fields.iter().find(|f| f.name == name).map(|f| (in_record(b, f), f.width)));
    found.unwrap_or_else(|| panic!("no field {name}"))
}

/// The number of a field by its name.
pub fn get(blocks: &'static [Block], s: &[u8], name: &str) -> u64 {
    let (bit, width) = field(blocks, name);
    bits_of(s, bit, width) as u64
}

/// The fields of a header that are not in their ranges.
fn fields_out_of_range(blocks: &'static [Block], s: &[u8]) -> Vec<&'static str> {
    let mut wrong = Vec::new();
    for block in blocks {
        let out = |field: &&Field| !allows(&field.rule, bits_of(s, in_record(block, field), field.width));
        wrong.extend(block.fields.iter().filter(out).map(|field| field.name));
    }
    wrong
}

/// A rule about several fields: where the document says it, the rule in words, and its test.
pub type Together = (&'static str, &'static str, fn(&[u8]) -> bool);

fn telemetry(s: &[u8], name: &str) -> u64 {
    get(&TELEMETRY_BLOCKS, s, name)
}

pub static TELEMETRY_TOGETHER: [Together; 10] = [
    ("000, 3.2", "the label's length is N - 20", |s| telemetry(s, "label length") == s.len() as u64 - 20),
    ("000, 3.6", "the data's length is N - 120", |s| telemetry(s, "data length") == s.len() as u64 - 120),
    ("000, 3.6", "the data's length is even", |s| telemetry(s, "data length").is_multiple_of(2)),
    ("000, 3.6", "there are no more bits than the data have", |s| {
        telemetry(s, "number of bits") <= 8 * telemetry(s, "data length")
    }),
    ("000, 1.5.4", "extended resolution only where it is valid, in its unit", |s| {
        let most = match (telemetry(s, "extended resolution valid"), telemetry(s, "extended resolution in tenths")) {
            (0, _) => 0,
            (_, 0) => 999,
            _ => 9_999,
        };
        telemetry(s, "extended resolution") <= most
    }),
    ("000, 3.5", "one frame sync mode, unless it is bypassed", |s| {
        (telemetry(s, "frame sync mode") == 0) == (telemetry(s, "frame sync bypass") == 1)
    }),
    ("000, 3.4", "frame aligned classes have a frame sync mode", |s| {
        (telemetry(s, "frame sync bypass") == 0) || [7, 16, 17].contains(&telemetry(s, "minor class"))
    }),
    ("000, 3.5", "stations are arrayed only in an array", |s| {
        telemetry(s, "arrayed") == 1 || telemetry(s, "arrayed stations") == 0
    }),
    ("000, 3.5", "the virtual stream is none of the two reserved", |s| {
        ![126, 127].contains(&telemetry(s, "virtual stream"))
    }),
    ("000, A.1.1", "the equipment is a known one", |s| {
        equipment_known(telemetry(s, "equipment type") << 12 | telemetry(s, "equipment number"))
    }),
];

/// Appendix A.1.1 of document 000, over both bytes.
pub fn equipment_known(equipment: u64) -> bool {
    let number = equipment & 0xFF;
    match equipment >> 8 {
        0x00 => number >> 1 & 7 <= 5,
        0x10 => number >> 4 <= 2 && number & 0xF <= 1,
        0x20 => number >> 6 <= 2 && number >> 4 & 3 == 0,
        _ => false,
    }
}

fn rsr(s: &[u8], name: &str) -> u64 {
    get(&RSR_BLOCKS, s, name)
}

/// Table 3-1: sample size, rate, and the length of the data.
const TABLE_3_1: [(u64, u64, u64); 36] = [
    (8, 1, 2_000),
    (8, 2, 4_000),
    (8, 4, 8_000),
    (8, 8, 16_000),
    (8, 16, 16_000),
    (8, 25, 25_000),
    (8, 50, 25_000),
    (8, 100, 20_000),
    (16, 1, 4_000),
    (16, 2, 8_000),
    (16, 4, 16_000),
    (16, 8, 16_000),
    (16, 16, 16_000),
    (16, 25, 25_000),
    (16, 50, 20_000),
    (16, 100, 20_000),
    (1, 250, 12_500),
    (1, 500, 25_000),
    (1, 1_000, 25_000),
    (1, 2_000, 25_000),
    (1, 4_000, 25_000),
    (2, 250, 25_000),
    (2, 500, 25_000),
    (2, 1_000, 25_000),
    (2, 2_000, 25_000),
    (2, 4_000, 20_000),
    (4, 250, 25_000),
    (4, 500, 25_000),
    (4, 1_000, 25_000),
    (4, 2_000, 20_000),
    (8, 250, 25_000),
    (8, 500, 25_000),
    (8, 1_000, 20_000),
    (1, 8_000, 20_000),
    (1, 16_000, 20_000),
    (2, 8_000, 20_000),
];

fn listed_length(s: &[u8]) -> Option<u64> {
    let pair = (rsr(s, "sample size"), rsr(s, "sample rate"));
    TABLE_3_1.iter().find(|(size, rate, _)| (*size, *rate) == pair).map(|(_, _, length)| *length)
}

fn is_date(year: u64, day: u64) -> bool {
    let leap = year.is_multiple_of(4) && (!year.is_multiple_of(100) || year.is_multiple_of(400));
    day < 366 || leap
}

pub static RSR_TOGETHER: [Together; 8] = [
    ("004, 3.2", "the label's length is N - 20", |s| rsr(s, "label length") == s.len() as u64 - 20),
    ("004, 3.6", "the data's length is N - 260", |s| rsr(s, "data length") == s.len() as u64 - 260),
    ("004, table 3-1", "size and rate are a listed pair", |s| listed_length(s).is_some()),
    ("004, table 3-1", "the data are as long as the pair's", |s| {
        listed_length(s).is_none_or(|length| length == rsr(s, "data length"))
    }),
    ("004, 3.5", "both time tags are dates", |s| {
        is_date(rsr(s, "converter's year"), rsr(s, "converter's day")) && is_date(rsr(s, "year"), rsr(s, "day"))
    }),
    ("004, 3.5", "the oscillator of the downlink band", |s| {
        let default = match rsr(s, "downlink band") as u8 {
            b'S' => 2_000,
            b'X' => 8_100,
            _ => 31_700,
        };
        rsr(s, "intermediate frequency's oscillator") == default
    }),
    ("004, 2.6", "the subchannel's frequency takes the predicted one to zero", |s| {
        let oscillators = rsr(s, "intermediate frequency's oscillator") + rsr(s, "down converter's oscillator");
        let double = |name| f64::from_bits(rsr(s, name));
        1e6 * oscillators as f64 - double("frequency point 1") == double("subchannel's frequency point 1")
    }),
    ("004, 3.5", "the peak is not below the RMS", |s| rsr(s, "RMS") <= rsr(s, "peak")),
];

fn tape(s: &[u8], name: &str) -> u64 {
    get(&TAPE_BLOCKS, s, name)
}

fn rate(code: u64) -> u64 {
    let of_slowest = [75_000, 62_500, 50_000][(code >> 3) as usize % 3];
    of_slowest << (code & 7)
}

pub static TAPE_TOGETHER: [Together; 5] = [
    ("001, D", "the record has 2,528 words", |s| s.len() == 5_056),
    ("001, D", "the day is 1 to 366", |s| {
        (1..=366).contains(&(100 * tape(s, "hundreds of days") + 10 * tape(s, "tens of days") + tape(s, "days")))
    }),
    ("001, D", "the hour is 0 to 23", |s| 10 * tape(s, "tens of hours") + tape(s, "hours") <= 23),
    ("001, appendix A", "the block size is the playback rate", |s| {
        !allows(&PLAYBACK, tape(s, "playback rate").into())
            || (1 << 24) - tape(s, "block size") == rate(tape(s, "playback rate"))
    }),
    ("001, appendix A", "a record with a valid time has sample count 1", |s| {
        tape(s, "time tag valid") == 0 || (tape(s, "sample count valid"), tape(s, "sample count")) == (1, 1)
    }),
];

/// The kind of header that a run of bytes must have.
#[derive(Clone, Copy, Debug)]
pub enum Kind {
    Telemetry,
    Rsr,
    Tape,
}

impl Kind {
    pub fn of_record(kind: u32) -> Kind {
        match kind {
            TELEMETRY => Kind::Telemetry,
            RSR => Kind::Rsr,
            _ => panic!("no kind {kind}"),
        }
    }

    pub fn blocks(self) -> &'static [Block] {
        match self {
            Kind::Telemetry => &TELEMETRY_BLOCKS,
            Kind::Rsr => &RSR_BLOCKS,
            Kind::Tape => &TAPE_BLOCKS,
        }
    }

    pub fn together(self) -> &'static [Together] {
        match self {
            Kind::Telemetry => &TELEMETRY_TOGETHER,
            Kind::Rsr => &RSR_TOGETHER,
            Kind::Tape => &TAPE_TOGETHER,
        }
    }
}

/// What the documents do not allow in a whole record: fields by name, then rules about several fields.
pub fn wrong(kind: Kind, s: &[u8]) -> Vec<&'static str> {
    let mut wrong = fields_out_of_range(kind.blocks(), s);
    wrong.extend(kind.together().iter().filter(|(_, _, holds)| !holds(s)).map(|(_, words, _)| *words));
    wrong
}
