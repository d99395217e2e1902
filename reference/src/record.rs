//! One record. Document 01: 'How a record nests' and 'Calls on records'; request 05: which field of a refused record
//! is wrong; request 01: dates.

use crate::{dates, keys};

pub const TELEMETRY: u32 = 1;
pub const RSR: u32 = 2;

/// Bytes 0 to 3 and 4 to 7 of every label.
pub const AUTHORITY: [u8; 4] = *b"NJPL";
pub const VERSION_AND_CLASS: [u8; 4] = *b"2I00";

// Offsets in every record. The aggregation label follows the label.
const VERSION: usize = 4;
pub const DESCRIPTION: usize = 8;
pub const LABEL_LENGTH: usize = 12;
pub const LABEL: usize = 20;
pub const PRIMARY: usize = 24;
pub const PRIMARY_VALUE: usize = 28;
pub const SECONDARY: usize = 32;
pub const SECONDARY_VALUE: usize = 36;

pub const MOST_DATA: usize = 65_535;

const AGGREGATION_TYPE: u16 = 1;
const PRIMARY_TYPE: u16 = 2;
const PRIMARY_LENGTH: u16 = 4;
const DATA_TYPE: u16 = 10;

/// What differs between the kinds: the columns of the paper's first table.
#[derive(Debug, PartialEq)]
pub struct Layout {
    pub kind: u32,
    pub description: u32,
    pub aggregation_length: u16,
    pub secondary_type: u16,
    pub secondary_length: u16,
    pub data_label: usize,
    pub data_value: usize,
    pub shortest_label: u64,
    pub longest_label: u64,
}

/// Bytes 8 to 11.
const TELEMETRY_DESCRIPTION: u32 = u32::from_be_bytes(*b"0800");
const RSR_DESCRIPTION: u32 = u32::from_be_bytes(*b"C997");

pub static TELEMETRY_LAYOUT: Layout = Layout {
    kind: TELEMETRY,
    description: TELEMETRY_DESCRIPTION,
    aggregation_length: 92,
    secondary_type: 78,
    secondary_length: 80,
    data_label: 116,
    data_value: 120,
    shortest_label: 100,
    longest_label: 65_635,
};

pub static RSR_LAYOUT: Layout = Layout {
    kind: RSR,
    description: RSR_DESCRIPTION,
    aggregation_length: 232,
    secondary_type: 104,
    secondary_length: 220,
    data_label: 256,
    data_value: 260,
    shortest_label: 240,
    longest_label: 65_775,
};

pub fn layout_of(kind: u32) -> Option<&'static Layout> {
    match kind {
        TELEMETRY => Some(&TELEMETRY_LAYOUT),
        RSR => Some(&RSR_LAYOUT),
        _ => None,
    }
}

/// The big-endian number in `width` bytes from `at` on.
#[inline]
pub fn number(s: &[u8], at: usize, width: usize) -> u64 {
    let mut bytes = [0; 8];
    bytes[8 - width..].copy_from_slice(&s[at..at + width]);
    u64::from_be_bytes(bytes)
}

#[inline]
fn part<const WIDTH: usize>(s: &[u8], at: usize) -> &[u8; WIDTH] {
    s[at..at + WIDTH].try_into().expect("as many bytes as the array has")
}

#[inline]
fn array<const WIDTH: usize>(s: &[u8], at: usize) -> [u8; WIDTH] {
    *part(s, at)
}

/// A refusal of a record, with the second number that request 05 gives it.
#[derive(Clone, Copy, Debug, PartialEq)]
pub enum Refused {
    /// 1 or 6, and how many bytes the slice has.
    Short { number: u32, bytes: usize },
    /// 2 to 5 or 7 to 12, and the offset of the wrong field's first byte from the record's start.
    Field { number: u32, offset: usize },
    /// A refusal without a second number.
    Number(u32),
}

impl Refused {
    pub fn number(self) -> u32 {
        match self {
            Refused::Short { number, .. } | Refused::Field { number, .. } | Refused::Number(number) => number,
        }
    }

    /// The second number for a refused record at this place of a stream. Offsets count from the stream's start; byte
    /// counts do not change; 0 if there is none.
    pub fn detail(self, place: u64) -> u64 {
        match self {
            Refused::Short { bytes, .. } => bytes as u64,
            Refused::Field { offset, .. } => place + offset as u64,
            Refused::Number(_) => 0,
        }
    }
}

/// The answer of read one: the kind, N, and major, minor, mission, format.
#[derive(Clone, Copy, Debug, PartialEq)]
pub struct Record {
    pub kind: u32,
    pub length: usize,
    pub primary: [u8; 4],
}

/// Tests refusals 1 to 4. Gives the kind's layout.
#[inline(always)]
pub fn read_kind(s: &[u8]) -> Result<&'static Layout, Refused> {
    if s.len() < LABEL {
        return Err(Refused::Short { number: 1, bytes: s.len() });
    }
    if array(s, 0) != AUTHORITY {
        return Err(Refused::Field { number: 2, offset: 0 });
    }
    if array(s, VERSION) != VERSION_AND_CLASS {
        return Err(Refused::Field { number: 3, offset: VERSION });
    }
    match u32::from_be_bytes(array(s, DESCRIPTION)) {
        TELEMETRY_DESCRIPTION => Ok(&TELEMETRY_LAYOUT),
        RSR_DESCRIPTION => Ok(&RSR_LAYOUT),
        _ => Err(Refused::Field { number: 4, offset: DESCRIPTION }),
    }
}

/// Tests refusal 5. Gives N.
#[inline(always)]
pub fn read_length(s: &[u8], layout: &Layout) -> Result<usize, Refused> {
    let label_length = u64::from_be_bytes(array(s, LABEL_LENGTH));
    if (layout.shortest_label..=layout.longest_label).contains(&label_length) {
        Ok(label_length as usize + LABEL)
    } else {
        Err(Refused::Field { number: 5, offset: LABEL_LENGTH })
    }
}

/// Tests refusals 6 to 11 of a record whose label is accepted.
#[inline(always)]
pub fn read_blocks(s: &[u8], layout: &Layout, n: usize) -> Result<Record, Refused> {
    if s.len() < n {
        return Err(Refused::Short { number: 6, bytes: s.len() });
    }
    judge_block(s, LABEL, (7, AGGREGATION_TYPE), (7, layout.aggregation_length))?;
    judge_block(s, PRIMARY, (8, PRIMARY_TYPE), (8, PRIMARY_LENGTH))?;
    judge_block(s, SECONDARY, (9, layout.secondary_type), (9, layout.secondary_length))?;
    judge_block(s, layout.data_label, (10, DATA_TYPE), (11, (n - layout.data_value) as u16))?;
    Ok(Record { kind: layout.kind, length: n, primary: array(s, PRIMARY_VALUE) })
}

fn block_label(kind: u16, length: u16) -> u32 {
    (kind as u32) << 16 | length as u32
}

/// Tests a block's label, its type before its length; each comes with its refusal.
#[inline(always)]
fn judge_block(s: &[u8], at: usize, kind: (u32, u16), length: (u32, u16)) -> Result<(), Refused> {
    let found = u32::from_be_bytes(array(s, at));
    let expected = block_label(kind.1, length.1);
    if found == expected {
        Ok(())
    } else if found >> 16 != expected >> 16 {
        Err(Refused::Field { number: kind.0, offset: at })
    } else {
        Err(Refused::Field { number: length.0, offset: at + 2 })
    }
}

#[inline(always)]
pub fn read_one(s: &[u8]) -> Result<Record, Refused> {
    // Each kind separately, so that the numbers of its layout are constants.
    match read_kind(s)?.kind {
        TELEMETRY => read_as(s, &TELEMETRY_LAYOUT),
        _ => read_as(s, &RSR_LAYOUT),
    }
}

#[inline(always)]
fn read_as(s: &[u8], layout: &Layout) -> Result<Record, Refused> {
    let n = read_length(s, layout)?;
    read_blocks(s, layout, n)
}

pub fn secondary_part(s: &[u8]) -> &[u8] {
    match read_one(s) {
        Ok(record) => &s[SECONDARY_VALUE..accepted_layout(&record).data_label],
        Err(_) => &s[..0],
    }
}

pub fn data_part(s: &[u8]) -> &[u8] {
    match read_one(s) {
        Ok(record) => &s[accepted_layout(&record).data_value..record.length],
        Err(_) => &s[..0],
    }
}

fn accepted_layout(record: &Record) -> &'static Layout {
    layout_of(record.kind).expect("one of the two kinds")
}

/// The record number's offset and width in a record of this kind.
pub fn number_field(kind: u32) -> (usize, usize) {
    if kind == TELEMETRY {
        (SECONDARY + 22, 4)
    } else {
        (SECONDARY + 8, 2)
    }
}

/// The record number of an accepted record.
#[inline]
pub fn record_number(s: &[u8], kind: u32) -> u32 {
    if kind == TELEMETRY {
        u32::from_be_bytes(array(s, SECONDARY + 22))
    } else {
        u16::from_be_bytes(array(s, SECONDARY + 8)) as u32
    }
}

#[derive(Clone, Copy, Debug, PartialEq)]
pub struct Telemetry {
    pub spacecraft: u16,
    pub source: u8,
    pub received: u64,
    pub number: u32,
    pub uplink_band: Option<u8>,
    pub mode: u8,
    pub stream: u8,
    pub equipment: u16,
    pub key: u64,
    // The received time, split: days since 1 January 1958, milliseconds of the day, extended resolution.
    pub received_days: u16,
    pub received_milliseconds: u32,
    pub received_extended: u16,
}

#[derive(Clone, Copy, Debug, PartialEq)]
pub struct Rsr {
    pub software: u16,
    pub number: u16,
    pub complex: u8,
    pub station: u8,
    pub receiver: u8,
    pub subchannel: u8,
    pub spacecraft: u8,
    pub pass: u16,
    pub uplink_band: u8,
    pub downlink_band: u8,
    pub mode: u8,
    pub uplink_station: u8,
    pub expected_px_no: i8,
    pub bandwidth: u8,
    pub override_flag: u8,
    pub attenuation: u8,
    pub rms: u8,
    pub peak: u8,
    pub year: u16,
    pub day: u16,
    pub override_frequency: u64,
    pub key: u64,
    /// Computed from year and day.
    pub day_count: u32,
}

#[derive(Clone, Copy, Debug, PartialEq)]
pub enum Fields {
    Telemetry(Telemetry),
    Rsr(Rsr),
}

pub fn read_headers(s: &[u8], wanted: u32) -> Result<(Record, Fields), Refused> {
    let record = read_one(s)?;
    if record.kind != wanted {
        return Err(Refused::Number(15));
    }
    let fields = read_fields(s, &record)?;
    Ok((record, fields))
}

/// The fields of a record that read one accepted.
#[inline(always)]
pub fn read_fields(s: &[u8], record: &Record) -> Result<Fields, Refused> {
    Ok(match record.kind {
        TELEMETRY => Fields::Telemetry(read_telemetry(part(s, SECONDARY))?),
        _ => Fields::Rsr(read_rsr(&record.primary, part(s, SECONDARY))?),
    })
}

const TELEMETRY_BLOCK: usize = 84;
const RSR_BLOCK: usize = 224;

/// 12 if the field at this offset of the record is not in its range.
fn judge_field(offset: usize, in_range: bool) -> Result<(), Refused> {
    if in_range {
        Ok(())
    } else {
        Err(Refused::Field { number: 12, offset })
    }
}

/// 'Telemetry secondary (offsets in the block)'.
fn read_telemetry(block: &[u8; TELEMETRY_BLOCK]) -> Result<Telemetry, Refused> {
    let mode = block[28] & 0b11;
    let uplink_band = if mode >= 2 { Some(block[26]) } else { None };
    judge_field(SECONDARY + 26, matches!(uplink_band, None | Some(b'U' | b'S' | b'X' | b'K')))?;
    let spacecraft = u16::from_be_bytes(array(block, 6)) & 0b11_1111_1111;
    let source = block[10];
    let stream = block[30];
    let equipment = u16::from_be_bytes(array(block, 74));
    Ok(Telemetry {
        spacecraft,
        source,
        received: u64::from_be_bytes(array(block, 14)),
        number: u32::from_be_bytes(array(block, 22)),
        uplink_band,
        mode,
        stream,
        equipment,
        key: keys::of_telemetry(spacecraft.into(), source.into(), equipment.into(), stream.into()),
        received_days: u16::from_be_bytes(array(block, 14)),
        received_milliseconds: u32::from_be_bytes(array(block, 16)),
        received_extended: u16::from_be_bytes(array(block, 20)),
    })
}

/// 'RSR secondary', and the primary values that are tested, from the lowest offset up.
fn read_rsr(primary: &[u8; 4], block: &[u8; RSR_BLOCK]) -> Result<Rsr, Refused> {
    let year = u16::from_be_bytes(array(block, 28));
    let day = u16::from_be_bytes(array(block, 30));
    let band = |letter: u8| matches!(letter, b'S' | b'X' | b'K');
    judge_field(PRIMARY_VALUE, primary[0] == 21)?;
    judge_field(PRIMARY_VALUE + 1, primary[1] == 4)?;
    judge_field(PRIMARY_VALUE + 3, primary[3] == 0)?;
    judge_field(SECONDARY + 18, band(block[18]))?;
    judge_field(SECONDARY + 19, band(block[19]))?;
    judge_field(SECONDARY + 20, (1..=3).contains(&block[20]))?;
    judge_field(SECONDARY + 23, (1..=127).contains(&block[23]))?;
    judge_field(SECONDARY + 25, block[25] <= 63)?;
    judge_field(SECONDARY + 26, block[26] <= 128)?;
    judge_field(SECONDARY + 27, block[27] <= 128)?;
    judge_field(SECONDARY + 28, (dates::FIRST_YEAR..=dates::LAST_YEAR).contains(&year.into()))?;
    let Some(day_count) = dates::day_count(year.into(), day.into()) else {
        return Err(Refused::Field { number: 12, offset: SECONDARY + 30 });
    };
    let (station, receiver, subchannel, spacecraft) = (block[11], block[12], block[13], block[15]);
    Ok(Rsr {
        software: u16::from_be_bytes(array(block, 6)),
        number: u16::from_be_bytes(array(block, 8)),
        complex: block[10],
        station,
        receiver,
        subchannel,
        spacecraft,
        pass: u16::from_be_bytes(array(block, 16)),
        uplink_band: block[18],
        downlink_band: block[19],
        mode: block[20],
        uplink_station: block[21],
        expected_px_no: block[22] as i8,
        bandwidth: block[23],
        override_flag: block[24],
        attenuation: block[25],
        rms: block[26],
        peak: block[27],
        year,
        day,
        override_frequency: u64::from_be_bytes(array(block, 64)),
        key: keys::of_rsr(spacecraft.into(), station.into(), receiver.into(), subchannel.into()),
        day_count,
    })
}

/// Writes the record into the first N bytes of `out`; answers N.
pub fn write_one(kind: u32, primary: [u8; 4], secondary: &[u8], data: &[u8], out: &mut [u8]) -> Result<usize, u32> {
    let Some(layout) = layout_of(kind) else {
        return Err(14);
    };
    if secondary.len() != layout.secondary_length as usize || data.len() > MOST_DATA {
        return Err(14);
    }
    let n = layout.data_value + data.len();
    if out.len() < n {
        return Err(13);
    }
    out[..VERSION].copy_from_slice(&AUTHORITY);
    out[VERSION..DESCRIPTION].copy_from_slice(&VERSION_AND_CLASS);
    out[DESCRIPTION..LABEL_LENGTH].copy_from_slice(&layout.description.to_be_bytes());
    out[LABEL_LENGTH..LABEL].copy_from_slice(&((n - LABEL) as u64).to_be_bytes());
    write_block_label(out, LABEL, AGGREGATION_TYPE, layout.aggregation_length);
    write_block_label(out, PRIMARY, PRIMARY_TYPE, PRIMARY_LENGTH);
    out[PRIMARY_VALUE..SECONDARY].copy_from_slice(&primary);
    write_block_label(out, SECONDARY, layout.secondary_type, layout.secondary_length);
    out[SECONDARY_VALUE..layout.data_label].copy_from_slice(secondary);
    write_block_label(out, layout.data_label, DATA_TYPE, data.len() as u16);
    out[layout.data_value..n].copy_from_slice(data);
    Ok(n)
}

fn write_block_label(out: &mut [u8], at: usize, kind: u16, length: u16) {
    out[at..at + 4].copy_from_slice(&block_label(kind, length).to_be_bytes());
}
