//! Call scripts, as call-script.md describes them: reads frames, writes one line per call.

use crate::record::{self, Fields, Record, Refused, Rsr, Telemetry};
use crate::stream::{self, Cursor, Step, Stop};
use crate::{convert, dates, gain, keys, ledger, ops};
use std::collections::BTreeMap;
use std::io::{self, Write};

mod idr;
mod iq;
mod receive;
mod replay;
mod season;
mod settings;

pub use idr::MOST_TAPE_SLICE;
pub use receive::MOST_NUMBERS;
pub use settings::MOST_SETTINGS;

pub const HEADER: usize = 40;
pub const MOST_A: usize = 131_072;
pub const MOST_B: usize = 66_000;
pub const MOST_SLICE: u32 = 70_000;
pub const MOST_LIST: u32 = 64;
pub const MOST_SHEET: usize = 8_192;
pub const SLICE_FILL: u8 = 165;
pub const LIST_FILL: u32 = 7;
pub const BAD_FRAME: &str = "bad frame";

#[derive(Clone, Debug, Default, PartialEq)]
pub struct Frame {
    pub op: u32,
    pub x: u32,
    pub y: u32,
    pub z: u32,
    pub w: u32,
    pub key: u64,
    pub a: Vec<u8>,
    pub b: Vec<u8>,
}

impl Frame {
    pub fn write(&self, out: &mut impl Write) -> io::Result<()> {
        for word in [self.op, self.x, self.y, self.z, self.w, 0] {
            out.write_all(&word.to_be_bytes())?;
        }
        out.write_all(&self.key.to_be_bytes())?;
        out.write_all(&(self.a.len() as u32).to_be_bytes())?;
        out.write_all(&(self.b.len() as u32).to_be_bytes())?;
        out.write_all(&self.a)?;
        out.write_all(&self.b)
    }
}

/// The frame at the start of a script, and its length; none if the script ends inside it or a run is too long.
pub fn read_frame(s: &[u8]) -> Option<(Frame, usize)> {
    if s.len() < HEADER {
        return None;
    }
    let word = |at| record::number(s, at, 4) as u32;
    let (length_a, length_b) = (word(32) as usize, word(36) as usize);
    let end = HEADER + length_a + length_b;
    if length_a > MOST_A || length_b > MOST_B || s.len() < end {
        return None;
    }
    let frame = Frame {
        op: word(0),
        x: word(4),
        y: word(8),
        z: word(12),
        w: word(16),
        key: record::number(s, 24, 8),
        a: s[HEADER..HEADER + length_a].to_vec(),
        b: s[HEADER + length_a..end].to_vec(),
    };
    Some((frame, end))
}

/// Passes each frame with its line to `each`. After a bad frame it passes the line alone, and stops.
pub fn run(script: &[u8], each: impl FnMut(Option<&Frame>, &str) -> io::Result<()>) -> io::Result<()> {
    run_on(&mut Calls::default(), script, each)
}

pub fn run_on(
    calls: &mut Calls,
    script: &[u8],
    mut each: impl FnMut(Option<&Frame>, &str) -> io::Result<()>,
) -> io::Result<()> {
    let mut rest = script;
    while !rest.is_empty() {
        let answer = read_frame(rest).and_then(|(frame, end)| calls.line(&frame).map(|line| (frame, end, line)));
        let Some((frame, end, line)) = answer else {
            return each(None, BAD_FRAME);
        };
        each(Some(&frame), &line)?;
        rest = &rest[end..];
    }
    Ok(())
}

/// The sheet that all ledger calls of a script share, and the settings sheet.
pub struct Calls {
    pub sheet: Vec<u8>,
    pub settings: Vec<u8>,
    /// How many records were received with each outcome. No line of a script says this.
    pub outcomes: BTreeMap<u32, usize>,
}

impl Default for Calls {
    fn default() -> Calls {
        Calls { sheet: vec![0; ledger::SHEET], settings: vec![0; crate::settings::SETTINGS], outcomes: BTreeMap::new() }
    }
}

impl Calls {
    /// The line of a call; none for a bad frame.
    pub fn line(&mut self, f: &Frame) -> Option<String> {
        match f.op {
            ops::READ_ONE => Some(line_of_record(record::read_one(&f.a))),
            ops::SECONDARY_PART => Some(line_of_part(record::secondary_part(&f.a))),
            ops::DATA_PART => Some(line_of_part(record::data_part(&f.a))),
            ops::READ_HEADERS => Some(line_of_headers(record::read_headers(&f.a, f.x))),
            ops::WRITE_ONE => write_one(f),
            ops::TELEMETRY_KEY => Some(line_of_key(keys::telemetry_key(f.x, f.y, f.z, f.w))),
            ops::RSR_KEY => Some(line_of_key(keys::rsr_key(f.x, f.y, f.z, f.w))),
            ops::WALK => Some(line_of_stop(&stream::walk(&f.a))),
            ops::LIST_NUMBERS => number_lists(f),
            ops::KEY_PARTS => Some(line_of_parts(keys::parts(f.key))),
            ops::STEP => Some(line_of_step(Cursor { place: f.key }.step(&f.a))),
            ops::DATE_OF => Some(line_of_date(dates::date_of(f.x))),
            ops::UNPACK => iq::unpack(f),
            ops::PACK => iq::pack(f),
            ops::GAIN => Some(line_of_gain(gain::gain(&f.a, f.x))),
            ops::READ_TAPE => Some(idr::read(f)),
            ops::WRITE_TAPE => idr::write(f),
            ops::NEW_SHEET..=ops::REPLAY | ops::ROW | ops::DESK | ops::REPLAY_ON => self.ledger_line(f),
            ops::SEASON => Some(season::line(f)),
            ops::MISSING_NUMBERS | ops::RECEIVE => receive::line(self, f),
            ops::NEW_SETTINGS..=ops::ASK => settings::line(&mut self.settings, f),
            _ => None,
        }
    }

    /// Each line ends with the crc of the whole sheet after the call.
    fn ledger_line(&mut self, f: &Frame) -> Option<String> {
        let s = &mut self.sheet;
        let nothing = |_| String::new();
        let row = |row: usize| format!(" {row}");
        let answer = match f.op {
            ops::NEW_SHEET => {
                if f.a.len() > MOST_SHEET {
                    return None;
                }
                *s = f.a.clone();
                Ok(String::new())
            }
            ops::FRESH => ledger::fresh(s).map(nothing),
            ops::ENROL => ledger::enrol(s, f.key, f.x).map(row),
            ops::FIND => ledger::find(s, f.key).map(row),
            ops::OPEN => ledger::open(s, f.x, f.y).map(nothing),
            ops::TICK => ledger::tick(s, f.x, f.y).map(nothing),
            ops::UNTICK => ledger::untick(s, f.x, f.y).map(nothing),
            ops::SAVE => ledger::save(s, f.x).map(nothing),
            ops::DROP => ledger::drop_desk(s, f.x).map(nothing),
            ops::ROW_REPORT => ledger::report(s, f.x)
                .map(|report| format!(" {} {} {}", report.ticked, report.missing, or_none(report.lowest))),
            ops::FIRST_GAP => ledger::first_gap(s).map(|gap| match gap {
                Some((number, row)) => format!(" {number} {row}"),
                None => " none".to_string(),
            }),
            ops::STRIKE => ledger::strike(s, f.x).map(nothing),
            ops::CONVERT => {
                if f.z > MOST_SHEET as u32 {
                    return None;
                }
                *s = vec![SLICE_FILL; f.z as usize];
                convert::convert(&f.a, s).map(nothing)
            }
            ops::ROW => ledger::row_of(s, f.x).map(|(key, first)| format!(" {key} {first}")),
            ops::DESK => desk_words(s, f.x),
            _ => replay::answer(s, f),
        };
        let crc = crc32(s);
        Some(match answer {
            Ok(values) => format!("0{values} {crc}"),
            Err(refusal) => format!("{refusal} {crc}"),
        })
    }
}

/// `none`, or the row, the unsaved ticks and unticks, and whether a save would be stale now.
fn desk_words(s: &[u8], desk: u32) -> Result<String, u32> {
    let Some((row, stale)) = ledger::desk_of(s, desk)? else {
        return Ok(" none".to_string());
    };
    let (ticks, unticks) = ledger::unsaved(s, desk)?;
    Ok(format!(" {row} {ticks} {unticks} {}", stale as u32))
}

fn or_none<T: ToString>(value: Option<T>) -> String {
    value.map_or("none".to_string(), |value| value.to_string())
}

fn record_words(record: &Record) -> String {
    let [major, minor, mission, format] = record.primary;
    format!("0 {} {} {major} {minor} {mission} {format}", record.kind, record.length)
}

fn line_of_record(answer: Result<Record, Refused>) -> String {
    match answer {
        Ok(record) => record_words(&record),
        Err(refused) => refusal_words(refused),
    }
}

/// The refusal's number and its second number, if it has one.
fn refusal_words(refused: Refused) -> String {
    match refused {
        Refused::Short { number, bytes } => format!("{number} {bytes}"),
        Refused::Field { number, offset } => format!("{number} {offset}"),
        Refused::Number(number) => number.to_string(),
    }
}

fn line_of_part(part: &[u8]) -> String {
    format!("{} {}", part.len(), crc32(part))
}

fn line_of_headers(answer: Result<(Record, Fields), Refused>) -> String {
    match answer {
        Ok((record, Fields::Telemetry(fields))) => format!("{} {}", record_words(&record), telemetry_words(&fields)),
        Ok((record, Fields::Rsr(fields))) => format!("{} {}", record_words(&record), rsr_words(&fields)),
        Err(refused) => refusal_words(refused),
    }
}

fn telemetry_words(t: &Telemetry) -> String {
    format!(
        "{} {} {} {} {} {} {} {} {} {} {} {}",
        t.spacecraft,
        t.source,
        t.received,
        t.number,
        or_none(t.uplink_band),
        t.mode,
        t.stream,
        t.equipment,
        t.key,
        t.received_days,
        t.received_milliseconds,
        t.received_extended
    )
}

fn rsr_words(r: &Rsr) -> String {
    format!(
        "{} {} {} {} {} {} {} {} {} {} {} {} {} {} {} {} {} {} {} {} {} {} {}",
        r.software,
        r.number,
        r.complex,
        r.station,
        r.receiver,
        r.subchannel,
        r.spacecraft,
        r.pass,
        r.uplink_band,
        r.downlink_band,
        r.mode,
        r.uplink_station,
        r.expected_px_no,
        r.bandwidth,
        r.override_flag,
        r.attenuation,
        r.rms,
        r.peak,
        r.year,
        r.day,
        r.override_frequency,
        r.key,
        r.day_count
    )
}

fn line_of_key(answer: Result<u64, u32>) -> String {
    match answer {
        Ok(key) => format!("0 {key}"),
        Err(refusal) => refusal.to_string(),
    }
}

fn line_of_parts(answer: Result<(u32, [u32; 4]), u32>) -> String {
    match answer {
        Ok((kind, [a, b, c, d])) => format!("0 {kind} {a} {b} {c} {d}"),
        Err(refusal) => refusal.to_string(),
    }
}

fn line_of_date(answer: Result<(u32, u32), u32>) -> String {
    match answer {
        Ok((year, day)) => format!("0 {year} {day}"),
        Err(refusal) => refusal.to_string(),
    }
}

fn line_of_gain(answer: Result<Option<u32>, Refused>) -> String {
    match answer {
        Ok(gain) => format!("0 {}", or_none(gain)),
        Err(refused) => refusal_words(refused),
    }
}

fn line_of_stop(stop: &Stop) -> String {
    format!("{} {} {} {}", stop.count, stop.place, stop.number, stop.detail)
}

fn line_of_step(step: Step) -> String {
    match step {
        Step::Found(record, next) => format!("{} {}", record_words(&record), next.place),
        Step::Done(cursor) => format!("done {}", cursor.place),
        Step::Refused(refused, cursor) => format!("{} {}", refusal_words(refused), cursor.place),
    }
}

fn write_one(f: &Frame) -> Option<String> {
    if f.z > MOST_SLICE {
        return None;
    }
    let mut slice = vec![SLICE_FILL; f.z as usize];
    let answer = record::write_one(f.x, f.y.to_be_bytes(), &f.a, &f.b, &mut slice);
    let crc = crc32(&slice);
    Some(match answer {
        Ok(n) => format!("0 {n} {crc}"),
        Err(refusal) => format!("{refusal} {crc}"),
    })
}

fn number_lists(f: &Frame) -> Option<String> {
    if [f.x, f.y, f.z, f.w].iter().any(|length| *length > MOST_LIST) {
        return None;
    }
    let mut places = vec![LIST_FILL as u64; f.x as usize];
    let mut lengths = vec![LIST_FILL as u64; f.y as usize];
    let mut kinds = vec![LIST_FILL; f.z as usize];
    let mut numbers = vec![LIST_FILL; f.w as usize];
    let stop = stream::number_lists(&f.a, &mut places, &mut lengths, &mut kinds, &mut numbers);
    let mut line = line_of_stop(&stop);
    let lists = [places, lengths].concat().into_iter().chain([kinds, numbers].concat().into_iter().map(u64::from));
    for value in lists {
        line += &format!(" {value}");
    }
    Some(line)
}

/// The refusal number in a call's line; 0 if it has none, and for part calls, whose lines have no such number.
pub fn refusal_in(op: u32, line: &str) -> u32 {
    let at = match op {
        ops::SECONDARY_PART | ops::DATA_PART => return 0,
        ops::WALK | ops::LIST_NUMBERS => 2,
        _ => 0,
    };
    line.split(' ').nth(at).and_then(|word| word.parse().ok()).unwrap_or(0)
}

const CRC_TABLE: [u32; 256] = crc_table();

const fn crc_table() -> [u32; 256] {
    let mut table = [0; 256];
    let mut i = 0;
    while i < 256 {
        let mut value = i as u32;
        let mut bit = 0;
        while bit < 8 {
            value = if value & 1 == 1 { value >> 1 ^ 0xEDB8_8320 } else { value >> 1 };
            bit += 1;
        }
        table[i] = value;
        i += 1;
    }
    table
}

/// The CRC-32 of zlib.
pub fn crc32(bytes: &[u8]) -> u32 {
    !bytes.iter().fold(!0, |crc, byte| crc >> 8 ^ CRC_TABLE[((crc ^ *byte as u32) & 0xFF) as usize])
}
