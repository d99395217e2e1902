//! Random call scripts: scenes of a few calls each, dealt from a deck, so that every kind of call and of damage comes
//! up soon. Ledger calls are in nights.rs, those of later requests in random/.

use crate::dates::{FIRST_YEAR, LAST_YEAR};
use crate::keys::{FIRST_RSR, PAST_RSR};
use crate::make::{self, put, Deck, Rng};
use crate::ops;
use crate::record::{
    self, DESCRIPTION, LABEL, LABEL_LENGTH, PRIMARY, PRIMARY_VALUE, RSR, RSR_LAYOUT, SECONDARY, SECONDARY_VALUE,
    TELEMETRY,
};
use crate::script::{Calls, Frame, MOST_B, MOST_LIST, MOST_SLICE};

mod dates;
mod gain;
mod idr;
mod iq;
pub mod old_sheets;
mod receive;
pub mod season;
pub mod settings;
pub mod traces;

const EDGES: [u32; 8] = [0, 1, 255, 256, 65_535, 65_536, u32::MAX - 1, u32::MAX];

#[derive(Clone, Copy)]
enum Scene {
    Records,
    Headers,
    Writes,
    Keys,
    Streams,
    Long,
    Dates,
    Gains,
    Samples,
    Night,
    Sheets,
    OldSheets,
    Receives,
    Seasons,
    Traces,
    Tapes,
    Settings,
}

/// How often each scene is in the deck, which is some 300 calls; and the part of the papers that it belongs to.
const SCENES: &[(Scene, usize, &str)] = &[
    (Scene::Records, 40, "records"),
    (Scene::Headers, 8, "records"),
    (Scene::Writes, 5, "records"),
    (Scene::Keys, 3, "records"),
    (Scene::Streams, 8, "records"),
    (Scene::Long, 1, "records"),
    (Scene::Dates, 2, "records"),
    (Scene::Gains, 3, "gain"),
    (Scene::Samples, 6, "samples"),
    (Scene::Night, 2, "ledger"),
    (Scene::Sheets, 10, "ledger"),
    (Scene::OldSheets, 4, "ledger"),
    (Scene::Receives, 8, "receive"),
    (Scene::Seasons, 2, "seasons"),
    (Scene::Traces, 4, "traces"),
    (Scene::Tapes, 8, "tapes"),
    (Scene::Settings, 3, "settings"),
];

/// The parts of the papers from which a script can be made.
pub fn parts() -> Vec<&'static str> {
    let mut parts: Vec<&str> = SCENES.iter().map(|(_, _, part)| *part).collect();
    parts.dedup();
    parts
}

pub struct Generator {
    pub rng: Rng,
    /// The sheet after the frames so far; nights choose their calls by it.
    pub calls: Calls,
    pub frames: Vec<Frame>,
    pub wanted: usize,
    damages: Deck<(u32, Damage)>,
    headers: Deck<HeaderCase>,
    writes: Deck<WriteCase>,
    keys: Deck<KeyCase>,
    streams: Deck<StreamCase>,
    longs: Deck<LongCase>,
    pub sheets: Deck<crate::nights::SheetCase>,
    pub sheet_ops: Deck<u32>,
    pub pieces: Deck<crate::nights::Piece>,
    pub nights: Deck<crate::nights::NightCase>,
    dates: Deck<dates::DateCase>,
    gains: Deck<gain::GainCase>,
    samples: [Deck<iq::IqCase>; 6],
    iq_kinds: Deck<usize>,
    old_sheets: Deck<old_sheets::OldCase>,
    receives: Deck<receive::ReceiveCase>,
    seasons: [Deck<season::SeasonCase>; 4],
    season_kinds: Deck<usize>,
    traces: [Deck<traces::TraceCase>; 4],
    trace_kinds: Deck<usize>,
    tapes: Vec<Deck<idr::TapeCase>>,
    tape_kinds: Deck<usize>,
    settings: Deck<settings::SettingsCase>,
    damaged_settings: Deck<settings::Damage>,
}

/// `count` frames, the same for the same seed.
pub fn script(seed: u64, count: usize) -> Vec<Frame> {
    script_of(seed, count, None)
}

/// The same, with calls of one part only.
pub fn script_of(seed: u64, count: usize, part: Option<&str>) -> Vec<Frame> {
    let mut g = Generator {
        rng: Rng::new(seed),
        calls: Calls::default(),
        frames: Vec::new(),
        wanted: count,
        damages: Deck::new(damages_of_both_kinds()),
        headers: Deck::new(header_cases()),
        writes: Deck::new(write_cases()),
        keys: Deck::new(key_cases()),
        streams: Deck::new(STREAM_CASES.to_vec()),
        longs: Deck::new(LONG_CASES.to_vec()),
        sheets: Deck::new(crate::nights::sheet_cases()),
        sheet_ops: Deck::new(sheet_ops()),
        pieces: Deck::new(crate::nights::PIECES.to_vec()),
        nights: Deck::new(crate::nights::NIGHT_CASES.to_vec()),
        dates: Deck::new(dates::date_cases()),
        gains: Deck::new(gain::gain_cases()),
        samples: iq::iq_cases().map(Deck::new),
        iq_kinds: Deck::new(iq::IQ_KINDS.to_vec()),
        old_sheets: Deck::new(old_sheets::old_cases()),
        receives: Deck::new(receive::receive_cases()),
        seasons: season::season_cases().map(Deck::new),
        season_kinds: Deck::new(season::SEASON_KINDS.to_vec()),
        traces: traces::trace_cases().map(Deck::new),
        trace_kinds: Deck::new(traces::TRACE_KINDS.to_vec()),
        tapes: idr::tape_cases().into_iter().map(Deck::new).collect(),
        tape_kinds: Deck::new((0..idr::tape_cases().len()).collect()),
        settings: Deck::new(settings::SETTINGS_CASES.to_vec()),
        damaged_settings: Deck::new(settings::damages()),
    };
    let scenes = SCENES.iter().filter(|(_, _, of)| part.is_none_or(|part| part == *of));
    let mut scenes = Deck::new(scenes.flat_map(|(scene, times, _)| vec![*scene; *times]).collect());
    while g.frames.len() < count {
        let scene = scenes.deal(&g.rng);
        g.play(scene);
    }
    g.frames
}

/// The ops that are tried on right and damaged sheets.
fn sheet_ops() -> Vec<u32> {
    (ops::ENROL..=ops::STRIKE)
        .chain([ops::ROW, ops::DESK, ops::MISSING_NUMBERS, ops::RECEIVE, ops::REPLAY_ON])
        .collect()
}

impl Generator {
    /// Adds a frame, as long as more are wanted.
    pub fn emit(&mut self, frame: Frame) {
        if self.frames.len() < self.wanted {
            self.calls.line(&frame).expect("a good frame");
            self.frames.push(frame);
        }
    }

    fn play(&mut self, scene: Scene) {
        match scene {
            Scene::Records => self.records(),
            Scene::Headers => self.headers(),
            Scene::Writes => self.writes(),
            Scene::Keys => self.keys(),
            Scene::Streams => self.streams(),
            Scene::Long => self.long(),
            Scene::Dates => self.dates(),
            Scene::Gains => self.gains(),
            Scene::Samples => self.samples(),
            Scene::Night => self.night(),
            Scene::Sheets => self.sheets(),
            Scene::OldSheets => self.old_sheets(),
            Scene::Receives => self.receives(),
            Scene::Seasons => self.seasons(),
            Scene::Traces => self.traces(),
            Scene::Tapes => self.tapes(),
            Scene::Settings => self.settings(),
        }
    }

    /// One record, whole or damaged: at least one call whose line has the refusal, and sometimes others.
    fn records(&mut self) {
        let (kind, damage) = self.damages.deal(&self.rng);
        let length = make::short_length(&self.rng);
        let mut bytes = make::good_record(&self.rng, kind, length);
        damaged(&self.rng, &mut bytes, kind, damage);
        let first = self.rng.pick(&[ops::READ_ONE, ops::READ_HEADERS, ops::WALK, ops::STEP]);
        for op in [ops::READ_ONE, ops::SECONDARY_PART, ops::DATA_PART, ops::READ_HEADERS] {
            if op == first || self.rng.percent(12) {
                let x = if op == ops::READ_HEADERS { self.rng.pick(&[kind, kind, kind, 3 - kind]) } else { 0 };
                self.emit(Frame { op, x, a: bytes.clone(), ..Frame::default() });
            }
        }
        for op in [ops::WALK, ops::STEP] {
            if op == first || self.rng.percent(20) {
                let (key, stream) = self.behind_some(&bytes);
                self.emit(Frame { op, key, a: stream, ..Frame::default() });
            }
        }
    }

    /// The record in a stream, mostly after one or two good ones. Gives its place and the stream.
    fn behind_some(&self, record: &[u8]) -> (u64, Vec<u8>) {
        let mut stream = Vec::new();
        for _ in 0..self.rng.pick(&[0, 1, 1, 2]) {
            let length = self.rng.index(20);
            stream.extend(make::good_record(&self.rng, make::kind(&self.rng), length));
        }
        let place = stream.len() as u64;
        stream.extend_from_slice(record);
        (place, stream)
    }

    /// Headers with one field or more at or near its bounds.
    fn headers(&mut self) {
        for _ in 0..4 {
            let case = self.headers.deal(&self.rng);
            let frame = header_case(&self.rng, case);
            self.emit(frame);
        }
    }

    fn writes(&mut self) {
        for _ in 0..3 {
            let case = self.writes.deal(&self.rng);
            let frame = write_case(&self.rng, case);
            self.emit(frame);
        }
    }

    fn keys(&mut self) {
        for _ in 0..5 {
            let case = self.keys.deal(&self.rng);
            let frame = key_case(&self.rng, case);
            self.emit(frame);
        }
    }

    fn streams(&mut self) {
        let case = self.streams.deal(&self.rng);
        let (stream, starts) = stream_case(&self.rng, case);
        self.emit(Frame { op: ops::WALK, a: stream.clone(), ..Frame::default() });
        let [x, y, z, w] = self.list_lengths(starts.len());
        self.emit(Frame { op: ops::LIST_NUMBERS, x, y, z, w, a: stream.clone(), ..Frame::default() });
        let steps = if matches!(case, StreamCase::Many) { 0 } else { self.rng.between(1, 2) };
        for _ in 0..steps {
            let key = self.place_in(&stream, &starts);
            self.emit(Frame { op: ops::STEP, key, a: stream.clone(), ..Frame::default() });
        }
    }

    /// Lengths of the four lists near the number of records: all equal, or one or all of them random.
    fn list_lengths(&mut self, records: usize) -> [u32; 4] {
        let rng = &self.rng;
        let near = (records as u32 + rng.pick(&[0, 0, 1, 2])).saturating_sub(rng.pick(&[0, 0, 1])).min(MOST_LIST);
        let mut lengths = [near; 4];
        match rng.below(4) {
            0 => {}
            1 => lengths[rng.index(4)] = rng.pick(&[0, near / 2, near.saturating_sub(1), (near + 1).min(MOST_LIST)]),
            2 => lengths = lengths.map(|_| rng.below(10) as u32),
            _ => lengths = lengths.map(|_| (near + rng.below(4) as u32).min(MOST_LIST)),
        }
        lengths
    }

    /// A place at a record, inside one, at the end or past it; also a number that is a record's place when cut to 32
    /// bits.
    fn place_in(&mut self, stream: &[u8], starts: &[usize]) -> u64 {
        let rng = &self.rng;
        let end = stream.len() as u64;
        let start = if starts.is_empty() { 0 } else { rng.pick(starts) as u64 };
        match rng.below(12) {
            0..=4 => start,
            5 => rng.below(end + 1),
            6 => start + 1,
            7 => end,
            8 => end + 1,
            9 => end.saturating_sub(rng.below(25)),
            10 => (1 << 32) + start,
            _ => rng.pick(&[1 << 63, u64::MAX, u64::MAX - 20, 1 << 32, u64::MAX << 32]),
        }
    }

    /// The longest records. They take many bytes, so there are few.
    fn long(&mut self) {
        let case = self.longs.deal(&self.rng);
        let frame = long_case(&self.rng, case);
        self.emit(frame);
    }
}

// One damaged record.

#[derive(Clone, Copy)]
enum Damage {
    Whole,
    FollowedBy,
    CutTo(usize),
    CutByOne,
    CutAnywhere,
    Byte(usize),
    /// A letter of the other case: NJpL.
    OtherCase(usize),
    OtherKind,
    /// One of `label_lengths`.
    LabelLength(usize),
    LabelLengthNearby,
    /// One of `block_fields`, and one of `field_values`.
    Block(usize, usize),
    /// Both fields of one of the four blocks' labels.
    TypeAndLength(usize),
    TwoBlocks,
    AnyTwo,
    AnyByte,
    Noise,
}

fn damages() -> Vec<Damage> {
    let mut cases = [0, 1, LABEL_LENGTH - 1, LABEL_LENGTH, LABEL - 1, LABEL].map(Damage::CutTo).to_vec();
    cases.extend([Damage::Whole; 6]);
    cases.extend([Damage::FollowedBy; 3]);
    cases.extend([Damage::CutByOne, Damage::CutAnywhere, Damage::CutAnywhere, Damage::OtherKind]);
    cases.extend((0..LABEL_LENGTH).map(Damage::Byte));
    cases.extend([0, 3, 5].map(Damage::OtherCase));
    cases.extend((0..LABEL_LENGTHS).map(Damage::LabelLength));
    cases.extend([Damage::LabelLengthNearby; 3]);
    cases.extend((0..8).flat_map(|field| (0..FIELD_VALUES).map(move |value| Damage::Block(field, value))));
    cases.extend((0..4).map(Damage::TypeAndLength));
    cases.extend([Damage::TwoBlocks; 3]);
    cases.extend([Damage::AnyTwo; 4]);
    cases.extend([Damage::AnyByte; 4]);
    cases.push(Damage::Noise);
    cases
}

fn damages_of_both_kinds() -> Vec<(u32, Damage)> {
    [TELEMETRY, RSR].into_iter().flat_map(|kind| damages().into_iter().map(move |damage| (kind, damage))).collect()
}

fn damaged(rng: &Rng, bytes: &mut Vec<u8>, kind: u32, damage: Damage) {
    let n = bytes.len();
    match damage {
        Damage::Whole => {}
        Damage::FollowedBy => bytes.extend(rng.bytes(rng.between(1, 40))),
        Damage::CutTo(length) => bytes.truncate(length),
        Damage::CutByOne => bytes.truncate(n - 1),
        Damage::CutAnywhere => bytes.truncate(rng.between(LABEL, n - 1)),
        Damage::Byte(at) => bytes[at] = rng.pick(&[bytes[at] ^ 0x20, bytes[at].wrapping_add(1), 0, 255, rng.byte()]),
        Damage::OtherCase(at) => bytes[at] ^= 0x20,
        Damage::OtherKind => {
            let other = record::layout_of(3 - kind).expect("one of the two kinds");
            put(bytes, DESCRIPTION, 4, other.description as u64);
        }
        Damage::LabelLength(case) => put(bytes, LABEL_LENGTH, 8, label_lengths(kind, n)[case]),
        Damage::LabelLengthNearby => {
            bytes.extend(rng.bytes(rng.between(0, 3)));
            let right = (n - LABEL) as u64;
            put(bytes, LABEL_LENGTH, 8, rng.pick(&[right - 1, right + 1, right + 2, n as u64]));
        }
        Damage::Block(field, value) => damaged_field(rng, bytes, kind, field, value),
        Damage::TypeAndLength(block) => {
            for field in [2 * block, 2 * block + 1] {
                damaged_field(rng, bytes, kind, field, rng.index(FIELD_VALUES));
            }
        }
        Damage::TwoBlocks => {
            for _ in 0..2 {
                damaged_field(rng, bytes, kind, rng.index(8), rng.index(FIELD_VALUES));
            }
        }
        Damage::AnyTwo => {
            for _ in 0..2 {
                let damage = match rng.below(3) {
                    0 => Damage::Byte(rng.index(LABEL_LENGTH)),
                    1 => Damage::Block(rng.index(8), rng.index(FIELD_VALUES)),
                    _ => Damage::LabelLength(rng.index(LABEL_LENGTHS)),
                };
                damaged(rng, bytes, kind, damage);
            }
            if rng.percent(25) {
                bytes.truncate(rng.between(12, n));
            }
        }
        Damage::AnyByte => bytes[rng.index(n)] ^= 1 << rng.below(8),
        Damage::Noise => *bytes = rng.bytes(rng.between(0, 300)),
    }
}

const LABEL_LENGTHS: usize = 12;

/// At and near the kind's bounds, and lengths that a shorter number would take for the right one.
fn label_lengths(kind: u32, n: usize) -> [u64; LABEL_LENGTHS] {
    let layout = record::layout_of(kind).expect("one of the two kinds");
    let right = (n - LABEL) as u64;
    [
        layout.shortest_label - 1,
        layout.shortest_label,
        layout.longest_label,
        layout.longest_label + 1,
        n as u64,
        0,
        (1 << 16) + right,
        (1 << 32) + right,
        (1 << 63) + right,
        u64::MAX,
        u64::MAX - LABEL as u64 + 1,
        u64::MAX - LABEL as u64,
    ]
}

/// Where the type and length of the aggregation, primary, secondary and data label stand.
fn block_fields(kind: u32) -> [usize; 8] {
    let data = record::layout_of(kind).expect("one of the two kinds").data_label;
    [LABEL, LABEL + 2, PRIMARY, PRIMARY + 2, SECONDARY, SECONDARY + 2, data, data + 2]
}

const FIELD_VALUES: usize = 6;

/// Values near the right one, right except for the upper byte, or right for the other kind.
fn damaged_field(rng: &Rng, bytes: &mut [u8], kind: u32, field: usize, value: usize) {
    let at = block_fields(kind)[field];
    let right = record::number(bytes, at, 2) as u16;
    let other = record::layout_of(3 - kind).expect("one of the two kinds");
    let of_other_kind = match field {
        1 => other.aggregation_length,
        4 => other.secondary_type,
        5 => other.secondary_length,
        _ => right.swap_bytes(),
    };
    let values: [u16; FIELD_VALUES] = [
        right.wrapping_add(1),
        right.wrapping_sub(1),
        right ^ 0x100,
        right ^ 0x8000,
        of_other_kind,
        rng.pick(&[0, u16::MAX, rng.word() as u16]),
    ];
    put(bytes, at, 2, values[value] as u64);
}

// Headers near the bounds of each field.

#[derive(Clone, Copy)]
enum HeaderCase {
    /// One of the fields of `RANGES`, with this value.
    Field(usize, u64),
    /// The RSR year and day.
    Date(u64, u64),
    /// A band of an RSR record, at this offset in the block.
    Band(usize, u8),
    Several,
    RsrNoise,
    Signed(u8),
    /// Telemetry with this band and this byte 28.
    TelemetryMode(u8, u8),
    TelemetryNoise,
    /// A kind, and the wanted one.
    Wanted(u32, u32),
}

/// Offset in the record, width, least and greatest value of each RSR field that is tested, except the bands.
const RANGES: [(usize, usize, u64, u64); 10] = [
    (PRIMARY_VALUE, 1, 21, 21),
    (PRIMARY_VALUE + 1, 1, 4, 4),
    (PRIMARY_VALUE + 3, 1, 0, 0),
    (SECONDARY + 20, 1, 1, 3),
    (SECONDARY + 23, 1, 1, 127),
    (SECONDARY + 25, 1, 0, 63),
    (SECONDARY + 26, 1, 0, 128),
    (SECONDARY + 27, 1, 0, 128),
    (SECONDARY + 28, 2, FIRST_YEAR as u64, LAST_YEAR as u64),
    (SECONDARY + 30, 2, 1, 366),
];

fn header_cases() -> Vec<HeaderCase> {
    let mut cases = vec![HeaderCase::RsrNoise];
    for (field, (_, width, least, most)) in RANGES.into_iter().enumerate() {
        let top = (1u64 << (8 * width)) - 1;
        let mut values = vec![least, most, least.wrapping_sub(1) & top, most + 1, 0, top];
        values.sort();
        values.dedup();
        cases.extend(values.into_iter().map(|value| HeaderCase::Field(field, value)));
    }
    for year in [1904, 2000, 2004, 2008, 2400, 2800, 2996, 1900, 1901, 2001, 2100, 2200, 2900, 2998, 3000, 1899, 3001] {
        cases.push(HeaderCase::Date(year, 366));
    }
    cases.extend([1900, 2000, 2001, 3000].map(|year| HeaderCase::Date(year, 365)));
    cases.extend([2000, 2001].map(|year| HeaderCase::Date(year, 367)));
    for at in [18, 19] {
        cases.extend([b'S', b'X', b'K', b'U', b'k', 0, 255].map(|band| HeaderCase::Band(at, band)));
    }
    cases.extend([HeaderCase::Several; 6]);
    cases.extend([0, 1, 127, 128, 255].map(HeaderCase::Signed));
    for byte_28 in [0, 1, 2, 3, 252, 253, 254, 255] {
        cases.extend([b'K', b'L'].map(|band| HeaderCase::TelemetryMode(band, byte_28)));
    }
    cases.extend([b'U', b'S', b'X', b'x', 0].map(|band| HeaderCase::TelemetryMode(band, 2)));
    cases.extend([HeaderCase::TelemetryNoise; 8]);
    for kind in [TELEMETRY, RSR] {
        cases.extend(
            [0, 3, 3 - kind, kind + 256, kind + 65_536, 1 << 31 | kind, u32::MAX].map(|x| HeaderCase::Wanted(kind, x)),
        );
    }
    cases
}

fn header_case(rng: &Rng, case: HeaderCase) -> Frame {
    let kind = match case {
        HeaderCase::TelemetryMode(..) | HeaderCase::TelemetryNoise => TELEMETRY,
        HeaderCase::Wanted(kind, _) => kind,
        _ => RSR,
    };
    let mut wanted = kind;
    let mut bytes = make::good_record(rng, kind, 0);
    match case {
        HeaderCase::Field(field, value) => put(&mut bytes, RANGES[field].0, RANGES[field].1, value),
        HeaderCase::Date(year, day) => {
            put(&mut bytes, SECONDARY + 28, 2, year);
            put(&mut bytes, SECONDARY + 30, 2, day);
        }
        HeaderCase::Band(at, band) => bytes[SECONDARY + at] = band,
        HeaderCase::Several => {
            for (at, width, least, most) in RANGES {
                if rng.percent(30) {
                    put(&mut bytes, at, width, rng.pick(&[least, most, most + 1]));
                }
            }
            bytes[SECONDARY + 18] = rng.pick(b"SXKU");
            bytes[SECONDARY + 19] = rng.pick(b"SXKU");
        }
        HeaderCase::RsrNoise => {
            let noise = rng.bytes(RSR_LAYOUT.secondary_length as usize);
            bytes[SECONDARY_VALUE..RSR_LAYOUT.data_label].copy_from_slice(&noise);
        }
        HeaderCase::Signed(byte) => bytes[SECONDARY + 22] = byte,
        HeaderCase::TelemetryMode(band, byte_28) => {
            bytes[SECONDARY + 26] = band;
            bytes[SECONDARY + 28] = byte_28;
        }
        HeaderCase::TelemetryNoise => {
            bytes[SECONDARY + 6] = rng.pick(&[0, 3, 252, 254, 255, rng.byte()]);
            put(&mut bytes, SECONDARY + 22, 4, rng.pick(&EDGES) as u64);
            put(&mut bytes, SECONDARY + 14, 8, rng.pick(&[0, u64::MAX, 1 << 63, rng.next()]));
            put(&mut bytes, SECONDARY + 74, 2, rng.pick(&[0, 65_535, 256, rng.below(65_536)]));
        }
        HeaderCase::Wanted(_, x) => wanted = x,
    }
    Frame { op: ops::READ_HEADERS, x: wanted, a: bytes, ..Frame::default() }
}

// Keys at and past the widths of their fields.

#[derive(Clone, Copy)]
enum KeyCase {
    /// The parts of any key, valid or not; and of one of `KEY_EDGES`.
    Parts,
    PartsOf(u64),
    Any(u32),
    /// The op, one of the four numbers, and its value.
    Part(u32, usize, u32),
}

fn widths(op: u32) -> [u32; 4] {
    if op == ops::TELEMETRY_KEY {
        [10, 8, 16, 8]
    } else {
        [8, 8, 8, 8]
    }
}

/// Keys at and near the ends of the two kinds.
const KEY_EDGES: [u64; 10] =
    [0, u32::MAX as u64, 1 << 32, FIRST_RSR - 1, FIRST_RSR, FIRST_RSR + 1, PAST_RSR - 1, PAST_RSR, 1 << 63, u64::MAX];

fn key_cases() -> Vec<KeyCase> {
    let mut cases = [ops::TELEMETRY_KEY, ops::RSR_KEY].map(KeyCase::Any).repeat(6);
    cases.extend([KeyCase::Parts; 12]);
    cases.extend(KEY_EDGES.map(KeyCase::PartsOf));
    for op in [ops::TELEMETRY_KEY, ops::RSR_KEY] {
        for (part, bits) in widths(op).into_iter().enumerate() {
            let values = [0, (1 << bits) - 1, 1 << bits, (1 << bits) + 1, 1 << 31, u32::MAX];
            cases.extend(values.map(|value| KeyCase::Part(op, part, value)));
        }
    }
    cases
}

fn key_case(rng: &Rng, case: KeyCase) -> Frame {
    let op = match case {
        KeyCase::Any(op) | KeyCase::Part(op, ..) => op,
        KeyCase::PartsOf(key) => return Frame { op: ops::KEY_PARTS, key, ..Frame::default() },
        KeyCase::Parts => {
            let key =
                rng.pick(&[rng.below(FIRST_RSR), rng.below(PAST_RSR), FIRST_RSR + rng.below(1 << 32), rng.next()]);
            return Frame { op: ops::KEY_PARTS, key, ..Frame::default() };
        }
    };
    let mut parts = widths(op).map(|bits| rng.word() >> (32 - bits));
    if let KeyCase::Part(_, part, value) = case {
        parts[part] = value;
    }
    let [x, y, z, w] = parts;
    Frame { op, x, y, z, w, ..Frame::default() }
}

// Writers.

#[derive(Clone, Copy)]
enum WriteCase {
    Exact,
    Longer,
    OneShort,
    Empty,
    Shorter,
    BadKind,
    SecondaryLength,
    /// Both 14 and 13 hold: the call gives the one that is higher in the table.
    Both,
}

fn write_cases() -> Vec<WriteCase> {
    use WriteCase::*;
    vec![
        Exact,
        Exact,
        Exact,
        Longer,
        Longer,
        Longer,
        OneShort,
        OneShort,
        Empty,
        Shorter,
        BadKind,
        BadKind,
        SecondaryLength,
        SecondaryLength,
        Both,
    ]
}

fn write_case(rng: &Rng, case: WriteCase) -> Frame {
    let kind = make::kind(rng);
    let length = make::short_length(rng);
    let secondary =
        if rng.percent(80) { make::secondary(rng, kind) } else { vec![0; make::secondary(rng, kind).len()] };
    let n = (record::layout_of(kind).expect("one of the two kinds").data_value + length) as u32;
    let mut frame = Frame {
        op: ops::WRITE_ONE,
        x: kind,
        y: rng.word(),
        z: n,
        a: secondary,
        b: rng.bytes(length),
        ..Frame::default()
    };
    let other_lengths = [0, 1, 4, 79, 81, 84, 219, 221, 224, 300 - frame.a.len()];
    match case {
        WriteCase::Exact => {}
        WriteCase::Longer => frame.z = rng.pick(&[n + 1, n + 20, n + 500, MOST_SLICE]),
        WriteCase::OneShort => frame.z = n - 1,
        WriteCase::Empty => frame.z = 0,
        WriteCase::Shorter => frame.z = rng.below(n as u64) as u32,
        WriteCase::BadKind => frame.x = rng.pick(&[0, 3, kind + 256, kind + 65_536, 1 << 31 | kind, u32::MAX]),
        WriteCase::SecondaryLength => frame.a.resize(rng.pick(&other_lengths), 1),
        WriteCase::Both => {
            frame.z = rng.below(n as u64) as u32;
            frame.a.resize(rng.pick(&other_lengths), 1);
        }
    }
    frame
}

// Streams.

#[derive(Clone, Copy)]
enum StreamCase {
    Empty,
    Whole,
    OfOneKind,
    Cut,
    DamagedInside,
    TrailingFew,
    TrailingMany,
    Many,
}

use StreamCase::{Cut, DamagedInside, OfOneKind, TrailingFew, TrailingMany, Whole};
const STREAM_CASES: [StreamCase; 16] = [
    StreamCase::Empty,
    Whole,
    Whole,
    Whole,
    Whole,
    OfOneKind,
    Cut,
    Cut,
    DamagedInside,
    DamagedInside,
    DamagedInside,
    DamagedInside,
    DamagedInside,
    TrailingFew,
    TrailingMany,
    StreamCase::Many,
];

/// A stream, and where its records start.
fn stream_case(rng: &Rng, case: StreamCase) -> (Vec<u8>, Vec<usize>) {
    let (mut stream, mut starts) = (Vec::new(), Vec::new());
    let records = match case {
        StreamCase::Empty => 0,
        StreamCase::Many => rng.between(62, 67),
        _ => rng.between(1, 6),
    };
    let one_kind = make::kind(rng);
    let damaged_one = rng.index(records.max(1));
    for i in 0..records {
        let kind = match case {
            StreamCase::OfOneKind => one_kind,
            StreamCase::Many => TELEMETRY,
            _ => make::kind(rng),
        };
        let length = if matches!(case, StreamCase::Many) { 0 } else { make::short_length(rng) };
        let mut bytes = make::good_record(rng, kind, length);
        if matches!(case, StreamCase::DamagedInside) && i == damaged_one {
            damaged(rng, &mut bytes, kind, rng.pick(&damages()));
        }
        starts.push(stream.len());
        stream.extend(bytes);
    }
    match case {
        StreamCase::Cut => stream.truncate(stream.len() - rng.between(1, 60)),
        StreamCase::TrailingFew => stream.extend(vec![b'N'; rng.between(1, LABEL - 1)]),
        StreamCase::TrailingMany => {
            let count = rng.between(LABEL, 130);
            stream.extend(rng.bytes(count));
        }
        _ => {}
    }
    (stream, starts)
}

// The longest records.

#[derive(Clone, Copy)]
enum LongCase {
    Read(u32),
    DataLengthWrong,
    FollowedBy,
    Write,
    WriteTooMuch,
}

const LONG_CASES: [LongCase; 6] = [
    LongCase::Read(TELEMETRY),
    LongCase::Read(RSR),
    LongCase::DataLengthWrong,
    LongCase::FollowedBy,
    LongCase::Write,
    LongCase::WriteTooMuch,
];

fn long_case(rng: &Rng, case: LongCase) -> Frame {
    let kind = if let LongCase::Read(kind) = case { kind } else { make::kind(rng) };
    let layout = record::layout_of(kind).expect("one of the two kinds");
    let most = record::MOST_DATA;
    let n = (layout.data_value + most) as u32;
    let mut a = make::good_record(rng, kind, most);
    let write = |z, b| Frame {
        op: ops::WRITE_ONE,
        x: kind,
        y: rng.word(),
        z,
        a: make::secondary(rng, kind),
        b,
        ..Frame::default()
    };
    match case {
        LongCase::Read(_) => {
            let op = rng.pick(&[ops::READ_ONE, ops::SECONDARY_PART, ops::DATA_PART, ops::DATA_PART, ops::READ_HEADERS]);
            Frame { op, x: kind, a, ..Frame::default() }
        }
        LongCase::DataLengthWrong => {
            put(&mut a, layout.data_label + 2, 2, most as u64 - 1);
            Frame { op: ops::READ_ONE, a, ..Frame::default() }
        }
        LongCase::FollowedBy => {
            let key = a.len() as u64;
            let op = rng.pick(&[ops::WALK, ops::STEP]);
            Frame { op, key, a: [a, make::good_record(rng, RSR, 4)].concat(), ..Frame::default() }
        }
        LongCase::Write => write(rng.pick(&[n - 1, n, n + 1, MOST_SLICE]), rng.bytes(most)),
        LongCase::WriteTooMuch => write(MOST_SLICE, rng.bytes(if rng.percent(80) { most + 1 } else { MOST_B })),
    }
}
