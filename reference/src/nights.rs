//! The ledger calls of random scripts: nights of calls by eight desks, and sheets, right and damaged.

use crate::keys::{FIRST_RSR, PAST_RSR};
use crate::ledger::{
    self, DESK, DESK_PLACES, FIRST, KEY, OPENED, POSITIONS, ROW, ROWS_USED, ROW_NAMED, ROW_PLACES, SHEET, TICKS, WORKED,
};
use crate::make::{put, Rng};
use crate::ops;
use crate::random::Generator;
use crate::script::{Frame, MOST_SHEET};

const VALID_EDGES: [u64; 7] = [0, 1, 1 << 32, FIRST_RSR - 1, FIRST_RSR, FIRST_RSR + 1, PAST_RSR - 1];
/// `new_key` gives this key only by chance.
const KEY_OF_NO_OTHER: u64 = 1_000 << 32;
const KEY_OF_NO_RSR: u64 = FIRST_RSR + (200 << 24);
const BAD_KEYS: [u64; 7] = [PAST_RSR, PAST_RSR + 1, FIRST_RSR << 1, 1 << 63, u64::MAX, (1 << 48) + 5, u64::MAX - 1];
const FIRSTS: [u32; 9] =
    [0, 1, 2, 1_000, 65_530, u32::MAX, u32::MAX - 5, u32::MAX - POSITIONS + 1, u32::MAX - POSITIONS];
const RSR_FIRSTS: [u32; 9] = [0, 1, 2, 1_000, 32_767, 65_535, 65_530, 65_536 - POSITIONS + 1, 65_536 - POSITIONS];
/// No RSR stream has these numbers.
const BAD_RSR_FIRSTS: [u32; 5] = [65_536, 65_537, 65_536 + 65_530, 1 << 31, u32::MAX];
pub const BAD_DESKS: [u32; 6] =
    [DESK_PLACES as u32, DESK_PLACES as u32 + 1, 255, 256, 256 + DESK_PLACES as u32, u32::MAX];

#[derive(Clone, Copy)]
pub enum NightCase {
    /// A few rows that many desks use, so that most saves meet another's.
    Crowded,
    /// Every row used, and one enrolment more; rows are struck and used again.
    Full,
    /// Rows come and go.
    Strikes,
    /// Starts from a right sheet with ticks everywhere and desks that have unsaved work.
    Underway,
    /// Calls of any kind, with little regard to the sheet.
    Careless,
}

pub const NIGHT_CASES: [NightCase; 9] = [
    NightCase::Crowded,
    NightCase::Crowded,
    NightCase::Crowded,
    NightCase::Crowded,
    NightCase::Full,
    NightCase::Strikes,
    NightCase::Underway,
    NightCase::Underway,
    NightCase::Careless,
];

/// Short sequences of two desks' calls that turn on one rule.
#[derive(Clone, Copy)]
pub enum Piece {
    /// The row was changed and changed back: the save is accepted.
    ChangedBack,
    /// As many ticks as before, but other ones: the save is stale.
    SameCount,
    /// The ends of a row, and a gap after a run of ticks.
    Ends,
}

pub const PIECES: [Piece; 3] = [Piece::ChangedBack, Piece::SameCount, Piece::Ends];

impl Generator {
    pub fn night(&mut self) {
        if self.calls.sheet.len() != SHEET {
            // The slice does not have a sheet's length, so `fresh` could not make one in it.
            self.emit(Frame { op: ops::NEW_SHEET, a: vec![0; SHEET], ..Frame::default() });
        }
        match self.nights.deal(&self.rng) {
            NightCase::Crowded => {
                self.emit(Frame { op: ops::FRESH, ..Frame::default() });
                self.enrol_rows(self.rng.between(1, 3));
                self.enrol_too_wide();
                self.piece();
                self.work(self.rng.between(40, 90));
            }
            NightCase::Full => {
                self.emit(Frame { op: ops::FRESH, ..Frame::default() });
                self.enrol_rows(ROW_PLACES);
                self.enrol_rows(1);
                self.work(12);
                for _ in 0..self.rng.between(1, 3) {
                    self.call(ops::STRIKE);
                }
                self.enrol_rows(self.rng.between(1, 4));
                self.work(8);
            }
            NightCase::Strikes => {
                self.emit(Frame { op: ops::FRESH, ..Frame::default() });
                self.enrol_rows(self.rng.between(2, 5));
                self.struck_while_open();
                self.work(self.rng.between(20, 40));
                for _ in 0..self.rng.between(2, 5) {
                    self.call(ops::STRIKE);
                    self.enrol_rows(self.rng.between(0, 2));
                    self.work(4);
                }
            }
            NightCase::Underway => {
                self.emit(Frame { op: ops::NEW_SHEET, a: right_sheet(&self.rng), ..Frame::default() });
                self.work(self.rng.between(8, 40));
            }
            NightCase::Careless => {
                for _ in 0..self.rng.between(10, 30) {
                    let op = self.rng.between(ops::FRESH as usize, ops::STRIKE as usize) as u32;
                    self.call(op);
                }
            }
        }
    }

    /// A sheet, right or damaged, and calls on it.
    pub fn sheets(&mut self) {
        let case = self.sheets.deal(&self.rng);
        self.emit(Frame { op: ops::NEW_SHEET, a: sheet_case(&self.rng, case, true), ..Frame::default() });
        for _ in 0..self.rng.between(2, 4) {
            let op = self.sheet_ops.deal(&self.rng);
            self.call(op);
        }
        if self.rng.percent(20) {
            self.call(ops::FRESH);
        }
    }

    fn piece(&mut self) {
        let view = self.view();
        let number = |position| ledger::number_at(ledger::row(&view, 0), position);
        let (a, b) = (self.rng.below(4) as u32, self.rng.between(4, DESK_PLACES - 1) as u32);
        let run = self.rng.between(1, 9) as u32;
        let (one, other) = (self.rng.below(500) as u32, self.rng.between(500, POSITIONS as usize - 1) as u32);
        let desk_opens = |desk| vec![(ops::OPEN, desk, 0)];
        let changes = |desk, op, position| vec![(op, desk, number(position))];
        let saves = |desk| vec![(ops::SAVE, desk, 0), (ops::ROW_REPORT, 0, 0)];
        let once = |op, position| [desk_opens(b), changes(b, op, position), saves(b)].concat();
        let calls = match self.pieces.deal(&self.rng) {
            Piece::ChangedBack => {
                [desk_opens(a), once(ops::TICK, one), once(ops::UNTICK, one), changes(a, ops::TICK, other), saves(a)]
                    .concat()
            }
            Piece::SameCount => [
                once(ops::TICK, one),
                desk_opens(a),
                once(ops::UNTICK, one),
                once(ops::TICK, other),
                changes(a, ops::TICK, 7),
                saves(a),
            ]
            .concat(),
            Piece::Ends => {
                let from_start = (0..run).flat_map(|position| changes(a, ops::TICK, position)).collect();
                let ends =
                    [POSITIONS, u32::MAX, POSITIONS - 1].map(|position| changes(a, ops::TICK, position)).concat();
                [desk_opens(a), from_start, saves(a), desk_opens(a), ends, saves(a), vec![(ops::FIRST_GAP, 0, 0)]]
                    .concat()
            }
        };
        for (op, x, y) in calls {
            self.emit(Frame { op, x, y, ..Frame::default() });
        }
    }

    fn enrol_rows(&mut self, rows: usize) {
        for _ in 0..rows {
            let key = self.key_not_there();
            self.emit(Frame { op: ops::ENROL, key, x: first_number(&self.rng, key), ..Frame::default() });
        }
    }

    /// A row is not struck while a desk has it open. Struck, it is no row. Enrolled again, it has no ticks.
    fn struck_while_open(&mut self) {
        let x = self.rng.below(DESK_PLACES as u64) as u32;
        let row = self.row();
        for (op, x, y) in [
            (ops::OPEN, x, row),
            (ops::STRIKE, row, 0),
            (ops::TICK, x, self.number(x)),
            (ops::SAVE, x, 0),
            (ops::STRIKE, row, 0),
            (ops::OPEN, x, row),
        ] {
            self.emit(Frame { op, x, y, ..Frame::default() });
        }
        self.enrol_rows(1);
        for op in [ops::ROW_REPORT, ops::STRIKE] {
            self.emit(Frame { op, x: row, ..Frame::default() });
        }
    }

    /// Enrols an RSR stream, new or not, with a number that its records cannot have.
    fn enrol_too_wide(&mut self) {
        let view = self.view();
        let keys = ledger::used_rows(&view).map(|row| ledger::key(ledger::row(&view, row)));
        let mut keys: Vec<u64> = keys.filter(|key| *key >= FIRST_RSR).collect();
        keys.push(FIRST_RSR + self.rng.below(PAST_RSR - FIRST_RSR));
        self.emit(Frame {
            op: ops::ENROL,
            key: self.rng.pick(&keys),
            x: self.rng.pick(&BAD_RSR_FIRSTS),
            ..Frame::default()
        });
    }

    /// Calls, most of which have something to do on the sheet as it is.
    fn work(&mut self, calls: usize) {
        for _ in 0..calls {
            let no_rows = ledger::rows_used(&self.view()) == 0;
            let op = match self.rng.below(200) {
                _ if no_rows && self.rng.percent(70) => ops::ENROL,
                0 => ops::FRESH,
                1..=10 => ops::ENROL,
                11..=18 => ops::FIND,
                19..=30 => ops::ROW_REPORT,
                31..=40 => self.rng.pick(&[ops::ROW, ops::DESK, ops::DESK, ops::MISSING_NUMBERS]),
                41..=44 => ops::FIRST_GAP,
                45..=60 => self.rng.between(ops::OPEN as usize, ops::DROP as usize) as u32,
                61..=68 => ops::STRIKE,
                _ => 0,
            };
            if op == 0 {
                self.desk_work();
            } else {
                self.call(op);
            }
        }
    }

    /// One of the eight desks opens a row, or goes on with the row that it has open.
    fn desk_work(&mut self) {
        let view = self.view();
        let x = self.rng.below(DESK_PLACES as u64) as u32;
        let open = ledger::desk(&view, x as usize)[0] == 1;
        let ticked = self.ticked_number(x);
        let frame = match self.rng.below(100) {
            roll if roll <= 3 || !open => Frame { op: ops::OPEN, x, y: self.row(), ..Frame::default() },
            4..=9 if ticked.is_some() => Frame { op: ops::TICK, x, y: ticked.unwrap_or(0), ..Frame::default() },
            10..=28 if ticked.is_some() => Frame { op: ops::UNTICK, x, y: ticked.unwrap_or(0), ..Frame::default() },
            29..=34 => Frame { op: ops::UNTICK, x, y: self.number(x), ..Frame::default() },
            4..=64 => Frame { op: ops::TICK, x, y: self.number(x), ..Frame::default() },
            65..=91 => Frame { op: ops::SAVE, x, ..Frame::default() },
            _ => Frame { op: ops::DROP, x, ..Frame::default() },
        };
        self.emit(frame);
    }

    /// A call of this op, with good or bad arguments.
    pub fn call(&mut self, op: u32) {
        let frame = match op {
            ops::MISSING_NUMBERS => return self.missing_list(),
            ops::RECEIVE => return self.short_receive(),
            ops::REPLAY_ON => return self.short_replay(),
            ops::ENROL => {
                let key = self.enrolment_key();
                Frame { op, key, x: any_first_number(&self.rng, key), ..Frame::default() }
            }
            ops::FIND => Frame { op, key: self.enrolment_key(), ..Frame::default() },
            ops::OPEN => Frame { op, x: self.desk(), y: self.row(), ..Frame::default() },
            ops::TICK | ops::UNTICK => {
                let x = self.desk();
                Frame { op, x, y: self.number(x), ..Frame::default() }
            }
            ops::SAVE | ops::DROP | ops::DESK => Frame { op, x: self.desk(), ..Frame::default() },
            ops::ROW_REPORT | ops::STRIKE | ops::ROW => Frame { op, x: self.row(), ..Frame::default() },
            _ => Frame { op, ..Frame::default() },
        };
        self.emit(frame);
    }

    /// The sheet, if it is one; else a fresh one, used only to choose numbers.
    pub fn view(&self) -> Vec<u8> {
        let mut view = self.calls.sheet.clone();
        if !ledger::is_sheet(&view) {
            view = vec![0; SHEET];
            ledger::fresh(&mut view).expect("the length is right");
        }
        view
    }

    /// A key: new, enrolled already, or not valid.
    fn enrolment_key(&self) -> u64 {
        let view = self.view();
        let used: Vec<usize> = ledger::used_rows(&view).collect();
        match self.rng.below(10) {
            0..=3 if !used.is_empty() => ledger::key(ledger::row(&view, self.rng.pick(&used))),
            4..=5 => self.rng.pick(&BAD_KEYS),
            _ => new_key(&self.rng),
        }
    }

    fn key_not_there(&self) -> u64 {
        let view = self.view();
        loop {
            let key = new_key(&self.rng);
            if ledger::find(&view, key).is_err() {
                return key;
            }
        }
    }

    pub fn desk(&self) -> u32 {
        if self.rng.percent(12) {
            self.rng.pick(&BAD_DESKS)
        } else {
            self.rng.below(DESK_PLACES as u64) as u32
        }
    }

    /// A row, mostly a used one.
    pub fn row(&self) -> u32 {
        let view = self.view();
        let used: Vec<u32> = ledger::used_rows(&view).map(|row| row as u32).collect();
        if used.is_empty() || self.rng.percent(6) {
            let (one, places) = (used.last().copied().unwrap_or(0), ROW_PLACES as u32);
            let any = self.rng.below(places.into()) as u32;
            return self.rng.pick(&[0, one + 1, places - 1, places, 255, 256, 256 + one, u32::MAX, any]);
        }
        self.rng.pick(&used)
    }

    /// A number for the desk's row. There are few different ones, so that many are ticked already; some are at the
    /// row's ends.
    fn number(&self, desk: u32) -> u32 {
        let view = self.view();
        let desk = desk as usize % DESK_PLACES;
        let worked = &ledger::desk(&view, desk)[WORKED..];
        let rng = &self.rng;
        let position = match rng.below(20) {
            0..=10 => rng.below(10) as u32,
            11..=15 => rng.below(POSITIONS as u64) as u32,
            16 => rng.pick(&[POSITIONS - 2, POSITIONS - 1, 7, 8]),
            17 => rng.pick(&[POSITIONS, POSITIONS + 1, u32::MAX, 1 << 16, 1 << 31]),
            // Right except for the upper 16 bits: no RSR stream has it.
            18 => return ledger::number_at(worked, rng.below(10) as u32) ^ rng.pick(&[1 << 16, 1 << 31, 0xFFFF_0000]),
            _ => return rng.pick(&[0, u32::MAX, 1 << 31, 65_535, 65_536, rng.word(), rng.word()]),
        };
        ledger::number_at(worked, position)
    }

    /// A number that the desk has ticked.
    fn ticked_number(&self, desk: u32) -> Option<u32> {
        let view = self.view();
        let worked = &ledger::desk(&view, desk as usize)[WORKED..];
        let ticked: Vec<u32> = (0..POSITIONS).filter(|p| worked[TICKS + *p as usize / 8] >> (p % 8) & 1 == 1).collect();
        if ticked.is_empty() {
            None
        } else {
            Some(ledger::number_at(worked, self.rng.pick(&ticked)))
        }
    }
}

/// One of some hundred valid keys, an edge, or any.
pub fn new_key(rng: &Rng) -> u64 {
    match rng.below(4) {
        0 => rng.pick(&VALID_EDGES),
        1 => FIRST_RSR + (177 << 24) + rng.below(50),
        2 => (177 << 32) + (43 << 24) + rng.below(50),
        _ => rng.below(PAST_RSR),
    }
}

/// A first number that a row of this key can have.
pub fn first_number(rng: &Rng, key: u64) -> u32 {
    let rsr = key >= FIRST_RSR;
    match rng.percent(80) {
        true => rng.pick(if rsr { &RSR_FIRSTS } else { &FIRSTS }),
        false if rsr => rng.word() >> 16,
        false => rng.word(),
    }
}

/// The same, or sometimes a number that an RSR row cannot have.
fn any_first_number(rng: &Rng, key: u64) -> u32 {
    if rng.percent(20) {
        rng.pick(&BAD_RSR_FIRSTS)
    } else {
        first_number(rng, key)
    }
}

// Sheets.

/// Any right sheet: rows with ticks of every kind, free rows between them, and desks that are closed or have unsaved
/// work.
fn right_sheet(rng: &Rng) -> Vec<u8> {
    let used = rng.pick(&[0, 1, 2, 3, 5, ROW_PLACES - 1, ROW_PLACES, ROW_PLACES]);
    let struck = rng.pick(&[0, 0, 1, 4]);
    let open = rng.pick(&[0, 20, 60, 100]);
    sheet_with(rng, used, struck, open)
}

/// The same, with all used rows before the free ones.
pub fn used_first_sheet(rng: &Rng) -> Vec<u8> {
    let used = rng.pick(&[0, 1, 2, 3, 5, ROW_PLACES - 1, ROW_PLACES]);
    let open = rng.pick(&[0, 20, 60, 100]);
    sheet_with(rng, used, 0, open)
}

/// A right sheet with every row used and every desk open.
pub fn full_sheet(rng: &Rng) -> Vec<u8> {
    sheet_with(rng, ROW_PLACES, 0, 100)
}

/// A sheet with so many rows used, and so many more that were enrolled and struck.
pub fn sheet_with(rng: &Rng, used: usize, struck: usize, open_percent: u64) -> Vec<u8> {
    let mut s = vec![0; SHEET];
    ledger::fresh(&mut s).expect("the length is right");
    while ledger::rows_used(&s) < (used + struck).min(ROW_PLACES) {
        let key = new_key(rng);
        if let Ok(row) = ledger::enrol(&mut s, key, first_number(rng, key)) {
            let ticks = ticks(rng);
            s[ledger::row_place(row) + TICKS..][..ROW - TICKS].copy_from_slice(&ticks);
        }
    }
    for _ in 0..struck {
        let row = rng.pick(&used_rows(&s)) as u32;
        ledger::strike(&mut s, row).expect("a used row, and no desk open");
    }
    let used = used_rows(&s);
    for desk in 0..DESK_PLACES {
        if !used.is_empty() && rng.percent(open_percent) {
            ledger::open(&mut s, desk as u32, rng.pick(&used) as u32).expect("a closed desk and a used row");
            for copy in [OPENED, WORKED] {
                if rng.percent(40) {
                    let ticks = ticks(rng);
                    s[ledger::desk_place(desk) + copy + TICKS..][..ROW - TICKS].copy_from_slice(&ticks);
                }
            }
        }
    }
    s
}

fn used_rows(s: &[u8]) -> Vec<usize> {
    ledger::used_rows(s).collect()
}

/// Ticks of every kind: none, all, random, and near the ends of words.
pub fn ticks(rng: &Rng) -> Vec<u8> {
    let length = ROW - TICKS;
    let any = || rng.index(POSITIONS as usize);
    let mut ticks = match rng.below(6) {
        0 => vec![0xFF; length],
        1 => rng.bytes(length),
        _ => vec![0; length],
    };
    for _ in 0..rng.pick(&[0, 1, 1, 2, 5]) {
        let position = rng.pick(&[0, 1, 7, 8, 63, 64, 1_015, 1_016, 1_022, 1_023, any(), any()]);
        ticks[position / 8] ^= 1 << (position % 8);
    }
    if rng.percent(20) {
        let from = rng.index(length);
        ticks[from..].fill(0);
    }
    ticks
}

/// At least one case for each clause of 'A sheet is right when'.
#[derive(Clone, Copy)]
pub enum SheetCase {
    Right,
    Length(usize),
    /// A number of the header, except the count of used rows.
    Header(usize),
    /// How many rows are used, and how many the header counts.
    RowsUsed(usize, u32),
    /// A used row's word.
    UsedWord(u32),
    KeyNotValid,
    KeyAtEdge,
    /// A key, and a first number that the stream has or does not have.
    First(u64, u32),
    SameKeys,
    /// Offset in a free row.
    FreeRow(usize),
    DeskByte(u8),
    /// Offset in a desk that is closed.
    ClosedDesk(usize),
    /// Offset in a desk that is open.
    DeskZero(usize),
    /// The row that an open desk names.
    DeskRow(u8),
    /// The desk names a free row. Its copies are zero up to the ticks, as the row is, or they have the used word.
    DeskRowFree(bool),
    /// Offset of a byte of a copy's word, key or first number.
    Copy(usize),
    AnyBit,
    AllZero,
}

pub fn sheet_cases() -> Vec<SheetCase> {
    use SheetCase::*;
    let places = ROW_PLACES as u32;
    let mut cases = vec![Right, Right, Right, KeyNotValid, KeyNotValid, KeyAtEdge, SameKeys, SameKeys, AnyBit, AllZero];
    cases.extend([0, SHEET - 1, SHEET + 1, MOST_SHEET].map(Length));
    cases.extend([0, 2, 3, 4, 5].map(Header));
    cases.extend(
        [
            (2, 1),
            (2, 3),
            (ROW_PLACES - 1, places),
            (ROW_PLACES, places + 1),
            (ROW_PLACES, places - 1),
            (1, u32::MAX),
            (1, 257),
        ]
        .map(|(rows, said)| RowsUsed(rows, said)),
    );
    cases.extend([0, 2, 3, 0x0100_0000, 0x0101, u32::MAX].map(UsedWord));
    cases.extend([65_535, 65_536, 65_536 + 5, u32::MAX].map(|first| First(KEY_OF_NO_RSR, first)));
    cases.extend([65_536, u32::MAX].map(|first| First(KEY_OF_NO_OTHER, first)));
    cases.extend([0, 3, KEY, FIRST - 1, FIRST, TICKS - 1, TICKS, ROW - 1].map(FreeRow));
    cases.extend([0, 1, 2, 255].map(DeskByte));
    cases.extend([1, 2, 3, OPENED, WORKED - 1, WORKED, DESK - 1].map(ClosedDesk));
    cases.extend([2, 3].map(DeskZero));
    cases.extend([ROW_PLACES as u8, ROW_PLACES as u8 + 1, 255].map(DeskRow));
    cases.extend([false, true].map(DeskRowFree));
    cases.extend([0, 3, KEY, FIRST - 1, FIRST, TICKS - 1].map(|at| Copy(OPENED + at)));
    cases.extend([0, 3, KEY, FIRST - 1, FIRST, TICKS - 1].map(|at| Copy(WORKED + at)));
    cases
}

/// If `holes`, there are free rows between used ones.
pub fn sheet_case(rng: &Rng, case: SheetCase, holes: bool) -> Vec<u8> {
    use SheetCase::*;
    let used = match case {
        RowsUsed(rows, _) => rows,
        FreeRow(_) => rng.pick(&[0, 1, ROW_PLACES - 1]),
        SameKeys => rng.pick(&[2, 3, ROW_PLACES]),
        DeskRowFree(_) => 3,
        _ => rng.pick(&[1, 3, ROW_PLACES]),
    };
    let struck = if holes { rng.pick(&[0, 1, 2]).min(ROW_PLACES - used) } else { 0 };
    let open_percent = match case {
        ClosedDesk(_) | RowsUsed(..) | First(..) | KeyAtEdge => 0,
        DeskZero(_) | DeskRow(_) | DeskRowFree(_) | Copy(_) => 100,
        _ => rng.pick(&[0, 50]),
    };
    let mut s = sheet_with(rng, used, struck, open_percent);
    let rows = used_rows(&s);
    let free: Vec<usize> = (0..ROW_PLACES).filter(|row| !rows.contains(row)).collect();
    let row = ledger::row_place(if rows.is_empty() { 0 } else { rng.pick(&rows) });
    let desk = ledger::desk_place(rng.pick(&[0, DESK_PLACES - 1, rng.index(DESK_PLACES)]));
    match case {
        Right if holes => return right_sheet(rng),
        Right => return used_first_sheet(rng),
        Length(length) => s.resize(length, 0),
        Header(word) => {
            let right = ledger_word(&s, word);
            let wrong = rng.pick(&[right + 1, right - 1, 0, right ^ 1 << 31, right << 8, u32::MAX]);
            put(&mut s, 4 * word, 4, wrong as u64);
        }
        RowsUsed(_, said) => put(&mut s, ROWS_USED, 4, said as u64),
        UsedWord(word) => {
            put(&mut s, row, 4, word as u64);
            // Mostly the count is lowered too; otherwise the count alone would make the sheet wrong.
            if rng.percent(70) {
                put(&mut s, ROWS_USED, 4, rows.len() as u64 - 1);
            }
        }
        KeyNotValid => put(&mut s, row + KEY, 8, rng.pick(&BAD_KEYS)),
        KeyAtEdge => {
            put(&mut s, row + KEY, 8, rng.pick(&VALID_EDGES));
            put(&mut s, row + FIRST, 4, rng.pick(&RSR_FIRSTS) as u64);
        }
        First(key, first) => {
            put(&mut s, row + KEY, 8, key);
            put(&mut s, row + FIRST, 4, first as u64);
        }
        SameKeys => {
            let one = rng.index(rows.len());
            let two = (one + 1 + rng.index(rows.len() - 1)) % rows.len();
            let key = ledger::key(ledger::row(&s, rows[one]));
            put(&mut s, ledger::row_place(rows[two]) + KEY, 8, key);
        }
        FreeRow(at) => s[ledger::row_place(rng.pick(&free)) + at] |= 1 << rng.below(8),
        DeskByte(byte) => s[desk] = byte,
        ClosedDesk(at) | DeskZero(at) => s[desk + at] = 1 << rng.below(8),
        DeskRow(row) => s[desk + ROW_NAMED] = row,
        DeskRowFree(with_word) => {
            s[desk + ROW_NAMED] = rng.pick(&free) as u8;
            for copy in [OPENED, WORKED] {
                s[desk + copy..][..TICKS].fill(0);
                put(&mut s, desk + copy, 4, with_word as u64);
            }
        }
        Copy(at) => s[desk + at] ^= 1 << rng.below(8),
        AnyBit => s[rng.index(SHEET)] ^= 1 << rng.below(8),
        AllZero => s.fill(0),
    }
    s
}

fn ledger_word(s: &[u8], word: usize) -> u32 {
    crate::record::number(s, 4 * word, 4) as u32
}
