//! The ops of call scripts by name. call-script.md says what each of them calls.

pub const READ_ONE: u32 = 1;
pub const SECONDARY_PART: u32 = 2;
pub const DATA_PART: u32 = 3;
pub const READ_HEADERS: u32 = 4;
pub const WRITE_ONE: u32 = 5;
pub const TELEMETRY_KEY: u32 = 6;
pub const RSR_KEY: u32 = 7;
pub const WALK: u32 = 8;
pub const LIST_NUMBERS: u32 = 9;
pub const KEY_PARTS: u32 = 10;
pub const STEP: u32 = 11;
pub const DATE_OF: u32 = 12;
pub const UNPACK: u32 = 13;
pub const PACK: u32 = 14;
pub const GAIN: u32 = 15;
pub const READ_TAPE: u32 = 16;
pub const WRITE_TAPE: u32 = 17;

pub const NEW_SHEET: u32 = 19;
pub const FRESH: u32 = 20;
pub const ENROL: u32 = 21;
pub const FIND: u32 = 22;
pub const OPEN: u32 = 23;
pub const TICK: u32 = 24;
pub const UNTICK: u32 = 25;
pub const SAVE: u32 = 26;
pub const DROP: u32 = 27;
pub const ROW_REPORT: u32 = 28;
pub const FIRST_GAP: u32 = 29;
pub const STRIKE: u32 = 30;
pub const CONVERT: u32 = 31;
pub const REPLAY: u32 = 32;
pub const SEASON: u32 = 33;
pub const ROW: u32 = 34;
pub const DESK: u32 = 35;
pub const MISSING_NUMBERS: u32 = 36;
pub const RECEIVE: u32 = 37;
pub const REPLAY_ON: u32 = 38;

pub const NEW_SETTINGS: u32 = 39;
pub const MAKE_EMPTY: u32 = 40;
pub const ADD: u32 = 41;
pub const ASK: u32 = 42;
