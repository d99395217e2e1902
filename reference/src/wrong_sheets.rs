//! Sample sheets that are not right (20): for each clause of a right sheet, and each number in it, a sheet that is
//! wrong only there.

use crate::keys::PAST_RSR;
use crate::ledger::{self, desk_place, row_place, FIRST, KEY, OPENED, ROWS_USED, ROW_NAMED, TICKS, WORKED};
use crate::make::put;
use crate::sample::{night_sheet, Sample};

const fn sheet(name: &'static str, about: &'static str, make: fn() -> Vec<u8>) -> Sample {
    Sample { name, last_line: "", about, make }
}

pub static SHEETS: [Sample; 19] = [
    sheet("refusal-20/length", "Byte 6967, the last, is not there.", || wrong(|s| s.truncate(s.len() - 1))),
    sheet("refusal-20/header-length", "Bytes 0 to 3: length 6,776, the old layout's.", || {
        wrong(|s| put(s, 0, 4, 6_776))
    }),
    sheet("refusal-20/header-count", "Bytes 4 to 7: 4 rows used, where 3 are.", || wrong(|s| put(s, ROWS_USED, 4, 4))),
    sheet("refusal-20/header-places", "Bytes 8 to 11: 31 row places.", || wrong(|s| put(s, 8, 4, 31))),
    sheet("refusal-20/header-rows", "Bytes 12 to 15: rows from byte 20 on.", || wrong(|s| put(s, 12, 4, 20))),
    sheet("refusal-20/header-desks", "Bytes 16 to 19: 7 desks.", || wrong(|s| put(s, 16, 4, 7))),
    sheet("refusal-20/header-offset", "Bytes 20 to 23: desks from byte 4,504 on, as in the old layout.", || {
        wrong(|s| put(s, 20, 4, 4_504))
    }),
    sheet("refusal-20/key", "Bytes 316 to 323: in row 2 the key 2^42 + 2^32, the first past the last.", || {
        wrong(|s| put(s, row_place(2) + KEY, 8, PAST_RSR))
    }),
    sheet("refusal-20/key-twice", "Bytes 316 to 323: in row 2 the key of row 1.", || {
        wrong(|s| s.copy_within(row_place(1) + KEY..row_place(1) + FIRST, row_place(2) + KEY))
    }),
    sheet("refusal-20/first-number", "Bytes 324 to 327: in row 2, an RSR stream's, the first number 65,536.", || {
        wrong(|s| put(s, row_place(2) + FIRST, 4, 65_536))
    }),
    sheet("refusal-20/used-word", "Bytes 312 to 315: the used word 2 in row 2, neither 1 nor 0.", || {
        wrong(|s| put(s, row_place(2), 4, 2))
    }),
    sheet("refusal-20/free-row", "Byte 472: a tick in row 3, which is free.", || {
        wrong(|s| s[row_place(3) + TICKS] = 1)
    }),
    sheet("refusal-20/desk-byte", "Byte 4924: desk 1 begins with 2, neither 1 nor 0.", || {
        wrong(|s| s[desk_place(1)] = 2)
    }),
    sheet("refusal-20/desk-zeros", "Bytes 4634 and 4635: 1 in the two zeros of desk 0.", || {
        wrong(|s| put(s, desk_place(0) + 2, 2, 1))
    }),
    sheet("refusal-20/closed-desk", "Byte 5215: a tick in the worked copy of desk 1, which is closed.", || {
        wrong(|s| s[desk_place(2) - 1] = 1)
    }),
    sheet("refusal-20/desk-row", "Byte 4633: desk 0 has row 3 open, which is free.", || {
        wrong(|s| s[desk_place(0) + ROW_NAMED] = 3)
    }),
    sheet("refusal-20/copy-word", "Bytes 4636 to 4639: the used word 0 in the copy that desk 0 opened.", || {
        wrong(|s| put(s, desk_place(0) + OPENED, 4, 0))
    }),
    sheet("refusal-20/copy-key", "Bytes 4784 to 4791: in the copy that desk 0 works on, the key of row 1.", || {
        wrong(|s| {
            let at = desk_place(0) + WORKED + KEY;
            s.copy_within(row_place(1) + KEY..row_place(1) + FIRST, at);
        })
    }),
    sheet("refusal-20/copy-first", "Bytes 4792 to 4795: in the copy that desk 0 works on, the first number 2.", || {
        wrong(|s| put(s, desk_place(0) + WORKED + FIRST, 4, 2))
    }),
];

/// The night's sheet with desk 3 closed, so that no desk has row 2 open; `spoil` then changes it.
fn wrong(spoil: fn(&mut Vec<u8>)) -> Vec<u8> {
    let mut s = right();
    spoil(&mut s);
    s
}

pub(crate) fn right() -> Vec<u8> {
    let mut s = night_sheet();
    ledger::drop_desk(&mut s, 3).expect("an open desk");
    s
}
