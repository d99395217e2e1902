//! Request 11: traces compared with the plain book. A table says which fields of an entry each call uses.

use super::{fresh, lines, Frame};
use crate::book::{self, Book};
use crate::make::Rng;
use crate::ops;
use crate::random::{self, traces::recorded};
use crate::replay::{replay, write_trace, Answer, Call, Replayed};
use crate::script::{crc32, Calls};

/// For each call, which of desk, row, record number and key it uses. An enrolment uses the row only if it is accepted.
const USES: [[bool; 4]; 7] = [
    [false, true, true, true],
    [true, true, false, false],
    [true, false, true, false],
    [true, false, true, false],
    [true, false, false, false],
    [true, false, false, false],
    [false, true, false, false],
];

fn well_formed(trace: &[u8]) -> bool {
    let word = |at: usize| u32::from_be_bytes(trace[at..at + 4].try_into().unwrap()) as usize;
    if trace.len() < 12 || word(0) != trace.len() || word(4) > 4_000 || word(0) != 12 + 16 * word(4) || word(8) != 12 {
        return false;
    }
    trace[12..].chunks(16).all(|e| {
        let fields = [&e[1..2], &e[2..3], &e[4..8], &e[8..16]];
        (1..=7).contains(&e[0])
            && fields.iter().zip(USES[e[0] as usize - 1]).all(|(field, uses)| uses || field.iter().all(|b| *b == 0))
            && (e[0] != 1 || e[3] == 0 || e[2] == 0)
    })
}

/// The line without the crc, and the book at the end.
fn plainly(trace: &[u8]) -> Option<(String, Book)> {
    plainly_on(Book::new(), trace)
}

/// The same from this book on.
fn plainly_on(mut book: Book, trace: &[u8]) -> Option<(String, Book)> {
    if !well_formed(trace) {
        return None;
    }
    for (i, e) in trace[12..].chunks(16).enumerate() {
        let (desk, row) = (e[1].into(), e[2].into());
        let n = u32::from_be_bytes(e[4..8].try_into().unwrap());
        let key = u64::from_be_bytes(e[8..].try_into().unwrap());
        let call = match e[0] {
            1 => book::Call::Enrol(key, n),
            2 => book::Call::Open(desk, row),
            3 => book::Call::Tick(desk, n),
            4 => book::Call::Untick(desk, n),
            5 => book::Call::Save(desk),
            6 => book::Call::Drop(desk),
            _ => book::Call::Strike(row),
        };
        let answer = book.call(call);
        let (number, place) = (answer.err().unwrap_or(0), answer.unwrap_or(0));
        if number != e[3].into() || (e[0] == 1 && place != e[2].into()) {
            return Some((format!("0 {i} {number} {place}"), book));
        }
    }
    Some(("0 same".to_string(), book))
}

#[test]
fn replays_are_the_books() {
    let (mut same, mut differ, mut refused) = (0, 0, 0);
    for seed in 0..4 {
        let mut calls = Calls::default();
        for f in random::script_of(seed, 1_500, Some("traces")) {
            let before = calls.sheet.clone();
            let line = calls.line(&f).unwrap();
            let start = match f.op {
                ops::REPLAY => Some(Book::new()).filter(|_| before.len() == 6_968),
                ops::REPLAY_ON => Book::of_sheet(&before),
                _ => continue,
            };
            let (expected, left) = match start.map(|book| plainly_on(book, &f.a)) {
                None => ("20".to_string(), before),
                Some(None) => ("40".to_string(), before),
                Some(Some((expected, book))) => (expected, book.laid_out()),
            };
            *match &expected[..] {
                "0 same" => &mut same,
                "20" | "40" => &mut refused,
                _ => &mut differ,
            } += 1;
            assert_eq!(line, format!("{expected} {}", crc32(&left)));
            assert!(calls.sheet == left);
        }
    }
    assert!(same > 500 && differ > 200 && refused > 500, "{same} {differ} {refused}");
}

/// The replay of a recorded night answers "same" and leaves the sheet that the night left, whatever the lent one held.
#[test]
fn a_recorded_night_is_the_same() {
    let rng = Rng::new(11);
    for count in [0, 1, 10, 100, 300, 4_000] {
        let log = recorded(&rng, count);
        let mut night = fresh();
        log.iter().for_each(|(call, answer)| assert_eq!(call.make(&mut night), *answer));
        let mut s = rng.bytes(6_968);
        assert_eq!(replay(&write_trace(&log), &mut s), Ok(Replayed::Same));
        assert!(s == night);
    }
    let mut s = vec![3; 6_968];
    assert_eq!(replay(&write_trace(&recorded(&rng, 4_001)), &mut s), Err(40));
    assert_eq!(s, [3; 6_968]);
    assert_eq!(replay(&[], &mut [0; 6_967]), Err(20));
}

#[test]
fn every_bit_of_a_trace_counts() {
    let enrol = |key| Call::Enrol { key, first: 1 };
    let calls = [
        enrol(7),
        enrol(7),
        enrol(8),
        Call::Open { desk: 2, row: 1 },
        Call::Tick { desk: 2, n: 3 },
        Call::Untick { desk: 2, n: 4 },
        Call::Strike { row: 1 },
        Call::Save { desk: 2 },
        Call::Drop { desk: 2 },
        Call::Strike { row: 1 },
    ];
    let mut sheet = fresh();
    let log = calls.map(|call| (call, call.make(&mut sheet)));
    assert_eq!(log.map(|(_, answer)| answer.number), [0, 23, 0, 0, 0, 30, 36, 0, 27, 0]);
    assert_eq!(log[2].1, Answer { number: 0, row: 1 });
    let mut trace = write_trace(&log);
    for (at, bit) in (0..trace.len()).flat_map(|at| (0..8).map(move |bit| (at, bit))) {
        trace[at] ^= 1 << bit;
        let mut s = vec![0x5A; 6_968];
        let answer = replay(&trace, &mut s);
        match plainly(&trace) {
            None => assert!(answer == Err(40) && s == [0x5A; 6_968], "byte {at}"),
            Some((line, book)) => {
                let found = match answer.unwrap() {
                    Replayed::Same => "0 same".to_string(),
                    Replayed::Differs(entry, answer) => format!("0 {entry} {} {}", answer.number, answer.row),
                };
                assert_eq!(found, line, "byte {at}");
                assert!(s == book.laid_out());
            }
        }
        trace[at] ^= 1 << bit;
    }
}

#[test]
fn replay_lines() {
    let of = |a: &[u8]| Frame { op: ops::REPLAY, a: a.to_vec(), ..Frame::default() };
    let mut sheet = fresh();
    let (empty, call) = (crc32(&sheet), Call::Enrol { key: 7, first: 1 });
    let trace = write_trace(&[(call, call.make(&mut sheet))]);
    let mut other = trace.clone();
    other[12 + 3] = 99;
    let one = crc32(&sheet);
    let become_short = Frame { op: ops::NEW_SHEET, a: vec![1], ..Frame::default() };
    assert_eq!(
        lines(&[of(&trace), of(&other), of(&trace[..12]), of(&write_trace(&[])), become_short, of(&[])]),
        [
            format!("0 same {one}"),
            format!("0 0 0 0 {one}"),
            format!("40 {one}"),
            format!("0 same {empty}"),
            format!("0 {}", crc32(&[1])),
            format!("20 {}", crc32(&[1])),
        ]
    );
}
