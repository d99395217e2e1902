//! The missing list, receive, and the questions on rows, desks and keys, compared with the plain book; traces
//! replayed in pieces.

use super::{by_hand, fresh, lines, rsr_secondary, Frame};
use crate::book::{Book, Call, Desk, Place};
use crate::ledger::{self, Report};
use crate::make::{self, Rng};
use crate::random;
use crate::receive::{receive, Received};
use crate::record::{self, Fields, RSR, TELEMETRY};
use crate::replay::{replay, replay_on, write_trace, Replayed};
use crate::script::{crc32, Calls};
use crate::stream::{self, Cursor, Step};
use crate::{keys, nights, ops};
use std::collections::BTreeSet;

/// The numbers at the unticked positions below the highest ticked one.
fn missing(place: &Place) -> Vec<u32> {
    let modulus = if place.key >= 1 << 42 { 65_536 } else { 1u64 << 32 };
    let highest = place.set.last().copied().unwrap_or(0);
    let unticked = (0..highest).filter(|position| !place.set.contains(position));
    unticked.map(|position| ((place.first as u64 + position as u64) % modulus) as u32).collect()
}

/// The outcomes of the records, made with the book's own calls, and where the walk stops.
fn visits(book: &mut Book, desk: u32, s: &[u8], free: usize) -> (Vec<u32>, u64, u32) {
    let (mut outcomes, mut cursor) = (Vec::new(), Cursor { place: 0 });
    loop {
        match cursor.step(s) {
            Step::Done(_) => return (outcomes, cursor.place, 0),
            Step::Refused(refused, _) => return (outcomes, cursor.place, refused.number()),
            Step::Found(..) if outcomes.len() == free => return (outcomes, cursor.place, 16),
            Step::Found(found, next) => {
                outcomes.push(visit(book, desk, &s[cursor.place as usize..], found.kind));
                cursor = next;
            }
        }
    }
}

fn visit(book: &mut Book, desk: u32, s: &[u8], kind: u32) -> u32 {
    let (key, n) = match record::read_headers(s, kind) {
        Ok((_, Fields::Telemetry(t))) => (t.key, t.number),
        Ok((_, Fields::Rsr(r))) => (r.key, r.number.into()),
        Err(refused) => return refused.number(),
    };
    let Ok(row) = book.find(key) else { return 25 };
    assert_eq!(book.call(Call::Open(desk, row as u32)), Ok(0));
    let ticked = book.call(Call::Tick(desk, n));
    let leave = if ticked.is_ok() { Call::Save(desk) } else { Call::Drop(desk) };
    assert_eq!(book.call(leave), Ok(0));
    ticked.err().unwrap_or(0)
}

fn list_of(z: u32) -> Vec<u32> {
    vec![7; z as usize]
}

fn crc_of(list: &[u32]) -> u32 {
    let bytes: Vec<u8> = list.iter().flat_map(|number| number.to_be_bytes()).collect();
    crc32(&bytes)
}

/// The line that the book gives for a frame's call, without the sheet's crc. Changes the book.
fn plainly(book: Option<&mut Book>, f: &Frame) -> String {
    let mut list = list_of(f.z);
    let lent = matches!(f.op, ops::MISSING_NUMBERS | ops::RECEIVE);
    let answer = match book {
        Some(book) => answer(book, f, &mut list),
        None => Err(20),
    };
    let words = answer.map_or_else(|refusal| refusal.to_string(), |words| format!("0 {words}"));
    if lent {
        format!("{words} {}", crc_of(&list))
    } else {
        words
    }
}

fn answer(book: &mut Book, f: &Frame, list: &mut [u32]) -> Result<String, u32> {
    let place = book.places.get(f.x as usize).and_then(Option::as_ref).ok_or(25u32);
    let desk = book.desks.get(f.x as usize).ok_or(21u32);
    match f.op {
        ops::ROW => place.map(|place| format!("{} {}", place.key, place.first)),
        ops::DESK => match desk? {
            None => Ok("none".to_string()),
            Some(Desk { place, opened, worked }) => {
                let (ticks, unticks) = (worked.difference(opened).count(), opened.difference(worked).count());
                let stale = book.places[*place].as_ref().unwrap().set != *opened;
                Ok(format!("{place} {ticks} {unticks} {}", stale as u32))
            }
        },
        ops::MISSING_NUMBERS => {
            let missing = missing(place?);
            list.get_mut(..missing.len()).ok_or(60u32)?.copy_from_slice(&missing);
            Ok(missing.len().to_string())
        }
        _ => {
            if desk?.is_some() {
                return Err(26);
            }
            let (outcomes, place, number) = visits(book, f.x, &f.a, list.len());
            list[..outcomes.len()].copy_from_slice(&outcomes);
            // The detail is the one that number lists of this length give.
            let mut wide = vec![0; list.len()];
            let stop = stream::number_lists(&f.a, &mut wide.clone(), &mut wide, &mut list_of(f.z), &mut list_of(f.z));
            assert_eq!((stop.count, stop.place, stop.number), (outcomes.len() as u64, place, number));
            let ticked = outcomes.iter().filter(|outcome| **outcome == 0).count();
            Ok(format!("{} {place} {number} {} {ticked}", outcomes.len(), stop.detail))
        }
    }
}

#[test]
fn the_calls_are_the_books() {
    let (mut compared, mut outcomes, mut refusals) = (0, BTreeSet::new(), BTreeSet::new());
    for seed in 0..6 {
        let mut calls = Calls::default();
        let frames = random::script_of(seed, 2_000, Some(if seed < 2 { "ledger" } else { "receive" }));
        for f in frames {
            let mut book = Book::of_sheet(&calls.sheet);
            let before = calls.sheet.clone();
            let line = calls.line(&f).unwrap();
            if ![ops::ROW, ops::DESK, ops::MISSING_NUMBERS, ops::RECEIVE].contains(&f.op) {
                continue;
            }
            let expected = plainly(book.as_mut(), &f);
            assert_eq!(line, format!("{expected} {}", crc32(&calls.sheet)));
            assert!(calls.sheet == book.map_or(before, |book| book.laid_out()));
            refusals.insert((f.op, line.split(' ').next().unwrap().parse::<u32>().unwrap()));
            compared += 1;
        }
        outcomes.extend(calls.outcomes.keys().copied());
    }
    assert!(compared > 3_000, "{compared}");
    assert!(outcomes.into_iter().eq([0, 12, 25, 28, 29]));
    let met = [(34, &[0, 20, 25][..]), (35, &[0, 20, 21]), (36, &[0, 20, 25, 60]), (37, &[0, 20, 21, 26])];
    let expected = met.iter().flat_map(|(op, numbers)| numbers.iter().map(move |number| (*op, *number)));
    assert!(refusals.into_iter().eq(expected));
}

fn telemetry(n: u32) -> Vec<u8> {
    let mut secondary = [0; 80];
    secondary[18..22].copy_from_slice(&n.to_be_bytes());
    by_hand(TELEMETRY, 100, &secondary, &[])
}

fn rsr(n: u16, day: u8) -> Vec<u8> {
    let mut secondary = rsr_secondary();
    secondary[4..6].copy_from_slice(&n.to_be_bytes());
    secondary[24..28].copy_from_slice(&[0x07, 0xD1, 1, day]);
    by_hand(RSR, 240, &secondary, &[])
}

/// A night of one telemetry row and one RSR row that pass the ends of their numbers: each outcome, and what is then
/// missing.
#[test]
fn a_stream_is_received() {
    let mut s = fresh();
    ledger::enrol(&mut s, 0, u32::MAX - 1).unwrap();
    ledger::enrol(&mut s, 1 << 42, 65_535).unwrap();
    // 2001 has no day 366.
    let records = [
        telemetry(u32::MAX),
        telemetry(2),
        telemetry(2),
        rsr(1, 0x6D),
        rsr(2, 0x6E),
        rsr(1_023, 0x6D),
        telemetry(1_023),
    ];
    let stream = records.concat();
    let mut list = list_of(9);
    let Ok(Received { stop, ticked }) = receive(&mut s, 3, &stream, &mut list) else { panic!() };
    assert_eq!((stop.count, stop.place, stop.number, ticked), (7, stream.len() as u64, 0, 3));
    assert_eq!(list, [0, 0, 29, 0, 12, 28, 28, 7, 7]);
    assert_eq!(ledger::desk_of(&s, 3), Ok(None));
    let mut list = list_of(4);
    assert_eq!(ledger::missing_numbers(&s, 0, &mut list), Ok(3));
    assert_eq!(list, [u32::MAX - 1, 0, 1, 7]);
    assert_eq!(ledger::missing_numbers(&s, 1, &mut list), Ok(2));
    assert_eq!(list, [65_535, 0, 1, 7]);
    assert_eq!(ledger::missing_numbers(&s, 0, &mut list[..2]), Err(60));
    assert_eq!(list, [65_535, 0, 1, 7]);
    // A struck stream has no row; the walk goes on.
    ledger::strike(&mut s, 0).unwrap();
    let mut list = list_of(3);
    let Ok(Received { stop, ticked }) = receive(&mut s, 7, &stream, &mut list) else { panic!() };
    assert_eq!((stop.count, stop.place, stop.number, ticked), (3, 360, 16, 0));
    assert_eq!(list, [25, 25, 25]);
}

/// 20, 21 and 26 are tested in this order, also for an empty stream and an empty list, and change nothing.
#[test]
fn receive_refusals() {
    let mut s = fresh();
    ledger::enrol(&mut s, 0, 1).unwrap();
    ledger::open(&mut s, 2, 0).unwrap();
    assert_eq!(receive(&mut s, 2, &[], &mut []), Err(26));
    assert_eq!(receive(&mut s, 8, &[], &mut []), Err(21));
    assert!(receive(&mut s, 0, &[], &mut []).is_ok());
    s[0] = 9;
    let before = s.clone();
    let mut list = list_of(3);
    assert_eq!(receive(&mut s, 8, &telemetry(1), &mut list), Err(20));
    assert!(s == before && list == [7; 3]);
}

#[test]
fn most_are_missing() {
    let mut s = fresh();
    ledger::enrol(&mut s, 0, 5).unwrap();
    ledger::open(&mut s, 0, 0).unwrap();
    ledger::tick(&mut s, 0, 5 + 1_023).unwrap();
    assert_eq!(ledger::unsaved(&s, 0), Ok((1, 0)));
    assert_eq!(ledger::missing_numbers(&s, 0, &mut []), Ok(0));
    ledger::save(&mut s, 0).unwrap();
    assert_eq!(ledger::unsaved(&s, 0), Err(27));
    let mut list = list_of(1_023);
    assert_eq!(ledger::missing_numbers(&s, 0, &mut list[1..]), Err(60));
    assert_eq!(ledger::missing_numbers(&s, 0, &mut list), Ok(1_023));
    assert!(list.into_iter().eq(5..1_028));
    assert_eq!(ledger::report(&s, 0), Ok(Report { ticked: 1, missing: 1_023, lowest: Some(5) }));
}

#[test]
fn parts_make_the_key_again() {
    let rng = Rng::new(5);
    for _ in 0..20_000 {
        let key = rng.pick(&[nights::new_key(&rng), rng.below(1 << 43), (1 << 42) + rng.below(1 << 32), rng.next()]);
        match keys::parts(key) {
            Ok((TELEMETRY, [a, b, c, d])) => assert_eq!(keys::telemetry_key(a, b, c, d), Ok(key)),
            Ok((_, [a, b, c, d])) => assert_eq!(keys::rsr_key(a, b, c, d), Ok(key)),
            Err(refusal) => assert!(refusal == 22 && !keys::valid(key)),
        }
    }
    let key = keys::telemetry_key(177, 43, 3_842, 1).unwrap();
    assert_eq!(keys::parts(key), Ok((TELEMETRY, [177, 43, 3_842, 1])));
    let key = keys::rsr_key(255, 14, 2, 4).unwrap();
    assert_eq!(keys::parts(key), Ok((RSR, [255, 14, 2, 4])));
}

/// A night in pieces leaves what the whole night leaves. An entry that differs is counted in its own piece.
#[test]
fn pieces_of_a_night() {
    let rng = Rng::new(17);
    for count in [0, 1, 10, 300] {
        let log = random::traces::recorded(&rng, count);
        let mut whole = fresh();
        assert_eq!(replay(&write_trace(&log), &mut whole), Ok(Replayed::Same));
        let (one, other) = log.split_at(rng.index(count + 1));
        let mut s = rng.bytes(6_968);
        assert_eq!(replay_on(&write_trace(one), &mut s), Err(20));
        assert_eq!(replay(&write_trace(one), &mut s), Ok(Replayed::Same));
        assert_eq!(replay_on(&write_trace(other), &mut s), Ok(Replayed::Same));
        assert!(s == whole);
        assert_eq!(replay_on(&[], &mut s), Err(40));
        assert!(s == whole);
        if let Some((call, answer)) = other.first() {
            let mut differs = *answer;
            differs.number ^= 1;
            differs.row = 0;
            let mut s = fresh();
            replay(&write_trace(one), &mut s).unwrap();
            assert_eq!(replay_on(&write_trace(&[(*call, differs)]), &mut s), Ok(Replayed::Differs(0, *answer)));
        }
    }
}

#[test]
fn lines_of_the_new_ops() {
    let frame = |op, x, z| Frame { op, x, z, ..Frame::default() };
    let fresh_crc = crc32(&fresh());
    let sevens = crc_of(&[7, 7]);
    let receive = |x, z| Frame { a: telemetry(5), ..frame(ops::RECEIVE, x, z) };
    assert_eq!(
        lines(&[
            Frame { key: (1 << 42) + 0x0102_0304, ..frame(ops::KEY_PARTS, 0, 0) },
            Frame { key: 1 << 50, ..frame(ops::KEY_PARTS, 0, 0) },
            frame(ops::FRESH, 0, 0),
            frame(ops::ROW, 0, 0),
            frame(ops::DESK, 1, 0),
            frame(ops::DESK, 8, 0),
            frame(ops::MISSING_NUMBERS, 0, 2),
            receive(0, 2),
            receive(8, 2),
            receive(0, 0),
            Frame { a: write_trace(&[]), ..frame(ops::REPLAY_ON, 0, 0) },
            frame(ops::REPLAY_ON, 0, 0),
            frame(ops::MISSING_NUMBERS, 0, 1_101),
        ]),
        [
            "0 2 1 2 3 4".to_string(),
            "22".to_string(),
            format!("0 {fresh_crc}"),
            format!("25 {fresh_crc}"),
            format!("0 none {fresh_crc}"),
            format!("21 {fresh_crc}"),
            format!("25 {sevens} {fresh_crc}"),
            format!("0 1 120 0 0 0 {} {fresh_crc}", crc_of(&[25, 7])),
            format!("21 {sevens} {fresh_crc}"),
            format!("0 0 0 16 0 0 {} {fresh_crc}", crc_of(&[])),
            format!("0 same {fresh_crc}"),
            format!("40 {fresh_crc}"),
            "bad frame".to_string(),
        ]
    );
    assert_eq!(lines(&[frame(ops::RECEIVE, 0, 1_101)]), ["bad frame"]);
}

/// If a stream is received again, its records are already ticked, and nothing changes.
#[test]
fn the_same_stream_again() {
    let rng = Rng::new(8);
    for _ in 0..200 {
        let mut s = nights::sheet_with(&rng, 3, 0, 0);
        let records = (0..12).map(|_| make::good_record(&rng, make::kind(&rng), 0));
        let mut stream: Vec<u8> = records.flatten().collect();
        for r in 0..3 {
            let (key, first) = ledger::row_of(&s, r).unwrap();
            let (kind, _) = keys::parts(key).unwrap();
            if kind == TELEMETRY && key == 0 {
                stream.extend(telemetry(first.wrapping_add(3)));
            }
        }
        let (mut one, mut other) = (list_of(40), list_of(40));
        receive(&mut s, 0, &stream, &mut one).unwrap();
        let after = s.clone();
        assert_eq!(receive(&mut s, 0, &stream, &mut other).unwrap().ticked, 0);
        assert!(s == after);
        assert!(one.iter().zip(&other).all(|(one, other)| *other == if *one == 0 { 29 } else { *one }));
    }
}
