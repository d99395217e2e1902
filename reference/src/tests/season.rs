//! Request 13: the season report compared with the sheets' own reports, and its identity on whole nights.

use super::{fresh, lines, Frame};
use crate::book::Book;
use crate::ops;
use crate::random::{self, old_sheets::as_old};
use crate::sample;
use crate::script::Calls;
use crate::season::{season, table, Counts, Gap, Season};

#[test]
fn a_season_is_its_books_reports() {
    let (mut accepted, mut gaps) = (0, 0);
    for f in random::script_of(3, 600, Some("seasons")) {
        let s = &f.a;
        let sheets: Vec<&[u8]> = s.chunks(6_968).collect();
        let books: Vec<Option<Book>> = sheets.iter().map(|sheet| Book::of_sheet(sheet)).collect();
        if s.len() % 6_968 != 0 || sheets.len() > 16 {
            assert_eq!(season(s), Err(42));
            continue;
        }
        if books.iter().any(Option::is_none) {
            assert_eq!(season(s), Err(20));
            continue;
        }
        let books: Vec<Book> = books.into_iter().flatten().collect();
        let keys = |book: &Book| book.places.iter().flatten().map(|place| place.key).collect::<Vec<u64>>();
        let meet = |i: usize| (0..i).any(|j| keys(&books[i]).iter().any(|key| keys(&books[j]).contains(key)));
        if (0..books.len()).any(meet) {
            assert_eq!(season(s), Err(41));
            continue;
        }
        let mut expected = Season::default();
        for (sheet, book) in books.iter().enumerate() {
            let (mut ticked, mut missing) = (0, 0);
            for row in 0..32 {
                let Ok((t, m, lowest)) = book.report(row) else { continue };
                ticked += t as u32;
                missing += m as u32;
                let gap = lowest.map(|number| Gap { sheet, row: row as usize, number });
                expected.first_gap = expected.first_gap.or(gap);
            }
            expected.sheets.push(Counts { ticked, missing });
            expected.total += Counts { ticked, missing };
        }
        assert_eq!(season(s).as_ref(), Ok(&expected));
        // A gap is reported exactly if something is missing.
        assert_eq!(expected.first_gap.is_some(), expected.total.missing > 0);
        accepted += 1;
        gaps += expected.first_gap.is_some() as usize;
    }
    assert!(accepted > 150 && gaps > 50 && gaps < accepted);
}

#[test]
fn per_million() {
    for (ticked, missing, answer) in
        [(0, 0, 0), (1, 0, 0), (0, 1, 1_000_000), (2, 1, 333_333), (1, 2, 666_666), (999_999, 1, 1), (1_000_000, 1, 0)]
    {
        assert_eq!(Counts { ticked, missing }.per_million(), answer);
    }
    let most = 16 * 32 * 1_024;
    assert_eq!(Counts { ticked: 1, missing: most }.per_million(), 999_998);
}

#[test]
fn none_given() {
    assert_eq!(season(&[]), Ok(Season::default()));
    assert_eq!(lines(&[Frame { op: ops::SEASON, ..Frame::default() }]), ["0 0 0 0 0 none"]);
}

/// For each row what was saved; for each desk its row and what it has marked since it opened it.
type Log = ([i64; 32], [(usize, i64); 8]);

/// Ticked in all is the accepted ticks less the accepted unticks of visits that were saved, on rows that were not
/// struck later.
#[test]
fn ticked_is_what_was_saved() {
    let (mut nights, mut most) = (0, 0);
    for seed in 0..8 {
        let mut calls = Calls::default();
        // None until a fresh sheet.
        let mut log: Option<Log> = None;
        for f in random::script_of(seed, 3_000, Some("ledger")) {
            let accepted = calls.line(&f).unwrap().starts_with("0 ");
            if [ops::NEW_SHEET, ops::CONVERT].contains(&f.op) {
                log = None;
            }
            if f.op == ops::FRESH && accepted {
                log = Some(([0; 32], [(0, 0); 8]));
                nights += 1;
            }
            let Some((saved, desks)) = &mut log else { continue };
            if accepted {
                match f.op {
                    ops::OPEN => desks[f.x as usize] = (f.y as usize, 0),
                    ops::TICK => desks[f.x as usize].1 += 1,
                    ops::UNTICK => desks[f.x as usize].1 -= 1,
                    ops::SAVE => saved[desks[f.x as usize].0] += desks[f.x as usize].1,
                    ops::STRIKE => saved[f.x as usize] = 0,
                    _ => {}
                }
            }
            let ticked = season(&calls.sheet).unwrap().total.ticked;
            assert_eq!(ticked as i64, saved.iter().sum::<i64>());
            most = most.max(ticked);
        }
    }
    assert!(nights > 50 && most > 10, "{nights} {most}");
}

fn files(sheets: &[(&str, Vec<u8>)]) -> Vec<(String, Vec<u8>)> {
    sheets.iter().map(|(name, bytes)| (name.to_string(), bytes.clone())).collect()
}

#[test]
fn tables() {
    let empty = "sheet rows ticked missing per-million\ntotal 0 0 0 0\nfirst gap: none\n";
    assert_eq!(table(&[]).as_deref(), Ok(empty));
    let (old, new) = (sample::sample("sheets/old-night").unwrap(), sample::sample("sheets/new-night").unwrap());
    let text = "sheet rows ticked missing per-million
a b 0 0 0 0
old 3 9 51 850000 converted
total 3 9 51 850000
first gap: old, row 0, number 3
";
    assert_eq!(table(&files(&[("a b", fresh()), ("old", old.clone())])).as_deref(), Ok(text));
    let refused = |sheets: &[(&str, Vec<u8>)]| table(&files(sheets)).unwrap_err();
    assert_eq!(refused(&[("new", new.clone()), ("old", old.clone())]), "a stream stands in two of the sheets (41)");
    assert_eq!(refused(&[("new", new.clone()), ("x", vec![0; 6_968])]), "x: not a ledger sheet (20)");
    assert_eq!(refused(&[("x", vec![0; 6_776]), ("new", new.clone())]), "x: not a ledger sheet (20)");
    assert_eq!(refused(&[("x", new[1..].to_vec())]), "x: not a ledger sheet (20)");
    assert_eq!(refused(&vec![("x", Vec::new()); 17]), "more than 16 sheets (42)");
    assert_eq!(as_old(&new), old);
}

#[test]
fn season_lines() {
    let of = |sheets: &[&[u8]]| Frame { op: ops::SEASON, a: sheets.concat(), ..Frame::default() };
    let (night, empty) = (sample::sample("sheets/new-night").unwrap(), fresh());
    let lines = lines(&[
        of(&[&empty]),
        of(&[&empty, &night, &empty]),
        of(&[&night, &empty[1..]]),
        of(&[&night, &empty, &night]),
        of(&[&night, &[0; 6_968], &night]),
        of(&[&empty[..]; 16]),
        of(&[&empty[..]; 17]),
    ]);
    assert_eq!(
        lines,
        [
            "0 1 0 0 0 0 0 0 none",
            "0 3 0 0 0 9 51 850000 0 0 0 9 51 850000 1 0 3",
            "42",
            "41",
            "20",
            &format!("0 16{} none", " 0 0 0".repeat(17)),
            "42",
        ]
    );
}
