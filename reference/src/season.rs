//! The season's gap report over up to 16 sheets, one after another; and the program's table. Request 13.

use crate::convert::{convert, OLD_SHEET};
use crate::files::reason;
use crate::ledger::{self, SHEET};
use std::ffi::OsString;
use std::io::{self, Write};
use std::ops::AddAssign;

pub const MOST_SHEETS: usize = 16;

#[derive(Clone, Copy, Debug, Default, PartialEq)]
pub struct Counts {
    pub ticked: u32,
    pub missing: u32,
}

impl Counts {
    /// How many are missing per million of ticked and missing together, rounded down; 0 if both are 0.
    pub fn per_million(self) -> u32 {
        let both = u64::from(self.ticked) + u64::from(self.missing);
        (u64::from(self.missing) * 1_000_000).checked_div(both).unwrap_or(0) as u32
    }
}

impl AddAssign for Counts {
    fn add_assign(&mut self, other: Counts) {
        self.ticked += other.ticked;
        self.missing += other.missing;
    }
}

#[derive(Clone, Copy, Debug, PartialEq)]
pub struct Gap {
    pub sheet: usize,
    pub row: usize,
    pub number: u32,
}

#[derive(Debug, Default, PartialEq)]
pub struct Season {
    pub sheets: Vec<Counts>,
    pub total: Counts,
    pub first_gap: Option<Gap>,
}

pub fn season(s: &[u8]) -> Result<Season, u32> {
    if !s.len().is_multiple_of(SHEET) || s.len() / SHEET > MOST_SHEETS {
        return Err(42);
    }
    let sheets = s.chunks_exact(SHEET);
    if !sheets.clone().all(ledger::is_sheet) {
        return Err(20);
    }
    // A sheet has no key twice, so a key that is twice here is in two sheets.
    let mut keys: Vec<u64> = sheets.clone().flat_map(keys).collect();
    keys.sort_unstable();
    if keys.windows(2).any(|pair| pair[0] == pair[1]) {
        return Err(41);
    }
    let mut season = Season::default();
    for (i, sheet) in sheets.enumerate() {
        let mut counts = Counts::default();
        for row in ledger::used_rows(sheet) {
            let report = ledger::report_row(ledger::row(sheet, row));
            counts += Counts { ticked: report.ticked, missing: report.missing };
            let gap = report.lowest.map(|number| Gap { sheet: i, row, number });
            season.first_gap = season.first_gap.or(gap);
        }
        season.total += counts;
        season.sheets.push(counts);
    }
    Ok(season)
}

fn keys(sheet: &[u8]) -> impl Iterator<Item = u64> + '_ {
    ledger::used_rows(sheet).map(|row| ledger::key(ledger::row(sheet, row)))
}

pub const HEADING: &str = "sheet rows ticked missing per-million";

/// Why a program refuses: the reason, with the file's name if one file is at fault.
pub type Refused = String;

fn too_many() -> Refused {
    format!("more than {MOST_SHEETS} sheets (42)")
}

fn not_a_sheet(name: &str) -> Refused {
    format!("{name}: not a ledger sheet (20)")
}

/// The table of the season whose sheets are in these files, each with name and bytes. Old sheets are converted first.
pub fn table(files: &[(String, Vec<u8>)]) -> Result<String, Refused> {
    if files.len() > MOST_SHEETS {
        return Err(too_many());
    }
    let mut sheets = Vec::new();
    for (name, bytes) in files {
        let sheet = new_sheet(bytes).ok_or_else(|| not_a_sheet(name))?;
        sheets.extend(sheet);
    }
    // The sheets are right and not too many, so only 41 is left.
    let season = season(&sheets).map_err(|_| "a stream stands in two of the sheets (41)".to_string())?;
    let mut text = format!("{HEADING}\n");
    let mut rows = 0;
    let line = |name: &str, rows: usize, counts: &Counts| {
        format!("{name} {rows} {} {} {}", counts.ticked, counts.missing, counts.per_million())
    };
    for (((name, bytes), sheet), counts) in files.iter().zip(sheets.chunks_exact(SHEET)).zip(&season.sheets) {
        rows += ledger::rows_used(sheet);
        let converted = if bytes.len() == OLD_SHEET { " converted" } else { "" };
        text += &format!("{}{converted}\n", line(name, ledger::rows_used(sheet), counts));
    }
    text += &format!("{}\n", line("total", rows, &season.total));
    text += &match season.first_gap {
        Some(gap) => format!("first gap: {}, row {}, number {}\n", files[gap.sheet].0, gap.row, gap.number),
        None => "first gap: none\n".to_string(),
    };
    Ok(text)
}

/// A right sheet as it is, or an old one converted.
fn new_sheet(bytes: &[u8]) -> Option<Vec<u8>> {
    if bytes.len() != OLD_SHEET {
        return Some(bytes.to_vec()).filter(|sheet| ledger::is_sheet(sheet));
    }
    let mut sheet = vec![0; SHEET];
    convert(bytes, &mut sheet).ok().map(|()| sheet)
}

/// The files named, with their names. Refuses too many files before it reads one; then the first that is not there or
/// is no sheet.
fn read_sheets(names: &[OsString]) -> Result<Vec<(String, Vec<u8>)>, Refused> {
    if names.len() > MOST_SHEETS {
        return Err(too_many());
    }
    let mut files = Vec::new();
    for name in names {
        let shown = name.to_string_lossy().into_owned();
        let bytes = std::fs::read(name).map_err(|error| format!("{shown}: {}", reason(&error)))?;
        new_sheet(&bytes).ok_or_else(|| not_a_sheet(&shown))?;
        files.push((shown, bytes));
    }
    Ok(files)
}

/// Writes the table of the files named, or what is wrong to standard error. Answers whether all went well.
pub fn report(names: &[OsString], out: &mut impl Write) -> io::Result<bool> {
    match read_sheets(names).and_then(|files| table(&files)) {
        Ok(text) => out.write_all(text.as_bytes()).map(|()| true),
        Err(refused) => {
            eprintln!("{refused}");
            Ok(false)
        }
    }
}
