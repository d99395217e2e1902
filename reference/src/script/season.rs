//! `SEASON`: the season report.

use super::Frame;
use crate::season::{self, Counts, Gap};

pub fn line(f: &Frame) -> String {
    let season = match season::season(&f.a) {
        Ok(season) => season,
        Err(refusal) => return refusal.to_string(),
    };
    let counts = |c: &Counts| format!(" {} {} {}", c.ticked, c.missing, c.per_million());
    let sheets: String = season.sheets.iter().map(counts).collect();
    let gap = match season.first_gap {
        Some(Gap { sheet, row, number }) => format!("{sheet} {row} {number}"),
        None => "none".to_string(),
    };
    format!("0 {}{sheets}{} {gap}", season.sheets.len(), counts(&season.total))
}
