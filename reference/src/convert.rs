//! Request 10: converts an old sheet, of document 01, to a new one.

use crate::ledger::{self, is_sheet, DESK_PLACES, KEY, OPENED, ROWS_USED, ROW_NAMED, ROW_PLACES, SHEET, WORKED};
use crate::record::number;

pub const OLD_SHEET: usize = 6_776;
pub const OLD_ROWS: usize = 24;
pub const OLD_ROW: usize = 140;
pub const OLD_DESKS: usize = 4_504;
pub const OLD_DESK: usize = 284;

/// Makes `new` the new sheet of the old one, with the same rows and open desks at the same places.
pub fn convert(old: &[u8], new: &mut [u8]) -> Result<(), u32> {
    if new.len() != SHEET {
        return Err(20);
    }
    let copied = copied(old).filter(|sheet| is_sheet(sheet)).ok_or(20u32)?;
    new.copy_from_slice(&copied);
    Ok(())
}

/// The old sheet's bytes at the new places, with a used word in as many rows as its header counts. The old sheet is
/// right exactly if this is a right new sheet, because each clause of the old rule is the new rule's clause about the
/// same bytes.
fn copied(old: &[u8]) -> Option<[u8; SHEET]> {
    let header = |i: usize| number(old, 4 * i, 4) as usize;
    if old.len() != OLD_SHEET
        || [header(0), header(2), header(3), header(4), header(5)]
            != [OLD_SHEET, ROW_PLACES, OLD_ROWS, DESK_PLACES, OLD_DESKS]
    {
        return None;
    }
    let used = header(1);
    let mut new = [0; SHEET];
    ledger::fresh(&mut new).expect("the length is right");
    new[ROWS_USED..ROWS_USED + 4].copy_from_slice(&old[ROWS_USED..ROWS_USED + 4]);
    for (r, row) in old[OLD_ROWS..OLD_DESKS].chunks_exact(OLD_ROW).enumerate() {
        put_row(&mut new[ledger::row_place(r)..], r < used, row);
    }
    for (d, desk) in old[OLD_DESKS..].chunks_exact(OLD_DESK).enumerate() {
        let (head, copies) = desk.split_at(OPENED);
        let place = ledger::desk_place(d);
        new[place..place + OPENED].copy_from_slice(head);
        // An open desk that names no used row makes the sheet wrong, whatever its copies hold.
        let open = head[0] == 1 && (head[ROW_NAMED] as usize) < used;
        put_row(&mut new[place + OPENED..], open, &copies[..OLD_ROW]);
        put_row(&mut new[place + WORKED..], open, &copies[OLD_ROW..]);
    }
    Some(new)
}

fn put_row(new: &mut [u8], used: bool, old: &[u8]) {
    new[..KEY].copy_from_slice(&(used as u32).to_be_bytes());
    new[KEY..KEY + OLD_ROW].copy_from_slice(old);
}
