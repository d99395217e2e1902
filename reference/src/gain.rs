//! The sub-channel gain multiplier of an RSR record. Request 14, with sections 1.2 and 3.5 of source document 004: in
//! the newer edition it stands where the older edition's 16 reserved bytes start.

use crate::record::{number, read_headers, Fields, Refused, RSR, SECONDARY};
use crate::settings;

/// Its offset in the record. The four bytes are given as they are.
const GAIN: usize = SECONDARY + 208;

/// The multiplier; none in the older edition.
pub fn gain(s: &[u8], edition: u32) -> Result<Option<u32>, Refused> {
    read_headers(s, RSR)?;
    match edition {
        1 => Ok(None),
        2 => Ok(Some(number(s, GAIN, 4) as u32)),
        _ => Err(Refused::Number(44)),
    }
}

/// The same, for the edition that the settings have for the record's mission on its day.
pub fn gain_by_settings(s: &[u8], settings_sheet: &[u8]) -> Result<Option<u32>, Refused> {
    let (record, fields) = read_headers(s, RSR)?;
    let Fields::Rsr(fields) = fields else { return Err(Refused::Number(15)) };
    let [_, _, mission, _] = record.primary;
    let setting = settings::ask(settings_sheet, mission, fields.day_count).map_err(Refused::Number)?;
    gain(s, setting.edition)
}
