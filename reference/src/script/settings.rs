//! `NEW_SETTINGS` to `ASK`: mission settings. Each line ends with the crc of the settings after the call.

use super::{crc32, Frame};
use crate::ops;
use crate::settings::{self, Setting};

pub const MOST_SETTINGS: usize = 1_024;

pub fn line(s: &mut Vec<u8>, f: &Frame) -> Option<String> {
    let nothing = |_| String::new();
    // `ADD` and `ASK` have a mission.
    let mission = if f.op >= ops::ADD { u8::try_from(f.x).ok()? } else { 0 };
    let answer = match f.op {
        ops::NEW_SETTINGS => {
            if f.a.len() > MOST_SETTINGS {
                return None;
            }
            s.clone_from(&f.a);
            Ok(String::new())
        }
        ops::MAKE_EMPTY => settings::make_empty(s).map(nothing),
        ops::ADD => {
            let setting = Setting { edition: f.y, first_day: f.z, frame_length: f.w };
            settings::add(s, mission, setting).map(nothing)
        }
        _ => settings::ask(s, mission, f.y)
            .map(|setting| format!(" {} {} {}", setting.edition, setting.first_day, setting.frame_length)),
    };
    let crc = crc32(s);
    Some(match answer {
        Ok(values) => format!("0{values} {crc}"),
        Err(refusal) => format!("{refusal} {crc}"),
    })
}
