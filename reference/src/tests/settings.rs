//! Request 14: settings sheets compared with a list of settings.

use super::{lines, Frame};
use crate::make::Rng;
use crate::ops;
use crate::random;
use crate::random::settings::settings_with;
use crate::script::{crc32, Calls};
use crate::settings::{self, Setting};

/// The settings in the order of adding, each with its mission.
#[derive(Clone, Debug, Default, PartialEq)]
struct Model(Vec<(u8, Setting)>);

impl Model {
    fn add(&mut self, mission: u8, setting: Setting) -> Result<(), u32> {
        match setting {
            Setting { edition, .. } if ![1, 2].contains(&edition) => Err(44),
            _ if self.0.iter().any(|(of, there)| (*of, there.first_day) == (mission, setting.first_day)) => Err(45),
            _ if self.0.len() == 64 => Err(46),
            _ => {
                self.0.push((mission, setting));
                Ok(())
            }
        }
    }

    /// Going backwards from the latest first day gives the same as going back day by day.
    fn ask(&self, mission: u8, day: u32) -> Result<Setting, u32> {
        let mut of_mission: Vec<Setting> = self.0.iter().filter(|(of, _)| *of == mission).map(|(_, s)| *s).collect();
        of_mission.sort_by_key(|setting| std::cmp::Reverse(setting.first_day));
        of_mission.into_iter().find(|setting| setting.first_day <= day).ok_or(47)
    }

    fn laid_out(&self) -> Vec<u8> {
        let mut s: Vec<u8> = [784u32, self.0.len() as u32, 64, 16].iter().flat_map(|word| word.to_be_bytes()).collect();
        for (mission, setting) in &self.0 {
            s.extend([*mission, setting.edition as u8, 0, 0]);
            s.extend(setting.first_day.to_be_bytes());
            s.extend(setting.frame_length.to_be_bytes());
        }
        s.resize(784, 0);
        s
    }

    fn of_sheet(s: &[u8]) -> Option<Model> {
        let number = |at: usize| u32::from_be_bytes(s[at..at + 4].try_into().unwrap());
        if s.len() != 784 || number(4) > 64 {
            return None;
        }
        let mut model = Model::default();
        for at in (0..number(4) as usize).map(|i| 16 + 12 * i) {
            let setting =
                Setting { edition: s[at + 1].into(), first_day: number(at + 4), frame_length: number(at + 8) };
            model.add(s[at], setting).ok()?;
        }
        Some(model).filter(|model| model.laid_out() == s)
    }
}

#[test]
fn settings_are_the_model_laid_out() {
    let (mut compared, mut right, mut wrong) = (0, 0, 0);
    for seed in 0..6 {
        let mut calls = Calls::default();
        let mut model = None;
        for f in random::script_of(seed, 2_000, Some("settings")) {
            let line = calls.line(&f).unwrap();
            let words: Vec<u32> = line.split(' ').map(|word| word.parse().unwrap()).collect();
            let setting = Setting { edition: f.y, first_day: f.z, frame_length: f.w };
            let answer = match (f.op, &mut model) {
                (ops::NEW_SETTINGS, _) => {
                    model = Model::of_sheet(&f.a);
                    assert_eq!(settings::is_settings(&f.a), model.is_some());
                    *if model.is_some() { &mut right } else { &mut wrong } += 1;
                    vec![0]
                }
                (ops::MAKE_EMPTY, _) if calls.settings.len() == 784 => {
                    model = Some(Model::default());
                    vec![0]
                }
                (_, None) => vec![43],
                (ops::ADD, Some(model)) => vec![model.add(f.x as u8, setting).err().unwrap_or(0)],
                (_, Some(model)) => match model.ask(f.x as u8, f.y) {
                    Ok(found) => vec![0, found.edition, found.first_day, found.frame_length],
                    Err(refusal) => vec![refusal],
                },
            };
            assert_eq!(words, [answer, vec![crc32(&calls.settings)]].concat());
            if let Some(model) = &model {
                assert_eq!(model.laid_out(), calls.settings);
            }
            compared += 1;
        }
    }
    assert!(compared == 12_000 && right > 500 && wrong > 1_000, "{right} {wrong}");
}

#[test]
fn every_bit_of_a_settings_sheet_counts() {
    for count in [0, 1, 3, 64] {
        let mut s = settings_with(&Rng::new(2), count);
        for (at, bit) in (0..s.len()).flat_map(|at| (0..8).map(move |bit| (at, bit))) {
            s[at] ^= 1 << bit;
            assert_eq!(settings::is_settings(&s), Model::of_sheet(&s).is_some(), "byte {at}, bit {bit}");
            s[at] ^= 1 << bit;
        }
    }
}

/// Adding a setting changes no answer for an earlier day or for another mission, and `ask` gives the setting on its
/// first day.
#[test]
fn what_adding_changes() {
    let rng = Rng::new(8);
    let day = |rng: &Rng| rng.below(20) as u32;
    for _ in 0..2_000 {
        let mut s = settings_with(&rng, 0);
        for _ in 0..rng.below(12) {
            let setting = Setting { edition: 1 + rng.below(2) as u32, first_day: day(&rng), frame_length: rng.word() };
            let _ = settings::add(&mut s, rng.below(3) as u8, setting);
        }
        let before = s.clone();
        let (mission, first_day) = (rng.below(3) as u8, day(&rng));
        let setting = Setting { edition: 2, first_day, frame_length: 7 };
        let added = settings::add(&mut s, mission, setting);
        for (of, day) in (0..3).flat_map(|of| (0..22).map(move |day| (of, day))) {
            if of != mission || day < first_day || added.is_err() {
                assert_eq!(settings::ask(&s, of, day), settings::ask(&before, of, day));
            }
        }
        if added.is_ok() {
            assert_eq!(settings::ask(&s, mission, first_day), Ok(setting));
        }
    }
}

#[test]
fn settings_lines() {
    let of = |op, x, y, z, w| Frame { op, x, y, z, w, ..Frame::default() };
    let become_bytes = |a: &[u8]| Frame { op: ops::NEW_SETTINGS, a: a.to_vec(), ..Frame::default() };
    let mut one = settings_with(&Rng::new(1), 0);
    let empty = crc32(&one);
    settings::add(&mut one, 255, Setting { edition: 2, first_day: 100, frame_length: 1_115 }).unwrap();
    let one = crc32(&one);
    let zero = crc32(&[0; 784]);
    assert_eq!(
        lines(&[
            of(ops::ASK, 255, 100, 0, 0),
            of(ops::MAKE_EMPTY, 999, 0, 0, 0),
            of(ops::ADD, 255, 3, 100, 1_115),
            of(ops::ADD, 255, 2, 100, 1_115),
            of(ops::ADD, 255, 1, 100, 0),
            of(ops::ASK, 255, 99, 0, 0),
            of(ops::ASK, 255, 100, 0, 0),
            of(ops::ASK, 254, 100, 0, 0),
            become_bytes(&[0; 1_024]),
            of(ops::MAKE_EMPTY, 0, 0, 0, 0),
            of(ops::ASK, 256, 0, 0, 0),
        ]),
        [
            format!("43 {zero}"),
            format!("0 {empty}"),
            format!("44 {empty}"),
            format!("0 {one}"),
            format!("45 {one}"),
            format!("47 {one}"),
            format!("0 2 100 1115 {one}"),
            format!("47 {one}"),
            format!("0 {}", crc32(&[0; 1_024])),
            format!("43 {}", crc32(&[0; 1_024])),
            "bad frame".to_string(),
        ]
    );
    assert_eq!(lines(&[of(ops::ADD, 256, 1, 1, 1)]), ["bad frame"]);
    assert_eq!(lines(&[become_bytes(&[0; 1_025])]), ["bad frame"]);
}
