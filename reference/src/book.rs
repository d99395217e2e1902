//! The plain book, for tests: a second and plainer ledger. Tests compare the sheet's calls with it. Document 01: 'The
//! plain book', with requests 03 and 10; and the layouts of both sheets.

use crate::keys;
use std::collections::BTreeSet;

type Set = BTreeSet<u32>;

#[derive(Clone, Debug, PartialEq)]
pub struct Place {
    pub key: u64,
    pub first: u32,
    pub set: Set,
}

#[derive(Clone, Debug, PartialEq)]
pub struct Desk {
    pub place: usize,
    pub opened: Set,
    pub worked: Set,
}

#[derive(Clone, Debug, PartialEq)]
pub struct Book {
    pub places: Vec<Option<Place>>,
    pub desks: Vec<Option<Desk>>,
}

#[derive(Clone, Copy, Debug)]
pub enum Call {
    Enrol(u64, u32),
    Open(u32, u32),
    Tick(u32, u32),
    Untick(u32, u32),
    Save(u32),
    Drop(u32),
    Strike(u32),
}

impl Place {
    /// Record numbers have 16 bits if the key is an RSR stream's.
    fn modulus(&self) -> i64 {
        if self.key >= 1 << 42 {
            65_536
        } else {
            4_294_967_296
        }
    }
}

impl Book {
    pub fn new() -> Book {
        Book { places: vec![None; 32], desks: vec![None; 8] }
    }

    /// The row for an enrolment, else 0; or the refusal.
    pub fn call(&mut self, call: Call) -> Result<usize, u32> {
        match call {
            Call::Enrol(key, first) => self.enrol(key, first),
            Call::Open(desk, row) => self.open(desk, row),
            Call::Tick(desk, n) => {
                let (desk, position) = self.position(desk, n)?;
                if desk.worked.insert(position) {
                    Ok(0)
                } else {
                    Err(29)
                }
            }
            Call::Untick(desk, n) => {
                let (desk, position) = self.position(desk, n)?;
                if desk.worked.remove(&position) {
                    Ok(0)
                } else {
                    Err(30)
                }
            }
            Call::Save(desk) => self.save(desk),
            Call::Drop(desk) => {
                self.open_desk(desk)?;
                self.desks[desk as usize] = None;
                Ok(0)
            }
            Call::Strike(row) => self.strike(row),
        }
    }

    fn enrol(&mut self, key: u64, first: u32) -> Result<usize, u32> {
        self.judge_stream(key, first)?;
        let row = self.places.iter().position(Option::is_none).ok_or(24u32)?;
        self.places[row] = Some(Place { key, first, set: Set::new() });
        Ok(row)
    }

    fn judge_stream(&self, key: u64, first: u32) -> Result<(), u32> {
        if !keys::valid(key) {
            return Err(22);
        }
        if key >= 1 << 42 && first > 65_535 {
            return Err(32);
        }
        if self.places.iter().flatten().any(|place| place.key == key) {
            return Err(23);
        }
        Ok(())
    }

    fn strike(&mut self, row: u32) -> Result<usize, u32> {
        let place = self.places.get_mut(row as usize).filter(|place| place.is_some()).ok_or(25u32)?;
        if self.desks.iter().flatten().any(|desk| desk.place == row as usize) {
            return Err(36);
        }
        *place = None;
        Ok(0)
    }

    fn open(&mut self, desk: u32, row: u32) -> Result<usize, u32> {
        let desk = self.desks.get_mut(desk as usize).ok_or(21u32)?;
        let place = self.places.get(row as usize).and_then(Option::as_ref).ok_or(25u32)?;
        if desk.is_some() {
            return Err(26);
        }
        *desk = Some(Desk { place: row as usize, opened: place.set.clone(), worked: place.set.clone() });
        Ok(0)
    }

    fn open_desk(&mut self, desk: u32) -> Result<&mut Desk, u32> {
        self.desks.get_mut(desk as usize).ok_or(21u32)?.as_mut().ok_or(27)
    }

    fn position(&mut self, desk: u32, n: u32) -> Result<(&mut Desk, u32), u32> {
        let place = self.open_desk(desk)?.place;
        let row = self.places[place].as_ref().expect("open desks name used rows");
        let position = (n as i64 - row.first as i64).rem_euclid(row.modulus());
        if n as i64 >= row.modulus() || position >= 1_024 {
            return Err(28);
        }
        Ok((self.open_desk(desk)?, position as u32))
    }

    fn save(&mut self, desk: u32) -> Result<usize, u32> {
        let Desk { place, opened, worked } = self.open_desk(desk)?.clone();
        self.desks[desk as usize] = None;
        let row = self.places[place].as_mut().expect("open desks name used rows");
        if row.set != opened {
            return Err(31);
        }
        row.set = worked;
        Ok(0)
    }

    /// Ticked, missing, and the number at the lowest missing position.
    pub fn report(&self, row: u32) -> Result<(usize, usize, Option<u32>), u32> {
        let place = self.places.get(row as usize).and_then(Option::as_ref).ok_or(25u32)?;
        let missing = missing(&place.set);
        let number = |position: &u32| (place.first as i64 + *position as i64).rem_euclid(place.modulus()) as u32;
        let lowest = missing.first().map(number);
        Ok((place.set.len(), missing.len(), lowest))
    }

    pub fn first_gap(&self) -> Option<(u32, usize)> {
        (0..32).find_map(|row| self.report(row).ok()?.2.map(|number| (number, row as usize)))
    }

    pub fn find(&self, key: u64) -> Result<usize, u32> {
        if !keys::valid(key) {
            return Err(22);
        }
        self.places.iter().position(|place| place.as_ref().is_some_and(|place| place.key == key)).ok_or(25)
    }

    pub fn laid_out(&self) -> Vec<u8> {
        self.laid_out_as(&NEW)
    }

    /// The book laid out as request 10's sheet, or as document 01's.
    pub fn laid_out_as(&self, layout: &Layout) -> Vec<u8> {
        let mut s = Vec::new();
        let used = self.places.iter().flatten().count() as u32;
        for number in [layout.sheet as u32, used, 32, 24, 8, layout.desks as u32] {
            s.extend(number.to_be_bytes());
        }
        for place in &self.places {
            match place {
                Some(place) => s.extend(row(layout, place, &place.set)),
                None => s.resize(s.len() + layout.row, 0),
            }
        }
        for desk in &self.desks {
            match desk {
                Some(desk) => {
                    let place = self.places[desk.place].as_ref().expect("open desks name used rows");
                    s.extend([1, desk.place as u8, 0, 0]);
                    s.extend(row(layout, place, &desk.opened));
                    s.extend(row(layout, place, &desk.worked));
                }
                None => s.resize(s.len() + 4 + 2 * layout.row, 0),
            }
        }
        s
    }

    /// The book that a sheet holds, if it is a sheet: it is right exactly if this book's layout is the same bytes.
    pub fn of_sheet(s: &[u8]) -> Option<Book> {
        Book::of_sheet_as(&NEW, s)
    }

    pub fn of_sheet_as(layout: &Layout, s: &[u8]) -> Option<Book> {
        if s.len() != layout.sheet {
            return None;
        }
        let number = |at: usize| u32::from_be_bytes(s[at..at + 4].try_into().unwrap());
        let mut book = Book::new();
        for r in 0..32 {
            let at = 24 + layout.row * r;
            let used = if layout.word == 4 { number(at) == 1 } else { (r as u32) < number(4) };
            if !used {
                continue;
            }
            let bytes = &s[at + layout.word..at + layout.row];
            let key = u64::from_be_bytes(bytes[..8].try_into().unwrap());
            let first = u32::from_be_bytes(bytes[8..12].try_into().unwrap());
            book.judge_stream(key, first).ok()?;
            book.places[r] = Some(Place { key, first, set: set(&bytes[12..]) });
        }
        for d in 0..8 {
            let bytes = &s[layout.desks + (4 + 2 * layout.row) * d..][..4 + 2 * layout.row];
            if bytes[0] == 1 {
                book.open(d as u32, bytes[1] as u32).ok()?;
                let desk = book.desks[d].as_mut()?;
                desk.opened = set(&bytes[4 + layout.word + 12..4 + layout.row]);
                desk.worked = set(&bytes[4 + layout.row + layout.word + 12..]);
            }
        }
        Some(book).filter(|book| book.laid_out_as(layout) == s)
    }
}

/// The lengths of a sheet, a row and a row's used word, and where the desks start.
pub struct Layout {
    pub sheet: usize,
    pub row: usize,
    pub word: usize,
    pub desks: usize,
}

pub const NEW: Layout = Layout { sheet: 6_968, row: 144, word: 4, desks: 4_632 };
pub const OLD: Layout = Layout { sheet: 6_776, row: 140, word: 0, desks: 4_504 };

fn missing(set: &Set) -> Vec<u32> {
    let highest = set.last().copied().unwrap_or(0);
    (0..highest).filter(|position| !set.contains(position)).collect()
}

fn row(layout: &Layout, place: &Place, set: &Set) -> Vec<u8> {
    let mut ticks = [0; 128];
    for position in set {
        ticks[*position as usize / 8] += 1 << (position % 8);
    }
    [&[0, 0, 0, 1][4 - layout.word..], &place.key.to_be_bytes(), &place.first.to_be_bytes(), &ticks].concat()
}

fn set(ticks: &[u8]) -> Set {
    let positions = (0..128).filter(|i| ticks[*i] != 0).flat_map(|i| (0..8).map(move |bit| (i, bit)));
    positions.filter(|(i, bit)| ticks[*i] & 1 << bit != 0).map(|(i, bit)| 8 * i as u32 + bit).collect()
}
