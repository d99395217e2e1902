//! Streams. Document 01: 'Walk' and 'The packing list'; request 05: which field of a refused record is wrong.

use crate::record::{read_one, record_number, Record, Refused};

/// A place in a stream.
#[derive(Clone, Copy, Debug, PartialEq)]
pub struct Cursor {
    pub place: u64,
}

/// Each case has the cursor: moved past the record if one was found, else unmoved.
#[derive(Debug, PartialEq)]
pub enum Step {
    Found(Record, Cursor),
    Done(Cursor),
    /// Offsets count from the record's start.
    Refused(Refused, Cursor),
}

impl Cursor {
    #[inline(always)]
    pub fn step(self, s: &[u8]) -> Step {
        if self.place >= s.len() as u64 {
            return Step::Done(self);
        }
        match read_one(&s[self.place as usize..]) {
            Ok(record) => Step::Found(record, Cursor { place: self.place + record.length as u64 }),
            Err(refused) => Step::Refused(refused, self),
        }
    }
}

/// The answer of a walk or a list.
#[derive(Debug, PartialEq)]
pub struct Stop {
    pub count: u64,
    pub place: u64,
    pub number: u32,
    /// The offset of the wrong field from the stream's start; for 1 and 6 how many bytes there are; else 0.
    pub detail: u64,
}

/// One entry of the packing list.
#[repr(C)]
#[derive(Clone, Copy, Debug, Default, PartialEq)]
pub struct Entry {
    pub place: u64,
    pub length: u64,
    pub kind: u32,
    pub number: u32,
}

pub fn walk(s: &[u8]) -> Stop {
    // A stream has fewer records than bytes, so there is always a free entry.
    go_over(s, s.len(), |_, _, _| {})
}

/// The shortest of the lists limits how many records they hold.
pub fn number_lists(s: &[u8], places: &mut [u64], lengths: &mut [u64], kinds: &mut [u32], numbers: &mut [u32]) -> Stop {
    let free = places.len().min(lengths.len()).min(kinds.len()).min(numbers.len());
    go_over(s, free, |i, place, record| {
        places[i] = place as u64;
        lengths[i] = record.length as u64;
        kinds[i] = record.kind;
        numbers[i] = record_number(&s[place..], record.kind);
    })
}

pub fn table(s: &[u8], entries: &mut [Entry]) -> Stop {
    go_over(s, entries.len(), |i, place, record| {
        let number = record_number(&s[place..], record.kind);
        entries[i] = Entry { place: place as u64, length: record.length as u64, kind: record.kind, number };
    })
}

/// Steps to the end, to a refused record, or to a whole record when no entry is free (16). Passes each record to
/// `keep`, with its index and its place.
#[inline]
pub fn go_over(s: &[u8], free: usize, mut keep: impl FnMut(usize, usize, Record)) -> Stop {
    let mut cursor = Cursor { place: 0 };
    let mut count = 0;
    loop {
        let (number, detail) = match cursor.step(s) {
            Step::Found(record, next) if count < free => {
                keep(count, cursor.place as usize, record);
                count += 1;
                cursor = next;
                continue;
            }
            Step::Found(..) => (16, 0),
            Step::Done(_) => (0, 0),
            Step::Refused(refused, _) => (refused.number(), refused.detail(cursor.place)),
        };
        return Stop { count: count as u64, place: cursor.place, number, detail };
    }
}
