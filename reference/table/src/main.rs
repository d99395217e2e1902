//! `table SEED COUNT`: on COUNT random streams, the proved table of entries against the proved number lists, entry by
//! entry and past the count, and both against the reference; then the room for them and the table of new years. `table time`: the walk and the lists against the reference.

use reference::dates;
use reference::make::{self, Rng};
use reference::record::{write_one, RSR, TELEMETRY};
use reference::stream::{self, Entry, Stop};
use std::collections::BTreeMap;
use std::hint::black_box;
use std::time::Instant;

#[repr(C)]
struct Answer {
    count: usize,
    place: usize,
    number: u32,
    detail: usize,
}

extern "C" {
    fn rt_most_records(bytes: usize) -> usize;
    fn rt_most_rsr_records(bytes: usize) -> usize;
    fn rt_new_year(i: usize) -> u32;
    fn rt_walk(s: *const u8, length: usize) -> Answer;
    fn rt_list_entries(s: *const u8, length: usize, table: *mut Entry, free: usize) -> Answer;
    #[allow(clippy::too_many_arguments)]
    fn rt_list_numbers(
        s: *const u8,
        length: usize,
        places: *mut u64,
        places_free: usize,
        lengths: *mut u64,
        lengths_free: usize,
        kinds: *mut u32,
        kinds_free: usize,
        numbers: *mut u32,
        numbers_free: usize,
    ) -> Answer;
}

fn stop(a: Answer) -> Stop {
    Stop { count: a.count as u64, place: a.place as u64, number: a.number, detail: a.detail as u64 }
}

// Each pointer is good for its length, which is all that the functions ask.
fn walk(s: &[u8]) -> Stop {
    stop(unsafe { rt_walk(s.as_ptr(), s.len()) })
}

fn list_entries(s: &[u8], table: &mut [Entry]) -> Stop {
    stop(unsafe { rt_list_entries(s.as_ptr(), s.len(), table.as_mut_ptr(), table.len()) })
}

fn list_numbers(s: &[u8], lists: &mut Lists) -> Stop {
    let Lists { places: p, lengths: l, kinds: k, numbers: n } = lists;
    stop(unsafe {
        rt_list_numbers(
            s.as_ptr(), s.len(), p.as_mut_ptr(), p.len(), l.as_mut_ptr(), l.len(), k.as_mut_ptr(), k.len(), n.as_mut_ptr(), n.len(),
        )
    })
}

/// The four number lists.
#[derive(Clone, Debug, PartialEq)]
struct Lists {
    places: Vec<u64>,
    lengths: Vec<u64>,
    kinds: Vec<u32>,
    numbers: Vec<u32>,
}

impl Lists {
    /// The columns of a table, each with some numbers more, of which one has none.
    fn of(table: &[Entry], rng: &Rng) -> Lists {
        let shortest = rng.index(4);
        let more = |i: usize| if i == shortest { 0 } else { rng.index(4) };
        let mut lists = Lists {
            places: table.iter().map(|e| e.place).collect(),
            lengths: table.iter().map(|e| e.length).collect(),
            kinds: table.iter().map(|e| e.kind).collect(),
            numbers: table.iter().map(|e| e.number).collect(),
        };
        lists.places.extend((0..more(0)).map(|_| rng.next()));
        lists.lengths.extend((0..more(1)).map(|_| rng.next()));
        lists.kinds.extend((0..more(2)).map(|_| rng.word()));
        lists.numbers.extend((0..more(3)).map(|_| rng.word()));
        lists
    }

    /// These lists with a table's columns at their starts.
    fn filled(&self, table: &[Entry]) -> Lists {
        let mut lists = self.clone();
        for (i, e) in table.iter().enumerate() {
            (lists.places[i], lists.lengths[i], lists.kinds[i], lists.numbers[i]) = (e.place, e.length, e.kind, e.number);
        }
        lists
    }
}

/// A record of either kind, sometimes with a byte of its headers changed.
fn record(rng: &Rng) -> Vec<u8> {
    let (kind, secondary) = if rng.percent(60) { (1, 80) } else { (2, 220) };
    let data = if rng.percent(2) { rng.index(65536) } else { rng.index(40) };
    let mut out = vec![0; 40 + secondary + data];
    let primary = [rng.byte(), rng.byte(), rng.byte(), rng.byte()];
    write_one(kind, primary, &rng.bytes(secondary), &rng.bytes(data), &mut out).expect("room for the record");
    if rng.percent(12) {
        let at = if rng.percent(75) { rng.index(36) } else { 36 + secondary + rng.index(4) };
        out[at] ^= 1 << rng.index(8);
    }
    out
}

/// Records back to back, sometimes cut off or with bytes behind them.
fn random_stream(rng: &Rng) -> Vec<u8> {
    let mut s: Vec<u8> = (0..rng.index(7)).flat_map(|_| record(rng)).collect();
    if rng.percent(20) {
        s.truncate(rng.index(s.len() + 1));
    }
    if rng.percent(10) {
        s.extend(rng.bytes(rng.index(64)));
    }
    s
}

fn compare(seed: u64, count: usize) {
    let rng = Rng::new(seed);
    let mut stops = BTreeMap::new();
    let mut entries = 0;
    for i in 0..count {
        let s = random_stream(&rng);
        let entry = |_| Entry { place: rng.next(), length: rng.next(), kind: rng.word(), number: rng.word() };
        let before: Vec<Entry> = (0..rng.index(8)).map(entry).collect();
        let lists = Lists::of(&before, &rng);
        let (mut table, mut expected, mut found) = (before.clone(), before.clone(), lists.clone());
        let answer = list_entries(&s, &mut table);
        assert_eq!(answer, list_numbers(&s, &mut found), "seed {seed}, stream {i}: answers of table and lists");
        assert_eq!(lists.filled(&table), found, "seed {seed}, stream {i}: table and lists");
        assert_eq!(answer, stream::table(&s, &mut expected), "seed {seed}, stream {i}: answers of table and reference");
        assert_eq!(table, expected, "seed {seed}, stream {i}: table and reference");
        assert_eq!(walk(&s), stream::walk(&s), "seed {seed}, stream {i}: walks");
        *stops.entry(answer.number).or_insert(0) += 1;
        entries += answer.count;
    }
    println!("{count} streams, {entries} entries: table, number lists and reference the same; streams by stop number {stops:?}");
}

/// The room for a list of a stream of so many bytes is as many as the shortest records that fill them.
fn compare_room(seed: u64) {
    let rng = Rng::new(seed);
    let shortest = |kind| make::good_record(&rng, kind, 0).len();
    let (telemetry, rsr) = (shortest(TELEMETRY), shortest(RSR));
    let near = |at: usize| [at.saturating_sub(1), at, at + 1];
    let chosen = [0, telemetry, rsr, 7 * telemetry, 9 * rsr, 1 << 32, usize::MAX - 1].into_iter().flat_map(near);
    for bytes in chosen.chain((0..1000).map(|_| rng.next() as usize >> rng.index(64))) {
        // They ask nothing.
        let found = unsafe { (rt_most_records(bytes), rt_most_rsr_records(bytes)) };
        assert_eq!(found, (bytes / telemetry, bytes / rsr), "room for {bytes} bytes");
    }
}

/// Every entry of the table of new years, and none behind the last.
fn compare_new_years() {
    for i in 0..=1100 {
        let wanted = dates::day_count(1900 + i as u32, 1).expect("it is a date");
        assert_eq!(unsafe { rt_new_year(i) }, wanted, "1 January {}", 1900 + i);
    }
    assert_eq!(unsafe { (rt_new_year(1101), rt_new_year(usize::MAX)) }, (0, 0));
}

fn seconds(run: &mut dyn FnMut() -> Stop) -> f64 {
    let start = Instant::now();
    black_box(run());
    start.elapsed().as_secs_f64()
}

/// The least of several runs of each, one after the other in turn.
fn tell(call: &str, count: usize, size: usize, proved: &mut dyn FnMut() -> Stop, plain: &mut dyn FnMut() -> Stop) {
    let (mut a, mut b) = (f64::MAX, f64::MAX);
    for _ in 0..15 {
        a = a.min(seconds(proved));
        b = b.min(seconds(plain));
    }
    let each = 1e9 / count as f64;
    println!("{call} of {count} records of {size}: {:.1} ns a record, plain Rust {:.1}, ratio {:.2}", a * each, b * each, a / b);
}

fn time() {
    for (count, data) in [(1_000, 0), (1_000_000, 0), (1_000_000, 880)] {
        let mut one = vec![0; 120 + data];
        write_one(1, [1, 2, 3, 4], &[7; 80], &vec![9; data], &mut one).expect("room for the record");
        let s = one.repeat(count);
        let mut lists = Lists { places: vec![0; count], lengths: vec![0; count], kinds: vec![0; count], numbers: vec![0; count] };
        let Lists { mut places, mut lengths, mut kinds, mut numbers } = lists.clone();
        let mut table = vec![Entry::default(); count];
        let mut other = table.clone();
        tell("walk", count, one.len(), &mut || walk(black_box(&s)), &mut || stream::walk(black_box(&s)));
        tell("number lists", count, one.len(), &mut || list_numbers(black_box(&s), &mut lists), &mut || {
            stream::number_lists(black_box(&s), &mut places, &mut lengths, &mut kinds, &mut numbers)
        });
        tell("table", count, one.len(), &mut || list_entries(black_box(&s), &mut table), &mut || stream::table(black_box(&s), &mut other));
    }
}

fn main() {
    let words: Vec<String> = std::env::args().skip(1).collect();
    match words.as_slice() {
        [word] if word == "time" => time(),
        [seed, count] => {
            let seed = seed.parse().expect("a seed");
            compare(seed, count.parse().expect("a count"));
            compare_room(seed);
            compare_new_years();
        }
        _ => eprintln!("table SEED COUNT | table time"),
    }
}
