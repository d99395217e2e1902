//! Scripts have no call for the table of entries, so it is compared with the number lists here. `table/` does the
//! same for the proved library.

use crate::script::MOST_LIST;
use crate::stream::{self, number_lists, Entry};
use crate::{ops, random};

const STALE: Entry = Entry { place: 7, length: 7, kind: 7, number: 7 };

/// Lends tables of several lengths for the streams of a random script. Stops at the first difference.
pub fn compare(seed: u64, count: usize) -> usize {
    let streams = random::script(seed, count).into_iter().filter(|frame| frame.op == ops::LIST_NUMBERS);
    let mut tried = 0;
    for frame in streams {
        for free in [frame.x, frame.y, 0, 1, MOST_LIST] {
            let mut entries = vec![STALE; free as usize];
            let stop = stream::table(&frame.a, &mut entries);
            let (expected_stop, expected) = by_lists(&frame.a, free as usize);
            assert_eq!((stop, entries), (expected_stop, expected), "seed {seed}");
            tried += 1;
        }
    }
    tried
}

fn by_lists(s: &[u8], free: usize) -> (crate::stream::Stop, Vec<Entry>) {
    let (mut places, mut lengths, mut kinds, mut numbers) =
        (vec![STALE.place; free], vec![STALE.length; free], vec![STALE.kind; free], vec![STALE.number; free]);
    let stop = number_lists(s, &mut places, &mut lengths, &mut kinds, &mut numbers);
    let entry = |i: usize| Entry { place: places[i], length: lengths[i], kind: kinds[i], number: numbers[i] };
    (stop, (0..free).map(entry).collect())
}
