//! The proved library, linked as a static library; only with the feature `rattle`. The archive that the environment
//! variable HERNGANOW_LIB names must export these functions on numbers and slices (pointer and length), each with the
//! answer that `Implementation` in bench.rs describes.

use crate::bench::Implementation;

extern "C" {
    fn bench_read_headers(s: *const u8, length: usize, wanted: u32) -> u64;
    fn bench_walk(s: *const u8, length: usize) -> u64;
    fn bench_read_tape(s: *const u8, length: usize) -> u64;
    fn bench_date_of(count: u32) -> u64;
    fn bench_unpack(s: *const u8, length: usize, list: *mut i32, count: usize) -> u64;
    fn bench_pack(size: u32, rate: u32, numbers: *const i32, count: usize, out: *mut u8, length: usize) -> u64;
    fn bench_is_sheet(s: *const u8, length: usize) -> u64;
    fn bench_tick(s: *mut u8, length: usize, desk: u32, n: u32) -> u64;
    fn bench_untick(s: *mut u8, length: usize, desk: u32, n: u32) -> u64;
    fn bench_report(s: *const u8, length: usize, row: u32) -> u64;
    fn bench_count(s: *const u8, length: usize, row: u32) -> u64;
    fn bench_replay(t: *const u8, trace_length: usize, s: *mut u8, length: usize) -> u64;
    fn bench_replay_on(t: *const u8, trace_length: usize, s: *mut u8, length: usize) -> u64;
    fn bench_parts(key: u64) -> u64;
    fn bench_row(s: *const u8, length: usize, row: u32) -> u64;
    fn bench_desk(s: *const u8, length: usize, desk: u32) -> u64;
    fn bench_unsaved(s: *const u8, length: usize, desk: u32) -> u64;
    fn bench_missing(s: *const u8, length: usize, row: u32, list: *mut u32, count: usize) -> u64;
    fn bench_receive(
        s: *mut u8,
        length: usize,
        desk: u32,
        stream: *const u8,
        stream_length: usize,
        list: *mut u32,
        count: usize,
    ) -> u64;
    fn bench_season(s: *const u8, length: usize) -> u64;
}

// Each pointer is valid for its length, which is all that the functions require.
pub const RATTLE: Implementation = Implementation {
    name: "rattle",
    read_headers: |s, wanted| unsafe { bench_read_headers(s.as_ptr(), s.len(), wanted) },
    walk: |s| unsafe { bench_walk(s.as_ptr(), s.len()) },
    read_tape: |s| unsafe { bench_read_tape(s.as_ptr(), s.len()) },
    date_of: |count| unsafe { bench_date_of(count) },
    unpack: |s, list| unsafe { bench_unpack(s.as_ptr(), s.len(), list.as_mut_ptr(), list.len()) },
    pack: |size, rate, numbers, out| unsafe {
        bench_pack(size, rate, numbers.as_ptr(), numbers.len(), out.as_mut_ptr(), out.len())
    },
    is_sheet: |s| unsafe { bench_is_sheet(s.as_ptr(), s.len()) },
    tick: |s, desk, n| unsafe { bench_tick(s.as_mut_ptr(), s.len(), desk, n) },
    untick: |s, desk, n| unsafe { bench_untick(s.as_mut_ptr(), s.len(), desk, n) },
    report: |s, row| unsafe { bench_report(s.as_ptr(), s.len(), row) },
    count: |s, row| unsafe { bench_count(s.as_ptr(), s.len(), row) },
    replay: |t, s| unsafe { bench_replay(t.as_ptr(), t.len(), s.as_mut_ptr(), s.len()) },
    replay_on: |t, s| unsafe { bench_replay_on(t.as_ptr(), t.len(), s.as_mut_ptr(), s.len()) },
    parts: |key| unsafe { bench_parts(key) },
    row: |s, row| unsafe { bench_row(s.as_ptr(), s.len(), row) },
    desk: |s, desk| unsafe { bench_desk(s.as_ptr(), s.len(), desk) },
    unsaved: |s, desk| unsafe { bench_unsaved(s.as_ptr(), s.len(), desk) },
    missing: |s, row, list| unsafe { bench_missing(s.as_ptr(), s.len(), row, list.as_mut_ptr(), list.len()) },
    receive: |s, desk, stream, list| unsafe {
        bench_receive(s.as_mut_ptr(), s.len(), desk, stream.as_ptr(), stream.len(), list.as_mut_ptr(), list.len())
    },
    season: |s| unsafe { bench_season(s.as_ptr(), s.len()) },
};
