//! Benchmarks of whole programs: the library's listing programs beside this one, on files, by the clock.

use super::{Bench, LISTED_PASSES};
use crate::sample;
use std::ffi::OsStr;
use std::path::{Path, PathBuf};
use std::process::{Command, Stdio};
use std::time::Instant;

const STREAM_BYTES: u64 = 256 << 20;
const TAPE_BYTES: usize = 200 << 20;

/// Lists a stream and a tape; HERNGANOW_BIN names the folder of the library's programs.
pub fn listings(bench: &Bench) {
    let Some(programs) = std::env::var_os("HERNGANOW_BIN").map(PathBuf::from) else { return };
    let mut stream = Vec::new();
    sample::big(STREAM_BYTES, &mut stream).expect("memory");
    compare(bench, "list a stream, a program, a byte", &programs.join("sfdu_list"), "list", &stream);
    let tape = sample::sample("tapes/good-tape").expect("a sample");
    let tapes = tape.repeat(TAPE_BYTES / tape.len());
    compare(bench, "list a tape, a program, a byte", &programs.join("idr_list"), "tapes", &tapes);
}

fn compare(bench: &Bench, name: &str, program: &Path, command: &str, bytes: &[u8]) {
    if !name.contains(bench.word) {
        return;
    }
    let this = std::env::current_exe().expect("this program");
    let file = std::env::temp_dir().join(format!("hernganow-bench-{}", std::process::id()));
    std::fs::write(&file, bytes).expect("room for the file");
    let listed = |program: &Path, words: &[&OsStr]| {
        let run = Command::new(program).args(words).stderr(Stdio::null()).output().expect("a program");
        run.stdout
    };
    let (of_this, of_program) = ([OsStr::new(command), file.as_os_str()], [file.as_os_str()]);
    assert_eq!(listed(program, &of_program), listed(&this, &of_this), "{name}: the listings differ");
    let mut best = [f64::INFINITY; 2];
    for _ in 0..LISTED_PASSES {
        best[0] = best[0].min(seconds(&this, &of_this));
        best[1] = best[1].min(seconds(program, &of_program));
    }
    bench.line(name, bytes.len() as f64, &best);
    std::fs::remove_file(&file).expect("the file");
}

fn seconds(program: &Path, words: &[&OsStr]) -> f64 {
    let start = Instant::now();
    let ended = Command::new(program).args(words).stdout(Stdio::null()).stderr(Stdio::null()).status();
    assert!(ended.is_ok(), "a program");
    start.elapsed().as_secs_f64()
}
