//! The listing program. Document 01: its example, and refusal 17; request 05: the last line's third number.

use crate::record::{self, Record, Refused, TELEMETRY};
use std::io::{self, Read, Write};

pub const WINDOW: usize = 65_536;
pub const HEADING: &str = "place length kind number";

/// The bytes of the input that are in memory, from `start` to `end`.
pub(crate) struct Window<R> {
    input: R,
    bytes: Vec<u8>,
    /// Whoever has finished with a record moves it on.
    pub(crate) start: usize,
    end: usize,
    at_end: bool,
}

impl<R: Read> Window<R> {
    pub(crate) fn new(input: R) -> Window<R> {
        Window { input, bytes: vec![0; WINDOW], start: 0, end: 0, at_end: false }
    }

    pub(crate) fn held(&self) -> &[u8] {
        &self.bytes[self.start..self.end]
    }

    /// Moves the held bytes to the front, and reads until the window is full or the input ends.
    fn refill(&mut self) -> io::Result<()> {
        self.bytes.copy_within(self.start..self.end, 0);
        self.end -= self.start;
        self.start = 0;
        while self.end < WINDOW && !self.at_end {
            match self.input.read(&mut self.bytes[self.end..]) {
                Ok(0) => self.at_end = true,
                Ok(count) => self.end += count,
                Err(reason) if reason.kind() == io::ErrorKind::Interrupted => {}
                Err(reason) => return Err(reason),
            }
        }
        Ok(())
    }

    /// The record at the start of the held bytes. Refusals 1 and 6 count only if the window can hold no more.
    pub(crate) fn record(&mut self) -> io::Result<Result<Record, Refused>> {
        let answer = read_in_window(self.held());
        if !self.at_end && matches!(answer, Err(Refused::Short { .. })) {
            self.refill()?;
            return Ok(read_in_window(self.held()));
        }
        Ok(answer)
    }
}

/// Read one, with 17 tested right after 5.
pub fn read_in_window(s: &[u8]) -> Result<Record, Refused> {
    let layout = record::read_kind(s)?;
    let n = record::read_length(s, layout)?;
    if n > WINDOW {
        return Err(Refused::Number(17));
    }
    record::read_blocks(s, layout, n)
}

/// Lists one stream. The outer error is of `out`, the inner one of a read. After an inner error the stop is not
/// known, and no last line is written.
pub fn list(input: impl Read, out: &mut impl Write) -> io::Result<io::Result<()>> {
    let mut window = Window::new(input);
    let mut place = 0u64;
    writeln!(out, "{HEADING}")?;
    loop {
        let answer = match window.record() {
            Ok(answer) => answer,
            Err(reason) => return Ok(Err(reason)),
        };
        match answer {
            Ok(record) => {
                let number = record::record_number(window.held(), record.kind);
                let letter = if record.kind == TELEMETRY { 'T' } else { 'R' };
                writeln!(out, "{place} {} {letter} {number}", record.length)?;
                window.start += record.length;
                place += record.length as u64;
            }
            Err(_) if window.held().is_empty() => {
                writeln!(out, "{place} 0 0")?;
                return Ok(Ok(()));
            }
            Err(refused) => {
                writeln!(out, "{place} {} {}", refused.number(), refused.detail(place))?;
                return Ok(Ok(()));
            }
        }
    }
}
