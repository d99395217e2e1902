//! The samples of a stream of RSR records as text or as raw integers. Request 08.

use crate::iq::unpack;
use crate::list::Window;
use crate::texts::text;
use std::io::{self, Read, Write};

/// Writes the samples of every record: `I Q` on each line, or raw as 32-bit little-endian integers, I before Q. The
/// outer error is of `out`; the inner one is of a read, or a refused record. The samples up to it are written.
pub fn write_samples(input: impl Read, raw: bool, out: &mut impl Write) -> io::Result<io::Result<()>> {
    let mut window = Window::new(input);
    let mut place = 0u64;
    let mut list = Vec::new();
    loop {
        let answer = match window.record() {
            Ok(answer) => answer,
            Err(reason) => return Ok(Err(reason)),
        };
        if answer.is_err() && window.held().is_empty() {
            return Ok(Ok(()));
        }
        let unpacked = answer.and_then(|record| {
            // A sample has at least one bit, so this is long enough.
            list.resize(8 * record.length, 0);
            unpack(window.held(), &mut list).map(|count| (record.length, count))
        });
        let (length, count) = match unpacked {
            Ok(unpacked) => unpacked,
            Err(refused) => {
                let (number, detail) = (refused.number(), refused.detail(place));
                let stop = format!("stopped at byte {place}: {number} {detail} {}", text(number));
                return Ok(Err(io::Error::other(stop)));
            }
        };
        write_pairs(&list[..count], raw, out)?;
        window.start += length;
        place += length as u64;
    }
}

fn write_pairs(numbers: &[i32], raw: bool, out: &mut impl Write) -> io::Result<()> {
    for pair in numbers.chunks_exact(2) {
        if raw {
            out.write_all(&pair[0].to_le_bytes())?;
            out.write_all(&pair[1].to_le_bytes())?;
        } else {
            writeln!(out, "{} {}", pair[0], pair[1])?;
        }
    }
    Ok(())
}
