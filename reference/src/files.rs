//! What the listing programs share: reading the files that are named.

use std::ffi::{OsStr, OsString};
use std::fs::File;
use std::io::{self, Read, Write};

/// The system's reason, in its words alone.
pub fn reason(error: &io::Error) -> String {
    let said = error.to_string();
    said.split(" (os error").next().unwrap_or(&said).to_string()
}

/// Standard output: where it cannot be written, that is what the failure says.
pub struct Output<W>(pub W);

impl<W: Write> Write for Output<W> {
    fn write(&mut self, bytes: &[u8]) -> io::Result<usize> {
        self.0.write(bytes).map_err(|error| failed("standard output", &error))
    }

    fn flush(&mut self) -> io::Result<()> {
        self.0.flush().map_err(|error| failed("standard output", &error))
    }
}

/// A failure of what is named.
pub fn failed(what: &str, error: &io::Error) -> io::Error {
    io::Error::new(error.kind(), format!("{what}: {}", reason(error)))
}

/// Tells on standard error what is wrong with the file of that name, whatever bytes the name has.
pub fn tell(name: &OsStr, what: &str) {
    let line = [name.as_encoded_bytes(), format!(": {what}\n").as_bytes()].concat();
    // Nothing can be done where standard error cannot be written.
    let _ = io::stderr().write_all(&line);
}

/// How a program lists one input. The outer error is of the output, the inner one of a read.
pub type List<W> = fn(&mut dyn Read, &mut W) -> io::Result<io::Result<()>>;

/// Lists each file, or standard input if none is named. Before each of several it writes a line with the name. It
/// reports a file that cannot be opened or read on standard error. Answers whether all went well.
pub fn list_files<W: Write>(names: &[OsString], out: &mut W, list: List<W>) -> io::Result<bool> {
    each_file(names, names.len() > 1, out, list)
}

/// The same, with or without the names.
pub fn each_file<W: Write>(names: &[OsString], with_names: bool, out: &mut W, list: List<W>) -> io::Result<bool> {
    if names.is_empty() {
        return list_one(OsStr::new("standard input"), Ok(io::stdin().lock()), out, list);
    }
    let mut well = true;
    for name in names {
        let file = File::open(name);
        if with_names && file.is_ok() {
            out.write_all(name.as_encoded_bytes())?;
            out.write_all(b"\n")?;
        }
        well &= list_one(name, file, out, list)?;
    }
    Ok(well)
}

fn list_one<W: Write>(name: &OsStr, input: io::Result<impl Read>, out: &mut W, list: List<W>) -> io::Result<bool> {
    let listed = match input {
        Ok(mut input) => list(&mut input, out)?,
        Err(reason) => Err(reason),
    };
    out.flush()?;
    if let Err(error) = &listed {
        tell(name, &reason(error));
    }
    Ok(listed.is_ok())
}
