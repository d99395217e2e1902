//! The commands; see README.md.

use reference::agreed;
use reference::coverage::Coverage;
use reference::{bench, bill, files, host, list, privacy, random, sample, sample_text, script, season, tables, tapes};
use std::ffi::OsString;
use std::io::{self, BufWriter, Read, Write};
use std::process::ExitCode;

const USAGE: &str = "reference script < SCRIPT        the lines of a call script
reference coverage < SCRIPT      how often each refusal and wrong field stands in its lines; fails where one is missing
reference list [FILE..]          lists streams
reference tapes [FILE..]         lists tapes of medium band records
reference samples [--raw] [FILE..]
                                 the samples of streams of RSR records: I Q a line, or 32-bit little-endian integers
reference season [FILE..]        the season's gap report over ledger sheets
reference random SEED COUNT [PART]
                                 a random call script; of calls on records, samples, ledger, receive, seasons, traces, tapes, settings or gain alone
reference sample [NAME]          a sample stream; without a name, the names, what is wrong in each, and its last line
reference big BYTES              a stream of mixed records of about so many bytes
reference bench [WORD]           benchmarks; with a word, those whose lines have it in their names
reference privacy SEED PAIRS     pairs of nights that differ in a desk's unsaved work
reference bill SEED NIGHTS DESKS what desks order again with the rule of the stale save, and without it
reference tables SEED COUNT      tables of entries against number lists, over random streams
reference host SEED COUNT        calls that no script has, each with its answer, for the comparison through C
reference lengths SEED           a call script with slices of every length
reference agreed SEED ROUNDS     cases of the agreed gain, each with its answer; fails where a number that it can give is missing";

fn main() -> ExitCode {
    let args: Vec<OsString> = std::env::args_os().skip(1).collect();
    let mut out = BufWriter::with_capacity(1 << 16, files::Output(io::stdout().lock()));
    let done = command(&args, &mut out).and_then(|well| out.flush().map(|()| well));
    match done {
        Ok(true) => ExitCode::SUCCESS,
        Ok(false) => ExitCode::FAILURE,
        Err(reason) => {
            eprintln!("{reason}");
            ExitCode::FAILURE
        }
    }
}

/// Answers whether all went well.
fn command(args: &[OsString], out: &mut impl Write) -> io::Result<bool> {
    let words: Vec<&str> = args.iter().map(|arg| arg.to_str().unwrap_or("")).collect();
    match words[..] {
        ["script"] => script::run(&standard_input()?, |_, line| writeln!(out, "{line}"))?,
        ["coverage"] => {
            let coverage = Coverage::of(&standard_input()?);
            coverage.write(out)?;
            return Ok(coverage.is_whole());
        }
        ["list", ..] => return files::list_files(&args[1..], out, |input, out| list::list(input, out)),
        ["tapes", ..] => return files::list_files(&args[1..], out, |input, out| tapes::list(input, out)),
        ["samples", ..] => return samples(&args[1..], out),
        ["season", ..] => return season::report(&args[1..], out),
        ["random", seed, count] => random_script(seed, count, None, out)?,
        ["random", seed, count, part] if random::parts().contains(&part) => {
            random_script(seed, count, Some(part), out)?
        }
        ["sample"] => {
            for sample in sample::stored() {
                write!(out, "{}: {}", sample.name, sample.about)?;
                writeln!(
                    out,
                    "{}",
                    if sample.last_line.is_empty() { String::new() } else { format!(" ({})", sample.last_line) }
                )?;
            }
        }
        ["sample", name] => match sample::sample(name) {
            Some(stream) => out.write_all(&stream)?,
            None => return Err(io::Error::new(io::ErrorKind::NotFound, format!("no sample {name}"))),
        },
        ["big", bytes] => sample::big(parse(bytes)?, out)?,
        ["bench"] => bench::run(""),
        ["bench", word] => bench::run(word),
        ["privacy", seed, pairs] => {
            let tried = privacy::try_pairs(parse(seed)?, parse(pairs)? as usize, false);
            let privacy::Tried { pairs, differed, told } = tried;
            writeln!(out, "{pairs} pairs of nights, {told} told of unsaved work; in {differed} it was not the same")?;
            return Ok(told == 0);
        }
        ["host", seed, count] => host::lines(parse(seed)?, parse(count)? as usize, out)?,
        ["lengths", seed] => host::lengths(parse(seed)?).iter().try_for_each(|frame| frame.write(out))?,
        ["agreed", seed, rounds] => return agreed::write(parse(seed)?, parse(rounds)? as usize, out),
        ["bill", seed, nights, desks @ ("1" | "2" | "3" | "4" | "5" | "6" | "7" | "8")] => {
            write!(out, "{}", bill::told(parse(seed)?, parse(nights)? as u32, parse(desks)? as usize))?;
        }
        ["tables", seed, count] => {
            let tried = tables::compare(parse(seed)?, parse(count)? as usize);
            writeln!(out, "{tried} tables are the same")?;
        }
        _ => {
            eprintln!("{USAGE}");
            return Ok(false);
        }
    }
    Ok(true)
}

/// Of the files named; `--raw` may stand anywhere among them.
fn samples(words: &[OsString], out: &mut impl Write) -> io::Result<bool> {
    let names: Vec<OsString> = words.iter().filter(|word| *word != "--raw").cloned().collect();
    if names.len() < words.len() {
        return files::each_file(&names, false, out, |input, out| sample_text::write_samples(input, true, out));
    }
    files::each_file(&names, false, out, |input, out| sample_text::write_samples(input, false, out))
}

fn random_script(seed: &str, count: &str, part: Option<&str>, out: &mut impl Write) -> io::Result<()> {
    let frames = random::script_of(parse(seed)?, parse(count)? as usize, part);
    frames.iter().try_for_each(|frame| frame.write(out))
}

fn standard_input() -> io::Result<Vec<u8>> {
    let mut bytes = Vec::new();
    io::stdin().lock().read_to_end(&mut bytes).map_err(|error| files::failed("standard input", &error))?;
    Ok(bytes)
}

fn parse(word: &str) -> io::Result<u64> {
    word.parse().map_err(|_| io::Error::new(io::ErrorKind::InvalidInput, format!("not a number: {word}")))
}
