//! Documents 01 and 02 in plain Rust, written separately from the proved library. It gives the expected output of the
//! library's programs and the baseline of its benchmarks. See README.md.

// The calls, one module for each section of document 01 or request of document 02; and the programs' listings.
pub mod convert;
pub mod dates;
pub mod gain;
pub mod idr;
pub mod iq;
pub mod keys;
pub mod ledger;
pub mod list;
pub mod receive;
pub mod record;
pub mod replay;
pub mod sample_text;
pub mod season;
pub mod settings;
pub mod stream;
pub mod tapes;
pub mod texts;

// What uses the calls.
pub mod agreed;
pub mod bench;
pub mod bill;
pub mod coverage;
pub mod files;
pub mod host;
pub mod make;
pub mod nights;
pub mod ops;
pub mod pass;
pub mod privacy;
pub mod random;
pub mod sample;
pub mod script;
pub mod tables;
pub mod wrong_sheets;

#[cfg(feature = "rattle")]
pub mod rattle;

#[cfg(test)]
mod book;
#[cfg(test)]
mod ranges;
#[cfg(test)]
mod tests;
