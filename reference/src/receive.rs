//! A desk receives a stream. Each whole record is one visit of the desk: the desk finds and opens its row, ticks its
//! number and saves the row. If the tick is refused, the desk drops the row.

use crate::ledger::{self, trusted};
use crate::record::{self, Fields, Record};
use crate::stream::{self, Stop};

#[derive(Debug, PartialEq)]
pub struct Received {
    pub stop: Stop,
    pub ticked: u64,
}

/// Writes the outcome of each record into the list: 0, 12, 25, 28 or 29.
pub fn receive(s: &mut [u8], desk: u32, stream: &[u8], list: &mut [u32]) -> Result<Received, u32> {
    ledger::judge_sheet(s)?;
    ledger::judge_closed_desk(s, desk)?;
    let mut ticked = 0;
    let stop = stream::go_over(stream, list.len(), |i, place, record| {
        let visited = visit(s, desk, &stream[place..], &record);
        ticked += visited.is_ok() as u64;
        list[i] = visited.err().unwrap_or(0);
    });
    Ok(Received { stop, ticked })
}

/// The visit of the record at the start of `bytes`, which read one accepted.
#[inline]
fn visit(s: &mut [u8], desk: u32, bytes: &[u8], record: &Record) -> Result<(), u32> {
    let (key, number) = match record::read_fields(bytes, record) {
        Ok(Fields::Telemetry(fields)) => (fields.key, fields.number),
        Ok(Fields::Rsr(fields)) => (fields.key, fields.number.into()),
        Err(refused) => return Err(refused.number()),
    };
    let row = trusted::find(s, key)?;
    trusted::open(s, desk, row as u32)?;
    if let Err(refusal) = trusted::set_tick(s, desk, number, true) {
        trusted::drop_desk(s, desk)?;
        return Err(refusal);
    }
    trusted::save(s, desk)
}
