//! The seventeen calls as the C interface has them: numbers and lent bytes in, a number and `out` back.
//!
//! What `out` has on every return is said in 14.3 of docs/SPECIFICATION.md. The entry call alone has `out[4]` to `out[7]`.

use crate::answer::Answer;
use crate::append;
use crate::append::Request;
use crate::audit;
use crate::log;
use crate::price;
use crate::replica::{self, Record};
use crate::table::Cell;

/// What a call answers: 0 or document 01's number, and `out`.
#[derive(Clone, Copy, Debug, PartialEq, Eq)]
pub struct Said {
    pub number: u32,
    pub out: [u64; 8],
}

/// The number and what is told; the values where done.
fn said<T>(answer: Answer<T>, values: impl FnOnce(T) -> [u64; 3]) -> Said {
    match answer {
        Answer::Done(value) => Said {
            number: 0,
            out: first(values(value), 0),
        },
        Answer::Refused { number, told } => Said {
            number,
            out: first([0; 3], told.unwrap_or(0)),
        },
    }
}

/// The number and what is told, with these values whatever the answer is.
fn said_with<T>(answer: Answer<T>, values: [u64; 3]) -> Said {
    let told = match answer {
        Answer::Done(_) => 0,
        Answer::Refused { told, .. } => told.unwrap_or(0),
    };
    Said {
        number: answer.number(),
        out: first(values, told),
    }
}

fn first(values: [u64; 3], told: u64) -> [u64; 8] {
    [values[0], values[1], values[2], told, 0, 0, 0, 0]
}

fn numbers(record: Record) -> [u64; 3] {
    [record.hosted, record.position, record.count]
}

pub fn check(dir: &[u8], log: &[u8], tail: usize) -> Said {
    said(log::check(dir, log, tail), |()| [0; 3])
}

pub fn owed(dir: &[u8], log: &[u8], tail: usize, sets: &[u64]) -> Said {
    said(log::owed(dir, log, tail, sets), |owed| match owed {
        Some(offset) => [1, offset, 0],
        None => [0; 3],
    })
}

/// Kind, number, headers, what is told, items, the two numbers in the last eight bytes.
pub fn entry(dir: &[u8], log: &[u8], tail: usize, offset: u64) -> Said {
    let answer = log::entry(dir, log, tail, offset);
    let mut said = said(answer, |entry| {
        [
            entry.kind as u64,
            u64::from(entry.number),
            entry.headers as u64,
        ]
    });
    if let Answer::Done(entry) = answer {
        said.out[4] = entry.items as u64;
        said.out[5] = u64::from(entry.names.first);
        said.out[6] = u64::from(entry.names.second);
    }
    said
}

pub fn header(dir: &[u8], log: &[u8], tail: usize, offset: u64, place: u32) -> Said {
    said(log::header(dir, log, tail, offset, place), |header| {
        [
            u64::from(header.object),
            u64::from(header.format),
            header.pointer,
        ]
    })
}

pub fn items(dir: &[u8], log: &[u8], tail: usize, offset: u64) -> Said {
    said(log::stretch(dir, log, tail, offset), |stretch| {
        [stretch.from, stretch.length, 0]
    })
}

/// `out` of the stream reader's next (14.4).
pub fn stream_next(dir: &[u8], log: &[u8], tail: usize, object: u32, from: u64) -> Said {
    let (answer, next) = log::next(dir, log, tail, object, from);
    let values = match answer {
        Answer::Done(Some(offset)) => [1, offset, next],
        _ => [0, 0, next],
    };
    said_with(answer, values)
}

pub fn stream_list(dir: &[u8], log: &[u8], tail: usize, object: u32, list: &mut [u32]) -> Said {
    said(log::list(dir, log, tail, object, list), |count| {
        [count as u64, 0, 0]
    })
}

/// Any of the four appends: the new tail.
pub fn append(dir: &[u8], log: &mut [u8], tail: usize, request: &Request) -> Said {
    said(append::request(dir, log, tail, request), |tail| {
        [tail as u64, 0, 0]
    })
}

pub fn open_fresh(dir: &[u8], hosted: u64) -> Said {
    said(replica::open_fresh(dir, hosted), numbers)
}

pub fn open_checkpoint(dir: &[u8], log: &[u8], tail: usize, offset: u64, table: &mut [u8]) -> Said {
    said(replica::open_at(dir, log, tail, offset, table), numbers)
}

/// The record as it is left, whatever the answer is.
pub fn play(
    dir: &[u8],
    log: &[u8],
    tail: usize,
    record: Record,
    table: &mut [u8],
    stop: u64,
) -> Said {
    let (answer, left) = replica::play(dir, log, tail, record, table, stop);
    said_with(answer, numbers(left))
}

/// `out` of cell reading (14.4).
pub fn read_cell(dir: &[u8], record: Record, table: &[u8], object: u32, key: u32) -> Said {
    said(
        replica::read_cell(dir, &record, table, object, key),
        |cell| match cell {
            Cell::NeverWritten => [0; 3],
            Cell::Holds { value, version } => [1, u64::from(value), version],
            Cell::Removed { version } => [2, 0, version],
        },
    )
}

/// `out` of the audit: the record as left (14.4).
pub fn audit(dir: &[u8], log: &[u8], tail: usize, scratch: &mut [u8]) -> Said {
    let (answer, record) = audit::audit(dir, log, tail, scratch);
    said_with(answer, numbers(record))
}

/// The total's high and low 64 bits.
pub fn price(dir: &[u8], record: Record, table: &[u8], object: u32, prices: &[u8]) -> Said {
    said(price::price(dir, &record, table, object, prices), |total| {
        [(total >> 64) as u64, total as u64, 0]
    })
}
