//! One call with its arguments, made on both sides.

use reference::append::Request;
use reference::boundary::{self, Said};
use reference::replica::Record;
use reference::slot::{MOST_SLOTS, SLOT};

use crate::guarded::{Lent, Out};
use crate::library::*;

/// The arguments after directory, log and tail. What a call may write is in it, as it is before the call.
#[derive(Clone, Debug)]
pub enum Call {
    Check,
    Owed {
        sets: Vec<u64>,
    },
    Entry {
        offset: u64,
    },
    Header {
        offset: u64,
        place: u32,
    },
    Items {
        offset: u64,
    },
    StreamNext {
        object: u32,
        from: u64,
    },
    StreamList {
        object: u32,
        list: Vec<u32>,
    },
    Append(Request),
    OpenFresh {
        hosted: u64,
    },
    OpenCheckpoint {
        offset: u64,
        table: Vec<u8>,
    },
    Play {
        record: Record,
        table: Vec<u8>,
        stop: u64,
    },
    ReadCell {
        record: Record,
        table: Vec<u8>,
        object: u32,
        key: u32,
    },
    Audit {
        scratch: Vec<u8>,
    },
    Price {
        record: Record,
        table: Vec<u8>,
        object: u32,
        prices: Vec<u8>,
    },
}

/// The calls' names without `stocklog_`, in the order of the C interface, each with the numbers that document 01
/// allows it.
pub const NAMES: [(&str, &[u32]); 17] = [
    ("check", &[0, 1, 2]),
    ("owed", &[0, 1, 2, 3]),
    ("entry", &[0, 1, 2, 3]),
    ("header", &[0, 1, 2, 3]),
    ("items", &[0, 1, 2, 3]),
    ("stream_next", &[0, 1, 2, 3]),
    ("stream_list", &[0, 1, 2, 3, 13]),
    ("append_update", &[0, 1, 2, 3, 4, 5, 9]),
    ("append_commit", &[0, 1, 2, 3, 4, 6, 9, 16]),
    ("append_decision", &[0, 1, 2, 3, 7, 8, 9]),
    ("append_checkpoint", &[0, 1, 2, 3, 9, 10, 13, 14]),
    ("open_fresh", &[0, 10]),
    ("open_checkpoint", &[0, 1, 2, 3, 13]),
    ("play", &[0, 1, 2, 3, 10, 12, 13]),
    ("read_cell", &[0, 3, 10]),
    ("audit", &[0, 1, 2, 11, 13]),
    ("price", &[0, 3, 10, 19]),
];

impl Call {
    /// Its place among the names.
    pub fn place(&self) -> usize {
        match self {
            Call::Check => 0,
            Call::Owed { .. } => 1,
            Call::Entry { .. } => 2,
            Call::Header { .. } => 3,
            Call::Items { .. } => 4,
            Call::StreamNext { .. } => 5,
            Call::StreamList { .. } => 6,
            Call::Append(Request::Update { .. }) => 7,
            Call::Append(Request::Commit { .. }) => 8,
            Call::Append(Request::Decision { .. }) => 9,
            Call::Append(Request::Checkpoint { .. }) => 10,
            Call::OpenFresh { .. } => 11,
            Call::OpenCheckpoint { .. } => 12,
            Call::Play { .. } => 13,
            Call::ReadCell { .. } => 14,
            Call::Audit { .. } => 15,
            Call::Price { .. } => 16,
        }
    }

    pub fn name(&self) -> &'static str {
        NAMES[self.place()].0
    }

    /// How long its `out` is.
    fn out_length(&self) -> usize {
        match self {
            Call::Entry { .. } => 8,
            _ => 4,
        }
    }

    /// The arguments in words, lent bytes in hex.
    pub fn shown(&self) -> String {
        match self {
            Call::Check => String::new(),
            Call::Owed { sets } => format!("sets {sets:?}"),
            Call::Entry { offset } | Call::Items { offset } => format!("offset {offset}"),
            Call::Header { offset, place } => format!("offset {offset}, place {place}"),
            Call::StreamNext { object, from } => format!("object {object}, from {from}"),
            Call::StreamList { object, list } => format!("object {object}, list {list:?}"),
            Call::Append(Request::Update { number, items }) => {
                format!("number {number}, items {}", hex(items))
            }
            Call::Append(Request::Commit {
                number,
                reads,
                names,
            }) => format!(
                "number {number}, named {} and {}, reads {}",
                names.first,
                names.second,
                hex(reads)
            ),
            Call::Append(Request::Decision { offset, outcome }) => {
                format!("offset {offset}, outcome {outcome}")
            }
            Call::Append(Request::Checkpoint {
                record,
                table,
                object,
            }) => format!("{}, object {object}, table {}", words(record), hex(table)),
            Call::OpenFresh { hosted } => format!("hosted {hosted}"),
            Call::OpenCheckpoint { offset, table } => {
                format!("offset {offset}, table {}", hex(table))
            }
            Call::Play {
                record,
                table,
                stop,
            } => format!("{}, stop {stop}, table {}", words(record), hex(table)),
            Call::ReadCell {
                record,
                table,
                object,
                key,
            } => format!(
                "{}, object {object}, key {key}, table {}",
                words(record),
                hex(table)
            ),
            Call::Audit { scratch } => format!("scratch {}", hex(scratch)),
            Call::Price {
                record,
                table,
                object,
                prices,
            } => format!(
                "{}, object {object}, table {}, prices {}",
                words(record),
                hex(table),
                hex(prices)
            ),
        }
    }
}

fn words(record: &Record) -> String {
    format!(
        "hosted {}, position {}, count {}",
        record.hosted, record.position, record.count
    )
}

/// Bytes in hex, with their number; "-" for none.
pub fn hex(bytes: &[u8]) -> String {
    if bytes.is_empty() {
        return "-".to_string();
    }
    let digits: String = bytes.iter().map(|byte| format!("{byte:02x}")).collect();
    format!("({} bytes) {digits}", bytes.len())
}

/// The second implementation's answer; what it writes is written.
pub fn by_reference(dir: &[u8], log: &mut [u8], tail: u64, call: &mut Call) -> Said {
    let tail = tail as usize;
    match call {
        Call::Check => boundary::check(dir, log, tail),
        Call::Owed { sets } => boundary::owed(dir, log, tail, sets),
        Call::Entry { offset } => boundary::entry(dir, log, tail, *offset),
        Call::Header { offset, place } => boundary::header(dir, log, tail, *offset, *place),
        Call::Items { offset } => boundary::items(dir, log, tail, *offset),
        Call::StreamNext { object, from } => boundary::stream_next(dir, log, tail, *object, *from),
        Call::StreamList { object, list } => boundary::stream_list(dir, log, tail, *object, list),
        Call::Append(request) => boundary::append(dir, log, tail, request),
        Call::OpenFresh { hosted } => boundary::open_fresh(dir, *hosted),
        Call::OpenCheckpoint { offset, table } => {
            boundary::open_checkpoint(dir, log, tail, *offset, table)
        }
        Call::Play {
            record,
            table,
            stop,
        } => boundary::play(dir, log, tail, *record, table, *stop),
        Call::ReadCell {
            record,
            table,
            object,
            key,
        } => boundary::read_cell(dir, *record, table, *object, *key),
        Call::Audit { scratch } => boundary::audit(dir, log, tail, scratch),
        Call::Price {
            record,
            table,
            object,
            prices,
        } => boundary::price(dir, *record, table, *object, prices),
    }
}

/// The library, with the memory that is lent to it, and its last call.
pub struct Library {
    number: u32,
    out: Out,
    out_length: usize,
    dir: Lent<u8>,
    log: Lent<u8>,
    /// Table, scratch, items or reads.
    bytes: Lent<u8>,
    list: Lent<u32>,
    sets: Lent<u64>,
    prices: Lent<u8>,
    calls: u64,
}

impl Default for Library {
    fn default() -> Library {
        Library {
            number: 0,
            out: Out::new(),
            out_length: 0,
            dir: Lent::new(1 << 16, 0xC7),
            log: Lent::new((MOST_SLOTS + 1) * SLOT, 0xC7),
            bytes: Lent::new(1 << 23, 0xC7),
            list: Lent::new(1 << 18, 0xC7C7_C7C7),
            sets: Lent::new(1 << 10, 0xC7C7_C7C7_C7C7_C7C7),
            prices: Lent::new(1 << 22, 0xC7),
            calls: 0,
        }
    }
}

/// The bytes lent beside the log.
fn lent_bytes(call: &Call) -> &[u8] {
    match call {
        Call::Append(Request::Update { items, .. }) => items,
        Call::Append(Request::Commit { reads, .. }) => reads,
        Call::Append(Request::Checkpoint { table, .. })
        | Call::OpenCheckpoint { table, .. }
        | Call::Play { table, .. }
        | Call::ReadCell { table, .. }
        | Call::Price { table, .. } => table,
        Call::Audit { scratch } => scratch,
        _ => &[],
    }
}

/// The numbers lent.
fn lent_list(call: &Call) -> &[u32] {
    match call {
        Call::StreamList { list, .. } => list,
        _ => &[],
    }
}

/// The sets declared.
fn declared(call: &Call) -> &[u64] {
    match call {
        Call::Owed { sets } => sets,
        _ => &[],
    }
}

/// The list of prices.
fn lent_prices(call: &Call) -> &[u8] {
    match call {
        Call::Price { prices, .. } => prices,
        _ => &[],
    }
}

fn made(
    library: &mut Library,
    bytes_of_dir: &[u8],
    bytes_of_log: &[u8],
    tail: u64,
    call: &Call,
) -> u32 {
    let closed = library.calls.is_multiple_of(2);
    let (dir, dir_len) = library.dir.lend(bytes_of_dir, closed);
    let (log, log_len) = library.log.lend(bytes_of_log, closed);
    let (bytes, bytes_len) = library.bytes.lend(lent_bytes(call), closed);
    let (list, list_len) = library.list.lend(lent_list(call), closed);
    let (sets, sets_len) = library.sets.lend(declared(call), closed);
    let (prices, prices_len) = library.prices.lend(lent_prices(call), closed);
    let out = library.out.lend();
    // Every pointer is to memory of the length beside it, which nobody else uses during the call.
    unsafe {
        match call {
            Call::Check => stocklog_check(dir, dir_len, log, log_len, tail, out),
            Call::Owed { .. } => {
                stocklog_owed(dir, dir_len, log, log_len, tail, sets, sets_len, out)
            }
            Call::Entry { offset } => {
                stocklog_entry(dir, dir_len, log, log_len, tail, *offset, out)
            }
            Call::Header { offset, place } => {
                stocklog_header(dir, dir_len, log, log_len, tail, *offset, *place, out)
            }
            Call::Items { offset } => {
                stocklog_items(dir, dir_len, log, log_len, tail, *offset, out)
            }
            Call::StreamNext { object, from } => {
                stocklog_stream_next(dir, dir_len, log, log_len, tail, *object, *from, out)
            }
            Call::StreamList { object, .. } => stocklog_stream_list(
                dir, dir_len, log, log_len, tail, *object, list, list_len, out,
            ),
            Call::Append(Request::Update { number, .. }) => stocklog_append_update(
                dir, dir_len, log, log_len, tail, *number, bytes, bytes_len, out,
            ),
            Call::Append(Request::Commit { number, names, .. }) => stocklog_append_commit(
                dir,
                dir_len,
                log,
                log_len,
                tail,
                *number,
                bytes,
                bytes_len,
                names.first,
                names.second,
                out,
            ),
            Call::Append(Request::Decision { offset, outcome }) => {
                stocklog_append_decision(dir, dir_len, log, log_len, tail, *offset, *outcome, out)
            }
            Call::Append(Request::Checkpoint { record, object, .. }) => stocklog_append_checkpoint(
                dir,
                dir_len,
                log,
                log_len,
                tail,
                record.hosted as Hosted,
                record.position,
                record.count,
                bytes,
                bytes_len,
                *object,
                out,
            ),
            Call::OpenFresh { hosted } => stocklog_open_fresh(dir, dir_len, *hosted as Hosted, out),
            Call::OpenCheckpoint { offset, .. } => stocklog_open_checkpoint(
                dir, dir_len, log, log_len, tail, *offset, bytes, bytes_len, out,
            ),
            Call::Play { record, stop, .. } => stocklog_play(
                dir,
                dir_len,
                log,
                log_len,
                tail,
                record.hosted as Hosted,
                record.position,
                record.count,
                bytes,
                bytes_len,
                *stop,
                out,
            ),
            Call::ReadCell {
                record,
                object,
                key,
                ..
            } => stocklog_read_cell(
                dir,
                dir_len,
                record.hosted as Hosted,
                record.position,
                record.count,
                bytes,
                bytes_len,
                *object,
                *key,
                out,
            ),
            Call::Audit { .. } => {
                stocklog_audit(dir, dir_len, log, log_len, tail, bytes, bytes_len, out)
            }
            Call::Price { record, object, .. } => stocklog_price(
                dir,
                dir_len,
                record.hosted,
                record.position,
                record.count,
                bytes,
                bytes_len,
                *object,
                prices,
                prices_len,
                out,
            ),
        }
    }
}

impl Library {
    /// Makes a call.
    pub fn call(&mut self, dir: &[u8], log: &[u8], tail: u64, call: &Call) {
        self.calls += 1;
        self.out = Out::new();
        self.out_length = call.out_length();
        self.number = made(self, dir, log, tail, call);
    }

    /// What is other than the second implementation says and leaves.
    pub fn difference(
        &mut self,
        said: &Said,
        dir: &[u8],
        log: &[u8],
        after: &Call,
    ) -> Option<String> {
        let out = self.out.numbers(self.out_length);
        let due = &said.out[..self.out_length];
        if self.number != said.number || out != due {
            return Some(format!(
                "the library answers {} and out {out:?}, due is {} and {due:?}",
                self.number, said.number
            ));
        }
        if !self.out.kept_inside(self.out_length) {
            return Some("the library wrote outside out".to_string());
        }
        let bytes = lent_bytes(after);
        self.dir
            .difference("directory", dir)
            .or_else(|| self.log.difference("log", log))
            .or_else(|| self.bytes.difference("table, scratch or items", bytes))
            .or_else(|| self.list.difference("list", lent_list(after)))
            .or_else(|| self.sets.difference("declared sets", declared(after)))
            .or_else(|| self.prices.difference("prices", lent_prices(after)))
    }
}
