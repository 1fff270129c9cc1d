//! One point of the benchmark: a call on a log, by one side.

use reference::append::Request;
use reference::boundary::{self, Said};
use reference::directory::{eight, Directory};
use reference::log::MOST_SETS;
use reference::replica::{play, Record};
use reference::sample::{read, read_bytes};
use reference::slot::{Names, Read, MOST_ITEMS, SLOT};
use reference::table::{rows, CELL};

use crate::library::{
    stocklog_append_commit, stocklog_append_update, stocklog_audit, stocklog_check,
    stocklog_open_fresh, stocklog_owed, stocklog_play, stocklog_price, Hosted,
};
use crate::orders::MEASURED;
use crate::workload::Made;

/// On a log; the append is of an update. The price is measured too, which takes none.
pub const CALLS: [&str; 6] = ["check", "owed", "append", "commit", "play", "audit"];
/// Those of the plot and of the logs made to be slow.
pub const PLOTTED: [&str; 4] = ["check", "append", "play", "audit"];

#[derive(Clone, Copy, Debug, PartialEq, Eq)]
pub enum Side {
    Library,
    Reference,
}

impl Side {
    pub fn named(name: &str) -> Option<Side> {
        match name {
            "library" => Some(Side::Library),
            "reference" => Some(Side::Reference),
            _ => None,
        }
    }

    pub fn name(self) -> &'static str {
        match self {
            Side::Library => "library",
            Side::Reference => "reference",
        }
    }
}

#[repr(C)]
struct Timespec {
    seconds: i64,
    nanoseconds: i64,
}

extern "C" {
    fn clock_gettime(clock: i32, time: *mut Timespec) -> i32;
}

/// Processor time of this process, in nanoseconds.
fn now() -> f64 {
    const PROCESSOR_TIME: i32 = 2;
    let mut time = Timespec {
        seconds: 0,
        nanoseconds: 0,
    };
    // The clock is one that every Linux has.
    unsafe { clock_gettime(PROCESSOR_TIME, &mut time) };
    time.seconds as f64 * 1e9 + time.nanoseconds as f64
}

/// What the calls are given.
struct Lent {
    dir: Vec<u8>,
    log: Vec<u8>,
    tail: usize,
    table: Vec<u8>,
    number: u32,
    items: Vec<u8>,
    reads: Vec<u8>,
    /// What is declared: as many sets as may be, each of all objects, so that every commit record without a decision is asked for each
    /// of them, and none owes.
    sets: [u64; MOST_SETS],
    /// The replica that is played, or priced.
    record: Record,
    prices: Vec<u8>,
}

/// Nanoseconds of one call, the least of those made in so many nanoseconds or of three, and its answer in words.
pub fn measured(call: &str, made: Made, side: Side, time: f64) -> (f64, String) {
    let everything = fresh(&made.dir);
    let (record, rows) = made.replica.unwrap_or((everything, Vec::new()));
    let mut lent = Lent {
        dir: made.dir,
        tail: made.log.len() / SLOT,
        log: made.log,
        table: vec![0; made.cells * CELL],
        number: made.number,
        items: made.items,
        reads: made.reads.unwrap_or_default(),
        sets: [everything.hosted; MOST_SETS],
        record,
        prices: made.prices,
    };
    if call == "commit" && lent.reads.is_empty() {
        lent.reads = honest(&mut lent);
    }
    let mut least = f64::MAX;
    let mut whole = 0.0;
    let mut said = None;
    let mut calls = 0;
    while calls < 3 || whole < time && calls < 2_000 {
        // A play changes the rows that it was given.
        lent.table[..rows.len()].copy_from_slice(&rows);
        let start = now();
        said = Some(call_made(call, side, &mut lent));
        let took = now() - start;
        least = least.min(took);
        whole += took;
        calls += 1;
        if took > 5e9 {
            break;
        }
    }
    (least, shown(said, &lent))
}

/// Puts an update of the number in the last slot but one, for a commit in the last; its reads are of 12 cells, with the versions that
/// a replica of all objects shows there.
fn honest(lent: &mut Lent) -> Vec<u8> {
    let Some(at) = lent.tail.checked_sub(2) else {
        return Vec::new();
    };
    let (dir, mut table) = (lent.dir.clone(), lent.table.clone());
    let (_, record) = play(&dir, &lent.log, at, fresh(&dir), &mut table, at as u64);
    let request = Request::Update {
        number: lent.number,
        items: lent.items.clone(),
    };
    boundary::append(&dir, &mut lent.log, at, &request);
    let step = (record.count as usize / MOST_ITEMS).max(1);
    let shown: Vec<Read> = rows(&table, record.count as usize)
        .step_by(step)
        .take(MOST_ITEMS)
        .map(|row| read(row.object, row.key, row.version))
        .collect();
    read_bytes(&shown)
}

/// The answer, `out` and a sum over the bytes.
fn shown(said: Option<Said>, lent: &Lent) -> String {
    let mut sum: u64 = 0;
    for byte in lent.table.iter().chain(&lent.log) {
        sum = sum
            .rotate_left(5)
            .wrapping_mul(31)
            .wrapping_add(u64::from(*byte));
    }
    match said {
        Some(said) => format!("{} {:?} {sum:016x}", said.number, &said.out[..4]),
        None => "no answer".to_string(),
    }
}

/// A replica of all objects, with no cells.
fn fresh(dir: &[u8]) -> Record {
    Record {
        hosted: Directory::of(dir).map_or(0, |directory| directory.everything()),
        position: 0,
        count: 0,
    }
}

/// Whether the library takes a directory. One that does not takes its length for an address, which ends the process: ask in one of
/// its own.
pub fn takes_directory() -> bool {
    let mut out = [0; 4];
    // The pointers are to memory of the length beside them, if the library takes them as such.
    let number =
        unsafe { stocklog_open_fresh(eight().as_ptr(), eight().len(), 1, out.as_mut_ptr()) };
    number == 0 && out == [1, 0, 0, 0]
}

/// Whether the library's append of a commit takes the numbers that it names. One that does not takes the first of them for the address
/// of `out`, which ends the process: ask in one of its own.
pub fn takes_names() -> bool {
    let mut out = [0; 4];
    let (dir, mut log) = (eight(), [0; SLOT]);
    // The pointers are to memory of the length beside them, if the library takes them as such.
    let number = unsafe {
        stocklog_append_commit(
            dir.as_ptr(),
            dir.len(),
            log.as_mut_ptr(),
            SLOT,
            0,
            1,
            log.as_ptr(),
            0,
            0,
            9,
            out.as_mut_ptr(),
        )
    };
    number == 3 && out == [0; 4]
}

/// Whether the library has a call as it is now. Before sets were declared, what is owed took none: the place of the sets was that of
/// `out`, so that they have room for it here; it is then done, and now it is 3.
pub fn has(call: &str) -> bool {
    let mut sets = [0; 4];
    let mut out = [0; 4];
    match call {
        // The pointers are to memory of the length beside them, or of four places, whichever of the two the library takes.
        "owed" => unsafe {
            let (dir, log) = (eight(), [0; 0]);
            let number = stocklog_owed(
                dir.as_ptr(),
                dir.len(),
                log.as_ptr(),
                0,
                0,
                sets.as_mut_ptr(),
                1,
                out.as_mut_ptr(),
            );
            number == 3
        },
        "price" => cfg!(not(feature = "unpriced")),
        _ => CALLS.contains(&call),
    }
}

fn call_made(call: &str, side: Side, lent: &mut Lent) -> Said {
    match side {
        Side::Reference => by_reference(call, lent),
        Side::Library => by_library(call, lent),
    }
}

/// The appends write the last slot anew.
fn by_reference(call: &str, lent: &mut Lent) -> Said {
    let tail = lent.tail;
    match call {
        "check" => boundary::check(&lent.dir, &lent.log, tail),
        "owed" => boundary::owed(&lent.dir, &lent.log, tail, &lent.sets),
        "append" => {
            let request = Request::Update {
                number: lent.number,
                items: lent.items.clone(),
            };
            boundary::append(&lent.dir, &mut lent.log, tail - 1, &request)
        }
        "commit" => {
            let request = Request::Commit {
                number: lent.number,
                reads: lent.reads.clone(),
                names: Names::NONE,
            };
            boundary::append(&lent.dir, &mut lent.log, tail - 1, &request)
        }
        "play" => boundary::play(
            &lent.dir,
            &lent.log,
            tail,
            lent.record,
            &mut lent.table,
            tail as u64,
        ),
        "price" => boundary::price(&lent.dir, lent.record, &lent.table, MEASURED, &lent.prices),
        _ => boundary::audit(&lent.dir, &lent.log, tail, &mut lent.table),
    }
}

fn by_library(call: &str, lent: &mut Lent) -> Said {
    let mut out = [0; 8];
    let (dir, dir_len) = (lent.dir.as_ptr(), lent.dir.len());
    let (log, log_len) = (lent.log.as_mut_ptr(), lent.log.len());
    let (table, table_len) = (lent.table.as_mut_ptr(), lent.table.len());
    let tail = lent.tail as u64;
    let to = out.as_mut_ptr();
    // Every pointer is to memory of the length beside it, which nobody else uses during the call.
    let number = unsafe {
        match call {
            "check" => stocklog_check(dir, dir_len, log, log_len, tail, to),
            "owed" => {
                let (sets, sets_len) = (lent.sets.as_ptr(), lent.sets.len());
                stocklog_owed(dir, dir_len, log, log_len, tail, sets, sets_len, to)
            }
            "append" => {
                let (items, items_len) = (lent.items.as_ptr(), lent.items.len());
                stocklog_append_update(
                    dir,
                    dir_len,
                    log,
                    log_len,
                    tail - 1,
                    lent.number,
                    items,
                    items_len,
                    to,
                )
            }
            "commit" => {
                let (reads, reads_len) = (lent.reads.as_ptr(), lent.reads.len());
                stocklog_append_commit(
                    dir,
                    dir_len,
                    log,
                    log_len,
                    tail - 1,
                    lent.number,
                    reads,
                    reads_len,
                    0,
                    0,
                    to,
                )
            }
            "play" => stocklog_play(
                dir,
                dir_len,
                log,
                log_len,
                tail,
                lent.record.hosted as Hosted,
                lent.record.position,
                lent.record.count,
                table,
                table_len,
                tail,
                to,
            ),
            "price" => stocklog_price(
                dir,
                dir_len,
                lent.record.hosted,
                lent.record.position,
                lent.record.count,
                table,
                table_len,
                MEASURED,
                lent.prices.as_ptr(),
                lent.prices.len(),
                to,
            ),
            _ => stocklog_audit(dir, dir_len, log, log_len, tail, table, table_len, to),
        }
    };
    Said { number, out }
}
