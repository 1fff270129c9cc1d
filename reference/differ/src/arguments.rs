//! Random arguments: mostly such as have a meaning for the log, some just outside, some of any kind.

use reference::append::Request;
use reference::directory::{the_eight, Directory};
use reference::log::MOST_SETS;
use reference::price::list_of;
use reference::prices;
use reference::random::{
    self, broken_names, edge, faulty_directory, flip, junk, put_in_order, Random,
};
use reference::replica::Record;
use reference::sample::{put, read, read_bytes, remove, table_of, update};
use reference::slot::{Names, Read, Write};
use reference::table::{capacity, rows, Row, CELL};

use crate::calls::Call;

/// A log as a caller knows it.
#[derive(Clone, Copy, Debug)]
pub struct Seen<'a> {
    pub directory: &'a Directory,
    pub tail: u64,
    pub slots: u64,
    /// How many keys of each object are in use.
    pub keys: u32,
}

/// The directory of a case: mostly any, else the eight.
pub fn directory(random: &mut Random) -> Directory {
    match random.percent(65) {
        true => random::directory(random),
        false => the_eight().clone(),
    }
}

/// The bytes of a directory for one call, now and then other than the log's: faulty, of another log, or with a byte changed.
pub fn handed(random: &mut Random, directory: &Directory) -> Vec<u8> {
    let mut bytes = directory.bytes();
    if !random.percent(12) {
        return bytes;
    }
    match random.below(4) {
        0..=1 => faulty_directory(random),
        2 => random::directory(random).bytes(),
        _ => {
            flip(random, &mut bytes);
            bytes
        }
    }
}

/// A number below the second bound, or, at that chance in percent, below the first.
pub fn mostly(random: &mut Random, chance: u64, first: u64, second: u64) -> u64 {
    let bound = match random.percent(chance) {
        true => first,
        false => second,
    };
    random.below(bound)
}

/// An offset, mostly below the tail.
pub fn offset(random: &mut Random, tail: u64) -> u64 {
    match random.below(20) {
        0..=14 => random.below(tail),
        15..=16 => tail,
        17 => tail + 1,
        _ => edge(random),
    }
}

/// A tail, mostly the log's or an older one.
pub fn tail(random: &mut Random, seen: Seen) -> u64 {
    match random.below(25) {
        0..=14 => seen.tail,
        15..=21 => random.below(seen.tail + 1),
        22 => seen.slots,
        23 => seen.slots + 1,
        _ => edge(random),
    }
}

/// An object's id, mostly of the directory.
pub fn object(random: &mut Random, directory: &Directory) -> u32 {
    let listed = random
        .pick(directory.objects())
        .map_or(1, |object| object.id);
    match random.below(16) {
        0 => 0,
        1 => random
            .pick(&[
                9,
                10,
                261,
                0x8000_0002,
                0xFFFF_FFFF,
                listed + 1,
                listed | 1 << 31,
            ])
            .unwrap_or(9),
        _ => listed,
    }
}

/// A key, mostly one in use.
pub fn key(random: &mut Random, directory: &Directory, object: u32, keys: u32) -> u32 {
    let highest = directory
        .object(object)
        .map_or(0, |object| object.highest_key);
    let near = random.below(u64::from(keys.min(highest + 1))) as u32;
    match random.below(16) {
        0 => highest,
        1 => highest + 1,
        2 => edge(random) as u32,
        3..=7 if directory != the_eight() => highest - near,
        _ => near,
    }
}

fn version(random: &mut Random, tail: u64) -> u64 {
    match random.below(12) {
        0 => tail,
        1 => tail + 1,
        2 => edge(random),
        _ => random.below(tail + 1),
    }
}

/// A table of rows of any kind, mostly in order, now and then not or with repeated cells; odd present fields, some bytes more.
pub fn table(random: &mut Random, seen: Seen) -> Vec<u8> {
    if random.percent(15) {
        return junk(random, 130);
    }
    let count = mostly(random, 10, 40, 9);
    let mut rows: Vec<Row> = Vec::new();
    for _ in 0..count {
        let row = match random.pick(&rows) {
            Some(row) if random.percent(20) => Row {
                value: random.below(9) as u32,
                version: version(random, seen.tail),
                ..row
            },
            _ => row(random, seen),
        };
        rows.push(row);
    }
    if random.percent(80) {
        put_in_order(&mut rows);
    }
    let mut table = table_of(&rows);
    table.resize(table.len() + random.below(60) as usize, 0xEE);
    table
}

fn row(random: &mut Random, seen: Seen) -> Row {
    let object = object(random, seen.directory);
    let present = match random.below(10) {
        0..=5 => 1,
        6..=7 => 0,
        _ => random.number() as u32,
    };
    Row {
        object,
        key: key(random, seen.directory, object, seen.keys),
        value: random.below(5) as u32,
        present,
        version: version(random, seen.tail),
    }
}

/// A hosted set: one object, all, any.
pub fn hosted(random: &mut Random, directory: &Directory) -> u64 {
    let all = directory.everything();
    match random.below(12) {
        0..=3 => 1 << random.below(directory.objects().len() as u64),
        4..=5 => all,
        6 => 0,
        // with a bit past the last record, where there is room for one
        7 if random.percent(50) => random.number() | 1 << 63,
        _ => random.number() & all,
    }
}

/// Declared sets, from none to more than may be: mostly good ones, now and then one twice, an empty one, or one with a bit past the last
/// record.
pub fn sets(random: &mut Random, directory: &Directory) -> Vec<u64> {
    let most = MOST_SETS as u64;
    let count = match random.below(20) {
        0 => 0,
        1 => most,
        2 => most + 1,
        3 => most + 1 + random.below(20),
        4..=9 => 1,
        _ => random.below(most + 1),
    };
    let mut sets: Vec<u64> = Vec::new();
    for _ in 0..count {
        let again = random.pick(&sets).filter(|_| random.percent(10));
        sets.push(again.unwrap_or_else(|| declared(random, directory)));
    }
    let place = random.below(count) as usize;
    if let Some(set) = sets.get_mut(place).filter(|_| random.percent(10)) {
        let past = 1 << random.below(64);
        *set = random.pick(&[0, *set | past, u64::MAX]).unwrap_or(0);
    }
    sets
}

/// A set that may be declared: one object, all, all but one, any.
fn declared(random: &mut Random, directory: &Directory) -> u64 {
    let all = directory.everything();
    let one = 1 << random.below(directory.objects().len() as u64);
    let set = match random.below(8) {
        0..=2 => one,
        3 => all,
        4..=5 => all & !one,
        _ => random.number() & all,
    };
    if set == 0 {
        one
    } else {
        set
    }
}

/// Prices for the rows of an object, mostly of all of them; or a broken list.
pub fn price_list(random: &mut Random, table: &[u8], object: u32) -> Vec<u8> {
    let of_object = rows(table, capacity(table)).filter(|row| row.object == object);
    let keys: Vec<u32> = of_object.map(|row| row.key).collect();
    let list = prices::list(random, &keys, 20);
    match random.below(20) {
        0 => junk(random, 70),
        1..=2 => prices::broken(random, &list),
        _ => list_of(&list),
    }
}

/// A record for a table, mostly a good one.
pub fn record(random: &mut Random, seen: Seen, table: &[u8]) -> Record {
    let tail = seen.tail;
    let capacity = (table.len() / CELL) as u64;
    Record {
        hosted: hosted(random, seen.directory),
        position: match random.below(10) {
            0..=3 => random.below(tail + 1),
            4..=7 => tail,
            8 => tail + 1,
            _ => edge(random),
        },
        count: match random.below(12) {
            0..=5 => capacity,
            6..=9 => random.below(capacity + 1),
            10 => capacity + 1,
            _ => edge(random),
        },
    }
}

fn write(random: &mut Random, seen: Seen) -> Write {
    let object = object(random, seen.directory);
    let key = key(random, seen.directory, object, seen.keys);
    match random.below(12) {
        0..=1 => remove(object, key),
        2 => Write {
            operation: edge(random) as u32,
            ..put(object, key, 0)
        },
        3 => Write {
            value: 1,
            ..remove(object, key)
        },
        _ => put(object, key, random.number() as u32),
    }
}

/// Reads, mostly ascending.
fn reads(random: &mut Random, seen: Seen) -> Vec<Read> {
    let count = mostly(random, 10, 15, 4);
    let mut reads: Vec<Read> = (0..count)
        .map(|_| {
            let object = object(random, seen.directory);
            let key = key(random, seen.directory, object, seen.keys);
            read(object, key, version(random, seen.tail))
        })
        .collect();
    if random.percent(85) {
        reads.sort_by_key(|read| (read.object, read.key));
        reads.dedup_by_key(|read| (read.object, read.key));
    }
    reads
}

fn number(random: &mut Random, tail: u64) -> u32 {
    match random.below(8) {
        0 => 0,
        1 => edge(random) as u32,
        _ => 1 + random.below(tail / 2 + 2) as u32,
    }
}

/// Numbers that the commit of a number names: mostly none, else good ones and bad ones.
pub fn names(random: &mut Random, number: u32, tail: u64) -> Names {
    let one = self::number(random, tail);
    let other = self::number(random, tail);
    let (low, high) = (one.min(other), one.max(other));
    match random.below(10) {
        0..=4 => Names::NONE,
        5 => Names::of(one, 0),
        6..=7 => Names::of(low, high),
        8 => broken_names(random, number, low, high),
        _ => Names::of(edge(random) as u32, edge(random) as u32),
    }
}

/// An append whose arguments may be anything.
pub fn append(random: &mut Random, seen: Seen, kind: u64) -> Request {
    match kind {
        0 if random.percent(10) => Request::Update {
            number: number(random, seen.tail),
            items: junk(random, 250),
        },
        0 => {
            let count = mostly(random, 10, 15, 4);
            let writes: Vec<Write> = (0..count).map(|_| write(random, seen)).collect();
            update(number(random, seen.tail), &writes)
        }
        1 => {
            let reads = match random.percent(10) {
                true => junk(random, 250),
                false => read_bytes(&reads(random, seen)),
            };
            let number = number(random, seen.tail);
            Request::Commit {
                number,
                reads,
                names: names(random, number, seen.tail),
            }
        }
        2 => Request::Decision {
            offset: offset(random, seen.tail),
            outcome: match random.below(10) {
                0 => edge(random) as u32,
                _ => 1 + random.below(2) as u32,
            },
        },
        _ => {
            let table = table(random, seen);
            Request::Checkpoint {
                record: record(random, seen, &table),
                table,
                object: object(random, seen.directory),
            }
        }
    }
}

/// Any call, by its place among the names.
pub fn call(random: &mut Random, seen: Seen, place: usize) -> Call {
    let tail = seen.tail;
    match place {
        0 => Call::Check,
        1 => Call::Owed {
            sets: sets(random, seen.directory),
        },
        2 => Call::Entry {
            offset: offset(random, tail),
        },
        3 => Call::Header {
            offset: offset(random, tail),
            place: match random.below(10) {
                0 => edge(random) as u32,
                _ => random.below(5) as u32,
            },
        },
        4 => Call::Items {
            offset: offset(random, tail),
        },
        5 => Call::StreamNext {
            object: object(random, seen.directory),
            from: offset(random, tail),
        },
        6 => Call::StreamList {
            object: object(random, seen.directory),
            list: vec![0xABCD_EF01; random.below(tail / 2 + 4) as usize],
        },
        7..=10 => Call::Append(append(random, seen, place as u64 - 7)),
        11 => Call::OpenFresh {
            hosted: hosted(random, seen.directory),
        },
        12 => Call::OpenCheckpoint {
            offset: offset(random, tail),
            table: table(random, seen),
        },
        13 => {
            let table = table(random, seen);
            let record = record(random, seen, &table);
            let stop = match random.below(10) {
                0 => edge(random),
                1 => tail + 1,
                2..=5 => tail,
                _ => record.position.saturating_add(random.below(8)).min(tail),
            };
            Call::Play {
                record,
                table,
                stop,
            }
        }
        14 => {
            let table = table(random, seen);
            let object = object(random, seen.directory);
            Call::ReadCell {
                record: record(random, seen, &table),
                table,
                object,
                key: key(random, seen.directory, object, seen.keys),
            }
        }
        15 => Call::Audit {
            scratch: vec![0xD5; random.below(seen.tail * 40 + 100) as usize],
        },
        _ => {
            let table = table(random, seen);
            let object = object(random, seen.directory);
            Call::Price {
                record: record(random, seen, &table),
                prices: price_list(random, &table, object),
                table,
                object,
            }
        }
    }
}
