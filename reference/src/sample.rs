//! Requests and small logs in few words, for tests, stored vectors and random histories.

use crate::answer::{Answer, ASTRAY};
use crate::append::{Request, Writer};
use crate::directory::{eight, Directory};
use crate::objects::set_of;
use crate::replica::{open_fresh, play, Record};
use crate::run::Run;
use crate::slot::{slot_at, Kind, Names, Read, Write, ITEM, ITEMS_AT, PUT, REMOVE, SLOT};
use crate::table::{Cell, Row, CELL};

pub fn put(object: u32, key: u32, value: u32) -> Write {
    Write {
        object,
        key,
        operation: PUT,
        value,
    }
}

pub fn remove(object: u32, key: u32) -> Write {
    Write {
        object,
        key,
        operation: REMOVE,
        value: 0,
    }
}

pub fn read(object: u32, key: u32, version: u64) -> Read {
    Read {
        object,
        key,
        version,
    }
}

pub fn write_bytes(writes: &[Write]) -> Vec<u8> {
    writes.iter().flat_map(|write| write.bytes()).collect()
}

pub fn read_bytes(reads: &[Read]) -> Vec<u8> {
    reads.iter().flat_map(|read| read.bytes()).collect()
}

pub fn update(number: u32, writes: &[Write]) -> Request {
    Request::Update {
        number,
        items: write_bytes(writes),
    }
}

pub fn commit(number: u32, reads: &[Read]) -> Request {
    commit_after(number, reads, 0, 0)
}

/// A commit that names numbers.
pub fn commit_after(number: u32, reads: &[Read], first: u32, second: u32) -> Request {
    Request::Commit {
        number,
        reads: read_bytes(reads),
        names: Names { first, second },
    }
}

pub fn decision(offset: u64, outcome: u32) -> Request {
    Request::Decision { offset, outcome }
}

/// The bytes of a table with these rows and no room for more.
pub fn table_of(rows: &[Row]) -> Vec<u8> {
    rows.iter().flat_map(|row| row.bytes()).collect()
}

/// A checkpoint of an object by a replica of it alone, at `position`, whose table has these rows.
pub fn checkpoint_of(object: u32, position: usize, rows: &[Row]) -> Request {
    Request::Checkpoint {
        record: Record {
            hosted: set_of(object),
            position: position as u64,
            count: rows.len() as u64,
        },
        table: table_of(rows),
        object,
    }
}

/// A replica over the eight played to the tail, with room for `cells` cells.
pub fn played(log: &[u8], tail: usize, hosted: u64, cells: usize) -> (Record, Vec<u8>) {
    let mut table = vec![0; cells * CELL];
    let fresh = open_fresh(eight(), hosted).done().unwrap_or(Record {
        hosted,
        position: 0,
        count: 0,
    });
    let (_, record) = play(eight(), log, tail, fresh, &mut table, tail as u64);
    (record, table)
}

/// The table rows of the run's written cells of a set of objects, by object and key.
pub fn rows_of(directory: &Directory, run: &Run, hosted: u64) -> Vec<Row> {
    run.written()
        .filter(|((object, _), _)| directory.has(hosted, *object))
        .map(|((object, key), cell)| match cell {
            Cell::Holds { value, version } => Row::of(object, key, Some(value), version),
            _ => Row::of(object, key, None, cell.version()),
        })
        .collect()
}

/// Appends as in a log that was written before 16 was told, or by others (6.12): with astray reads too. Of a commit record
/// only the items come from its reads.
pub fn append_before(writer: &mut Writer, request: &Request) -> Answer<usize> {
    let answer = writer.append(request);
    let Request::Commit {
        number,
        reads,
        names,
    } = request
    else {
        return answer;
    };
    if answer.number() != ASTRAY {
        return answer;
    }
    let answer = writer.append(&commit_after(*number, &[], names.first, names.second));
    if let Answer::Done(after) = answer {
        let slot = slot_mut(&mut writer.log, after - 1);
        slot[3] = (reads.len() / ITEM) as u8;
        slot[ITEMS_AT..ITEMS_AT + reads.len()].copy_from_slice(reads);
    }
    answer
}

/// A log of these appends, astray reads among them (6.12), and the run of them; a refused append stops it.
pub fn grown(slots: usize, requests: &[Request]) -> (Writer, Run) {
    let mut writer = Writer::new(slots);
    let mut run = Run::new();
    for request in requests {
        let answer = append_before(&mut writer, request);
        assert!(answer.is_done(), "{request:?} is refused: {answer:?}");
        run.feed(request, false);
    }
    (writer, run)
}

/// The append that an entry of a checked log is; of a checkpoint, whose arguments no run looks at, an empty one.
pub fn append_of(log: &[u8], at: usize) -> Request {
    let slot = slot_at(log, at);
    let number = slot.number();
    match slot.kind() {
        Some(Kind::Update) => Request::Update {
            number,
            items: slot.items().to_vec(),
        },
        Some(Kind::Commit) => Request::Commit {
            number,
            reads: slot.items().to_vec(),
            names: slot.names(),
        },
        Some(Kind::Decision) => decision(slot.verdict().commit, slot.verdict().outcome),
        _ => checkpoint_of(slot.header(0).object, at, &[]),
    }
}

/// The run that is handed the entries of a checked log below an offset as appends (17.23).
pub fn run_of(log: &[u8], below: usize) -> Run {
    let mut run = Run::new();
    for at in 0..below {
        run.feed(&append_of(log, at), false);
    }
    run
}

/// The bytes of a log of these appends, all slots used.
pub fn log_of(requests: &[Request]) -> Vec<u8> {
    grown(requests.len(), requests).0.log
}

/// The bench log: object 2, key 7.
pub fn bench() -> Vec<Request> {
    bench_with(1)
}

/// The bench log with another read version at entry 3.
pub fn bench_with(version: u64) -> Vec<Request> {
    vec![
        update(0, &[put(2, 7, 43)]),
        update(9, &[put(2, 7, 42)]),
        update(10, &[put(2, 7, 40)]),
        commit(9, &[read(2, 7, version)]),
        commit(10, &[read(2, 7, 1)]),
    ]
}

/// The delivery log (16.7): an order of number 9, and its delivery, number 10, which names it.
pub fn delivery() -> Vec<Request> {
    vec![
        update(9, &[put(5, 1, 6)]),
        commit(9, &[]),
        update(10, &[put(4, 2, 1)]),
        commit_after(10, &[], 9, 0),
    ]
}

/// The slot at an offset, to be changed.
pub fn slot_mut(log: &mut [u8], at: usize) -> &mut [u8] {
    &mut log[at * SLOT..at * SLOT + SLOT]
}
