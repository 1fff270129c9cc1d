//! Logs that are made to be slow, each beside one of the same kind that is not: transaction numbers that share a place in some
//! table, checkpoints of objects with many keys, entries full of writes, cells whose rows come before those that are there. And
//! logs on which a commit has much to look at, whose commit is measured beside their check.

use reference::append::{Request, Writer};
use reference::objects::{objects, set_of};
use reference::replica::{version_at, Record};
use reference::sample::{commit, put, read, read_bytes, table_of, update};
use reference::slot::{Read, Write, MOST_ITEMS};
use reference::table::Row;

use crate::naming::{FROM_0, LATER};
use crate::sparse::SPARSE;
use crate::workload::Made;

/// A log of so many slots, all used.
pub type Maker = fn(usize) -> Made;

/// A log, by its name; one that is made to be slow has another that it is measured beside.
pub struct Log {
    pub name: &'static str,
    pub beside: Option<&'static str>,
    maker: Maker,
}

pub const fn plain(name: &'static str, maker: Maker) -> Log {
    Log {
        name,
        beside: None,
        maker,
    }
}

const fn slow(name: &'static str, beside: &'static str, maker: Maker) -> Log {
    Log {
        name,
        beside: Some(beside),
        maker,
    }
}

const IN_ORDER: &str = "numbers 1, 2, 3, ..";
const FEW: &str = "numbers 1 to 32";
const REGISTER: &str = "checkpoints of object 8";
const CELLS: &str = "12 writes of 12 cells in each update";
const ASCENDING: &str = "new cells ascending";
const NONE_NEW: &str = "one entry played on 20,000 rows, no new cell";

/// Numbers of transactions go up to 2^32 - 1, which leaves 65,536 of each remainder by 65,536: as many as the longest log needs.
pub const LOGS: [Log; 24] = [
    plain(IN_ORDER, |size| transactions(size, |i, _| i + 1)),
    plain(FEW, |size| in_turn(size, |i| i + 1)),
    plain(REGISTER, |size| checkpoints(size, 8, 0)),
    plain(CELLS, |size| {
        writes(size, |entry, place| {
            (MOST_ITEMS as u32 * entry + place) % 500
        })
    }),
    slow("numbers equal modulo 65,521", IN_ORDER, |size| {
        transactions(size, |i, _| 65_521 * i + 1)
    }),
    slow("numbers equal modulo 65,536", IN_ORDER, |size| {
        transactions(size, |i, _| 65_536 * i + 1)
    }),
    slow("numbers equal modulo 32,768", IN_ORDER, |size| {
        transactions(size, |i, _| 32_768 * i + 1)
    }),
    slow("numbers equal modulo 16,384", IN_ORDER, |size| {
        transactions(size, |i, _| 16_384 * i + 1)
    }),
    slow("numbers equal modulo 1,024", IN_ORDER, |size| {
        transactions(size, |i, _| 1_024 * i + 1)
    }),
    slow("multiples of 65,536 less 1", IN_ORDER, |size| {
        transactions(size, |i, _| 65_535 + 65_536 * i)
    }),
    slow("numbers descending", IN_ORDER, |size| {
        transactions(size, |i, count| count - i)
    }),
    slow("numbers descending from 2^32 - 1", IN_ORDER, |size| {
        transactions(size, |i, _| u32::MAX - i)
    }),
    slow("32 bits of 1, 2, 3, .. reversed", IN_ORDER, |size| {
        transactions(size, |i, _| (i + 1).reverse_bits())
    }),
    slow("random numbers", IN_ORDER, |size| {
        transactions(size, |i, _| mixed(i + 1))
    }),
    slow("powers of two less 1", FEW, |size| {
        in_turn(size, |i| u32::MAX >> (31 - i))
    }),
    slow("one transaction, committed at the end", IN_ORDER, one),
    slow("checkpoints of object 1", REGISTER, |size| {
        checkpoints(size, 1, 9_999)
    }),
    slow("checkpoints of object 5", REGISTER, |size| {
        checkpoints(size, 5, 9_999)
    }),
    slow("12 writes of one cell in each update", CELLS, |size| {
        writes(size, |_, _| 7)
    }),
    plain(ASCENDING, |size| growing(size, |place, _| place)),
    slow("new cells descending", ASCENDING, |size| {
        growing(size, |place, cells| cells - 1 - place)
    }),
    // 7,919 is a prime that does not divide the number of cells.
    slow("new cells in mixed order", ASCENDING, |size| {
        growing(size, |place, cells| place * 7_919 % cells)
    }),
    plain(NONE_NEW, |size| one_entry(size, 1)),
    slow(
        "one entry played on 20,000 rows, a new cell before them",
        NONE_NEW,
        |size| one_entry(size, 0),
    ),
];

/// Logs for a commit of 12 reads whose versions are all true, of cells that are written at the beginning alone.
pub const COMMITS: [Log; 3] = [
    plain("12 reads of one far transaction", |size| {
        reads_far(size, 1, OTHER, 1)
    }),
    plain("12 reads of 12 far transactions", |size| {
        reads_far(size, 12, OTHER, 1)
    }),
    plain("12 reads of one transaction as long as the log", |size| {
        reads_far(size, 1, 1, MOST_ITEMS as u32)
    }),
];

/// The log of a name.
pub fn log(name: &str, size: usize) -> Option<Made> {
    let naming = [&FROM_0].into_iter().chain(&LATER);
    let mut all = LOGS.iter().chain(&COMMITS).chain(&SPARSE).chain(naming);
    let found = all.find(|log| log.name == name)?;
    Some((found.maker)(size))
}

/// A log that grows until it is full.
struct Growing {
    writer: Writer,
    /// The number of the last entry.
    number: u32,
}

impl Growing {
    fn new(size: usize) -> Growing {
        Growing {
            writer: Writer::new(size),
            number: 0,
        }
    }

    fn append(&mut self, number: u32, request: &Request) {
        let answer = self.writer.append(request);
        assert!(answer.is_done(), "{request:?} is refused: {answer:?}");
        self.number = number;
    }

    /// The append that is measured is of an update in place of the last entry, with its number.
    fn made(self) -> Made {
        Made::of_eight(self.writer.log, self.number)
    }
}

/// Entries write different orders.
fn write(entry: u32) -> Write {
    put(5, entry % 10_000, entry)
}

/// In its first half an update of each transaction, in the second their commit records in the same order. The numbers come from
/// the transaction's place, and from how many there are.
fn transactions(size: usize, number: fn(u32, u32) -> u32) -> Made {
    let mut log = Growing::new(size);
    let commits = (size / 2) as u32;
    let updates = size as u32 - commits;
    for place in 0..updates {
        let number = number(place, updates);
        log.append(number, &update(number, &[write(place)]));
    }
    for place in 0..commits {
        let number = number(place, updates);
        log.append(number, &commit(number, &[]));
    }
    log.made()
}

/// Updates of 32 transactions in turn, then their commit records.
fn in_turn(size: usize, number: fn(u32) -> u32) -> Made {
    let mut log = Growing::new(size);
    let commits = 32.min(size / 2) as u32;
    for place in 0..size as u32 - commits {
        let number = number(place % 32);
        log.append(number, &update(number, &[write(place)]));
    }
    for place in 0..commits {
        let number = number(place);
        log.append(number, &commit(number, &[]));
    }
    log.made()
}

fn one(size: usize) -> Made {
    let mut log = Growing::new(size);
    for place in 1..size as u32 {
        log.append(1, &update(1, &[write(place)]));
    }
    // A log of one entry has no room for the commit record and an update.
    match size {
        1 => log.append(1, &update(1, &[write(0)])),
        _ => log.append(1, &commit(1, &[])),
    }
    log.made()
}

/// A plain update of one cell, then checkpoints with that cell.
fn checkpoints(size: usize, object: u32, key: u32) -> Made {
    let mut log = Growing::new(size);
    log.append(0, &update(0, &[put(object, key, 1)]));
    let table = table_of(&[Row::of(object, key, Some(1), 1)]);
    for position in 1..size as u64 {
        let record = Record {
            hosted: set_of(object),
            position,
            count: 1,
        };
        let request = Request::Checkpoint {
            record,
            table: table.clone(),
            object,
        };
        log.append(0, &request);
    }
    log.made()
}

/// Plain updates of 12 writes to object 2; the key comes from the entry and the write's place in it.
fn writes(size: usize, key: fn(u32, u32) -> u32) -> Made {
    let mut log = Growing::new(size);
    for entry in 0..size as u32 {
        let writes: Vec<Write> = (0..MOST_ITEMS as u32)
            .map(|place| put(2, key(entry, place), entry))
            .collect();
        log.append(0, &update(0, &writes));
    }
    log.made()
}

/// All cells of the directory, ascending.
fn cells() -> Vec<(u32, u32)> {
    objects()
        .iter()
        .flat_map(|object| (0..=object.highest_key).map(|key| (object.id, key)))
        .collect()
}

/// Plain updates that write all cells, one after another, and then all again; the cell comes from its place among them and their
/// number. An update has 12 writes, or fewer where another would be of a fifth object.
fn growing(size: usize, cell: fn(usize, usize) -> usize) -> Made {
    let cells = cells();
    let mut log = Growing::new(size);
    let mut place = 0;
    while log.writer.tail < size {
        let (mut writes, mut objects) = (Vec::new(), 0_u64);
        while writes.len() < MOST_ITEMS {
            let (object, key) = cells[cell(place % cells.len(), cells.len())];
            objects |= set_of(object);
            if objects.count_ones() > 4 {
                break;
            }
            writes.push(put(object, key, place as u32));
            place += 1;
        }
        log.append(0, &update(0, &writes));
    }
    log.made()
}

/// Plain updates of object 2, and at the end one of this key of object 1. A replica of objects 1 and 5 stands below that one, with a
/// row for each of their cells but the first: 19,999.
fn one_entry(size: usize, key: u32) -> Made {
    let mut log = Growing::new(size);
    for entry in 1..size as u32 {
        log.append(0, &update(0, &[put(2, entry % 500, entry)]));
    }
    log.append(0, &update(0, &[put(1, key, 1)]));
    let rows: Vec<Row> = cells()
        .into_iter()
        .filter(|&(object, key)| object == 5 || object == 1 && key > 0)
        .map(|(object, key)| Row::of(object, key, Some(key), 1))
        .collect();
    let record = Record {
        hosted: set_of(1) | set_of(5),
        position: size as u64 - 1,
        count: rows.len() as u64,
    };
    Made {
        replica: Some((record, table_of(&rows))),
        ..log.made()
    }
}

/// A number that is none of the transactions read.
const OTHER: u32 = 20;

/// At the beginning transactions from 1 on write 12 cells of object 5 together, an update each; at the end are their commit records,
/// an update of the number whose commit is measured, and one entry for that commit to replace. Between them are updates of one
/// number that write other cells of the object, so many in each.
fn reads_far(size: usize, transactions: u32, number: u32, writes: u32) -> Made {
    let cells: Vec<Write> = (0..MOST_ITEMS as u32).map(|key| put(5, key, 1)).collect();
    let each = MOST_ITEMS / transactions as usize;
    let rest = transactions as usize + 2;
    assert!(
        size >= 2 * rest,
        "a log of {size} entries has no room for it"
    );
    let mut log = Growing::new(size);
    for (transaction, cells) in (1..).zip(cells.chunks(each)) {
        log.append(transaction, &update(transaction, cells));
    }
    while log.writer.tail + rest < size {
        let first = log.writer.tail as u32;
        let other = (0..writes).map(|place| put(5, 12 + (first + place) % 9_000, first));
        log.append(number, &update(number, &other.collect::<Vec<Write>>()));
    }
    let mut reads: Vec<Read> = Vec::new();
    for (transaction, cells) in (1..).zip(cells.chunks(each)) {
        let version = version_at(log.writer.tail);
        reads.extend(
            cells
                .iter()
                .map(|cell| read(cell.object, cell.key, version)),
        );
        log.append(transaction, &commit(transaction, &[]));
    }
    let number = OTHER + 1;
    log.append(number, &update(number, &[put(2, 7, 42)]));
    log.append(number, &update(0, &[put(2, 7, 43)]));
    Made {
        reads: Some(read_bytes(&reads)),
        ..log.made()
    }
}

/// Each step can be undone, so different numbers stay different, and only 0 gives 0.
fn mixed(number: u32) -> u32 {
    let mut x = number;
    x = (x ^ x >> 16).wrapping_mul(0x85EB_CA6B);
    x = (x ^ x >> 13).wrapping_mul(0xC2B2_AE35);
    x ^ x >> 16
}
