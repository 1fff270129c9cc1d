//! Checkpoints: records and objects at their edges, and tables that the library did not fill.

use crate::append::Request;
use crate::replica::Record;
use crate::sample::*;
use crate::slot::{COMMIT, SLOT};
use crate::table::Row;

use super::{junk, with_junk, Asking, Case};

pub fn cases() -> Vec<Case> {
    vec![
        records(),
        objects(),
        keys(),
        versions(),
        disorder(),
        present_fields(),
        counts(),
        many_objects(),
        positions(),
        no_slots(),
        full(),
        growing(),
    ]
}

/// Three entries, so that versions 1 to 3 are allowed and the tail is 3.
fn base() -> [Request; 3] {
    [
        update(7, &[put(2, 7, 1)]),
        commit(7, &[read(2, 7, 0)]),
        decision(1, COMMIT),
    ]
}

fn of(hosted: u64, position: u64, count: u64, table: &[u8], object: u32) -> Request {
    Request::Checkpoint {
        record: Record {
            hosted,
            position,
            count,
        },
        table: table.to_vec(),
        object,
    }
}

/// By a replica that hosts everything, with these rows and nothing after them.
fn by_all(object: u32, position: u64, rows: &[Row]) -> Request {
    of(0xFF, position, rows.len() as u64, &table_of(rows), object)
}

/// So many cells of object 5, in key order, all good at the base's tail.
fn cells(number: u32) -> Vec<Row> {
    (0..number)
        .map(|key| Row::of(5, 3 * key, Some(key + 70), 1 + u64::from(key % 3)))
        .collect()
}

/// 10 for each fault of the record (7.9), before any fault of the object or its cells.
fn records() -> Case {
    let mut asking = Asking::on("checkpoint: records", with_junk(&base(), 4), 3);
    let one = table_of(&[Row::of(2, 7, Some(1), 3)]);
    let bad = table_of(&[Row::of(2, 500, Some(1), 9)]);
    asking.refused(10, of(0, 3, 1, &one, 2));
    asking.refused(10, of(0, 3, 0, &[], 2));
    asking.refused(10, of(0, 2, 1, &bad, 2));
    for count in [2, 3, 24, 1 << 32, 1 << 32 | 1, 1 << 63, u64::MAX] {
        asking.refused(10, of(0xFF, 3, count, &one, 2));
    }
    asking.refused(10, of(0xFF, 3, 1, &[], 2));
    asking.refused(10, of(0xFF, 3, 1, &one[..23], 2));
    asking.refused(10, of(0xFF, 3, 2, &[&one[..], &one[..23]].concat(), 2));
    for position in [4, 5, 1 << 32 | 3, 1 << 63, u64::MAX] {
        asking.refused(10, of(0xFF, position, 1, &one, 2));
        asking.refused(10, of(0xFF, position, 1, &bad, 9));
    }
    asking.refused(10, of(0, 3, 1, &one, 0));
    asking.refused(10, of(0xFF, 3, 2, &bad, u32::MAX));
    // A table with less than a row, and rows past the count.
    asking.done(of(0xFF, 3, 0, &one[..23], 2));
    asking.done(of(2, 4, 0, &bad, 2));
    asking.done(of(2, 5, 1, &[&one[..], &one[..23]].concat(), 2));
    asking.done(of(2, 6, 1, &[one, bad].concat(), 2));
    asking.case()
}

/// 3 for an object that is not hosted (6.7); one that is not in the directory never is.
fn objects() -> Case {
    let mut asking = Asking::on("checkpoint: objects", with_junk(&base(), 10), 3);
    for object in [0, 9, 10, 256, 258, 0x0200_0000, 0x8000_0002, u32::MAX] {
        asking.refused(3, by_all(object, 3, &[]));
        asking.refused(3, by_all(object, 3, &[Row::of(object, 0, Some(1), 1)]));
    }
    for object in 1..=8_u32 {
        let others = 0xFF & !(1 << (object - 1));
        asking.refused(3, of(others, 3, 0, &[], object));
    }
    let highest = [9999, 499, 499, 499, 9999, 0, 0, 0];
    for (object, key) in (1..=8_u32).zip(highest) {
        let position = 2 + u64::from(object);
        let row = Row::of(object, key, Some(object), position);
        asking.done(checkpoint_of(object, position as usize, &[row]));
    }
    asking.done(by_all(8, 11, &[]));
    asking.done(of(0x80, 12, 0, &[], 8));
    asking.case()
}

/// 3 for a key above the highest (6.7).
fn keys() -> Case {
    let mut asking = Asking::on("checkpoint: keys", with_junk(&base(), 2), 3);
    for (object, key) in [
        (1, 10_000),
        (2, 500),
        (3, 501),
        (4, 9999),
        (5, 0x0001_0000),
        (5, 0x8000_0000),
        (6, 1),
        (7, u32::MAX),
        (8, 256),
    ] {
        asking.refused(3, by_all(object, 3, &[Row::of(object, key, Some(1), 1)]));
    }
    let (good, bad) = (Row::of(2, 7, Some(1), 3), Row::of(2, 500, None, 3));
    asking.refused(3, by_all(2, 3, &[good, bad]));
    asking.refused(10, by_all(2, 3, &[bad, good]));
    // Rows of other objects, listed or not, are judged by their order alone.
    let others = [
        Row::of(0, 7, Some(1), 0),
        good,
        Row::of(3, 500, Some(1), 0),
        Row::of(6, 7, None, 1 << 63),
        Row::of(9, 0, Some(1), u64::MAX),
        Row::of(0x0200_0000, 7, Some(2), 1),
        Row::of(0x8000_0002, 7, Some(2), 1),
    ];
    asking.done(by_all(2, 3, &others));
    asking.done(by_all(8, 4, &others));
    asking.refused(3, by_all(6, 5, &others));
    asking.case()
}

/// 3 for a version that is not 1 to the tail (6.7).
fn versions() -> Case {
    let mut asking = Asking::on("checkpoint: versions", with_junk(&base(), 2), 3);
    for version in [
        0,
        4,
        5,
        256,
        1 << 32,
        1 << 32 | 1,
        1 << 63,
        1 << 63 | 1,
        u64::MAX,
    ] {
        for value in [Some(1), None] {
            let row = Row::of(5, 9, value, version);
            asking.refused(3, by_all(5, 3, &[row]));
        }
        let rows = [
            Row::of(5, 1, Some(1), 1),
            Row::of(5, 2, None, version),
            Row::of(5, 3, Some(1), 3),
        ];
        asking.refused(3, by_all(5, 3, &rows));
    }
    asking.done(by_all(5, 3, &cells(3)));
    asking.refused(3, by_all(5, 4, &[Row::of(5, 0, None, 5)]));
    asking.done(by_all(
        5,
        4,
        &[Row::of(5, 0, None, 4), Row::of(5, 1, Some(0), 4)],
    ));
    asking.case()
}

/// 10 where the counted rows do not ascend strictly (7.9), whatever they name; those past the count are not judged.
fn disorder() -> Case {
    let mut asking = Asking::on("checkpoint: rows out of order", with_junk(&base(), 5), 3);
    let (three, nine) = (Row::of(2, 3, Some(5), 2), Row::of(2, 9, None, 3));
    let late = Row::of(2, 3, Some(5), 4);
    asking.refused(10, by_all(2, 3, &[nine, three]));
    asking.refused(10, by_all(2, 3, &[three, three]));
    asking.refused(10, by_all(2, 3, &[three, late]));
    asking.refused(10, by_all(2, 3, &[three, nine, nine]));
    asking.refused(10, by_all(2, 3, &[three, nine, three]));
    // Of other objects, with objects and keys of any size.
    let (four, five) = (Row::of(4, 9, Some(1), 1), Row::of(5, 0, Some(1), 1));
    let (high, top) = (
        Row::of(0x8000_0002, 0, None, 0),
        Row::of(2, u32::MAX, None, 1),
    );
    asking.refused(10, by_all(2, 3, &[three, five, four]));
    asking.refused(10, by_all(2, 3, &[high, three]));
    asking.refused(10, by_all(8, 3, &[top, nine]));
    asking.refused(10, of(2, 3, 3, &table_of(&[three, five, four]), 2));
    // Before 3 and 14.
    asking.refused(10, by_all(9, 3, &[nine, three]));
    asking.refused(10, of(4, 3, 2, &table_of(&[nine, three]), 2));
    asking.refused(10, by_all(2, 1, &[late, late]));
    // The same rows, counted up to where they ascend.
    asking.done(of(0xFF, 3, 1, &table_of(&[nine, three]), 2));
    asking.done(of(0xFF, 4, 2, &table_of(&[three, nine, nine]), 2));
    asking.done(of(0xFF, 5, 2, &table_of(&[three, five, four]), 5));
    asking.done(by_all(2, 6, &[three, nine, four, five, high]));
    asking.refused(3, by_all(2, 7, &[three, nine, top]));
    asking.case()
}

/// Present fields other than 1 (7.6).
fn present_fields() -> Case {
    let mut asking = Asking::on("checkpoint: present fields", with_junk(&base(), 2), 3);
    let fields = [0, 1, 2, 256, 257, 0x0100_0000, 0x8000_0001, u32::MAX];
    let rows: Vec<Row> = fields
        .into_iter()
        .zip(1..)
        .map(|(present, key)| Row {
            object: 3,
            key,
            value: 76 + key,
            present,
            version: 2,
        })
        .collect();
    asking.done(by_all(3, 3, &rows));
    let edges = [
        Row::of(3, 0, Some(0), 1),
        Row::of(3, 1, Some(u32::MAX), 3),
        Row {
            present: 0,
            ..Row::of(3, 2, Some(u32::MAX), 1)
        },
    ];
    asking.done(by_all(3, 4, &edges));
    asking.case()
}

/// 13 for more than 12 cells (6.7).
fn counts() -> Case {
    let mut asking = Asking::on("checkpoint: counts of cells", with_junk(&base(), 5), 3);
    asking.refused(13, by_all(5, 3, &cells(13)));
    asking.refused(13, by_all(5, 3, &cells(14)));
    asking.refused(13, by_all(5, 3, &cells(40)));
    let mut bad = cells(13);
    bad[12].version = 4;
    asking.refused(3, by_all(5, 3, &bad));
    bad[12] = Row::of(5, 10_000, Some(1), 1);
    asking.refused(3, by_all(5, 3, &bad));
    asking.refused(14, by_all(5, 2, &cells(13)));
    asking.done(by_all(5, 3, &cells(12)));
    asking.done(by_all(5, 4, &cells(11)));
    asking.done(by_all(5, 5, &cells(1)));
    asking.done(by_all(5, 6, &[]));
    // Rows of other objects, and those past the count, are no cells of it.
    let mut mixed: Vec<Row> = (0..8).map(|key| Row::of(4, key, Some(1), 1)).collect();
    mixed.extend(cells(20));
    let table = table_of(&mixed);
    asking.refused(13, of(0xFF, 7, 21, &table, 5));
    asking.done(of(0xFF, 7, 20, &table, 5));
    asking.refused(13, of(0xFF, 8, 28, &table, 5));
    asking.case()
}

/// The object's rows between those of others (6.8).
fn many_objects() -> Case {
    let mut asking = Asking::on(
        "checkpoint: one object of several",
        with_junk(&base(), 4),
        3,
    );
    let keys = [0, 1, 255, 256, 511, 4096, 9998, 9999];
    let of_object = |object| {
        keys.map(|key| Row::of(object, key, (key % 5 != 0).then_some(key), 3))
            .into_iter()
    };
    let mut rows: Vec<Row> = of_object(1).collect();
    asking.done(by_all(1, 3, &rows));
    rows.extend(of_object(3));
    rows.extend(of_object(5).rev());
    asking.refused(10, by_all(1, 4, &rows));
    rows[16..].reverse();
    asking.done(by_all(1, 4, &rows));
    // Its keys are over the highest.
    asking.refused(3, by_all(3, 5, &rows));
    asking.done(by_all(5, 5, &rows));
    asking.done(by_all(4, 6, &rows));
    asking.case()
}

/// 14 below the tail, after 3 and before 13 (6.7).
fn positions() -> Case {
    let mut asking = Asking::on("checkpoint: positions", with_junk(&base(), 1), 3);
    for position in 0..3 {
        asking.refused(14, by_all(5, position, &[]));
        asking.refused(14, by_all(5, position, &cells(2)));
        asking.refused(14, by_all(5, position, &cells(13)));
        asking.refused(3, by_all(5, position, &[Row::of(5, 1, Some(1), 0)]));
        asking.refused(3, of(0xEF, position, 0, &[], 5));
        asking.refused(10, of(0, position, 0, &[], 5));
    }
    asking.done(by_all(5, 3, &cells(2)));
    asking.refused(14, by_all(5, 3, &cells(2)));
    asking.case()
}

/// At offset 0 no version is allowed, so the checkpoint has no cell.
fn no_slots() -> Case {
    let mut asking = Asking::on("checkpoint: no slots", vec![], 0);
    asking.refused(9, by_all(2, 0, &[]));
    asking.refused(9, by_all(2, 0, &[Row::of(3, 0, Some(1), 1)]));
    asking.refused(3, by_all(2, 0, &[Row::of(2, 0, Some(1), 1)]));
    asking.refused(10, by_all(2, 1, &[]));
    asking.case()
}

fn full() -> Case {
    let mut asking = Asking::on("checkpoint: the last slot", with_junk(&base(), 1), 3);
    asking.done(by_all(5, 3, &cells(12)));
    asking.refused(9, by_all(5, 4, &cells(12)));
    asking.refused(9, by_all(2, 4, &[]));
    asking.refused(13, by_all(5, 4, &cells(13)));
    asking.refused(14, by_all(5, 3, &cells(13)));
    asking.refused(3, by_all(5, 4, &[Row::of(5, 1, None, 5)]));
    asking.refused(10, by_all(5, 5, &[]));
    asking.case()
}

/// Checkpoints of replicas that played the log, among other entries of the object.
fn growing() -> Case {
    let mut entries = vec![
        update(0, &[put(2, 7, 43), put(2, 3, 1), put(5, 1, 1)]),
        update(9, &[put(2, 7, 42)]),
        update(0, &[remove(2, 3), put(2, 499, 9)]),
        commit(9, &[read(2, 7, 1)]),
    ];
    let mut asking = Asking::on("checkpoint: played and on", junk(11 * SLOT), 0);
    for entry in &entries {
        asking.done(entry.clone());
    }
    for later in [
        update(0, &[put(2, 7, 1), put(5, 1, 2)]),
        update(0, &[remove(2, 7), remove(5, 1)]),
    ] {
        for object in [2, 5] {
            let tail = entries.len();
            let (record, table) = played(&log_of(&entries), tail, 0xFF, 6);
            let request = Request::Checkpoint {
                record,
                table,
                object,
            };
            entries.push(request.clone());
            asking.done(request.clone());
            asking.refused(14, request);
        }
        entries.push(later.clone());
        asking.done(later);
    }
    let (record, table) = played(&log_of(&entries), entries.len(), 0b10, 3);
    asking.done(Request::Checkpoint {
        record,
        table,
        object: 2,
    });
    asking.case()
}
