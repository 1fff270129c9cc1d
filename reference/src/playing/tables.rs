//! Tables that the library did not fill, and cell reading at the edges.

use crate::appending::junk;
use crate::objects::objects;
use crate::sample::*;
use crate::table::{row, Row};

use super::{record, Asking, Case};

pub fn cases() -> Vec<Case> {
    vec![
        present_fields(),
        other_rows(),
        any_versions(),
        past_the_count(),
        junk_counted(),
        removed_read(),
        edges_of_objects(),
        edges_of_keys(),
    ]
}

pub fn raw(object: u32, key: u32, value: u32, present: u32, version: u64) -> Row {
    Row {
        object,
        key,
        value,
        present,
        version,
    }
}

/// Present fields other than 1 (7.6); the row stays until its cell is written.
fn present_fields() -> Case {
    let log = log_of(&[
        update(0, &[put(2, 1, 1), remove(2, 3)]),
        update(1, &[put(2, 2, 6)]),
        commit(1, &[read(2, 2, 2)]),
    ]);
    let table = table_of(&[
        raw(2, 0, 50, 0, 3),
        raw(2, 1, 51, 2, 3),
        raw(2, 2, 52, u32::MAX, 2),
        raw(2, 3, 53, 256, 3),
        raw(2, 4, 54, 0x0100_0000, 3),
        raw(2, 5, 0, 1, 3),
        raw(2, 6, 56, 0x8000_0001, u64::MAX),
    ]);
    let name = "present fields of any value";
    let mut asking = Asking::with(name, log, table, record(2, 0, 7));
    for key in [0, 1, 3, 4] {
        asking.removed(2, key, 3);
    }
    asking.removed(2, 2, 2);
    asking.holds(2, 5, 0, 3);
    asking.removed(2, 6, u64::MAX);
    asking.plays(3, 3, 7);
    asking.holds(2, 1, 1, 1);
    asking.holds(2, 2, 6, 3);
    asking.removed(2, 3, 1);
    asking.removed(2, 4, 3);
    asking.row(1, 2, 1, Some(1), 1);
    asking.row(2, 2, 2, Some(6), 3);
    asking.row(3, 2, 3, None, 1);
    asking.case()
}

/// Rows of objects not hosted or not listed, and keys over the highest: never matched, and moved whole.
fn other_rows() -> Case {
    let log = log_of(&[
        update(0, &[put(2, 1, 1), put(3, 1, 1)]),
        update(1, &[put(2, 2, 2)]),
        commit(1, &[read(3, 1, 1)]),
        update(0, &[put(2, 3, 3)]),
    ]);
    let rows = [
        raw(0, 1, 9, 1, 1),
        raw(2, 500, 9, 7, 0),
        raw(2, u32::MAX, 9, 1, 1 << 63),
        raw(3, 1, 9, 1, 1),
        raw(9, 1, 9, 1, 1),
        raw(258, 3, 9, 1, 1),
        raw(0x8000_0002, 1, 9, 1, 1),
        raw(u32::MAX, 3, 9, 1, 1),
    ];
    let mut table = table_of(&rows);
    table.extend(junk(60));
    let name = "rows of other objects";
    let mut asking = Asking::with(name, log, table, record(2, 0, 8));
    asking.never(2, 1);
    // The row of the object read does not count, as it is not hosted.
    asking.stops(4, 4, 12, 2, 9);
    asking.holds(2, 1, 1, 1);
    asking.no_cell(3, 1, 3);
    asking.no_cell(2, 500, 3);
    asking.no_cell(9, 1, 3);
    asking.row(1, 2, 1, Some(1), 1);
    for (place, row) in rows.into_iter().enumerate().skip(1) {
        asking.moved(place + 1, row);
    }
    asking.case()
}

/// Versions of any size, also past the offset; a counted row with version 0 is a written cell.
fn any_versions() -> Case {
    let log = log_of(&[
        update(1, &[put(2, 9, 1)]),
        commit(1, &[read(2, 1, 0), read(2, 2, 0)]),
        update(2, &[put(2, 9, 2)]),
        commit(2, &[read(2, 3, 1)]),
        update(3, &[put(2, 9, 3)]),
        commit(3, &[read(2, 4, 5)]),
        update(0, &[put(2, 3, 4)]),
    ]);
    let mut table = table_of(&[
        raw(2, 1, 7, 1, 0),
        raw(2, 3, 7, 1, 1 << 32 | 1),
        raw(2, 4, 7, 1, 1 << 63 | 5),
        raw(2, 5, 7, 1, u64::MAX),
        raw(2, 6, 7, 0, 0),
    ]);
    table.extend(junk(24));
    let name = "versions of any size";
    let mut asking = Asking::with(name, log, table, record(2, 0, 5));
    asking.holds(2, 1, 7, 0);
    asking.never(2, 2);
    asking.holds(2, 3, 7, 1 << 32 | 1);
    asking.holds(2, 4, 7, 1 << 63 | 5);
    asking.holds(2, 5, 7, u64::MAX);
    asking.removed(2, 6, 0);
    asking.plays(7, 2, 6);
    asking.holds(2, 9, 1, 2);
    asking.plays(7, 7, 6);
    asking.holds(2, 9, 1, 2);
    asking.holds(2, 3, 4, 7);
    asking.row(1, 2, 3, Some(4), 7);
    asking.row(5, 2, 9, Some(1), 2);
    asking.case()
}

/// Bytes past the counted rows are neither read nor changed (7.5).
fn past_the_count() -> Case {
    let log = log_of(&[
        update(1, &[put(2, 8, 1)]),
        commit(1, &[read(2, 7, 1)]),
        update(2, &[put(2, 8, 2)]),
        commit(2, &[read(2, 7, 0)]),
    ]);
    let mut table = table_of(&[
        raw(2, 5, 5, 1, 1),
        raw(2, 7, 9, 1, 1),
        raw(2, 7, 9, 1, 1),
        raw(2, 8, 9, 1, 3),
    ]);
    table.extend(junk(23));
    let name = "cells past the count";
    let mut asking = Asking::with(name, log, table, record(2, 0, 1));
    asking.holds(2, 5, 5, 1);
    asking.never(2, 7);
    asking.never(2, 8);
    asking.plays(4, 2, 1);
    asking.never(2, 8);
    asking.plays(4, 4, 2);
    asking.holds(2, 8, 2, 4);
    asking.never(2, 7);
    asking.row(1, 2, 8, Some(2), 4);
    asking.case()
}

/// A counted table of junk bytes that ascends: no row is a cell.
fn junk_counted() -> Case {
    let log = log_of(&bench());
    let mut table = junk(100);
    for place in 0..3 {
        table[24 * place] = 0x70 + 8 * place as u8;
    }
    let rows = [0, 1, 2].map(|place| row(&table, place));
    let name = "junk counted";
    let mut asking = Asking::with(name, log, table, record(255, 0, 3));
    asking.never(2, 7);
    asking.plays(5, 5, 4);
    asking.holds(2, 7, 42, 4);
    asking.never(1, 0);
    asking.row(0, 2, 7, Some(42), 4);
    for (place, row) in rows.into_iter().enumerate() {
        asking.moved(place + 1, row);
    }
    asking.case()
}

/// A removed cell's version counts for a read, whatever its present field.
fn removed_read() -> Case {
    let log = log_of(&[
        update(1, &[put(2, 9, 1)]),
        commit(1, &[read(2, 1, 1)]),
        update(0, &[remove(2, 1)]),
        update(2, &[put(2, 9, 2)]),
        commit(2, &[read(2, 1, 3)]),
        update(3, &[put(2, 9, 3)]),
        commit(3, &[read(2, 1, 0)]),
    ]);
    let mut table = table_of(&[raw(2, 1, 77, 5, 1)]);
    table.extend(junk(30));
    let name = "removed cells read";
    let mut asking = Asking::with(name, log, table, record(2, 0, 1));
    asking.removed(2, 1, 1);
    asking.plays(7, 2, 2);
    asking.holds(2, 9, 1, 2);
    asking.plays(7, 7, 2);
    asking.removed(2, 1, 3);
    asking.holds(2, 9, 2, 5);
    asking.row(0, 2, 1, None, 3);
    asking.row(1, 2, 9, Some(2), 5);
    asking.case()
}

/// Cell reading of every object by every set of one, and of objects that are not in the list.
fn edges_of_objects() -> Case {
    let table = table_of(&(0..10).map(|id| raw(id, 0, id, 1, 9)).collect::<Vec<_>>());
    let name = "cell reading of all objects";
    let mut asking = Asking::with(name, vec![], table, record(255, u64::MAX, 10));
    for hosted in [255, 0, 1, 2, 4, 8, 16, 32, 64, 128] {
        if hosted != 255 {
            asking.opens(hosted);
        }
        for id in 0..10 {
            let has = (1..=8).contains(&id) && (hosted == 255 || hosted == 1 << (id - 1));
            match (hosted, has) {
                // The refused opening left the record.
                (0 | 255, _) if (1..=8).contains(&id) => asking.holds(id, 0, id, 9),
                (_, true) => asking.never(id, 0),
                _ => asking.no_cell(id, 0, 3),
            }
        }
    }
    asking.opens(255);
    for id in [0x8000_0001, 0x8000_0002, 257, 0x0100_0002, u32::MAX] {
        asking.no_cell(id, 0, 3);
    }
    asking.case()
}

/// The highest key of each object, and the next; with a count over capacity or hosted set 0 all is 10.
fn edges_of_keys() -> Case {
    let table = table_of(
        &objects()
            .iter()
            .flat_map(|object| {
                [
                    raw(object.id, object.highest_key, 40 + object.id, 1, 1),
                    raw(object.id, object.highest_key + 1, 1, 1, 1),
                ]
            })
            .collect::<Vec<_>>(),
    );
    let name = "cell reading at the highest keys";
    let mut asking = Asking::with(name, vec![], table, record(255, 3, 16));
    for object in objects() {
        asking.holds(object.id, object.highest_key, 40 + object.id, 1);
        asking.no_cell(object.id, object.highest_key + 1, 3);
        asking.no_cell(object.id, u32::MAX, 3);
        if object.highest_key > 0 {
            asking.never(object.id, 0);
            asking.never(object.id, object.highest_key - 1);
        }
    }
    asking.case()
}
