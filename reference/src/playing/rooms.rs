//! Tables with too little room, and what needs none.

use crate::appending::junk;
use crate::sample::*;
use crate::slot::{ABORT, COMMIT};
use crate::table::Row;

use super::{record, Asking, Case};

pub fn cases() -> Vec<Case> {
    let mut cases: Vec<Case> = [0, 23, 24, 47, 48].map(table_of_bytes).into();
    cases.extend([
        bench_table(23),
        bench_table(24),
        second_update(),
        written_twice(),
        aborts(),
        waits_first(),
        not_hosted(),
        mixed_entry(),
        other_rows(),
        twelve(),
    ]);
    cases
}

/// 13 at the right entry; the rows before it stay, and nothing of it shows.
fn table_of_bytes(length: usize) -> Case {
    let log = log_of(&[
        update(0, &[put(2, 7, 1)]),
        update(0, &[put(2, 8, 2)]),
        update(0, &[put(2, 7, 3)]),
        update(0, &[put(2, 9, 4)]),
    ]);
    let name = format!("a table of {length} bytes");
    let mut asking = Asking::on(&name, log, junk(length));
    asking.opens(2);
    match length {
        0 | 23 => {
            asking.stops(4, 4, 13, 0, 0);
            asking.never(2, 7);
            asking.stops(1, 1, 13, 0, 0);
            asking.plays(1, 0, 0);
        }
        24 | 47 => {
            asking.stops(4, 4, 13, 1, 1);
            asking.holds(2, 7, 1, 1);
            asking.never(2, 8);
            asking.plays(4, 1, 1);
            asking.stops(2, 2, 13, 1, 1);
            asking.row(0, 2, 7, Some(1), 1);
        }
        _ => {
            asking.stops(4, 4, 13, 3, 2);
            asking.holds(2, 7, 3, 3);
            asking.holds(2, 8, 2, 2);
            asking.never(2, 9);
            asking.row(0, 2, 7, Some(3), 3);
            asking.row(1, 2, 8, Some(2), 2);
        }
    }
    asking.case()
}

/// A table without a row, and with one, on the bench log (16.4).
fn bench_table(length: usize) -> Case {
    let name = format!("bench log, a table of {length} bytes");
    let mut asking = Asking::on(&name, log_of(&bench()), junk(length));
    asking.opens(2);
    if length < 24 {
        asking.stops(5, 5, 13, 0, 0);
        asking.never(2, 7);
    } else {
        asking.plays(5, 5, 1);
        asking.holds(2, 7, 42, 4);
        asking.row(0, 2, 7, Some(42), 4);
    }
    asking.case()
}

/// The transaction's second update has the cell too many: its first shows nothing either.
fn second_update() -> Case {
    let log = log_of(&[
        update(0, &[put(2, 1, 1)]),
        update(1, &[put(2, 1, 2), put(2, 2, 3)]),
        update(1, &[put(2, 3, 4)]),
        commit(1, &[read(2, 1, 1)]),
    ]);
    let name = "the second update has the cell too many";
    let mut asking = Asking::on(name, log, junk(71));
    asking.opens(2);
    asking.stops(4, 4, 13, 3, 1);
    asking.holds(2, 1, 1, 1);
    asking.never(2, 2);
    asking.never(2, 3);
    asking.stops(4, 4, 13, 3, 1);
    asking.row(0, 2, 1, Some(1), 1);
    asking.case()
}

/// A new cell written twice in one entry or transaction makes one row; the later write wins.
fn written_twice() -> Case {
    let log = log_of(&[
        update(0, &[put(2, 1, 1), put(2, 1, 2), remove(2, 1), put(2, 1, 3)]),
        update(1, &[put(2, 2, 4), put(2, 1, 5)]),
        update(1, &[remove(2, 2), put(2, 1, 6)]),
        commit(1, &[read(2, 1, 1)]),
        update(0, &[put(2, 3, 7), put(2, 3, 8)]),
        update(0, &[put(2, 4, 9), remove(2, 4), put(2, 5, 9), put(2, 4, 1)]),
    ]);
    let mut asking = Asking::on("a new cell written twice", log, junk(96));
    asking.opens(2);
    asking.plays(6, 1, 1);
    asking.holds(2, 1, 3, 1);
    asking.plays(6, 4, 2);
    asking.holds(2, 1, 6, 4);
    asking.removed(2, 2, 4);
    asking.stops(6, 6, 13, 5, 3);
    asking.never(2, 4);
    asking.never(2, 5);
    asking.row(0, 2, 1, Some(6), 4);
    asking.row(1, 2, 2, None, 4);
    asking.row(2, 2, 3, Some(8), 5);
    asking.case()
}

/// An abort needs no room, by own cells or by a decision.
fn aborts() -> Case {
    let log = log_of(&[
        update(0, &[put(2, 1, 1)]),
        update(1, &[put(2, 2, 2), put(2, 3, 2)]),
        commit(1, &[read(2, 1, 0)]),
        update(2, &[put(2, 4, 3)]),
        commit(2, &[read(3, 1, 0)]),
        update(3, &[put(2, 1, 4), put(2, 5, 4)]),
        decision(4, ABORT),
        commit(3, &[read(2, 9, 1)]),
        update(0, &[remove(2, 1)]),
    ]);
    let mut asking = Asking::on("aborts need no room", log, junk(40));
    asking.opens(2);
    asking.stops(6, 6, 12, 4, 1);
    asking.plays(9, 8, 1);
    asking.holds(2, 1, 1, 1);
    asking.plays(9, 9, 1);
    asking.removed(2, 1, 9);
    asking.row(0, 2, 1, None, 9);
    asking.case()
}

/// 12 before 13 at one entry (9.10).
fn waits_first() -> Case {
    let log = log_of(&[
        update(1, &[put(5, 1, 9)]),
        commit(1, &[read(2, 7, 0)]),
        decision(1, COMMIT),
    ]);
    let mut asking = Asking::on("12 before 13", log, junk(23));
    asking.opens(16);
    asking.stops(2, 2, 12, 1, 0);
    asking.stops(3, 3, 13, 1, 0);
    asking.stops(2, 2, 12, 1, 0);
    asking.never(5, 1);
    asking.case()
}

/// Writes of other objects need no room.
fn not_hosted() -> Case {
    let log = log_of(&[
        update(0, &[put(1, 1, 1), put(2, 1, 2), put(3, 1, 3), put(4, 1, 4)]),
        update(0, &[put(1, 2, 1), put(3, 2, 3)]),
        update(1, &[put(1, 3, 1), put(2, 1, 5), put(4, 3, 1)]),
        commit(1, &[]),
    ]);
    let mut asking = Asking::on("other objects need no room", log, junk(24));
    asking.opens(2);
    asking.plays(4, 4, 1);
    asking.holds(2, 1, 5, 4);
    asking.opens(130);
    asking.plays(4, 4, 1);
    asking.opens(3);
    asking.stops(4, 4, 13, 0, 0);
    asking.never(2, 1);
    asking.row(0, 2, 1, Some(5), 4);
    asking.case()
}

/// An entry that writes a cell that has a row, before one that has no room: the row stays.
fn mixed_entry() -> Case {
    let log = log_of(&[
        update(0, &[put(2, 1, 1), put(2, 2, 1)]),
        update(0, &[put(2, 1, 2), put(2, 3, 2), put(2, 2, 2)]),
    ]);
    let mut asking = Asking::on("an entry of old cells and a new one", log, junk(60));
    asking.opens(255);
    asking.stops(2, 2, 13, 1, 2);
    asking.holds(2, 1, 1, 1);
    asking.holds(2, 2, 1, 1);
    asking.row(0, 2, 1, Some(1), 1);
    asking.row(1, 2, 2, Some(1), 1);
    asking.case()
}

/// Rows that are no cell of the replica take room all the same.
fn other_rows() -> Case {
    let log = log_of(&[update(0, &[put(2, 1, 1)]), update(0, &[put(2, 2, 2)])]);
    let table = table_of(&[
        Row::of(2, 1, Some(8), 80),
        Row::of(2, 500, Some(9), 90),
        Row::of(9, 2, Some(9), 90),
    ]);
    let name = "rows of no cell take room";
    let mut asking = Asking::with(name, log, table, record(2, 0, 3));
    asking.stops(2, 2, 13, 1, 3);
    asking.holds(2, 1, 1, 1);
    asking.never(2, 2);
    asking.row(0, 2, 1, Some(1), 1);
    asking.case()
}

/// Twelve new cells with room for eleven, and for all.
fn twelve() -> Case {
    let writes: Vec<_> = (0..12).map(|key| put(5, 9999 - key, key)).collect();
    let log = log_of(&[update(0, &writes), update(0, &[put(1, 9999, 1)])]);
    let mut asking = Asking::on("twelve new cells", log, junk(12 * 24 + 23));
    asking.opens(17);
    asking.stops(2, 2, 13, 1, 12);
    asking.holds(5, 9999, 0, 1);
    asking.holds(5, 9988, 11, 1);
    asking.never(1, 9999);
    for key in 0..12 {
        asking.row(11 - key as usize, 5, 9999 - key, Some(key), 1);
    }
    asking.case()
}
