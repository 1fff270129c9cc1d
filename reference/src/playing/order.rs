//! The order of the table's rows (7.4): new cells among those that are there, and 10 where counted rows do not ascend strictly.

use crate::append::Request;
use crate::appending::junk;
use crate::sample::*;
use crate::slot::COMMIT;
use crate::table::Row;

use super::tables::raw;
use super::{record, Asking, Case};

pub fn cases() -> Vec<Case> {
    let mut cases = vec![
        by_object_then_key(),
        no_room(),
        moved_whole(),
        among_others(),
        in_the_middle(),
        one_row_free(),
        waiting(),
        between_instalments(),
        by_search(),
    ];
    cases.extend(disorders());
    cases.extend([past_the_count(), first_in_order(), refusals()]);
    cases
}

/// Puts (5, 1) and (2, 9), puts (2, 3), removes (2, 9).
fn three() -> Vec<u8> {
    log_of(&[
        update(0, &[put(5, 1, 6), put(2, 9, 4)]),
        update(0, &[put(2, 3, 5)]),
        update(0, &[remove(2, 9)]),
    ])
}

/// By object, then key; the row past the count stays.
fn by_object_then_key() -> Case {
    let mut asking = Asking::on("rows by object, then key", three(), vec![7; 96]);
    asking.opens(18);
    asking.plays(3, 3, 3);
    asking.holds(2, 3, 5, 2);
    asking.removed(2, 9, 3);
    asking.holds(5, 1, 6, 1);
    asking.row(0, 2, 3, Some(5), 2);
    asking.row(1, 2, 9, None, 3);
    asking.row(2, 5, 1, Some(6), 1);
    asking.case()
}

/// 13 leaves the cells of the entries below it in order.
fn no_room() -> Case {
    let mut asking = Asking::on("rows in order where there is no room", three(), junk(48));
    asking.opens(18);
    asking.stops(3, 3, 13, 1, 2);
    asking.row(0, 2, 9, Some(4), 1);
    asking.row(1, 5, 1, Some(6), 1);
    asking.case()
}

/// A row that is not written keeps all its bytes where it moves.
fn moved_whole() -> Case {
    let log = log_of(&[update(0, &[put(2, 7, 1)])]);
    let other = raw(3, 1, 77, 9, 1 << 63);
    let mut table = table_of(&[other]);
    table.extend(junk(40));
    let mut asking = Asking::with("a row moved whole", log, table, record(2, 0, 1));
    asking.plays(1, 1, 2);
    asking.holds(2, 7, 1, 1);
    asking.row(0, 2, 7, Some(1), 1);
    asking.moved(1, other);
    asking.case()
}

/// New cells between rows of other objects, and of objects and keys that are in no list.
fn among_others() -> Case {
    let log = log_of(&[
        update(0, &[put(8, 0, 4), put(1, 0, 1), put(5, 3, 3)]),
        update(0, &[put(5, 1, 5), put(1, 9999, 2), remove(6, 0)]),
    ]);
    let others = [
        raw(0, u32::MAX, 90, 3, u64::MAX),
        raw(1, 5, 91, 1, 9),
        raw(1, 10_000, 92, 0, 0),
        raw(2, 7, 93, 1, 2),
        raw(5, 2, 94, 8, 7),
        raw(5, u32::MAX, 95, 1, 1),
        raw(9, 0, 96, 1, 1),
        raw(0x7FFF_FFFF, 1, 97, 1, 1),
        raw(0x8000_0002, 0, 98, 1, 1),
        raw(u32::MAX, u32::MAX, 99, 1, 1),
    ];
    let mut table = table_of(&others);
    table.extend(junk(170));
    let name = "new cells among other rows";
    let mut asking = Asking::with(name, log, table, record(0b1011_0001, 0, 10));
    asking.removed(5, 2, 7);
    asking.plays(2, 1, 13);
    asking.plays(2, 2, 16);
    asking.holds(1, 5, 91, 9);
    asking.holds(1, 9999, 2, 2);
    asking.no_cell(2, 7, 3);
    for (place, row) in [
        others[0],
        Row::of(1, 0, Some(1), 1),
        others[1],
        Row::of(1, 9999, Some(2), 2),
        others[2],
        others[3],
        Row::of(5, 1, Some(5), 2),
        others[4],
        Row::of(5, 3, Some(3), 1),
        others[5],
        Row::of(6, 0, None, 2),
        Row::of(8, 0, Some(4), 1),
        others[6],
        others[7],
        others[8],
        others[9],
    ]
    .into_iter()
    .enumerate()
    {
        asking.moved(place, row);
    }
    asking.case()
}

/// 13 at a cell whose place is between the others: nothing of its entry shows, and no row has moved.
fn in_the_middle() -> Case {
    let log = log_of(&[
        update(0, &[put(2, 8, 1), put(2, 2, 1)]),
        update(0, &[put(2, 8, 2), put(2, 5, 2)]),
        update(0, &[put(2, 6, 3), put(2, 2, 3)]),
    ]);
    let mut asking = Asking::on("no room for a cell in the middle", log, junk(95));
    asking.opens(2);
    asking.stops(3, 3, 13, 2, 3);
    asking.holds(2, 2, 1, 1);
    asking.never(2, 6);
    asking.stops(3, 3, 13, 2, 3);
    asking.row(0, 2, 2, Some(1), 1);
    asking.row(1, 2, 5, Some(2), 2);
    asking.row(2, 2, 8, Some(2), 2);
    asking.case()
}

/// A transaction that writes one new cell twice needs one row.
fn one_row_free() -> Case {
    let log = log_of(&[
        update(0, &[put(5, 9, 1)]),
        update(4, &[put(2, 3, 1), put(5, 9, 2)]),
        update(4, &[put(2, 3, 3), remove(5, 9)]),
        commit(4, &[read(2, 3, 0), read(5, 9, 1)]),
    ]);
    let mut asking = Asking::on("a cell written twice, one row free", log, junk(48));
    asking.opens(18);
    asking.plays(4, 4, 2);
    asking.row(0, 2, 3, Some(3), 4);
    asking.row(1, 5, 9, None, 4);
    asking.case()
}

/// 12 leaves the table in order, and the play goes on from there.
fn waiting() -> Case {
    let log = log_of(&[
        update(0, &[put(5, 4, 1), put(5, 2, 2)]),
        update(6, &[put(5, 3, 3), put(5, 1, 4)]),
        commit(6, &[read(3, 1, 0)]),
        decision(2, COMMIT),
    ]);
    let mut asking = Asking::on("rows in order where a play waits", log, junk(110));
    asking.opens(16);
    asking.stops(3, 3, 12, 2, 2);
    asking.holds(5, 4, 1, 1);
    asking.plays(4, 4, 4);
    asking.row(0, 5, 1, Some(4), 3);
    asking.row(1, 5, 2, Some(2), 1);
    asking.row(2, 5, 3, Some(3), 3);
    asking.row(3, 5, 4, Some(1), 1);
    asking.case()
}

fn descending() -> Vec<Request> {
    (0..8)
        .map(|at| update(0, &[put(1, 70 - 10 * at, at)]))
        .collect()
}

/// Each new cell comes first.
fn between_instalments() -> Case {
    let mut asking = Asking::on("cells that descend", log_of(&descending()), junk(200));
    asking.opens(1);
    for stop in [1, 2, 3, 6, 8] {
        asking.plays(8, stop, stop);
        asking.holds(1, 70, 0, 1);
    }
    for at in 0..8 {
        let place = 7 - at as usize;
        asking.row(place, 1, 70 - 10 * at, Some(at), 1 + u64::from(at));
    }
    asking.case()
}

/// Few entries on a table with many rows.
fn by_search() -> Case {
    let log = log_of(&[
        update(0, &[put(1, 50, 1), put(1, 51, 2), put(1, 0, 3)]),
        update(3, &[put(1, 196, 4)]),
        commit(3, &[read(1, 51, 1), read(1, 100, 2), read(1, 196, 0)]),
    ]);
    let rows: Vec<Row> = (1..98)
        .map(|place| raw(1, 2 * place, place, 1, 2))
        .collect();
    let mut table = table_of(&rows);
    table.extend(junk(72));
    let name = "few entries, many rows";
    let mut asking = Asking::with(name, log, table, record(1, 0, 97));
    asking.plays(3, 1, 99);
    asking.holds(1, 50, 1, 1);
    asking.holds(1, 51, 2, 1);
    asking.plays(3, 2, 99);
    asking.plays(3, 3, 100);
    asking.holds(1, 196, 4, 3);
    asking.holds(1, 194, 97, 2);
    asking.row(0, 1, 0, Some(3), 1);
    for (place, row) in rows.into_iter().enumerate() {
        asking.moved(place + 1 + usize::from(row.key > 50), row);
    }
    asking.row(25, 1, 50, Some(1), 1);
    asking.row(26, 1, 51, Some(2), 1);
    asking.row(99, 1, 196, Some(4), 3);
    asking.case()
}

/// Counted rows that do not ascend strictly (7.9): whatever they name, play and cell reading are 10, also where nothing is
/// to be played.
fn disorders() -> Vec<Case> {
    let one = Row::of(2, 1, Some(1), 1);
    [
        (
            "keys descend",
            vec![Row::of(2, 9, Some(1), 1), Row::of(2, 3, Some(1), 1)],
        ),
        (
            "objects descend",
            vec![Row::of(5, 1, Some(1), 1), Row::of(2, 9, Some(1), 1)],
        ),
        (
            "a cell twice",
            vec![Row::of(2, 3, Some(1), 1), Row::of(2, 3, Some(1), 1)],
        ),
        (
            "a cell twice with other content",
            vec![Row::of(2, 3, Some(1), 1), raw(2, 3, 8, 0, 0)],
        ),
        (
            "a cell twice, apart",
            vec![one, Row::of(2, 3, None, 1), one],
        ),
        (
            "rows not hosted",
            vec![one, Row::of(4, 1, Some(1), 1), Row::of(3, 1, Some(1), 1)],
        ),
        ("rows not listed", vec![raw(99, 0, 1, 1, 1), one]),
        (
            "a row not listed, twice",
            vec![one, raw(99, 0, 1, 1, 1), raw(99, 0, 2, 1, 2)],
        ),
        (
            "keys over the highest",
            vec![one, raw(2, 501, 1, 1, 1), raw(2, 500, 1, 1, 1)],
        ),
        (
            "an object over 2^31",
            vec![raw(0x8000_0002, 0, 1, 1, 1), one],
        ),
        (
            "a key of 2^32 - 1",
            vec![raw(2, u32::MAX, 1, 1, 1), raw(2, 0, 1, 1, 1)],
        ),
        (
            "the last two rows",
            vec![
                one,
                raw(2, 2, 1, 1, 1),
                raw(2, 4, 1, 1, 1),
                raw(2, 3, 1, 1, 1),
            ],
        ),
    ]
    .into_iter()
    .map(|(what, rows)| {
        let count = rows.len() as u64;
        let mut table = table_of(&rows);
        table.extend(junk(30));
        let name = format!("disorder: {what}");
        let log = log_of(&bench()[..1]);
        let mut asking = Asking::with(&name, log, table, record(2, 0, count));
        for stop in [0, 1] {
            asking.refuses(1, stop, 10);
        }
        asking.no_cell(2, 1, 10);
        asking.no_cell(2, 3, 10);
        asking.case()
    })
    .collect()
}

/// Rows past the count may have any order, and repeat counted ones.
fn past_the_count() -> Case {
    let (three, nine) = (Row::of(2, 3, Some(5), 1), Row::of(2, 9, Some(4), 1));
    let table = table_of(&[nine, three, three, nine]);
    let log = log_of(&[update(0, &[put(2, 3, 6)]), update(0, &[remove(2, 9)])]);
    let name = "disorder past the count";
    let mut asking = Asking::with(name, log, table, record(2, 0, 1));
    asking.holds(2, 9, 4, 1);
    asking.never(2, 3);
    asking.plays(2, 1, 2);
    asking.holds(2, 3, 6, 1);
    asking.plays(2, 2, 2);
    asking.removed(2, 9, 2);
    asking.row(0, 2, 3, Some(6), 1);
    asking.row(1, 2, 9, None, 2);
    asking.case()
}

/// Rows that ascend only as unsigned numbers, the object before the key.
fn first_in_order() -> Case {
    let log = log_of(&[update(0, &[put(2, 0, 1)])]);
    let rows = [
        raw(0, 0, 1, 1, 1),
        raw(1, u32::MAX, 1, 1, 1),
        raw(2, 0x7FFF_FFFF, 1, 1, 1),
        raw(2, 0x8000_0000, 1, 1, 1),
        raw(2, u32::MAX, 1, 1, 1),
        raw(3, 0, 1, 1, 1),
        raw(0x7FFF_FFFF, 5, 1, 1, 1),
        raw(0x8000_0000, 4, 1, 1, 1),
        raw(0x8000_0002, 0, 1, 1, 1),
        raw(u32::MAX, 0, 1, 1, 1),
        raw(u32::MAX, u32::MAX, 1, 1, 1),
    ];
    let mut table = table_of(&rows);
    table.extend(junk(24));
    let name = "the order is of unsigned numbers";
    let mut asking = Asking::with(name, log, table, record(2, 0, 11));
    asking.never(2, 0);
    asking.plays(1, 1, 12);
    asking.holds(2, 0, 1, 1);
    asking.row(2, 2, 0, Some(1), 1);
    for (place, row) in rows.into_iter().enumerate().skip(2) {
        asking.moved(place + 1, row);
    }
    asking.case()
}

/// 10 for the order comes after 1 and 2 and before 3 (13.5).
fn refusals() -> Case {
    let mut log = log_of(&bench());
    slot_mut(&mut log, 3)[255] = 1;
    let table = table_of(&[Row::of(2, 8, Some(1), 1), Row::of(2, 7, Some(1), 1)]);
    let name = "the order of the rows among a play's refusals";
    let mut asking = Asking::with(name, log, table, record(2, 1, 2));
    for stop in [0, 2, 9] {
        asking.refuses(6, stop, 1);
        asking.bad_entry(5, stop, 3);
        asking.refuses(3, stop, 10);
    }
    asking.no_cell(2, 500, 10);
    asking.no_cell(9, 0, 10);
    asking.opens(2);
    asking.no_cell(2, 500, 3);
    asking.case()
}
