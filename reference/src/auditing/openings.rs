//! Openings at a checkpoint, and plays from it: updates set aside before it, cells in key order, rooms.

use crate::append::Request;
use crate::appending::junk;
use crate::playing::{record, Asking, Case};
use crate::sample::*;
use crate::slot::{ABORT, COMMIT};
use crate::table::Row;

pub fn cases() -> Vec<Case> {
    let mut cases = vec![
        set_aside_before(),
        set_aside_again(),
        older_tails(),
        waiting_on(),
        false_checkpoint(),
        empty_checkpoints(),
        registers(),
        one_after_another(),
        not_counted(),
    ];
    for length in [0, 23, 47, 48, 71, 72] {
        cases.push(rooms_of_two(length));
    }
    cases.extend([rooms_of_twelve(287), rooms_of_twelve(288)]);
    cases.extend([room_to_play_on(48), room_to_play_on(72)]);
    cases
}

/// Object 2 has the keys 7 (removed) and 3; the number 9 sets writes aside on both sides of the checkpoint at 3.
pub fn stocked() -> Vec<Request> {
    vec![
        update(0, &[put(2, 7, 43), put(2, 3, 5)]),
        update(0, &[remove(2, 7)]),
        update(9, &[put(2, 4, 1), put(5, 1, 2)]),
        checkpoint_of(2, 3, &[Row::of(2, 3, Some(5), 1), Row::of(2, 7, None, 2)]),
        update(9, &[put(2, 3, 6)]),
        commit(9, &[read(2, 7, 2)]),
        update(0, &[put(2, 9, 9)]),
    ]
}

/// Updates set aside below the checkpoint are found (8.5), a mistake that earlier players made (16.5).
fn set_aside_before() -> Case {
    let mut asking = Asking::on("updates set aside before it", log_of(&stocked()), junk(120));
    asking.restores(7, 3, 2, 2);
    asking.holds(2, 3, 5, 1);
    asking.removed(2, 7, 2);
    asking.never(2, 4);
    asking.no_cell(5, 1, 3);
    asking.plays(7, 5, 2);
    asking.never(2, 4);
    asking.plays(7, 6, 3);
    asking.holds(2, 4, 1, 6);
    asking.holds(2, 3, 6, 6);
    asking.removed(2, 7, 2);
    asking.plays(7, 7, 4);
    asking.holds(2, 9, 9, 7);
    asking.row(0, 2, 3, Some(6), 6);
    asking.row(1, 2, 4, Some(1), 6);
    asking.row(2, 2, 7, None, 2);
    asking.row(3, 2, 9, Some(9), 7);
    asking.case()
}

/// All of a transaction's updates are before the checkpoint, and its commit record is the next entry or far above.
fn set_aside_again() -> Case {
    let log = log_of(&[
        update(1, &[put(3, 1, 1)]),
        update(2, &[put(3, 2, 2), put(4, 2, 2)]),
        update(1, &[put(3, 1, 3), remove(3, 4)]),
        checkpoint_of(3, 3, &[]),
        commit(1, &[]),
        checkpoint_of(3, 5, &[Row::of(3, 1, Some(3), 5), Row::of(3, 4, None, 5)]),
        update(0, &[put(4, 1, 1)]),
        commit(2, &[read(3, 1, 5)]),
    ]);
    let mut asking = Asking::on("all set aside before it", log, junk(80));
    asking.restores(8, 3, 4, 0);
    asking.never(3, 1);
    asking.plays(8, 5, 2);
    asking.holds(3, 1, 3, 5);
    asking.removed(3, 4, 5);
    asking.restores(8, 5, 4, 2);
    asking.plays(8, 8, 3);
    asking.holds(3, 2, 2, 8);
    asking.row(0, 3, 1, Some(3), 5);
    asking.row(1, 3, 2, Some(2), 8);
    asking.row(2, 3, 4, None, 5);
    asking.case()
}

/// The tail may be any at which the checkpoint is there.
fn older_tails() -> Case {
    let mut asking = Asking::on("openings at older tails", log_of(&stocked()), junk(100));
    asking.restores_not(3, 3, 3, None);
    asking.restores(4, 3, 2, 2);
    asking.plays(4, 4, 2);
    asking.restores(5, 3, 2, 2);
    asking.plays(6, 6, 3);
    asking.restores(7, 3, 2, 2);
    asking.holds(2, 3, 5, 1);
    asking.never(2, 4);
    asking.row(0, 2, 3, Some(5), 1);
    asking.row(1, 2, 7, None, 2);
    asking.row(2, 2, 7, None, 2);
    asking.case()
}

/// It hosts that object alone: a commit record that reads another waits for its decision record.
fn waiting_on() -> Case {
    let log = log_of(&[
        update(1, &[put(2, 1, 1)]),
        update(2, &[put(2, 2, 2)]),
        checkpoint_of(2, 2, &[]),
        commit(1, &[read(3, 1, 0)]),
        commit(2, &[read(2, 1, 4), read(3, 1, 0)]),
        decision(3, COMMIT),
        decision(4, ABORT),
    ]);
    let mut asking = Asking::on("an opened replica that waits", log, junk(60));
    asking.restores(5, 2, 2, 0);
    asking.stops(5, 5, 12, 3, 0);
    asking.stops(6, 5, 12, 4, 1);
    asking.plays(7, 7, 1);
    asking.holds(2, 1, 1, 4);
    asking.never(2, 2);
    asking.row(0, 2, 1, Some(1), 4);
    asking.case()
}

/// Whether a checkpoint is true is for the audit: it is opened as it stands.
fn false_checkpoint() -> Case {
    let log = log_of(&[
        update(0, &[put(2, 1, 1)]),
        checkpoint_of(2, 1, &[Row::of(2, 5, Some(9), 1), Row::of(2, 6, None, 1)]),
        update(1, &[put(2, 1, 4)]),
        commit(1, &[read(2, 5, 1)]),
    ]);
    let mut asking = Asking::on("a false checkpoint is opened", log, junk(96));
    asking.restores(4, 1, 2, 2);
    asking.holds(2, 5, 9, 1);
    asking.removed(2, 6, 1);
    asking.never(2, 1);
    asking.plays(4, 4, 3);
    asking.holds(2, 1, 4, 4);
    asking.finds(4, 1, 1);
    asking.holds(2, 1, 1, 1);
    asking.row(0, 2, 1, Some(1), 1);
    asking.row(1, 2, 5, Some(9), 1);
    asking.row(2, 2, 6, None, 1);
    asking.case()
}

/// A checkpoint at offset 0 has no cells, and needs no room.
fn empty_checkpoints() -> Case {
    let log = log_of(&[
        checkpoint_of(8, 0, &[]),
        checkpoint_of(1, 1, &[]),
        update(0, &[put(8, 0, 4)]),
    ]);
    let mut asking = Asking::on("empty checkpoints", log, junk(20));
    asking.restores(1, 0, 128, 0);
    asking.never(8, 0);
    asking.restores(3, 1, 1, 0);
    asking.never(1, 9999);
    asking.plays(3, 3, 0);
    asking.restores(3, 0, 128, 0);
    asking.stops(3, 3, 13, 2, 0);
    asking.case()
}

/// Each object's own bit, registers and highest keys.
fn registers() -> Case {
    let mut requests = vec![
        update(0, &[put(1, 9999, u32::MAX), put(2, 499, 2), put(3, 499, 3)]),
        update(0, &[put(4, 499, 4), put(5, 9999, 0), put(6, 0, 6)]),
        update(0, &[put(7, 0, 7), remove(8, 0)]),
    ];
    let cells = [
        (1, 9999, Some(u32::MAX), 1),
        (2, 499, Some(2), 1),
        (3, 499, Some(3), 1),
        (4, 499, Some(4), 2),
        (5, 9999, Some(0), 2),
        (6, 0, Some(6), 2),
        (7, 0, Some(7), 3),
        (8, 0, None, 3),
    ];
    for (at, (object, key, value, version)) in cells.into_iter().enumerate() {
        let row = Row::of(object, key, value, version);
        requests.push(checkpoint_of(object, 3 + at, &[row]));
    }
    let mut asking = Asking::on("a checkpoint of each object", log_of(&requests), junk(200));
    for (at, (object, key, value, version)) in cells.into_iter().enumerate() {
        asking.restores(11, 3 + at as u64, 1 << (object - 1), 1);
        match value {
            Some(value) => asking.holds(object, key, value, version),
            None => asking.removed(object, key, version),
        }
        asking.plays(11, 11, 1);
    }
    asking.audits(11, 8);
    for (place, (object, key, value, version)) in cells.into_iter().enumerate() {
        asking.row(place, object, key, value, version);
    }
    asking.case()
}

/// A refused opening leaves the record and the table.
fn one_after_another() -> Case {
    let mut asking = Asking::on("openings one after another", log_of(&stocked()), junk(130));
    asking.opens(18);
    asking.plays(7, 7, 5);
    asking.holds(5, 1, 2, 6);
    asking.restores_not(7, 4, 3, None);
    asking.holds(5, 1, 2, 6);
    asking.restores(7, 3, 2, 2);
    asking.restores_not(7, 0, 3, None);
    asking.holds(2, 3, 5, 1);
    asking.opens(2);
    asking.plays(7, 3, 2);
    asking.removed(2, 7, 2);
    asking.row(0, 2, 3, Some(5), 1);
    asking.row(1, 2, 7, None, 2);
    // Past the count, as the first play left them.
    asking.row(2, 2, 7, None, 2);
    asking.row(3, 2, 9, Some(9), 7);
    asking.row(4, 5, 1, Some(2), 6);
    asking.case()
}

/// A fresh replica, an audit and an opening at a checkpoint look at no row of the table lent to them.
fn not_counted() -> Case {
    let log = log_of(&[
        update(0, &[put(2, 9, 4)]),
        checkpoint_of(2, 1, &[Row::of(2, 9, Some(4), 1)]),
        update(0, &[put(2, 3, 5)]),
    ]);
    let (three, nine) = (Row::of(2, 3, Some(7), 1), Row::of(2, 9, Some(7), 1));
    let table = table_of(&[nine, three, nine]);
    let name = "disorder where rows are not counted";
    let mut asking = Asking::with(name, log, table, record(2, 3, 3));
    asking.refuses(3, 3, 10);
    asking.restores(3, 1, 2, 1);
    asking.holds(2, 9, 4, 1);
    asking.audits(3, 2);
    asking.holds(2, 3, 5, 3);
    asking.opens(2);
    asking.plays(3, 0, 0);
    asking.plays(3, 1, 1);
    asking.row(0, 2, 9, Some(4), 1);
    asking.row(1, 2, 9, Some(4), 1);
    asking.case()
}

/// 13: two cells in a table of this length.
fn rooms_of_two(length: usize) -> Case {
    let name = format!("two cells, a table of {length} bytes");
    let mut asking = Asking::on(&name, log_of(&stocked()), junk(length));
    if length < 48 {
        asking.restores_not(7, 3, 13, None);
        asking.no_cell(2, 3, 10);
        asking.restores_not(7, 3, 13, None);
        // 3 comes first.
        asking.restores_not(7, 7, 3, None);
        return asking.case();
    }
    asking.restores(7, 3, 2, 2);
    asking.holds(2, 3, 5, 1);
    asking.row(0, 2, 3, Some(5), 1);
    asking.row(1, 2, 7, None, 2);
    asking.case()
}

/// Twelve cells, the most that a checkpoint has.
fn rooms_of_twelve(length: usize) -> Case {
    let writes: Vec<_> = (0..12).rev().map(|key| put(5, key * 9, key)).collect();
    let cells: Vec<_> = (0..12)
        .map(|key| Row::of(5, key * 9, Some(key), 1))
        .collect();
    let log = log_of(&[update(0, &writes), checkpoint_of(5, 1, &cells)]);
    let name = format!("twelve cells, a table of {length} bytes");
    let mut asking = Asking::on(&name, log, junk(length));
    if length < 288 {
        asking.restores_not(2, 1, 13, None);
        asking.lacks(2, 0, 0);
        return asking.case();
    }
    asking.audits(2, 12);
    asking.holds(5, 99, 11, 1);
    asking.restores(2, 1, 16, 12);
    asking.holds(5, 0, 0, 1);
    asking.holds(5, 99, 11, 1);
    for (place, row) in cells.into_iter().enumerate() {
        asking.row(place, 5, row.key, Some(row.value), 1);
    }
    asking.case()
}

/// The commit record after the checkpoint makes one cell, and the last update another.
fn room_to_play_on(length: usize) -> Case {
    let name = format!("playing on from a checkpoint, a table of {length} bytes");
    let mut asking = Asking::on(&name, log_of(&stocked()), junk(length));
    asking.restores(7, 3, 2, 2);
    if length < 72 {
        asking.stops(7, 7, 13, 5, 2);
        asking.holds(2, 3, 5, 1);
        asking.row(0, 2, 3, Some(5), 1);
        asking.row(1, 2, 7, None, 2);
        return asking.case();
    }
    asking.stops(7, 7, 13, 6, 3);
    asking.holds(2, 3, 6, 6);
    asking.row(0, 2, 3, Some(6), 6);
    asking.row(1, 2, 4, Some(1), 6);
    asking.row(2, 2, 7, None, 2);
    asking.case()
}
