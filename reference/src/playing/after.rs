//! Commit records that name numbers: who decides them alone, what has committed, and replicas of any making (9.7, 9.14 to 9.16).

use crate::append::Request;
use crate::appending::junk;
use crate::sample::*;
use crate::slot::{ABORT, COMMIT};
use crate::table::Row;

use super::{record, Asking, Case};

pub fn cases() -> Vec<Case> {
    vec![
        delivered(),
        all_but_one(),
        decided_otherwise(),
        too_early(),
        two_names(),
        reads_and_names(),
        of_any_making(),
        rows_of_its_own(),
        no_room(),
        chain(),
    ]
}

fn with(more: &[Request]) -> Vec<u8> {
    let mut requests = delivery();
    requests.extend_from_slice(more);
    log_of(&requests)
}

/// A replica of everything decides alone; one of some objects waits, or passes the record over.
fn delivered() -> Case {
    let mut asking = Asking::on("the delivery log", with(&[]), junk(72));
    asking.opens(24);
    asking.stops(4, 4, 12, 3, 1);
    asking.opens(8);
    asking.stops(4, 4, 12, 3, 0);
    asking.opens(2);
    asking.plays(4, 4, 0);
    asking.opens(16);
    asking.plays(4, 4, 1);
    asking.opens(255);
    asking.plays(4, 3, 1);
    asking.plays(4, 4, 2);
    asking.holds(4, 2, 1, 4);
    asking.opens(255);
    asking.plays(4, 4, 2);
    asking.row(0, 4, 2, Some(1), 4);
    asking.row(1, 5, 1, Some(6), 2);
    asking.case()
}

/// All but one object is not everything: the decision record says.
fn all_but_one() -> Case {
    let log = with(&[decision(3, COMMIT)]);
    let mut asking = Asking::on("all but one object", log, junk(72));
    for hosted in [254, 127, 255 - 16] {
        asking.opens(hosted);
        let cells = u64::from(hosted != 255 - 16);
        asking.stops(4, 4, 12, 3, cells);
        asking.plays(5, 5, cells + 1);
        asking.holds(4, 2, 1, 4);
    }
    asking.opens(255 - 8);
    asking.plays(4, 4, 1);
    asking.row(0, 5, 1, Some(6), 2);
    asking.row(1, 5, 1, Some(6), 2);
    asking.case()
}

/// Who decides alone does not ask decision records, neither for the record nor for the number that it names.
fn decided_otherwise() -> Case {
    let log = log_of(&[
        update(9, &[put(5, 1, 6)]),
        commit(9, &[]),
        decision(1, ABORT),
        update(10, &[put(4, 2, 1)]),
        commit_after(10, &[], 9, 0),
        decision(4, ABORT),
    ]);
    let mut asking = Asking::on("false decisions about names", log, junk(50));
    asking.opens(8);
    asking.stops(5, 5, 12, 4, 0);
    asking.plays(6, 6, 0);
    asking.opens(255);
    asking.plays(6, 6, 2);
    asking.holds(4, 2, 1, 5);
    asking.row(0, 4, 2, Some(1), 5);
    asking.row(1, 5, 1, Some(6), 2);
    asking.case()
}

/// Named too early, never used, still open, aborted, and one after what aborted.
fn too_early() -> Case {
    let log = log_of(&[
        update(0, &[put(2, 7, 1)]),
        update(9, &[put(5, 1, 6)]),
        update(10, &[put(4, 1, 1)]),
        update(11, &[put(4, 2, 1)]),
        update(12, &[put(4, 3, 1)]),
        update(13, &[put(4, 4, 1)]),
        commit_after(10, &[], 9, 0),
        commit(9, &[]),
        commit_after(11, &[], 10, 0),
        commit_after(12, &[], 77, 0),
        commit_after(13, &[], 9, 14),
        update(14, &[put(4, 5, 1)]),
        commit_after(14, &[read(2, 7, 1)], 9, 0),
    ]);
    let mut asking = Asking::on("numbers that have not committed", log, junk(75));
    asking.opens(255);
    asking.plays(13, 7, 1);
    asking.plays(13, 12, 2);
    asking.plays(13, 13, 3);
    for key in 1..5 {
        asking.never(4, key);
    }
    asking.holds(4, 5, 1, 13);
    asking.row(0, 2, 7, Some(1), 1);
    asking.row(1, 4, 5, Some(1), 13);
    asking.row(2, 5, 1, Some(6), 8);
    asking.case()
}

/// Of two named numbers both must have committed.
fn two_names() -> Case {
    let mut requests = vec![update(0, &[put(2, 7, 1)])];
    requests.extend([1, 2, 3, 4, 5, 6].map(|number| update(number, &[put(4, number, 1)])));
    requests.extend([
        commit(1, &[read(2, 7, 1)]),
        commit(2, &[read(2, 7, 0)]),
        commit(3, &[]),
        commit_after(4, &[], 1, 3),
        commit_after(5, &[], 1, 2),
        commit_after(6, &[], 2, 3),
    ]);
    let mut asking = Asking::on("two numbers named", log_of(&requests), junk(100));
    asking.opens(255);
    asking.plays(13, 10, 3);
    asking.plays(13, 13, 4);
    asking.holds(4, 4, 1, 11);
    asking.never(4, 5);
    asking.never(4, 6);
    asking.row(0, 2, 7, Some(1), 1);
    asking.row(1, 4, 1, Some(1), 8);
    asking.row(2, 4, 3, Some(1), 10);
    asking.row(3, 4, 4, Some(1), 11);
    asking.case()
}

/// A stale read aborts what names a number that has committed; all reads hosted are not enough where a number is named.
fn reads_and_names() -> Case {
    let log = log_of(&[
        update(0, &[put(4, 1, 1)]),
        update(9, &[put(4, 2, 1)]),
        commit(9, &[]),
        update(10, &[put(4, 3, 1)]),
        commit_after(10, &[read(4, 1, 0)], 9, 0),
        update(11, &[put(4, 4, 1)]),
        commit_after(11, &[read(4, 1, 1)], 9, 0),
        decision(4, ABORT),
        decision(6, COMMIT),
    ]);
    let mut asking = Asking::on("reads and names", log, junk(75));
    asking.opens(8);
    asking.stops(7, 7, 12, 4, 2);
    asking.stops(8, 8, 12, 6, 2);
    asking.plays(9, 9, 3);
    asking.opens(255);
    asking.plays(7, 7, 3);
    asking.never(4, 3);
    asking.holds(4, 4, 1, 7);
    asking.row(0, 4, 1, Some(1), 1);
    asking.row(1, 4, 2, Some(1), 3);
    asking.row(2, 4, 4, Some(1), 7);
    asking.case()
}

/// A record past the order, without its cells: the number goes by the log.
fn of_any_making() -> Case {
    let given = record(255, 3, 0);
    let mut asking = Asking::with("a position past the order", with(&[]), junk(30), given);
    asking.plays(4, 4, 1);
    asking.holds(4, 2, 1, 4);
    asking.never(5, 1);
    asking.row(0, 4, 2, Some(1), 4);
    asking.case()
}

/// By its own cells number 9 aborts, by the log it commits, and 10 goes by that. The read of 11, put there by hand, is by its own cells
/// the cell's version.
fn rows_of_its_own() -> Case {
    let log = log_of(&[
        update(0, &[put(2, 7, 1)]),
        update(9, &[put(5, 1, 6)]),
        commit(9, &[read(2, 7, 1)]),
        update(10, &[put(4, 2, 1)]),
        commit_after(10, &[], 9, 0),
        update(11, &[put(4, 3, 1)]),
        commit_after(11, &[read(2, 7, 4)], 9, 0),
    ]);
    let rows = [Row::of(2, 7, Some(8), 4), Row::of(9, 9, Some(9), 9)];
    let mut table = table_of(&rows);
    table.extend(junk(50));
    let mut asking = Asking::with("rows of its own", log, table, record(255, 1, 2));
    asking.plays(7, 5, 3);
    asking.never(5, 1);
    asking.holds(4, 2, 1, 5);
    asking.plays(7, 7, 4);
    asking.holds(4, 3, 1, 7);
    asking.row(0, 2, 7, Some(8), 4);
    asking.row(1, 4, 2, Some(1), 5);
    asking.row(2, 4, 3, Some(1), 7);
    asking.row(3, 9, 9, Some(9), 9);
    asking.case()
}

/// What has committed needs no room in the table; the record that names it does where it commits, and not where it aborts.
fn no_room() -> Case {
    let log = log_of(&[
        update(9, &[put(5, 1, 6), put(5, 2, 6)]),
        update(10, &[put(4, 2, 1)]),
        commit_after(10, &[], 9, 0),
        commit(9, &[]),
        update(11, &[put(4, 3, 1)]),
        commit_after(11, &[], 9, 0),
    ]);
    let mut asking = Asking::on("room for one cell", log, junk(24));
    asking.opens(255);
    asking.stops(6, 6, 13, 3, 0);
    asking.opens(8);
    asking.stops(6, 6, 12, 2, 0);
    asking.case()
}

/// Each after the one before; the last decides whether it shows.
fn chain() -> Case {
    let mut requests = vec![update(1, &[put(4, 1, 1)]), commit(1, &[])];
    for number in 2..9 {
        requests.push(update(number, &[put(4, 1, number)]));
        requests.push(commit_after(number, &[], number - 1, 0));
    }
    let mut asking = Asking::on("a chain", log_of(&requests), junk(30));
    asking.opens(255);
    asking.plays(16, 9, 1);
    asking.plays(16, 16, 1);
    asking.holds(4, 1, 8, 16);
    asking.row(0, 4, 1, Some(8), 16);
    asking.case()
}
