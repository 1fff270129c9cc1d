//! Refusals 1, 2, 3 and 10, in their order, with nothing changed.

use crate::appending::{junk, with_junk};
use crate::sample::*;
use crate::slot::SLOT;
use crate::table::Row;

use super::{record, Asking, Case};

pub fn cases() -> Vec<Case> {
    let mut cases = vec![stops(), fresh_set_0(), no_slots()];
    cases.extend(bad_replicas());
    cases.extend([frames(1279), frames(1280), bad_entry(), bad_above()]);
    cases.extend([orders(true), orders(false)]);
    cases
}

/// Stops at the position, below it, at the tail and above it.
fn stops() -> Case {
    let log = with_junk(&bench(), 1);
    let mut asking = Asking::on("stops", log, junk(48));
    asking.opens(2);
    asking.plays(5, 0, 0);
    asking.plays(0, 0, 0);
    asking.refuses(0, 1, 3);
    asking.refuses(5, 6, 3);
    asking.refuses(5, u64::MAX, 3);
    asking.refuses(5, 1 << 32, 3);
    asking.refuses(5, 1 << 32 | 5, 3);
    asking.never(2, 7);
    asking.plays(5, 3, 1);
    asking.plays(5, 3, 1);
    asking.plays(3, 3, 1);
    asking.refuses(5, 2, 3);
    asking.refuses(5, 0, 3);
    asking.refuses(3, 4, 3);
    asking.holds(2, 7, 43, 1);
    asking.plays(5, 5, 1);
    asking.plays(5, 5, 1);
    asking.refuses(5, 4, 3);
    // Position over the tail.
    asking.refuses(4, 4, 10);
    asking.refuses(4, 5, 10);
    asking.refuses(0, 0, 10);
    asking.holds(2, 7, 42, 4);
    asking.row(0, 2, 7, Some(42), 4);
    asking.case()
}

/// A refused opening leaves the record; an opening starts again.
fn fresh_set_0() -> Case {
    let mut asking = Asking::on("opening fresh", log_of(&bench()), junk(24));
    asking.opens(0);
    asking.no_cell(2, 7, 10);
    asking.refuses(5, 5, 10);
    asking.opens(2);
    asking.plays(5, 1, 1);
    asking.opens(0);
    asking.holds(2, 7, 43, 1);
    asking.plays(5, 4, 1);
    asking.opens(255);
    asking.never(2, 7);
    asking.opens(2);
    asking.plays(5, 5, 1);
    asking.row(0, 2, 7, Some(42), 4);
    asking.case()
}

/// A log of 0 slots is a log.
fn no_slots() -> Case {
    let mut asking = Asking::on("no slots", vec![], vec![]);
    asking.opens(128);
    asking.plays(0, 0, 0);
    asking.never(8, 0);
    asking.refuses(0, 1, 3);
    asking.refuses(1, 0, 1);
    asking.refuses(u32::MAX, 0, 1);
    asking.opens(0);
    asking.plays(0, 0, 0);
    asking.case()
}

/// Each fault of the record (7.9).
fn bad_replicas() -> Vec<Case> {
    [
        (record(0, 0, 0), 10),
        (record(0, 9, 3), 10),
        (record(2, 0, 3), 10),
        (record(2, 0, u64::MAX), 10),
        (record(2, 0, 1 << 32 | 1), 10),
        (record(2, 3, 0), 0),
        (record(2, u64::MAX, 1), 0),
        (record(2, 1 << 32, 1), 0),
    ]
    .into_iter()
    .map(|(given, number)| {
        let log = log_of(&bench()[..2]);
        let mut table = table_of(&[Row::of(2, 7, Some(5), 1)]);
        table.extend(junk(47));
        let name = format!("bad replica {given:?}");
        let mut asking = Asking::with(&name, log, table, given);
        for stop in [0, 2, 3, given.position] {
            asking.refuses(2, stop, 10);
        }
        asking.refuses(3, 0, 1);
        if number == 10 {
            asking.no_cell(2, 7, 10);
            asking.no_cell(9, 0, 10);
        } else if given.count == 1 {
            asking.holds(2, 7, 5, 1);
            asking.no_cell(9, 0, 3);
        } else {
            asking.never(2, 7);
        }
        // The library's own record is good.
        asking.opens(2);
        asking.plays(2, 0, 0);
        asking.never(2, 7);
        asking.case()
    })
    .collect()
}

/// Each fault of the frame (13.3).
fn frames(length: usize) -> Case {
    let log = log_of(&bench())[..length].to_vec();
    let name = format!("frames of {length} bytes");
    let mut asking = Asking::on(&name, log, junk(24));
    asking.opens(2);
    for tail in [6, 256, 131_072, 131_073, 1 << 31, u32::MAX] {
        asking.refuses(tail, 0, 1);
        asking.refuses(tail, 6, 1);
    }
    if length.is_multiple_of(SLOT) {
        asking.plays(5, 5, 1);
        asking.refuses(6, 6, 1);
        asking.holds(2, 7, 42, 4);
        asking.row(0, 2, 7, Some(42), 4);
    } else {
        asking.refuses(0, 0, 1);
        asking.refuses(4, 1, 1);
        asking.refuses(5, 5, 1);
        asking.never(2, 7);
    }
    asking.case()
}

/// The lowest bad entry (5.2): also above the stop, and where nothing is to be played; not above the tail.
fn bad_entry() -> Case {
    let mut log = log_of(&bench());
    slot_mut(&mut log, 4)[0] = 0;
    slot_mut(&mut log, 2)[248] = 1;
    let mut asking = Asking::on("a bad entry", log, junk(50));
    asking.opens(2);
    asking.bad_entry(5, 5, 2);
    asking.bad_entry(5, 1, 2);
    asking.bad_entry(5, 0, 2);
    asking.bad_entry(5, 6, 2);
    asking.bad_entry(3, 2, 2);
    asking.never(2, 7);
    asking.plays(2, 1, 1);
    asking.bad_entry(5, 0, 2);
    asking.refuses(2, 0, 3);
    asking.plays(2, 2, 1);
    asking.holds(2, 7, 43, 1);
    asking.row(0, 2, 7, Some(43), 1);
    asking.case()
}

/// A bad entry of an object that is not hosted, above the stop; a waiting commit record and no room below it.
fn bad_above() -> Case {
    let mut log = log_of(&[
        update(0, &[put(2, 7, 1)]),
        update(1, &[put(2, 8, 1)]),
        commit(1, &[read(3, 1, 0)]),
        update(0, &[put(2, 9, 1)]),
        update(0, &[put(8, 0, 1)]),
    ]);
    // A register's key.
    slot_mut(&mut log, 4)[63] = 1;
    let mut asking = Asking::on("a bad entry above what stops a play", log, junk(23));
    asking.opens(2);
    asking.bad_entry(5, 4, 4);
    asking.stops(4, 4, 13, 0, 0);
    asking.bad_entry(5, 0, 4);
    asking.opens(128);
    asking.bad_entry(5, 4, 4);
    asking.plays(4, 4, 0);
    asking.bad_entry(5, 5, 4);
    asking.case()
}

/// Order: 1, 2, 10, 3 (13.5), with a bad entry in the log, and without.
fn orders(bad: bool) -> Case {
    let mut log = with_junk(&bench(), 1);
    if bad {
        slot_mut(&mut log, 1)[255] = 1;
    }
    let name = format!("the order of a play's refusals, a bad entry: {bad}");
    let mut asking = Asking::with(&name, log, junk(30), record(0, 9, 2));
    asking.refuses(7, 6, 1);
    asking.refuses(u32::MAX, 0, 1);
    if bad {
        asking.bad_entry(5, 6, 1);
        asking.bad_entry(2, 0, 1);
        asking.refuses(1, 6, 10);
    } else {
        asking.refuses(5, 6, 10);
        asking.bad_entry(6, 7, 5);
    }
    asking.refuses(0, 1, 10);
    asking.no_cell(9, 9, 10);
    asking.opens(2);
    asking.refuses(1, 2, 3);
    asking.case()
}
