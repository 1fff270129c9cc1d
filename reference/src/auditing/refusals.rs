//! Refusals 1, 2 and 3 of openings at a checkpoint and of audits, in their order, with nothing changed.

use crate::appending::{junk, with_junk};
use crate::playing::{record, Asking, Case};
use crate::sample::*;
use crate::slot::{COMMIT, SLOT};
use crate::table::Row;

use super::openings::stocked;

pub fn cases() -> Vec<Case> {
    vec![
        offsets(),
        other_kinds(),
        frames(1791),
        frames(1792),
        bad_entry(),
        bad_above(),
        orders(),
        no_slots(),
    ]
}

/// 3 for an offset at or above the tail (8.3).
fn offsets() -> Case {
    let log = with_junk(&stocked(), 1);
    let mut asking = Asking::with("offsets not below the tail", log, junk(60), record(2, 1, 0));
    for offset in [7, 8, 1 << 32, 1 << 32 | 3, 1 << 63 | 3, u64::MAX] {
        asking.restores_not(7, offset, 3, None);
    }
    asking.restores_not(0, 0, 3, None);
    asking.restores_not(3, 3, 3, None);
    asking.restores(4, 3, 2, 2);
    asking.row(0, 2, 3, Some(5), 1);
    asking.row(1, 2, 7, None, 2);
    asking.case()
}

/// 3 for an entry that is no checkpoint (8.3).
fn other_kinds() -> Case {
    let log = log_of(&[
        update(0, &[put(3, 1, 1)]),
        update(1, &[put(3, 2, 1)]),
        commit(1, &[read(3, 1, 1)]),
        decision(2, COMMIT),
        checkpoint_of(
            3,
            4,
            &[Row::of(3, 1, Some(1), 1), Row::of(3, 2, Some(1), 3)],
        ),
        update(0, &[put(2, 1, 1)]),
    ]);
    let mut asking = Asking::on("entries that are no checkpoint", log, junk(60));
    for offset in [0, 1, 2, 3, 5] {
        asking.restores_not(6, offset, 3, None);
    }
    asking.restores(6, 4, 4, 2);
    asking.row(0, 3, 1, Some(1), 1);
    asking.row(1, 3, 2, Some(1), 3);
    asking.case()
}

/// Each fault of the frame (13.3).
fn frames(length: usize) -> Case {
    let log = log_of(&stocked())[..length].to_vec();
    let name = format!("openings and audits of {length} bytes");
    let mut asking = Asking::on(&name, log, junk(120));
    for tail in [8, 256, 131_072, 131_073, 1 << 31, u32::MAX] {
        asking.restores_not(tail, 3, 1, None);
        asking.restores_not(tail, 9, 1, None);
        asking.audits_not(tail, 1, None);
        asking.no_cell(2, 3, 10);
    }
    if length.is_multiple_of(SLOT) {
        asking.restores(7, 3, 2, 2);
        asking.audits(7, 5);
        asking.row(0, 2, 3, Some(6), 6);
        asking.row(1, 2, 4, Some(1), 6);
        asking.row(2, 2, 7, None, 2);
        asking.row(3, 2, 9, Some(9), 7);
        asking.row(4, 5, 1, Some(2), 6);
    } else {
        asking.restores_not(6, 3, 1, None);
        asking.audits_not(6, 1, None);
        asking.audits_not(0, 1, None);
    }
    asking.case()
}

/// The lowest bad entry (5.2): also above the checkpoint; not above the tail.
fn bad_entry() -> Case {
    let mut log = log_of(&stocked());
    slot_mut(&mut log, 6)[0] = 0;
    slot_mut(&mut log, 4)[248] = 1;
    let mut asking = Asking::on("a bad entry above the checkpoint", log, junk(90));
    asking.restores_not(7, 3, 2, Some(4));
    asking.audits_not(7, 2, Some(4));
    asking.restores_not(5, 3, 2, Some(4));
    asking.audits_not(5, 2, Some(4));
    asking.restores_not(7, 7, 2, Some(4));
    asking.restores(4, 3, 2, 2);
    asking.audits(4, 2);
    asking.row(0, 2, 3, Some(5), 1);
    asking.row(1, 2, 7, None, 2);
    asking.case()
}

/// A bad entry above a false record and above one that lacks room.
fn bad_above() -> Case {
    let mut log = log_of(&[
        update(0, &[put(2, 1, 1)]),
        checkpoint_of(2, 1, &[]),
        update(0, &[put(2, 2, 1), put(2, 3, 1)]),
        update(0, &[put(8, 0, 1)]),
    ]);
    // A register's key.
    slot_mut(&mut log, 3)[63] = 1;
    let mut asking = Asking::on("a bad entry above what an audit finds", log, junk(48));
    asking.audits_not(4, 2, Some(3));
    asking.lacks(3, 2, 1);
    asking.finds(2, 1, 1);
    asking.audits_not(4, 2, Some(3));
    asking.row(0, 2, 1, Some(1), 1);
    asking.case()
}

/// Order: 1, 2, 3, 13 (13.5).
fn orders() -> Case {
    let mut log = with_junk(&stocked(), 1);
    slot_mut(&mut log, 6)[255] = 1;
    let mut asking = Asking::on("the order of an opening's refusals", log, junk(30));
    asking.restores_not(9, 3, 1, None);
    asking.restores_not(9, 9, 1, None);
    asking.restores_not(8, 3, 2, Some(6));
    asking.restores_not(7, 3, 2, Some(6));
    asking.restores_not(7, 0, 2, Some(6));
    asking.restores_not(7, 7, 2, Some(6));
    asking.restores_not(6, 6, 3, None);
    asking.restores_not(6, 5, 3, None);
    asking.restores_not(6, 3, 13, None);
    asking.audits_not(9, 1, None);
    asking.audits_not(7, 2, Some(6));
    asking.lacks(6, 0, 0);
    asking.case()
}

/// A log of 0 slots is a log.
fn no_slots() -> Case {
    let mut asking = Asking::on("audits of no slots", vec![], vec![]);
    asking.audits(0, 0);
    asking.never(8, 0);
    asking.restores_not(0, 0, 3, None);
    asking.restores_not(1, 0, 1, None);
    asking.audits_not(1, 1, None);
    asking.audits(0, 0);
    asking.plays(0, 0, 0);
    asking.case()
}
