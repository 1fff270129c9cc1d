//! Audits that pass, and audits that lack room.

use crate::appending::{junk, with_junk};
use crate::playing::{Asking, Case};
use crate::sample::*;
use crate::slot::{ABORT, COMMIT};
use crate::table::Row;

use super::openings::stocked;

pub fn cases() -> Vec<Case> {
    let mut cases = vec![
        empty(),
        bench_audited(),
        bench_version(0),
        bench_version(2),
        tails(),
        true_records(),
    ];
    for length in [0, 23, 24, 47] {
        cases.push(bench_rooms(length));
    }
    cases.extend([
        judged_at_its_place(),
        decided_at_its_commit(),
        rooms(),
        crowded(),
    ]);
    cases
}

/// The empty log (16.4).
fn empty() -> Case {
    let mut asking = Asking::on("an audit of an empty log", junk(512), junk(23));
    asking.audits(0, 0);
    asking.never(1, 0);
    asking.never(8, 0);
    asking.audits(0, 0);
    asking.plays(0, 0, 0);
    asking.case()
}

fn bench_audited() -> Case {
    let mut asking = Asking::on("bench log, audited", with_junk(&bench(), 1), junk(100));
    asking.audits(5, 1);
    asking.holds(2, 7, 42, 4);
    asking.never(2, 8);
    asking.plays(5, 5, 1);
    // Over the scratch of the last audit.
    asking.audits(5, 1);
    asking.row(0, 2, 7, Some(42), 4);
    asking.case()
}

/// Version 0 is stale, 2 astray, in a log written before (16.4).
fn bench_version(version: u64) -> Case {
    let name = format!("bench log, read version {version}, audited");
    let log = log_of(&bench_with(version));
    let mut asking = Asking::on(&name, log, junk(50));
    asking.audits(5, 1);
    asking.holds(2, 7, 40, 5);
    asking.row(0, 2, 7, Some(40), 5);
    asking.case()
}

/// A table without a row, and with one, on the bench log (16.4).
fn bench_rooms(length: usize) -> Case {
    let name = format!("bench log audited, a table of {length} bytes");
    let mut asking = Asking::on(&name, log_of(&bench()), junk(length));
    if length < 24 {
        asking.lacks(5, 0, 0);
        asking.never(2, 7);
        asking.audits(0, 0);
        return asking.case();
    }
    asking.audits(5, 1);
    asking.row(0, 2, 7, Some(42), 4);
    asking.case()
}

/// Every tail that the log had; the record goes on from the audit's.
fn tails() -> Case {
    let mut asking = Asking::on("audits at every tail", log_of(&stocked()), junk(120));
    for (tail, count) in [
        (0, 0),
        (1, 2),
        (2, 2),
        (3, 2),
        (4, 2),
        (5, 2),
        (6, 4),
        (7, 5),
    ] {
        asking.audits(tail, count);
    }
    asking.holds(5, 1, 2, 6);
    asking.audits(4, 2);
    asking.never(5, 1);
    asking.plays(7, 6, 4);
    asking.holds(5, 1, 2, 6);
    asking.row(0, 2, 3, Some(6), 6);
    asking.row(1, 2, 4, Some(1), 6);
    asking.row(2, 2, 7, None, 2);
    asking.row(3, 5, 1, Some(2), 6);
    // Left by the audit of all.
    asking.row(4, 5, 1, Some(2), 6);
    asking.case()
}

/// Decisions of both outcomes, checkpoints with and without cells.
fn true_records() -> Case {
    let log = log_of(&[
        checkpoint_of(3, 0, &[]),
        update(0, &[put(3, 2, 1), remove(3, 1)]),
        update(1, &[put(3, 1, 7)]),
        commit(1, &[read(3, 2, 2)]),
        decision(3, COMMIT),
        update(2, &[put(3, 3, 1)]),
        commit(2, &[read(3, 2, 1)]),
        checkpoint_of(
            3,
            7,
            &[Row::of(3, 1, Some(7), 4), Row::of(3, 2, Some(1), 2)],
        ),
        decision(6, ABORT),
        checkpoint_of(4, 9, &[]),
    ]);
    let mut asking = Asking::on("true records", log, junk(96));
    for tail in [5, 9, 10] {
        asking.audits(tail, 2);
    }
    asking.holds(3, 1, 7, 4);
    asking.never(3, 3);
    asking.row(0, 3, 1, Some(7), 4);
    asking.row(1, 3, 2, Some(1), 2);
    asking.case()
}

/// A checkpoint is judged at itself: what is written above it does not count.
fn judged_at_its_place() -> Case {
    let log = log_of(&[
        update(0, &[put(2, 1, 1)]),
        checkpoint_of(2, 1, &[Row::of(2, 1, Some(1), 1)]),
        update(0, &[put(2, 1, 2), put(2, 2, 2)]),
        // As it was two entries before.
        checkpoint_of(2, 3, &[Row::of(2, 1, Some(1), 1)]),
        // As it will be after the next.
        checkpoint_of(2, 4, &[Row::of(2, 1, Some(2), 3)]),
        checkpoint_of(
            2,
            5,
            &[Row::of(2, 1, Some(2), 3), Row::of(2, 2, Some(2), 3)],
        ),
    ]);
    let mut asking = Asking::on("checkpoints judged at their place", log, junk(72));
    asking.audits(2, 1);
    asking.audits(3, 2);
    asking.finds(4, 3, 2);
    asking.finds(6, 3, 2);
    asking.row(0, 2, 1, Some(2), 3);
    asking.row(1, 2, 2, Some(2), 3);
    asking.case()
}

/// A decision is judged at its commit record: the cells read are written again before the decision record.
fn decided_at_its_commit() -> Case {
    let log = log_of(&[
        update(0, &[put(3, 1, 1)]),
        update(1, &[put(2, 1, 1)]),
        commit(1, &[read(3, 1, 1)]),
        update(2, &[put(2, 2, 1)]),
        commit(2, &[read(3, 1, 0)]),
        update(0, &[put(3, 1, 2)]),
        decision(2, COMMIT),
        decision(4, ABORT),
    ]);
    let mut asking = Asking::on("decisions judged at their commit record", log, junk(72));
    asking.audits(6, 2);
    asking.audits(7, 2);
    asking.audits(8, 2);
    asking.holds(3, 1, 2, 6);
    asking.holds(2, 1, 1, 3);
    asking.row(0, 2, 1, Some(1), 3);
    asking.row(1, 3, 1, Some(2), 6);
    asking.case()
}

/// 13 at the entry whose new cells have no room, with nothing of it shown; an abort needs none.
fn rooms() -> Case {
    let log = log_of(&[
        update(0, &[put(2, 1, 1)]),
        update(1, &[put(2, 2, 2), put(2, 3, 3)]),
        update(2, &[put(2, 2, 4), put(2, 1, 4)]),
        commit(2, &[read(2, 1, 0)]),
        update(3, &[put(2, 2, 5), put(2, 2, 6)]),
        commit(3, &[read(2, 1, 1)]),
        commit(1, &[]),
    ]);
    let mut asking = Asking::on("an audit that lacks room", log, junk(71));
    asking.audits(6, 2);
    asking.lacks(7, 6, 2);
    asking.holds(2, 2, 6, 6);
    asking.never(2, 3);
    asking.row(0, 2, 1, Some(1), 1);
    asking.row(1, 2, 2, Some(6), 6);
    asking.case()
}

/// An object with more cells than a checkpoint has: twelve of them are not all.
fn crowded() -> Case {
    let some: Vec<_> = (0..12).map(|key| put(4, key, key)).collect();
    let cells: Vec<_> = (0..12).map(|key| Row::of(4, key, Some(key), 1)).collect();
    let log = log_of(&[
        update(0, &some),
        checkpoint_of(4, 1, &cells),
        update(0, &[put(4, 12, 12)]),
        checkpoint_of(4, 3, &cells),
    ]);
    let mut asking = Asking::on("more cells than a checkpoint has", log, junk(400));
    asking.audits(3, 13);
    asking.finds(4, 3, 13);
    for key in 0..13 {
        let version = if key == 12 { 3 } else { 1 };
        asking.row(key as usize, 4, key, Some(key), version);
    }
    asking.case()
}
