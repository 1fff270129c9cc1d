//! The worked logs, whole and in instalments.

use crate::appending::{junk, with_junk};
use crate::sample::*;
use crate::slot::{ABORT, COMMIT};

use super::{Asking, Case};

pub fn cases() -> Vec<Case> {
    vec![
        bench_of(2),
        bench_of(255),
        bench_of(16),
        bench_version(0),
        bench_version(2),
        bench_instalments(),
        put_and_remove(),
        waiting(),
        waiting_with(COMMIT),
        waiting_with(ABORT),
        instalments(false),
        instalments(true),
    ]
}

fn bench_of(hosted: u64) -> Case {
    let name = format!("bench log, hosted set {hosted}");
    let length = if hosted == 255 { 2400 } else { 60 };
    let mut asking = Asking::on(&name, log_of(&bench()), junk(length));
    asking.opens(hosted);
    if hosted == 16 {
        asking.plays(5, 5, 0);
        asking.no_cell(2, 7, 3);
        asking.never(5, 7);
        return asking.case();
    }
    asking.never(2, 7);
    asking.plays(5, 5, 1);
    asking.holds(2, 7, 42, 4);
    asking.never(2, 8);
    asking.row(0, 2, 7, Some(42), 4);
    asking.case()
}

/// Version 0 is stale, 2 astray, in a log written before (16.4).
fn bench_version(version: u64) -> Case {
    let name = format!("bench log, read version {version} at entry 3");
    let mut asking = Asking::on(&name, log_of(&bench_with(version)), junk(60));
    asking.opens(2);
    asking.plays(5, 4, 1);
    asking.holds(2, 7, 43, 1);
    asking.plays(5, 5, 1);
    asking.holds(2, 7, 40, 5);
    asking.row(0, 2, 7, Some(40), 5);
    asking.case()
}

/// One entry a play, at the tail that the log had then; then once more from the start, over the same table.
fn bench_instalments() -> Case {
    let mut asking = Asking::on("bench log in instalments", log_of(&bench()), junk(48));
    asking.opens(2);
    for (stop, value, version) in [(1, 43, 1), (2, 43, 1), (3, 43, 1), (4, 42, 4), (5, 42, 4)] {
        asking.plays(stop, u64::from(stop), 1);
        asking.holds(2, 7, value, version);
    }
    asking.opens(255);
    asking.never(2, 7);
    asking.plays(5, 3, 1);
    asking.holds(2, 7, 43, 1);
    asking.row(0, 2, 7, Some(43), 1);
    asking.case()
}

/// A removed cell's version; a read with version 0 is stale (16.4).
fn put_and_remove() -> Case {
    let log = log_of(&[
        update(0, &[put(2, 7, 43)]),
        update(0, &[remove(2, 7)]),
        update(1, &[put(2, 8, 1)]),
        commit(1, &[read(2, 7, 0)]),
        update(2, &[put(2, 7, 5)]),
        commit(2, &[read(2, 7, 2)]),
        // A remove of a never written cell.
        update(0, &[remove(2, 9), put(2, 7, 5)]),
        // A remove of a removed one.
        update(0, &[remove(2, 9)]),
    ]);
    let mut asking = Asking::on("put and remove", log, junk(72));
    asking.opens(2);
    asking.plays(2, 2, 1);
    asking.removed(2, 7, 2);
    asking.plays(8, 4, 1);
    asking.removed(2, 7, 2);
    asking.never(2, 8);
    asking.plays(8, 6, 1);
    asking.holds(2, 7, 5, 6);
    asking.plays(8, 7, 2);
    asking.holds(2, 7, 5, 7);
    asking.removed(2, 9, 7);
    asking.plays(8, 8, 2);
    asking.removed(2, 9, 8);
    asking.row(0, 2, 7, Some(5), 7);
    asking.row(1, 2, 9, None, 8);
    asking.case()
}

fn order() -> Vec<crate::append::Request> {
    vec![
        update(0, &[put(2, 7, 43)]),
        update(1, &[put(5, 1, 9)]),
        commit(1, &[read(2, 7, 1)]),
    ]
}

/// A read that is not hosted, without a decision record (16.4).
fn waiting() -> Case {
    let log = with_junk(&order(), 1);
    let mut asking = Asking::on("a commit that waits", log, junk(48));
    asking.opens(16);
    asking.stops(3, 3, 12, 2, 0);
    asking.never(5, 1);
    asking.no_cell(2, 7, 3);
    asking.stops(3, 3, 12, 2, 0);
    asking.plays(3, 2, 0);
    asking.refuses(3, 1, 3);
    // The commit record is not reached, or not below the tail.
    asking.opens(16);
    asking.plays(3, 2, 0);
    asking.opens(16);
    asking.plays(2, 2, 0);
    // Hosting what is read too, it needs no decision.
    asking.opens(18);
    asking.plays(3, 3, 2);
    asking.holds(5, 1, 9, 3);
    asking.row(0, 2, 7, Some(43), 1);
    asking.row(1, 5, 1, Some(9), 3);
    asking.case()
}

/// The same with its decision record (16.4); at the older tail it waits.
fn waiting_with(outcome: u32) -> Case {
    let mut requests = order();
    requests.push(decision(2, outcome));
    requests.push(update(0, &[put(5, 2, 8)]));
    let name = format!("a commit with its decision above, outcome {outcome}");
    let mut asking = Asking::on(&name, log_of(&requests), junk(48));
    asking.opens(16);
    asking.stops(3, 3, 12, 2, 0);
    asking.never(5, 1);
    let made = u64::from(outcome == COMMIT);
    asking.plays(4, 3, made);
    if outcome == COMMIT {
        asking.holds(5, 1, 9, 3);
        asking.row(0, 5, 1, Some(9), 3);
    } else {
        asking.never(5, 1);
    }
    asking.plays(5, 5, made + 1);
    asking.holds(5, 2, 8, 5);
    asking.row(made as usize, 5, 2, Some(8), 5);
    asking.case()
}

/// Instalments against one play: both leave the same.
fn instalments(whole: bool) -> Case {
    let log = log_of(&[
        update(0, &[put(5, 3, 1), put(2, 1, 1)]),
        update(7, &[put(2, 2, 2), put(4, 1, 2)]),
        update(0, &[put(2, 1, 3)]),
        update(7, &[put(2, 1, 4), remove(5, 3)]),
        update(8, &[put(4, 2, 5)]),
        commit(8, &[read(4, 2, 0), read(5, 3, 1)]),
        commit(7, &[read(2, 1, 3)]),
        update(0, &[put(2, 3, 6), put(2, 2, 6)]),
    ]);
    let name = if whole {
        "instalments: one play"
    } else {
        "instalments"
    };
    let mut asking = Asking::on(name, log, junk(150));
    asking.opens(26);
    if !whole {
        for (stop, count) in [(1, 2), (2, 2), (3, 2), (4, 2), (5, 2), (6, 3), (7, 5)] {
            asking.plays(8, stop, count);
        }
        asking.holds(2, 2, 2, 7);
    }
    asking.plays(8, 8, 6);
    asking.holds(2, 1, 4, 7);
    asking.holds(2, 2, 6, 8);
    asking.holds(2, 3, 6, 8);
    asking.holds(4, 1, 2, 7);
    asking.holds(4, 2, 5, 6);
    asking.removed(5, 3, 7);
    asking.row(0, 2, 1, Some(4), 7);
    asking.row(1, 2, 2, Some(6), 8);
    asking.row(2, 2, 3, Some(6), 8);
    asking.row(3, 4, 1, Some(2), 7);
    asking.row(4, 4, 2, Some(5), 6);
    asking.row(5, 5, 3, None, 7);
    asking.case()
}
