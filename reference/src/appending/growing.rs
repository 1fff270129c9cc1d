//! Logs that grow: the bench log, transactions, decisions, pointers, entries after checkpoints.

use crate::append::Request;
use crate::sample::*;
use crate::slot::{ABORT, COMMIT, SLOT};
use crate::table::Row;

use super::{junk, with_junk, Asking, Case};

pub fn cases() -> Vec<Case> {
    vec![
        bench_case("bench log", &bench()),
        bench_case("bench log, read version 0 at entry 3", &bench_with(0)),
        sixth(),
        widest(),
        used_after_commit(),
        second_decision(),
        no_commit_records(),
        pointers(),
        after_checkpoints(),
        interleaved(),
    ]
}

/// From an empty log of 8 slots.
fn bench_case(name: &str, requests: &[Request]) -> Case {
    let mut asking = Asking::on(name, vec![0; 8 * SLOT], 0);
    for request in requests {
        asking.done(request.clone());
    }
    asking.case()
}

/// The bench log, what it refuses, and more entries of object 2.
fn sixth() -> Case {
    let mut asking = Asking::on("bench log and on", with_junk(&bench(), 3), 5);
    asking.refused(4, update(9, &[put(2, 7, 1)]));
    asking.refused(4, commit(10, &[]));
    asking.refused(6, commit(11, &[read(2, 7, 4)]));
    asking.refused(7, decision(2, COMMIT));
    asking.done(update(0, &[put(2, 7, 41)]));
    asking.done(decision(4, ABORT));
    asking.done(decision(3, COMMIT));
    asking.refused(9, update(0, &[put(2, 7, 41)]));
    asking.case()
}

/// 12 and 13 reads (16.4), and writes.
fn widest() -> Case {
    let writes: Vec<_> = (0..13).map(|key| put(3, 13 - key, key)).collect();
    let reads: Vec<_> = (0..13).map(|key| read(5, key, 0)).collect();
    let mut asking = Asking::on("12 and 13 items", vec![0; 3 * SLOT], 0);
    asking.refused(3, update(3, &writes));
    asking.refused(3, update(0, &writes));
    asking.done(update(3, &writes[..12]));
    asking.refused(3, commit(3, &reads));
    asking.done(commit(3, &reads[1..]));
    asking.case()
}

fn used_after_commit() -> Case {
    let mut asking = Asking::on("a number after its commit record", junk(7 * SLOT), 0);
    asking.refused(6, commit(9, &[]));
    asking.done(update(9, &[put(2, 7, 1)]));
    asking.done(update(9, &[put(2, 7, 2), put(4, 7, 2)]));
    asking.done(commit(9, &[]));
    asking.refused(4, update(9, &[put(2, 7, 3)]));
    asking.refused(4, update(9, &[put(5, 7, 3)]));
    asking.refused(4, commit(9, &[]));
    asking.refused(4, commit(9, &[read(2, 7, 3)]));
    asking.done(decision(2, COMMIT));
    asking.refused(4, update(9, &[put(2, 7, 3)]));
    asking.refused(4, commit(9, &[]));
    // Plain updates and another number go on.
    asking.done(update(0, &[put(2, 7, 3)]));
    asking.done(update(90, &[put(2, 7, 3)]));
    asking.done(commit(90, &[]));
    asking.case()
}

fn second_decision() -> Case {
    let base = [
        update(1, &[put(2, 1, 1)]),
        update(2, &[put(5, 1, 1)]),
        commit(2, &[]),
        commit(1, &[]),
    ];
    let mut asking = Asking::on("a second decision", with_junk(&base, 3), 4);
    asking.done(decision(2, COMMIT));
    asking.refused(8, decision(2, COMMIT));
    asking.refused(8, decision(2, ABORT));
    asking.done(decision(3, ABORT));
    asking.refused(8, decision(3, ABORT));
    asking.refused(8, decision(3, COMMIT));
    asking.refused(8, decision(2, ABORT));
    asking.case()
}

/// Decisions for entries of each other kind.
fn no_commit_records() -> Case {
    let base = [
        update(0, &[put(2, 1, 1)]),
        update(7, &[put(2, 1, 1)]),
        commit(7, &[read(2, 1, 1)]),
        decision(2, COMMIT),
        checkpoint_of(2, 4, &[Row::of(2, 1, Some(1), 3)]),
    ];
    let mut asking = Asking::on("a decision for no commit record", with_junk(&base, 1), 5);
    for outcome in [COMMIT, ABORT] {
        for offset in [0, 1, 3, 4] {
            asking.refused(7, decision(offset, outcome));
        }
        asking.refused(8, decision(2, outcome));
    }
    asking.case()
}

/// Up to six earlier entries of an object, near and further, in updates, commits and decisions.
fn pointers() -> Case {
    let mut asking = Asking::on("pointers", junk(16 * SLOT), 0);
    asking.done(update(0, &[put(8, 0, 1), put(1, 1, 1)]));
    asking.done(update(0, &[put(2, 0, 1)]));
    asking.done(update(3, &[put(8, 0, 1), put(2, 0, 1)]));
    asking.done(update(0, &[put(2, 1, 1), put(2, 2, 1)]));
    asking.done(update(3, &[put(5, 1, 1)]));
    asking.done(update(0, &[put(2, 3, 1), put(1, 2, 1)]));
    asking.done(commit(3, &[read(1, 1, 1), read(6, 0, 0)]));
    asking.done(update(0, &[remove(2, 3)]));
    asking.done(decision(6, COMMIT));
    asking.done(update(
        0,
        &[put(1, 3, 1), put(8, 0, 3), put(5, 2, 1), put(2, 0, 2)],
    ));
    asking.done(update(4, &[put(6, 0, 1)]));
    asking.done(commit(4, &[read(2, 0, 10)]));
    asking.done(update(0, &[put(2, 3, 1), put(6, 0, 1)]));
    asking.done(decision(11, ABORT));
    asking.done(update(0, &[put(6, 0, 2), put(1, 1, 1)]));
    asking.done(update(
        0,
        &[put(7, 0, 2), put(6, 0, 1), put(2, 1, 1), put(1, 1, 1)],
    ));
    asking.refused(9, update(0, &[put(7, 0, 2)]));
    asking.case()
}

/// A checkpoint is an entry of its object, and of no number.
fn after_checkpoints() -> Case {
    let base = [
        checkpoint_of(2, 0, &[]),
        update(9, &[put(2, 7, 1)]),
        checkpoint_of(6, 2, &[]),
        checkpoint_of(2, 3, &[]),
    ];
    let mut asking = Asking::on("entries after checkpoints", with_junk(&base, 4), 4);
    asking.done(update(0, &[put(2, 7, 1), put(6, 0, 1)]));
    asking.done(update(9, &[put(6, 0, 1)]));
    asking.done(commit(9, &[read(2, 7, 5)]));
    asking.refused(7, decision(3, COMMIT));
    asking.done(decision(6, COMMIT));
    asking.case()
}

/// Several open transactions; the commit's headers are of the objects written, not of those read.
fn interleaved() -> Case {
    let mut asking = Asking::on("transactions interleaved", junk(12 * SLOT), 0);
    asking.done(update(1, &[put(4, 1, 1)]));
    asking.done(update(2, &[put(5, 1, 1)]));
    asking.done(update(1, &[put(2, 1, 1), put(5, 2, 1)]));
    asking.done(update(3, &[put(1, 1, 1)]));
    asking.done(update(2, &[put(3, 1, 1)]));
    asking.done(commit(2, &[read(1, 1, 0), read(4, 1, 0), read(7, 0, 0)]));
    asking.done(update(1, &[remove(4, 1)]));
    asking.refused(4, update(2, &[put(3, 1, 1)]));
    asking.refused(5, update(1, &[put(1, 1, 1), put(8, 0, 1)]));
    asking.done(commit(1, &[read(8, 0, 0)]));
    asking.refused(6, commit(4, &[]));
    asking.done(decision(7, COMMIT));
    asking.done(commit(3, &[]));
    asking.done(decision(5, ABORT));
    asking.done(decision(9, COMMIT));
    asking.refused(8, decision(7, COMMIT));
    asking.case()
}
