//! False records: decisions and checkpoints that are not as played, the lowest of several, and 13 before 11.

use crate::appending::junk;
use crate::playing::{Asking, Case};
use crate::sample::*;
use crate::slot::{ABORT, COMMIT};
use crate::table::Row;

pub fn cases() -> Vec<Case> {
    let mut cases = vec![
        false_commit(),
        false_abort(),
        no_reads(),
        lowest_of_several(),
        no_room_first(48),
        no_room_first(72),
        other_objects(),
    ];
    cases.extend(false_checkpoints());
    cases.extend([unmet_names(), met_names()]);
    cases
}

/// Number 8 aborts for its read, and so does 9, which names it, at 5. Number 10 at 8 names 7, which has committed, and 11, which commits
/// too late, at 10.
fn naming() -> Vec<crate::append::Request> {
    vec![
        update(0, &[put(3, 1, 1)]),
        update(8, &[put(2, 1, 2)]),
        update(9, &[put(2, 2, 3)]),
        commit(8, &[read(3, 1, 0)]),
        update(7, &[put(4, 1, 5)]),
        commit_after(9, &[read(3, 1, 1)], 8, 0),
        commit(7, &[]),
        update(10, &[put(4, 2, 6)]),
        commit_after(10, &[read(3, 1, 1)], 7, 11),
        update(11, &[put(4, 3, 6)]),
        commit_after(11, &[], 7, 0),
    ]
}

/// An unmet name makes a decision to commit false; it is judged at the commit record, so a later commit of the named number is too
/// late.
fn unmet_names() -> Case {
    let mut requests = naming();
    requests.extend([
        decision(5, ABORT),
        decision(10, COMMIT),
        decision(8, COMMIT),
        decision(3, COMMIT),
    ]);
    let mut asking = Asking::on("a false commit, unmet names", log_of(&requests), junk(80));
    asking.audits(13, 3);
    asking.finds(14, 13, 3);
    asking.finds(15, 13, 3);
    asking.never(2, 2);
    asking.never(4, 2);
    asking.holds(4, 3, 6, 11);
    asking.row(0, 3, 1, Some(1), 1);
    asking.row(1, 4, 1, Some(5), 7);
    asking.row(2, 4, 3, Some(6), 11);
    asking.case()
}

/// Met names make a decision to abort false.
fn met_names() -> Case {
    let mut requests = naming();
    requests.extend([
        decision(8, ABORT),
        decision(10, ABORT),
        checkpoint_of(
            4,
            13,
            &[Row::of(4, 1, Some(5), 7), Row::of(4, 3, Some(6), 11)],
        ),
        checkpoint_of(2, 14, &[]),
    ]);
    let mut asking = Asking::on("a false abort, met names", log_of(&requests), junk(75));
    asking.audits(12, 3);
    for tail in [13, 14, 15] {
        asking.finds(tail, 12, 3);
    }
    asking.row(0, 3, 1, Some(1), 1);
    asking.row(1, 4, 1, Some(5), 7);
    asking.row(2, 4, 3, Some(6), 11);
    asking.case()
}

/// The commit record at 2 commits, the one at 4 aborts.
fn tried() -> Vec<crate::append::Request> {
    vec![
        update(0, &[put(3, 1, 1)]),
        update(1, &[put(2, 1, 2)]),
        commit(1, &[read(3, 1, 1)]),
        update(2, &[put(2, 2, 3)]),
        commit(2, &[read(3, 1, 0)]),
    ]
}

fn false_commit() -> Case {
    let mut requests = tried();
    requests.extend([decision(2, COMMIT), decision(4, COMMIT)]);
    let mut asking = Asking::on("a false commit", log_of(&requests), junk(72));
    asking.audits(6, 2);
    asking.finds(7, 6, 2);
    // The scratch is as played: the decision record is not believed.
    asking.never(2, 2);
    asking.holds(2, 1, 2, 3);
    asking.row(0, 2, 1, Some(2), 3);
    asking.row(1, 3, 1, Some(1), 1);
    asking.case()
}

fn false_abort() -> Case {
    let mut requests = tried();
    requests.extend([decision(4, ABORT), decision(2, ABORT)]);
    let mut asking = Asking::on("a false abort", log_of(&requests), junk(50));
    asking.audits(6, 2);
    asking.finds(7, 6, 2);
    asking.holds(2, 1, 2, 3);
    asking.row(0, 2, 1, Some(2), 3);
    asking.row(1, 3, 1, Some(1), 1);
    asking.case()
}

/// A commit record without reads commits.
fn no_reads() -> Case {
    let log = log_of(&[
        update(1, &[put(6, 0, 1)]),
        update(2, &[put(6, 0, 2)]),
        commit(2, &[]),
        commit(1, &[]),
        decision(3, COMMIT),
        decision(2, ABORT),
    ]);
    let mut asking = Asking::on("a false abort of a commit without reads", log, junk(30));
    asking.audits(5, 1);
    asking.finds(6, 5, 1);
    asking.holds(6, 0, 1, 4);
    asking.row(0, 6, 0, Some(1), 4);
    asking.case()
}

/// 11 tells the lowest false record (11.5).
fn lowest_of_several() -> Case {
    let mut requests = tried();
    requests.extend([
        checkpoint_of(2, 5, &[Row::of(2, 1, Some(2), 3)]),
        checkpoint_of(3, 6, &[]),
        decision(4, COMMIT),
        checkpoint_of(2, 8, &[]),
        decision(2, ABORT),
    ]);
    let mut asking = Asking::on("the lowest of several", log_of(&requests), junk(60));
    asking.audits(6, 2);
    for tail in [7, 8, 9, 10] {
        asking.finds(tail, 6, 2);
    }
    asking.row(0, 2, 1, Some(2), 3);
    asking.row(1, 3, 1, Some(1), 1);
    asking.case()
}

/// Order: 1, 2, 13, 11 (13.5).
fn no_room_first(length: usize) -> Case {
    let mut requests = tried();
    requests.extend([
        checkpoint_of(2, 5, &[]),
        decision(4, COMMIT),
        update(0, &[put(8, 0, 1)]),
        checkpoint_of(8, 8, &[]),
    ]);
    let name = format!("13 before 11, a table of {length} bytes");
    let mut asking = Asking::on(&name, log_of(&requests), junk(length));
    asking.finds(7, 5, 2);
    asking.row(0, 2, 1, Some(2), 3);
    asking.row(1, 3, 1, Some(1), 1);
    if length < 72 {
        asking.lacks(8, 7, 2);
        asking.lacks(9, 7, 2);
        asking.never(8, 0);
        return asking.case();
    }
    asking.finds(9, 5, 3);
    asking.holds(8, 0, 1, 8);
    asking.row(2, 8, 0, Some(1), 8);
    asking.case()
}

/// Cells of other objects do not count, with the same keys.
fn other_objects() -> Case {
    let log = log_of(&[
        update(0, &[put(2, 1, 1), put(3, 1, 2), put(4, 1, 3)]),
        checkpoint_of(3, 1, &[Row::of(3, 1, Some(2), 1)]),
        checkpoint_of(4, 2, &[Row::of(4, 1, Some(2), 1)]),
    ]);
    let mut asking = Asking::on("cells of other objects", log, junk(72));
    asking.audits(2, 3);
    asking.finds(3, 2, 3);
    asking.row(0, 2, 1, Some(1), 1);
    asking.row(1, 3, 1, Some(2), 1);
    asking.row(2, 4, 1, Some(3), 1);
    asking.case()
}

/// A checkpoint of object 5 with the keys 1 (removed) and 2, wrong in one thing each.
fn false_checkpoints() -> Vec<Case> {
    let (one, two) = (Row::of(5, 1, None, 2), Row::of(5, 2, Some(8), 1));
    let wrong: [(&str, Vec<Row>); 9] = [
        ("none", vec![]),
        ("one left out", vec![one]),
        ("the other left out", vec![two]),
        ("one too many", vec![one, two, Row::of(5, 3, Some(0), 1)]),
        ("another value", vec![one, Row::of(5, 2, Some(9), 1)]),
        ("another version", vec![one, Row::of(5, 2, Some(8), 2)]),
        ("removed", vec![one, Row::of(5, 2, None, 1)]),
        ("not removed", vec![Row::of(5, 1, Some(0), 2), two]),
        ("another key", vec![Row::of(5, 0, None, 2), two]),
    ];
    wrong
        .into_iter()
        .map(|(what, rows)| {
            let log = log_of(&[
                update(0, &[put(5, 2, 8), put(5, 1, 4)]),
                update(0, &[remove(5, 1)]),
                checkpoint_of(5, 2, &[one, two]),
                checkpoint_of(5, 3, &rows),
            ]);
            let name = format!("a false checkpoint: {what}");
            let mut asking = Asking::on(&name, log, junk(48));
            asking.audits(3, 2);
            asking.finds(4, 3, 2);
            asking.row(0, 5, 1, None, 2);
            asking.row(1, 5, 2, Some(8), 1);
            asking.case()
        })
        .collect()
}
