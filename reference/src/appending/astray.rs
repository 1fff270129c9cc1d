//! Reads whose versions point to no entry that writes their cell (6.11), and some that point to one. That 16 comes before 9
//! is among the `orders`.

use crate::sample::*;
use crate::slot::{Read, ABORT, COMMIT};
use crate::table::Row;

use super::{astray, with_junk, Asking, Case};

pub fn cases() -> Vec<Case> {
    vec![worked(), aborted_before(), pointed_to()]
}

/// The bench log's entries 0 to 3 (16.4): a plain update, one of 9, one of 10, and the commit record of 9.
fn worked() -> Case {
    let name = "offsets sent as versions";
    let mut asking = Asking::on(name, with_junk(&bench()[..4], 1), 4);
    for version in [2, 3] {
        asking.ask(commit(10, &[read(2, 7, version)]), astray(0));
    }
    asking.ask(commit(10, &[read(2, 8, 1)]), astray(0));
    asking.ask(commit(10, &[read(3, 7, 4)]), astray(0));
    let second = [read(2, 7, 1), read(2, 8, 3)];
    asking.ask(commit(10, &second), astray(1));
    let both = [read(2, 7, 2), read(2, 8, 3)];
    asking.ask(commit(10, &both), astray(0));
    let third = [read(1, 7, 0), read(2, 7, 4), read(2, 8, 4), read(8, 0, 4)];
    asking.ask(commit(10, &third), astray(2));
    // 3, 4 and 6 come first.
    asking.refused(3, commit(10, &[read(2, 7, 5)]));
    asking.refused(3, commit(10, &[read(2, 7, 2), read(2, 8, 5)]));
    asking.refused(3, commit(10, &[read(2, 8, 2), read(2, 7, 2)]));
    asking.refused(3, commit(0, &[read(2, 7, 2)]));
    asking.refused(4, commit(9, &[read(2, 7, 2)]));
    asking.refused(6, commit(11, &[read(2, 7, 2)]));
    asking.done(commit(10, &[read(2, 7, 4), read(2, 8, 0)]));
    asking.case()
}

/// A log written before: commit 9 has an astray read and aborts. What points to it is not astray all the same.
fn aborted_before() -> Case {
    let mut base = bench_with(2)[..4].to_vec();
    base.push(decision(3, ABORT));
    let name = "an aborted commit record with an astray read";
    let mut asking = Asking::on(name, with_junk(&base, 1), 5);
    for version in [2, 3, 5] {
        asking.ask(commit(10, &[read(2, 7, version)]), astray(0));
    }
    asking.done(commit(10, &[read(2, 7, 4)]));
    asking.case()
}

/// Entries of each kind, and transactions of several updates.
fn pointed_to() -> Case {
    let mut writes: Vec<_> = (0..10).map(|key| put(2, key, 1)).collect();
    writes.extend([remove(3, 1), put(5, 9999, 1)]);
    let base = [
        update(0, &writes),
        update(7, &[put(2, 20, 1), put(2, 21, 1)]),
        update(8, &[put(2, 30, 1)]),
        update(7, &[remove(4, 1)]),
        update(7, &[put(2, 22, 1)]),
        commit(7, &[]),
        decision(5, COMMIT),
        checkpoint_of(2, 7, &[Row::of(2, 20, Some(1), 6)]),
        update(9, &[put(2, 40, 1)]),
    ];
    let mut asking = Asking::on("what versions point to", with_junk(&base, 2), 9);
    for (key, version) in [
        // numbered updates: of a closed number, another open one, its own
        (20, 2),
        (22, 5),
        (30, 3),
        (40, 9),
        // a commit record, of what another number's updates write, and the plain update
        (30, 6),
        (0, 6),
        (40, 6),
        // a decision record and a checkpoint about the cell
        (20, 7),
        (20, 8),
        // a plain update that does not write the cell
        (10, 1),
        (20, 1),
    ] {
        asking.ask(commit(9, &[read(2, key, version)]), astray(0));
    }
    asking.ask(commit(8, &[read(2, 30, 3)]), astray(0));
    asking.ask(commit(9, &[read(3, 0, 1)]), astray(0));
    asking.ask(commit(9, &[read(3, 1, 6)]), astray(0));
    asking.ask(commit(9, &[read(4, 1, 4)]), astray(0));
    let twelve = |last: Read| {
        let mut reads: Vec<Read> = (0..8).map(|key| read(2, key, 1)).collect();
        reads.extend([read(2, 20, 6), read(2, 22, 6), read(3, 1, 1), last]);
        reads
    };
    asking.ask(commit(9, &twelve(read(5, 9998, 1))), astray(11));
    asking.ask(commit(9, &twelve(read(4, 1, 1))), astray(11));
    // the last of 12 writes; a removal in a transaction
    asking.done(commit(9, &twelve(read(5, 9999, 1))));
    asking.done(commit(8, &[read(2, 21, 6), read(2, 40, 10), read(4, 1, 6)]));
    asking.case()
}
