//! Commits by own cells and by decisions, records not opened by the library, entries passed over.

use crate::appending::junk;
use crate::sample::*;
use crate::slot::{ABORT, COMMIT};
use crate::table::Row;

use super::{record, Asking, Case};

pub fn cases() -> Vec<Case> {
    vec![
        false_decisions(),
        own_cells(),
        part_of_the_reads(),
        no_reads(),
        passed_over(),
        later_decisions(),
        hosted_writes_alone(),
        aborted_versions(),
        set_aside_below(),
        position_in_the_middle(),
        position_past_the_commit(),
    ]
}

/// A replica that hosts all objects read decides by its own cells; any other believes the decision.
fn false_decisions() -> Case {
    let log = log_of(&[
        update(0, &[put(3, 1, 1)]),
        update(1, &[put(2, 1, 2)]),
        commit(1, &[read(3, 1, 1)]),
        update(2, &[put(2, 2, 3)]),
        commit(2, &[read(3, 1, 0)]),
        // Both are false.
        decision(2, ABORT),
        decision(4, COMMIT),
    ]);
    let mut asking = Asking::on("false decisions", log, junk(72));
    asking.opens(4);
    asking.plays(7, 7, 1);
    asking.opens(2);
    asking.plays(7, 7, 1);
    asking.never(2, 1);
    asking.holds(2, 2, 3, 5);
    asking.opens(6);
    asking.plays(7, 7, 2);
    asking.holds(3, 1, 1, 1);
    asking.holds(2, 1, 2, 3);
    asking.never(2, 2);
    asking.row(0, 2, 1, Some(2), 3);
    asking.row(1, 3, 1, Some(1), 1);
    asking.case()
}

/// The same two commits with true decisions: both replicas have the same cells of object 2.
fn own_cells() -> Case {
    let log = log_of(&[
        update(0, &[put(3, 1, 1)]),
        update(1, &[put(2, 1, 2)]),
        commit(1, &[read(3, 1, 1)]),
        decision(2, COMMIT),
        update(2, &[put(2, 2, 3)]),
        commit(2, &[read(3, 1, 0)]),
        decision(5, ABORT),
    ]);
    let mut asking = Asking::on("true decisions", log, junk(72));
    asking.opens(6);
    asking.plays(3, 3, 2);
    asking.plays(7, 7, 2);
    asking.holds(2, 1, 2, 3);
    asking.never(2, 2);
    asking.opens(2);
    asking.stops(3, 3, 12, 2, 0);
    asking.plays(4, 4, 1);
    asking.stops(6, 6, 12, 5, 1);
    asking.holds(2, 1, 2, 3);
    asking.plays(7, 7, 1);
    asking.never(2, 2);
    asking.row(0, 2, 1, Some(2), 3);
    asking.row(1, 3, 1, Some(1), 1);
    asking.case()
}

/// Hosting some of the objects read is not enough, also where a hosted cell shows the read to be stale.
fn part_of_the_reads() -> Case {
    let log = log_of(&[
        update(0, &[put(2, 1, 1), put(3, 1, 1), put(4, 1, 1)]),
        update(1, &[put(2, 2, 2)]),
        commit(1, &[read(2, 1, 0), read(3, 1, 1)]),
        decision(2, COMMIT),
    ]);
    let mut asking = Asking::on("some of the objects read", log, junk(100));
    asking.opens(2);
    asking.stops(3, 3, 12, 2, 1);
    asking.plays(4, 4, 2);
    asking.holds(2, 2, 2, 3);
    asking.opens(10);
    asking.stops(3, 3, 12, 2, 2);
    asking.opens(4);
    // No entry of object 3 but the first.
    asking.plays(3, 3, 1);
    asking.opens(6);
    asking.plays(4, 4, 2);
    asking.never(2, 2);
    asking.row(0, 2, 1, Some(1), 1);
    asking.row(1, 3, 1, Some(1), 1);
    asking.case()
}

/// A commit without reads counts as hosting all.
fn no_reads() -> Case {
    let log = log_of(&[
        update(1, &[put(2, 1, 1), put(6, 0, 1)]),
        commit(1, &[]),
        update(2, &[put(8, 0, 2)]),
        commit(2, &[]),
        decision(1, ABORT),
        decision(3, ABORT),
    ]);
    let mut asking = Asking::on("commits without reads", log, junk(72));
    asking.opens(2);
    asking.plays(2, 2, 1);
    asking.holds(2, 1, 1, 2);
    asking.plays(6, 6, 1);
    asking.opens(160);
    asking.plays(6, 6, 2);
    asking.holds(6, 0, 1, 2);
    asking.holds(8, 0, 2, 4);
    asking.row(0, 6, 0, Some(1), 2);
    asking.row(1, 8, 0, Some(2), 4);
    asking.case()
}

/// Decisions and checkpoints change no cell, false ones too.
fn passed_over() -> Case {
    let log = log_of(&[
        checkpoint_of(2, 0, &[]),
        update(0, &[put(2, 1, 1)]),
        checkpoint_of(
            2,
            2,
            &[Row::of(2, 1, Some(9), 1), Row::of(2, 5, Some(9), 2)],
        ),
        update(3, &[put(2, 2, 2)]),
        commit(3, &[read(2, 1, 2)]),
        checkpoint_of(2, 5, &[]),
        decision(4, ABORT),
        checkpoint_of(3, 7, &[Row::of(3, 1, None, 1)]),
    ]);
    let mut asking = Asking::on("checkpoints and decisions passed over", log, junk(72));
    asking.opens(6);
    asking.plays(1, 1, 0);
    asking.plays(3, 3, 1);
    asking.holds(2, 1, 1, 2);
    asking.never(2, 5);
    asking.plays(8, 8, 2);
    asking.holds(2, 2, 2, 5);
    asking.never(3, 1);
    asking.row(0, 2, 1, Some(1), 2);
    asking.row(1, 2, 2, Some(2), 5);
    asking.case()
}

/// Decisions far above, in another order than their commit records; a play at a tail between them waits.
fn later_decisions() -> Case {
    let log = log_of(&[
        update(1, &[put(5, 1, 1)]),
        update(2, &[put(5, 1, 2)]),
        commit(2, &[read(1, 1, 0)]),
        commit(1, &[read(3, 1, 0)]),
        update(0, &[put(5, 2, 3)]),
        decision(3, COMMIT),
        update(0, &[put(1, 1, 4)]),
        decision(2, COMMIT),
    ]);
    let mut asking = Asking::on("decisions in another order", log, junk(72));
    asking.opens(16);
    asking.stops(6, 6, 12, 2, 0);
    asking.stops(7, 3, 12, 2, 0);
    asking.plays(8, 3, 1);
    asking.holds(5, 1, 2, 3);
    // At the older tail the first decision is not there, but that entry is played.
    asking.plays(6, 6, 2);
    asking.holds(5, 1, 1, 4);
    asking.opens(17);
    asking.stops(5, 5, 12, 3, 1);
    asking.holds(5, 1, 2, 3);
    asking.plays(8, 8, 3);
    asking.holds(1, 1, 4, 7);
    asking.row(0, 1, 1, Some(4), 7);
    asking.row(1, 5, 1, Some(1), 4);
    asking.row(2, 5, 2, Some(3), 5);
    asking.case()
}

/// Of an entry with other objects' writes, the hosted ones alone.
fn hosted_writes_alone() -> Case {
    let writes = [put(1, 1, 1), put(2, 1, 2), put(3, 1, 3), put(2, 2, 4)];
    let log = log_of(&[
        update(0, &writes),
        update(5, &[put(3, 2, 5), put(2, 1, 6)]),
        update(5, &[put(4, 1, 7), remove(2, 2)]),
        commit(5, &[read(2, 1, 1)]),
    ]);
    let mut asking = Asking::on("hosted writes alone", log, junk(96));
    asking.opens(2);
    asking.plays(4, 1, 2);
    asking.holds(2, 1, 2, 1);
    asking.holds(2, 2, 4, 1);
    asking.plays(4, 4, 2);
    asking.holds(2, 1, 6, 4);
    asking.removed(2, 2, 4);
    asking.no_cell(3, 1, 3);
    asking.no_cell(4, 1, 3);
    asking.row(0, 2, 1, Some(6), 4);
    asking.row(1, 2, 2, None, 4);
    asking.case()
}

/// An aborted transaction's write raises no version; the offset itself and the update's offset are no versions.
fn aborted_versions() -> Case {
    let log = log_of(&[
        update(1, &[put(2, 1, 1)]),
        update(0, &[put(2, 2, 2)]),
        commit(1, &[read(2, 1, 0), read(2, 2, 2)]),
        update(2, &[put(2, 1, 3)]),
        commit(2, &[read(2, 1, 3)]),
        update(3, &[put(2, 1, 4)]),
        commit(3, &[read(2, 1, 1)]),
        update(4, &[put(2, 2, 5)]),
        commit(4, &[read(2, 1, 5), read(2, 2, 2)]),
        update(5, &[put(2, 2, 6)]),
        commit(5, &[read(2, 1, 4)]),
    ]);
    let mut asking = Asking::on("versions of commits and aborts", log, junk(48));
    asking.opens(2);
    asking.plays(11, 3, 2);
    asking.holds(2, 1, 1, 3);
    asking.plays(11, 5, 2);
    asking.holds(2, 1, 3, 5);
    asking.plays(11, 7, 2);
    asking.holds(2, 1, 3, 5);
    asking.plays(11, 9, 2);
    asking.holds(2, 2, 5, 9);
    asking.plays(11, 11, 2);
    asking.holds(2, 2, 5, 9);
    asking.row(0, 2, 1, Some(3), 5);
    asking.row(1, 2, 2, Some(5), 9);
    asking.case()
}

/// A record not opened by the library plays from its position; updates set aside below it are found in the log.
fn set_aside_below() -> Case {
    let log = log_of(&[
        update(9, &[put(2, 1, 1)]),
        update(0, &[put(2, 2, 2)]),
        update(9, &[put(2, 3, 3), put(2, 1, 4)]),
        commit(9, &[]),
        update(0, &[put(2, 4, 5)]),
    ]);
    let name = "updates set aside below the position";
    let mut asking = Asking::with(name, log, junk(100), record(2, 2, 0));
    asking.never(2, 2);
    asking.plays(4, 4, 2);
    asking.holds(2, 1, 4, 4);
    asking.holds(2, 3, 3, 4);
    asking.never(2, 2);
    asking.plays(5, 5, 3);
    asking.row(0, 2, 1, Some(4), 4);
    asking.row(1, 2, 3, Some(3), 4);
    asking.row(2, 2, 4, Some(5), 5);
    asking.case()
}

/// Its cells are what the commit's reads meet.
fn position_in_the_middle() -> Case {
    let log = log_of(&bench());
    let mut table = table_of(&[Row::of(2, 7, Some(100), 1), Row::of(2, 8, None, 77)]);
    table.extend(junk(30));
    let name = "a record at the commit record";
    let mut asking = Asking::with(name, log, table, record(2, 3, 2));
    asking.holds(2, 7, 100, 1);
    asking.removed(2, 8, 77);
    asking.plays(4, 4, 2);
    asking.holds(2, 7, 42, 4);
    asking.plays(5, 5, 2);
    asking.holds(2, 7, 42, 4);
    asking.row(0, 2, 7, Some(42), 4);
    asking.case()
}

/// A record past a commit record has nothing of it; without its cell the next read with version 1 is stale.
fn position_past_the_commit() -> Case {
    let log = log_of(&bench());
    let name = "a record past the commit record";
    let mut asking = Asking::with(name, log, junk(48), record(2, 4, 0));
    asking.plays(5, 5, 0);
    asking.never(2, 7);
    asking.plays(5, 5, 0);
    asking.refuses(5, 4, 3);
    asking.refuses(4, 4, 10);
    asking.case()
}
