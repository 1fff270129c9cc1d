//! The sample logs of `playlog`, under `examples/logs`: NAME.log, and NAME.expected, what it prints.

use crate::append::Request;
use crate::random::{History, Mix};
use crate::report::{playlog, LONGEST_INPUT, TABLE_CELLS};
use crate::sample::{
    bench, bench_with, checkpoint_of, commit, commit_after, decision, delivery, log_of, put, read,
    remove, slot_mut, update,
};
use crate::slot::{Write, ABORT, COMMIT, MOST_ITEMS, SLOT};
use crate::table::Row;

pub struct Example {
    pub name: &'static str,
    pub log: Vec<u8>,
}

impl Example {
    pub fn expected(&self) -> String {
        playlog(&self.log)
    }
}

fn example(name: &'static str, log: Vec<u8>) -> Example {
    Example { name, log }
}

pub fn all() -> Vec<Example> {
    let mut examples = vec![
        example("bench", log_of(&bench())),
        example("bench-stale-read", log_of(&bench_with(0))),
        example("bench-astray-read", log_of(&bench_with(2))),
        example("empty", Vec::new()),
        example("removed", log_of(&removed())),
        example("transactions", log_of(&transactions())),
        example("checkpoints", log_of(&checkpoints())),
        example("delivery", log_of(&delivery())),
        example("deliveries", log_of(&deliveries())),
        example("longest", longest()),
        example("table-full", log_of(&cells(TABLE_CELLS))),
    ];
    examples.extend(refused());
    examples
}

/// One or more for each refusal that a log can have. A log that hosts everything never waits.
fn refused() -> Vec<Example> {
    let mut half = log_of(&bench());
    half.extend([0; SLOT / 2]);
    let mut longer = longest();
    longer.extend([0; SLOT]);
    let mut zero = log_of(&bench());
    slot_mut(&mut zero, 0).fill(0);
    let mut distance = log_of(&bench());
    slot_mut(&mut distance, 3)[13] = 2;
    slot_mut(&mut distance, 4)[0] = b'X';
    let mut itself = log_of(&delivery());
    slot_mut(&mut itself, 3)[251] = 10;
    vec![
        example("refused-1-half-a-slot", half),
        example("refused-1-too-long", longer),
        example("refused-2-at-0", zero),
        example("refused-2-at-3", distance),
        example("refused-2-names-itself", itself),
        example("refused-11-decision", log_of(&false_decision())),
        example("refused-11-delivery", log_of(&false_delivery())),
        example("refused-11-checkpoint", log_of(&false_checkpoint())),
        example("refused-11-cell-left-out", log_of(&cell_left_out())),
        example("refused-13", log_of(&cells(TABLE_CELLS + 6))),
        example("refused-13-before-11", log_of(&no_room_and_false())),
    ]
}

/// Removed cells: one that was put, one never written, one put again, one by a transaction.
fn removed() -> Vec<Request> {
    vec![
        update(0, &[put(2, 7, 43), put(4, 1, 5), put(6, 0, 100)]),
        update(0, &[remove(2, 7)]),
        update(0, &[remove(3, 3)]),
        update(0, &[remove(4, 1)]),
        update(0, &[put(4, 1, 6)]),
        update(1, &[remove(6, 0), put(2, 8, 1)]),
        commit(1, &[read(2, 7, 2), read(6, 0, 1)]),
        update(2, &[put(2, 7, 1)]),
        commit(2, &[read(2, 7, 0)]),
    ]
}

/// Transactions that overlap: fresh and stale reads, several updates, a later write to the same cell, decisions, no
/// reads, one that has no commit record.
fn transactions() -> Vec<Request> {
    vec![
        update(0, &[put(1, 17, 3), put(2, 40, 12), put(3, 40, 2)]),
        update(0, &[put(6, 0, 1000)]),
        update(21, &[put(5, 40, 1000), put(6, 0, 1001)]),
        update(22, &[put(5, 41, 1000)]),
        update(21, &[put(2, 40, 11)]),
        update(22, &[put(6, 0, 1001)]),
        commit(21, &[read(2, 40, 1), read(6, 0, 2)]),
        decision(6, COMMIT),
        commit(22, &[read(6, 0, 2)]),
        decision(8, ABORT),
        update(23, &[put(4, 40, 1), put(4, 40, 2)]),
        update(24, &[put(7, 0, 8)]),
        commit(23, &[read(2, 40, 7), read(4, 40, 0)]),
        update(25, &[put(8, 0, 1)]),
        commit(24, &[]),
        update(0, &[put(1, 17, 4)]),
        commit(25, &[read(1, 17, 1)]),
        update(26, &[put(8, 0, 2)]),
    ]
}

/// Deliveries: too early, after one that aborted, after two orders, after one that nobody made, with a stale read, by a number that is
/// still open, and in a chain.
fn deliveries() -> Vec<Request> {
    vec![
        update(0, &[put(2, 40, 12)]),
        update(31, &[put(5, 40, 4)]),
        update(32, &[put(5, 41, 4)]),
        update(41, &[put(4, 40, 4)]),
        commit_after(41, &[], 31, 0),
        commit(31, &[read(2, 40, 1)]),
        commit(32, &[]),
        update(42, &[put(4, 41, 1)]),
        commit_after(42, &[], 41, 0),
        update(43, &[put(4, 42, 8)]),
        commit_after(43, &[read(2, 40, 1)], 31, 32),
        decision(10, COMMIT),
        update(44, &[put(4, 43, 1)]),
        commit_after(44, &[], 77, 0),
        decision(13, ABORT),
        update(45, &[put(4, 44, 1)]),
        commit_after(45, &[read(2, 40, 0)], 31, 0),
        update(33, &[put(5, 42, 1)]),
        update(46, &[put(4, 45, 1)]),
        commit_after(46, &[], 31, 33),
        update(47, &[put(4, 46, 1)]),
        commit_after(47, &[], 43, 0),
        update(48, &[put(4, 47, 1)]),
        commit_after(48, &[], 32, 47),
    ]
}

/// A delivery that came too early, decided to commit.
fn false_delivery() -> Vec<Request> {
    let mut requests = deliveries()[..7].to_vec();
    requests.push(decision(4, COMMIT));
    requests
}

/// True checkpoints: of no cell, of some, of a removed one; updates set aside before one.
fn checkpoints() -> Vec<Request> {
    vec![
        checkpoint_of(7, 0, &[]),
        update(0, &[put(4, 3, 5), put(4, 1, 6), put(6, 0, 77)]),
        update(31, &[put(4, 2, 1), remove(4, 3)]),
        checkpoint_of(
            4,
            3,
            &[Row::of(4, 1, Some(6), 2), Row::of(4, 3, Some(5), 2)],
        ),
        commit(31, &[read(4, 3, 2)]),
        checkpoint_of(
            4,
            5,
            &[
                Row::of(4, 1, Some(6), 2),
                Row::of(4, 2, Some(1), 5),
                Row::of(4, 3, None, 5),
            ],
        ),
        checkpoint_of(6, 6, &[Row::of(6, 0, Some(77), 2)]),
    ]
}

/// A random history of true records that fills the longest input.
fn longest() -> Vec<u8> {
    let slots = LONGEST_INPUT / SLOT;
    let mix = Mix {
        keys: 12,
        ..Mix::true_records().before()
    };
    let mut history = History::new(256, slots, mix);
    while history.writer.tail < slots {
        history.step();
    }
    history.writer.log
}

/// Updates of 12 new cells each, the last of fewer.
fn cells(count: usize) -> Vec<Request> {
    let writes: Vec<Write> = (0..count as u32).map(|key| put(1, key, 1)).collect();
    writes
        .chunks(MOST_ITEMS)
        .map(|chunk| update(0, chunk))
        .collect()
}

fn false_decision() -> Vec<Request> {
    let mut requests = bench();
    requests.push(decision(3, COMMIT));
    requests.push(decision(4, COMMIT));
    requests.push(update(0, &[put(8, 0, 1)]));
    requests
}

fn false_checkpoint() -> Vec<Request> {
    let mut requests = bench();
    requests.push(checkpoint_of(2, 5, &[Row::of(2, 7, Some(43), 1)]));
    requests.push(decision(3, ABORT));
    requests
}

fn cell_left_out() -> Vec<Request> {
    vec![
        update(0, &[put(4, 3, 5), put(4, 1, 6)]),
        checkpoint_of(4, 1, &[Row::of(4, 1, Some(6), 1)]),
    ]
}

fn no_room_and_false() -> Vec<Request> {
    let mut requests = cell_left_out();
    requests.extend(cells(TABLE_CELLS));
    requests
}
