//! The arguments of each append at the edges of what the slot rules allow.

use crate::append::Request;
use crate::sample::*;
use crate::slot::{Names, Read, Write, ABORT, COMMIT, SLOT};

use super::{astray, junk, with_junk, Asking, Case};

pub fn cases() -> Vec<Case> {
    vec![
        update_cells(),
        update_operations(),
        update_lengths(),
        update_objects(),
        numbers(),
        commit_cells(),
        commit_versions(),
        commit_lengths(),
        commit_sorting(),
        decision_offsets(),
        decision_outcomes(),
    ]
}

/// An object and key that are no cell.
const NO_CELLS: [(u32, u32); 15] = [
    (0, 0),
    (9, 0),
    (10, 0),
    (258, 0),
    (0x0200_0000, 0),
    (0x8000_0002, 0),
    (u32::MAX, 0),
    (1, 10_000),
    (2, 500),
    (3, 500),
    (4, 9999),
    (5, 0x0001_0000),
    (6, 1),
    (7, u32::MAX),
    (8, 0x8000_0000),
];

/// Each object with its highest key.
const HIGHEST: [(u32, u32); 8] = [
    (1, 9999),
    (2, 499),
    (3, 499),
    (4, 499),
    (5, 9999),
    (6, 0),
    (7, 0),
    (8, 0),
];

/// A write with any operation and value.
fn write(operation: u32, value: u32) -> Write {
    let mut write = put(2, 7, value);
    write.operation = operation;
    write
}

fn update_cells() -> Case {
    let mut asking = Asking::on("update: objects and keys", junk(9 * SLOT), 0);
    for (object, key) in NO_CELLS {
        asking.refused(3, update(0, &[put(object, key, 1)]));
    }
    // One bad write among good ones, first and last; a remove of no cell; a numbered update.
    asking.refused(3, update(0, &[put(9, 0, 1), put(2, 7, 1), put(2, 8, 1)]));
    asking.refused(3, update(0, &[put(2, 7, 1), put(2, 8, 1), put(2, 500, 1)]));
    asking.refused(3, update(0, &[remove(6, 1)]));
    asking.refused(3, update(5, &[put(0, 0, 0)]));
    for (object, key) in HIGHEST {
        asking.done(update(0, &[put(object, key, object)]));
    }
    asking.done(update(0, &[remove(1, 0), remove(5, 9999)]));
    asking.case()
}

fn update_operations() -> Case {
    let mut asking = Asking::on("update: operations and values", junk(5 * SLOT), 0);
    for (operation, value) in [
        (0, 0),
        (0, 1),
        (3, 0),
        (3, 1),
        (257, 1),
        (0x8000_0001, 1),
        (0x0100_0000, 1),
        (u32::MAX, 0),
        (2, 1),
        (2, 0x8000_0000),
        (2, u32::MAX),
    ] {
        asking.refused(3, update(0, &[write(operation, value)]));
        asking.refused(3, update(6, &[put(2, 1, 1), write(operation, value)]));
    }
    asking.done(update(0, &[write(1, 0)]));
    asking.done(update(0, &[write(1, u32::MAX)]));
    asking.done(update(0, &[write(2, 0)]));
    // The same cell several times, and objects not in order.
    asking.done(update(
        6,
        &[put(8, 0, 1), put(2, 7, 1), remove(2, 7), put(2, 7, 2)],
    ));
    asking.done(update(6, &[put(5, 1, 1), put(1, 1, 1), put(5, 1, 1)]));
    asking.case()
}

fn update_lengths() -> Case {
    let mut asking = Asking::on("update: lengths", junk(4 * SLOT), 0);
    let many: Vec<u8> = (0..257)
        .flat_map(|key| put(2, key, key + 1).bytes())
        .collect();
    let of = |length: usize| Request::Update {
        number: 3,
        items: many[..length].to_vec(),
    };
    for length in [0, 1, 15, 17, 31, 191, 193, 208, 4112] {
        asking.refused(3, of(length));
    }
    for length in [16, 32, 176, 192] {
        asking.done(of(length));
    }
    asking.case()
}

/// A fifth object in one update, plain and numbered, and over a transaction.
fn update_objects() -> Case {
    let each = |objects: &[u32]| -> Vec<Write> {
        objects
            .iter()
            .map(|&object| put(object, 0, object))
            .collect()
    };
    let mut asking = Asking::on("update: objects together", junk(11 * SLOT), 0);
    asking.refused(5, update(0, &each(&[1, 2, 3, 4, 5])));
    asking.refused(5, update(4, &each(&[8, 7, 6, 5, 4])));
    asking.refused(5, update(4, &each(&[1, 2, 3, 4, 5, 6, 7, 8])));
    asking.done(update(0, &each(&[8, 6, 4, 2])));
    asking.done(update(4, &each(&[7, 5])));
    asking.refused(5, update(4, &each(&[1, 2, 3])));
    asking.refused(5, update(4, &each(&[1, 2, 3, 4])));
    asking.done(update(4, &each(&[3, 7])));
    asking.refused(5, update(4, &each(&[1, 2])));
    asking.done(update(4, &each(&[1, 3])));
    asking.refused(5, update(4, &each(&[2])));
    asking.refused(5, update(4, &each(&[7, 8])));
    asking.done(update(4, &each(&[1, 3, 5, 7])));
    // Another number, and plain updates, are counted for themselves.
    asking.done(update(5, &each(&[2, 4, 6, 8])));
    asking.refused(5, update(5, &each(&[1])));
    asking.done(update(0, &each(&[1])));
    asking.done(update(0, &each(&[2, 3, 4, 5])));
    asking.done(commit(4, &[read(2, 0, 1)]));
    asking.done(commit(5, &[]));
    asking.case()
}

fn numbers() -> Case {
    let mut asking = Asking::on("numbers 0, 1, 4294967295", junk(10 * SLOT), 0);
    for number in [0, 1, u32::MAX, 1 << 31] {
        asking.done(update(number, &[put(2, 7, number)]));
    }
    asking.refused(3, commit(0, &[]));
    asking.refused(3, commit(0, &[read(2, 7, 1)]));
    for number in [2, 0x0100_0000, 0x7FFF_FFFF, u32::MAX - 1] {
        asking.refused(6, commit(number, &[]));
    }
    for number in [u32::MAX, 1, 1 << 31] {
        asking.done(commit(number, &[]));
        asking.refused(4, commit(number, &[]));
        asking.refused(4, update(number, &[put(2, 7, 1)]));
    }
    asking.done(decision(4, COMMIT));
    asking.done(update(0, &[put(2, 7, 1)]));
    asking.done(update(2, &[put(2, 7, 1)]));
    asking.refused(3, commit(0, &[]));
    asking.case()
}

/// A log of one update of number 8, and room.
fn one_update(free: usize) -> Vec<u8> {
    with_junk(&[update(8, &[put(2, 7, 1)])], free)
}

fn commit_cells() -> Case {
    let mut asking = Asking::on("commit: objects and keys", one_update(1), 1);
    for (object, key) in NO_CELLS {
        asking.refused(3, commit(8, &[read(object, key, 0)]));
    }
    asking.refused(3, commit(8, &[read(0, 0, 0), read(2, 7, 1)]));
    asking.refused(
        3,
        commit(8, &[read(2, 7, 1), read(2, 8, 0), read(2, 500, 0)]),
    );
    asking.refused(3, commit(8, &[read(2, 7, 1), read(9, 0, 0)]));
    let reads: [Read; 8] = HIGHEST.map(|(object, key)| read(object, key, 0));
    asking.done(commit(8, &reads));
    asking.case()
}

/// A read version equal to the tail, where the last entry wrote the cell, and one more (16.4).
fn commit_versions() -> Case {
    let base = [
        update(8, &[put(5, 1, 1)]),
        update(9, &[put(5, 2, 1)]),
        update(0, &[put(2, 7, 1)]),
    ];
    let mut asking = Asking::on("commit: versions", with_junk(&base, 2), 3);
    for version in [
        4,
        5,
        255,
        1 << 32,
        1 << 32 | 3,
        1 << 63,
        1 << 63 | 3,
        u64::MAX,
    ] {
        asking.refused(3, commit(8, &[read(2, 7, version)]));
    }
    asking.refused(3, commit(8, &[read(2, 6, 0), read(2, 7, 4), read(5, 1, 0)]));
    asking.done(commit(8, &[read(2, 7, 3)]));
    asking.refused(3, commit(9, &[read(2, 7, 5)]));
    asking.done(commit(9, &[read(1, 1, 0), read(2, 7, 3), read(5, 1, 4)]));
    asking.case()
}

fn commit_lengths() -> Case {
    let base: Vec<Request> = [8, 9, 10, 11]
        .map(|number| update(number, &[put(2, 7, 1)]))
        .to_vec();
    let mut asking = Asking::on("commit: lengths", with_junk(&base, 4), 4);
    let many: Vec<u8> = (0..257).flat_map(|key| read(5, key, 0).bytes()).collect();
    let of = |number: u32, length: usize| Request::Commit {
        number,
        reads: many[..length].to_vec(),
        names: Names::NONE,
    };
    for length in [1, 15, 17, 31, 191, 193, 208, 4096] {
        asking.refused(3, of(8, length));
    }
    asking.done(of(8, 0));
    asking.done(of(9, 16));
    asking.done(of(10, 192));
    asking.done(of(11, 176));
    asking.case()
}

fn commit_sorting() -> Case {
    let mut asking = Asking::on("commit: reads not ascending", one_update(1), 1);
    for reads in [
        [read(2, 7, 0), read(2, 7, 0)],
        [read(2, 7, 0), read(2, 7, 1)],
        [read(2, 7, 1), read(2, 6, 0)],
        [read(3, 0, 0), read(2, 1, 0)],
        [read(5, 256, 0), read(5, 255, 0)],
        [read(8, 0, 0), read(1, 9999, 0)],
    ] {
        asking.refused(3, commit(8, &reads));
    }
    asking.refused(3, commit(8, &[read(2, 1, 0), read(2, 3, 0), read(2, 2, 0)]));
    asking.refused(3, commit(8, &[read(2, 3, 0), read(2, 1, 0), read(2, 4, 0)]));
    asking.refused(3, commit(8, &[read(1, 1, 0), read(2, 1, 0), read(1, 1, 0)]));
    let ascending = |version: u64| {
        [
            read(1, 9999, 0),
            read(2, 255, 0),
            read(2, 256, version),
            read(3, 0, 0),
        ]
    };
    asking.ask(commit(8, &ascending(1)), astray(2));
    asking.done(commit(8, &ascending(0)));
    asking.case()
}

/// Commit records at 2 and 3, and one at 6 which the tail of 4 hides.
fn decision_offsets() -> Case {
    let base = [
        update(8, &[put(2, 7, 1), put(1, 1, 1)]),
        update(9, &[put(5, 7, 1)]),
        commit(8, &[]),
        commit(9, &[read(1, 1, 0)]),
        update(0, &[put(2, 7, 1)]),
        update(10, &[put(2, 7, 1)]),
        commit(10, &[]),
    ];
    let mut asking = Asking::on("decision: offsets", with_junk(&base, 0), 4);
    for offset in [
        4,
        5,
        6,
        7,
        8,
        1 << 32,
        1 << 32 | 2,
        1 << 63,
        1 << 63 | 2,
        u64::MAX - 1,
        u64::MAX,
    ] {
        asking.refused(3, decision(offset, COMMIT));
    }
    asking.refused(7, decision(0, COMMIT));
    asking.refused(7, decision(1, ABORT));
    asking.done(decision(3, COMMIT));
    asking.refused(7, decision(4, COMMIT));
    asking.refused(3, decision(5, COMMIT));
    asking.done(decision(2, ABORT));
    // The commit record at 6 is now below the tail only after one more append, which takes its slot.
    asking.refused(3, decision(6, COMMIT));
    asking.done(update(10, &[put(2, 8, 1)]));
    asking.refused(7, decision(6, COMMIT));
    asking.case()
}

fn decision_outcomes() -> Case {
    let base = [
        update(8, &[put(2, 7, 1)]),
        update(9, &[put(3, 7, 1)]),
        commit(9, &[]),
        commit(8, &[]),
    ];
    let mut asking = Asking::on("decision: outcomes", with_junk(&base, 2), 4);
    for outcome in [0, 3, 4, 257, 258, 0x0100_0000, 0x8000_0001, u32::MAX] {
        asking.refused(3, decision(3, outcome));
        asking.refused(3, decision(2, outcome));
    }
    asking.done(decision(3, 1));
    asking.refused(3, decision(2, 3));
    asking.done(decision(2, 2));
    for outcome in [1, 2] {
        asking.refused(8, decision(2, outcome));
        asking.refused(8, decision(3, outcome));
    }
    asking.case()
}
