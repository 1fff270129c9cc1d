//! Lent logs: refused frames, bad entries, no room, no slots, and bytes above the tail, which stay.

use crate::append::Request;
use crate::sample::*;
use crate::slot::{COMMIT, SLOT};
use crate::table::Row;

use super::{astray, bad_entry, junk, refused, with_junk, Asking, Case};

pub fn cases() -> Vec<Case> {
    let mut cases = frames();
    cases.extend(bad_entries());
    cases.extend([
        full(),
        no_slots(),
        one_slot(),
        above_the_tail(),
        hidden_entries(),
    ]);
    cases
}

/// One good request of each kind for the bench log.
fn good() -> [Request; 4] {
    [
        update(0, &[put(2, 7, 1)]),
        commit(9, &[read(2, 7, 1)]),
        decision(3, COMMIT),
        checkpoint_of(2, 5, &[Row::of(2, 7, Some(42), 4)]),
    ]
}

/// Requests with several faults of their own.
fn bad() -> [Request; 4] {
    let items = vec![9; 15];
    [
        Request::Update { number: 9, items },
        commit(0, &[read(9, 0, u64::MAX)]),
        decision(u64::MAX, 0),
        checkpoint_of(2, 0, &[Row::of(2, 500, None, u64::MAX)]),
    ]
}

/// Each fault of the frame (13.3).
fn frames() -> Vec<Case> {
    let bench = log_of(&bench());
    let mut cases = Vec::new();
    for (tail, length) in [
        (1, 0),
        (1 << 31, 0),
        (u32::MAX, 0),
        (0, 1),
        (0, 128),
        (0, 255),
        (1, 255),
        (0, 257),
        (1, 257),
        (2, 256),
        (257, 256),
        (0x0100_0000, 256),
        (3, 512),
        (131_073, 512),
        (u32::MAX, 512),
        (2, 1023),
        (6, 1280),
        (4, 1279),
    ] {
        let name = format!("frame of {length} bytes, tail {tail}");
        let mut asking = Asking::on(&name, bench[..length].to_vec(), tail);
        for request in good().into_iter().chain(bad()) {
            asking.ask(request, refused(1));
        }
        cases.push(asking.case());
    }
    cases
}

/// The lowest bad entry (5.2).
fn bad_entries() -> Vec<Case> {
    let mut cases = Vec::new();
    let mut told = |name: &str, log: Vec<u8>, tail: u32, at: u64| {
        let mut asking = Asking::on(name, log, tail);
        for request in good().into_iter().chain(bad()) {
            asking.ask(request, bad_entry(at));
        }
        cases.push(asking.case());
    };
    told("an empty slot used", vec![0; 2 * SLOT], 1, 0);
    told("junk used", junk(2 * SLOT), 2, 0);
    for (at, place, byte) in [(0, 0, 0), (1, 255, 1), (2, 3, 2), (3, 71, 4), (4, 13, 2)] {
        let mut log = with_junk(&bench(), 1);
        slot_mut(&mut log, at)[place] = byte;
        told("a byte of the bench log changed", log, 5, at as u64);
    }
    let mut log = with_junk(&bench(), 0);
    slot_mut(&mut log, 4)[0] = 0;
    slot_mut(&mut log, 2)[248] = 1;
    told("the lowest of two bad entries", log, 5, 2);
    told("junk below the tail", with_junk(&bench(), 2), 6, 5);
    // Good in itself, but no number 9 has an update below it any more.
    let mut log = with_junk(&bench(), 1);
    slot_mut(&mut log, 1)[7] = 8;
    told("the update given to another number", log, 5, 3);
    cases
}

/// 9 where no slot is free (13.3).
fn full() -> Case {
    let mut base = bench();
    base.push(update(11, &[put(2, 7, 1)]));
    let mut asking = Asking::on("full", log_of(&base), 6);
    asking.refused(9, update(0, &[put(2, 7, 1)]));
    asking.refused(9, update(11, &[put(2, 7, 1)]));
    asking.refused(9, update(12, &[put(1, 7, 1)]));
    asking.refused(9, commit(11, &[]));
    asking.ask(commit(11, &[read(2, 7, 6)]), astray(0));
    asking.refused(9, commit(11, &[read(2, 7, 5)]));
    asking.refused(9, decision(3, COMMIT));
    asking.refused(9, decision(4, COMMIT));
    asking.case()
}

/// A log of 0 slots is full, but has no update and no offset below its tail.
fn no_slots() -> Case {
    let mut asking = Asking::on("no slots", vec![], 0);
    asking.refused(9, update(0, &[put(2, 7, 1)]));
    asking.refused(9, update(1, &[put(2, 7, 1)]));
    asking.refused(3, update(0, &[]));
    asking.refused(3, update(0, &[put(9, 0, 1)]));
    asking.refused(6, commit(1, &[]));
    asking.refused(6, commit(1, &[read(2, 7, 0)]));
    asking.refused(3, commit(1, &[read(2, 7, 1)]));
    asking.refused(3, commit(0, &[]));
    asking.refused(3, decision(0, COMMIT));
    asking.refused(3, decision(u64::MAX, COMMIT));
    asking.case()
}

fn one_slot() -> Case {
    let mut asking = Asking::on("one slot", junk(SLOT), 0);
    asking.refused(6, commit(1, &[read(2, 7, 0)]));
    asking.refused(3, commit(1, &[read(2, 7, 1)]));
    asking.refused(3, decision(0, COMMIT));
    asking.done(update(1, &[put(2, 7, 1)]));
    asking.ask(commit(1, &[read(2, 7, 1)]), astray(0));
    asking.refused(9, commit(1, &[read(2, 7, 0)]));
    asking.refused(3, commit(1, &[read(2, 7, 2)]));
    asking.refused(7, decision(0, COMMIT));
    asking.case()
}

/// Junk above the tail is neither judged nor changed, also by refused appends.
fn above_the_tail() -> Case {
    let mut asking = Asking::on("junk above the tail", with_junk(&bench(), 6), 5);
    for request in bad() {
        asking.refused(3, request);
    }
    asking.done(update(1, &[put(1, 7, 1)]));
    asking.done(commit(1, &[read(1, 7, 0)]));
    asking.refused(3, commit(1, &[read(1, 7, 8)]));
    asking.done(decision(6, COMMIT));
    asking.case()
}

/// The bench log at tail 3: its commit records are above the tail, so they close nothing and can't be decided.
fn hidden_entries() -> Case {
    let mut asking = Asking::on("entries above the tail", log_of(&bench()), 3);
    asking.refused(3, decision(3, COMMIT));
    asking.refused(3, decision(4, COMMIT));
    asking.done(update(9, &[put(5, 1, 1)]));
    asking.refused(7, decision(3, COMMIT));
    asking.refused(3, decision(4, COMMIT));
    asking.ask(commit(9, &[read(2, 7, 4)]), astray(0));
    asking.done(commit(9, &[read(2, 7, 1)]));
    asking.refused(9, decision(4, COMMIT));
    asking.case()
}
