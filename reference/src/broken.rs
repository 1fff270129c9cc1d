//! Logs for stored vectors in which one slot rule is broken.

use crate::append::Request;
use crate::bytes::{put16, put32, put64};
use crate::cases::{case, transactions, Case, Expected};
use crate::directory::{eight, places};
use crate::earlier::Earlier;
use crate::header::Header;
use crate::log::pass;
use crate::objects::objects as objects_of_eight;
use crate::sample::*;
use crate::slot::{write_slot, Kind, Names, Saved, Verdict, ABORT, COMMIT, SLOT};
use crate::table::Row;

/// Adds a slot with the right pointers, whatever the other rules say of it.
fn forge(log: &mut Vec<u8>, kind: Kind, number: u32, objects: u64, items: &[u8]) {
    let tail = log.len() / SLOT;
    let earlier = pass(eight(), log, tail).map_or(Earlier::default(), |(_, earlier)| earlier);
    let headers: Vec<Header> = places(objects)
        .map(|place| Header::made(objects_of_eight()[place].id, tail, earlier.nearest(place)))
        .collect();
    log.resize(log.len() + SLOT, 0);
    let slot = slot_mut(log, tail);
    write_slot(slot, kind, number, &headers, items, Names::NONE);
}

/// A growing list of logs with one rule broken at a known entry.
struct Breaker {
    cases: Vec<Case>,
    base: Vec<u8>,
    at: usize,
}

impl Breaker {
    fn on(&mut self, requests: &[Request], at: usize) {
        self.base = log_of(requests);
        self.at = at;
    }

    fn push(&mut self, name: &str, log: Vec<u8>) {
        let tail = (log.len() / SLOT) as u32;
        let expected = Expected::Bad(self.at as u64);
        self.cases.push(case(name, tail, log, expected));
    }

    /// Changes the slot at the known entry.
    fn edit(&mut self, name: &str, change: impl FnOnce(&mut [u8])) {
        let mut log = self.base.clone();
        change(slot_mut(&mut log, self.at));
        assert_ne!(log, self.base, "{name} changes nothing");
        self.push(name, log);
    }

    fn byte(&mut self, name: &str, at: usize, value: u8) {
        self.edit(name, |slot| slot[at] = value);
    }

    fn word(&mut self, name: &str, at: usize, value: u32) {
        self.edit(name, |slot| put32(slot, at, value));
    }

    fn long(&mut self, name: &str, at: usize, value: u64) {
        self.edit(name, |slot| put64(slot, at, value));
    }

    /// Puts a forged slot past the first entries of the base.
    fn forged(
        &mut self,
        name: &str,
        at: usize,
        kind: Kind,
        number: u32,
        objects: u64,
        items: &[u8],
    ) {
        let mut log = self.base[..at * SLOT].to_vec();
        forge(&mut log, kind, number, objects, items);
        self.at = at;
        self.push(name, log);
    }
}

/// Every slot rule broken once in an otherwise good log, and the lowest of several bad entries.
pub fn broken() -> Vec<Case> {
    let mut breaker = Breaker {
        cases: Vec::new(),
        base: Vec::new(),
        at: 0,
    };
    break_frame_of_slot(&mut breaker);
    break_headers(&mut breaker);
    break_distances(&mut breaker);
    break_update(&mut breaker);
    break_commit(&mut breaker);
    break_names(&mut breaker);
    break_closed(&mut breaker);
    break_decision(&mut breaker);
    break_checkpoint(&mut breaker);
    break_several(&mut breaker);
    breaker.cases
}

/// Entry 1 has headers 2 and 5 and three writes.
fn two_updates() -> Vec<Request> {
    vec![
        update(0, &[put(8, 0, 5)]),
        update(0, &[put(2, 7, 43), remove(5, 1), put(2, 7, 44)]),
    ]
}

fn break_frame_of_slot(breaker: &mut Breaker) {
    breaker.on(&two_updates(), 1);
    breaker.byte("mark, first byte", 0, b'X');
    breaker.byte("mark, second byte", 1, 0);
    breaker.edit("mark zero", |slot| slot[..2].fill(0));
    breaker.edit("mark in small letters", |slot| {
        slot[..2].copy_from_slice(b"up")
    });
    breaker.edit("mark turned round", |slot| slot[..2].copy_from_slice(b"PU"));
    breaker.edit("an update marked commit", |slot| {
        slot[..2].copy_from_slice(b"CO")
    });
    breaker.edit("an update marked decision", |slot| {
        slot[..2].copy_from_slice(b"DE")
    });
    breaker.edit("an update marked checkpoint", |slot| {
        slot[..2].copy_from_slice(b"CP")
    });
    breaker.edit("slot zero", |slot| slot.fill(0));
    breaker.byte("no headers", 2, 0);
    breaker.byte("one header, the second not zero", 2, 1);
    breaker.byte("three headers, the third zero", 2, 3);
    breaker.byte("five headers", 2, 5);
    breaker.byte("255 headers", 2, 255);
    breaker.byte("no items", 3, 0);
    breaker.byte("two items, the third not zero", 3, 2);
    breaker.byte("four items, the fourth zero", 3, 4);
    breaker.byte("thirteen items", 3, 13);
    breaker.byte("255 items", 3, 255);
    breaker.byte("first byte of an unused header", 32, 1);
    breaker.byte("last byte of the unused headers", 55, 1);
    breaker.byte("first byte of an unused item", 104, 1);
    breaker.byte("last byte of the unused items", 247, 0x80);
    for at in 248..256 {
        breaker.byte("bytes 248 to 255", at, 1);
    }
}

fn break_headers(breaker: &mut Breaker) {
    breaker.on(&two_updates(), 1);
    breaker.edit("headers descend", |slot| {
        put32(slot, 8, 5);
        put32(slot, 20, 2);
    });
    breaker.word("a header twice", 20, 2);
    breaker.word("header of object 0", 8, 0);
    breaker.word("header of object 9", 20, 9);
    breaker.word("header of object 261", 20, 261);
    breaker.word("header of object 2,147,483,647", 20, 0x7FFF_FFFF);
    breaker.word("header of an object not written", 20, 6);
    breaker.edit("one header more than objects written", |slot| {
        slot[2] = 3;
        put32(slot, 32, 7);
    });
    breaker.edit("one header fewer than objects written", |slot| {
        slot[2] = 1;
        slot[20..32].fill(0);
    });
    breaker.word("format 1 without an earlier entry", 8, 0x8000_0002);
    breaker.on(&two_updates(), 0);
    breaker.edit("the only object's header twice", |slot| {
        slot[2] = 2;
        slot.copy_within(8..20, 20);
    });
    breaker.on(&two_updates(), 1);
    for place in 0..4 {
        breaker.edit("a distance where there is none", |slot| {
            put16(slot, 12 + 2 * place, 1)
        });
    }
}

fn break_distances(breaker: &mut Breaker) {
    let requests = [
        update(0, &[put(2, 1, 1)]),
        update(0, &[put(5, 1, 1), put(2, 1, 1)]),
        update(0, &[put(2, 1, 1)]),
        update(0, &[put(5, 1, 1)]),
        update(0, &[put(2, 1, 1)]),
        update(0, &[put(2, 1, 1), put(5, 1, 1)]),
    ];
    // Entry 5: object 2 at distances 1, 3, 4, 5; object 5 at 2, 4.
    breaker.on(&requests, 5);
    for (place, due) in [1, 3, 4, 5].into_iter().enumerate() {
        for wrong in [due - 1, due + 1] {
            breaker.edit("a distance off by one", |slot| {
                put16(slot, 12 + 2 * place, wrong)
            });
        }
    }
    breaker.edit("third and fourth distance left out", |slot| {
        slot[16..20].fill(0)
    });
    breaker.edit("distances in reverse", |slot| {
        slot[12..20].copy_from_slice(&[0, 5, 0, 4, 0, 3, 0, 1])
    });
    breaker.edit("second header without distances", |slot| {
        slot[24..32].fill(0)
    });
    breaker.edit("a third distance where there is none", |slot| {
        put16(slot, 28, 5)
    });
    breaker.edit("format 1 where the nearest is near", |slot| {
        put32(slot, 8, 0x8000_0002);
        put64(slot, 12, 4);
    });
    breaker.edit("the format bit alone", |slot| slot[8] = 0x80);
    breaker.edit("offsets instead of distances", |slot| {
        slot[12..20].copy_from_slice(&[0, 4, 0, 2, 0, 1, 0, 0])
    });
}

fn break_update(breaker: &mut Breaker) {
    breaker.on(&two_updates(), 1);
    breaker.word("write to object 0", 56, 0);
    breaker.word("write to object 9", 56, 9);
    breaker.word("write to object 2,147,483,650", 56, 0x8000_0002);
    breaker.word("write to an object without a header", 88, 3);
    breaker.word("key over the highest", 60, 500);
    breaker.word("key over the highest, top byte", 60, 0x0100_0007);
    breaker.word("operation 0", 64, 0);
    breaker.word("operation 3", 64, 3);
    breaker.word("operation 257", 64, 257);
    breaker.word("remove with a value", 84, 1);
    breaker.word("put made remove, its value kept", 64, 2);
    breaker.on(&two_updates(), 0);
    breaker.word("key 1 of a register", 60, 1);
}

fn break_commit(breaker: &mut Breaker) {
    breaker.on(&transactions()[..4], 3);
    breaker.word("commit with number 0", 4, 0);
    breaker.word("commit without an update", 4, 11);
    breaker.word("commit of a number with other objects", 4, 10);
    breaker.word("commit header of another object", 20, 7);
    breaker.edit("commit header left out", |slot| {
        slot[2] = 1;
        slot[20..32].fill(0);
    });
    breaker.edit("commit header of an object only read", |slot| {
        slot[2] = 3;
        put32(slot, 32, 6);
        put32(slot, 72, 6);
        put32(slot, 76, 0);
    });
    breaker.edit("reads descend by object", |slot| {
        put32(slot, 56, 5);
        put32(slot, 72, 2);
    });
    breaker.edit("reads descend by key", |slot| put32(slot, 72, 2));
    breaker.edit("a cell read twice", |slot| {
        put32(slot, 72, 2);
        put32(slot, 76, 7);
    });
    breaker.word("read of object 0", 56, 0);
    breaker.word("read of object 9", 72, 9);
    breaker.word("read of a key over the highest", 60, 500);
    breaker.long("version above the offset", 64, 4);
    breaker.long("version with the top bit", 64, 1 << 63 | 1);
    breaker.long("version, fourth byte", 80, 1 << 32);
    breaker.byte("commit of thirteen reads", 3, 13);
    breaker.byte("commit with an unused item not zero", 3, 1);
}

/// The last eight bytes: numbers that no commit record of 10 may name, and none in other entries.
fn break_names(breaker: &mut Breaker) {
    let requests = [
        update(10, &[put(4, 2, 1)]),
        commit_after(10, &[], 9, 0),
        decision(1, COMMIT),
        checkpoint_of(8, 3, &[]),
    ];
    breaker.on(&requests[..2], 1);
    for (first, second) in [
        (0, 9),
        (9, 9),
        (11, 9),
        (10, 0),
        (9, 10),
        (10, 11),
        (0, 10),
        (0, 1 << 24),
        (u32::MAX, 1),
        (u32::MAX, u32::MAX),
    ] {
        breaker.edit("numbers that may not be named", |slot| {
            put32(slot, 248, first);
            put32(slot, 252, second);
        });
    }
    for at in [2, 3] {
        breaker.on(&requests[..at + 1], at);
        breaker.byte("only a commit record names", 251, 9);
        breaker.byte("only a commit record names", 252, 9);
    }
}

/// Entries of a closed number, and a transaction of five objects.
fn break_closed(breaker: &mut Breaker) {
    breaker.on(&transactions()[..4], 3);
    let write = put(2, 1, 1).bytes();
    breaker.forged(
        "update of a closed number",
        4,
        Kind::Update,
        9,
        0b10,
        &write,
    );
    breaker.forged(
        "second commit of a number",
        4,
        Kind::Commit,
        9,
        0b1_0010,
        &[],
    );
    let three = write_bytes(&[put(1, 0, 0), put(3, 0, 0), put(4, 0, 0)]);
    breaker.forged(
        "fifth object in a transaction",
        3,
        Kind::Update,
        9,
        0b1101,
        &three,
    );
    let five = write_bytes(&[put(1, 0, 0), put(2, 0, 0), put(3, 0, 0), put(4, 0, 0)]);
    breaker.forged("fifth and sixth object", 3, Kind::Update, 9, 0b1111, &five);
    breaker.forged("plain update without writes", 3, Kind::Update, 0, 0b10, &[]);
    breaker.forged("commit of the plain updates", 3, Kind::Commit, 0, 0b10, &[]);
    breaker.forged("commit without its updates", 2, Kind::Commit, 12, 0b10, &[]);
}

fn break_decision(breaker: &mut Breaker) {
    breaker.on(&transactions()[..5], 4);
    breaker.word("outcome 0", 64, 0);
    breaker.word("outcome 3", 64, 3);
    breaker.word("outcome 258", 64, 258);
    breaker.word("decision's last four bytes", 68, 1);
    breaker.long("decision of a plain update", 56, 0);
    breaker.long("decision of a numbered update", 56, 1);
    breaker.long("decision of itself", 56, 4);
    breaker.long("decision of an entry above", 56, 5);
    breaker.long("decision of an offset past 32 bits", 56, 1 << 32 | 3);
    breaker.long("decision of the highest offset", 56, u64::MAX);
    breaker.byte("decision without item", 3, 0);
    breaker.byte("decision with two items", 3, 2);
    breaker.word("decision with another number", 4, 10);
    breaker.word("decision with number 0", 4, 0);
    breaker.edit("decision header left out", |slot| {
        slot[2] = 1;
        slot[20..32].fill(0);
    });
    breaker.edit("decision header of another object", |slot| {
        put32(slot, 20, 6);
        slot[24..32].fill(0);
    });
    let verdict = |commit, outcome| {
        let rest = 0;
        Verdict {
            commit,
            outcome,
            rest,
        }
        .bytes()
    };
    let objects = 0b1_0010;
    let item = verdict(3, ABORT);
    breaker.forged("second decision", 5, Kind::Decision, 9, objects, &item);
    let item = verdict(3, COMMIT);
    breaker.forged(
        "the same decision again",
        5,
        Kind::Decision,
        9,
        objects,
        &item,
    );
    let item = verdict(4, COMMIT);
    breaker.forged(
        "decision of a decision",
        5,
        Kind::Decision,
        9,
        objects,
        &item,
    );
    let mut two = verdict(3, COMMIT).to_vec();
    two.extend(verdict(3, COMMIT));
    breaker.forged(
        "decision with its item twice",
        4,
        Kind::Decision,
        9,
        objects,
        &two,
    );
    breaker.forged(
        "decision without an item",
        4,
        Kind::Decision,
        9,
        objects,
        &[],
    );
    // A commit record stands where the decision points, but above it.
    breaker.on(&[update(9, &[put(2, 1, 1)])], 1);
    let mut log = breaker.base.clone();
    forge(&mut log, Kind::Decision, 9, 0b10, &verdict(2, COMMIT));
    forge(&mut log, Kind::Commit, 9, 0b10, &[]);
    breaker.push("decision below its commit record", log);
}

fn break_checkpoint(breaker: &mut Breaker) {
    let rows = [
        Row::of(2, 3, None, 1),
        Row::of(2, 7, Some(43), 1),
        Row::of(2, 9, Some(1), 2),
    ];
    let requests = [
        update(0, &[remove(2, 3), put(2, 7, 43)]),
        update(0, &[put(2, 9, 1)]),
        checkpoint_of(2, 2, &rows),
    ];
    breaker.on(&requests, 2);
    breaker.word("checkpoint with a number", 4, 1);
    breaker.edit("checkpoint with two headers", |slot| {
        slot[2] = 2;
        put32(slot, 20, 5);
    });
    breaker.word("checkpoint of object 9", 8, 9);
    breaker.word("keys descend", 72, 2);
    breaker.word("a key twice", 88, 7);
    breaker.word("saved key over the highest", 88, 500);
    breaker.word("removed cell with a value", 60, 1);
    breaker.byte("a held cell with the top bit", 80, 0x80);
    breaker.long("version 0", 80, 0);
    breaker.long("version above the checkpoint", 96, 3);
    breaker.long("removed, version 0", 64, 1 << 63);
    breaker.long("removed, version above the checkpoint", 64, 1 << 63 | 3);
    breaker.long("version with bit 62", 80, 1 << 62 | 1);
    breaker.byte("checkpoint of thirteen cells", 3, 13);
    breaker.byte("checkpoint with a cell left over", 3, 2);
    breaker.byte("checkpoint with a zero cell", 3, 4);
    let saved = Saved::of(0, Some(1), 1).bytes();
    breaker.forged("version above offset 0", 0, Kind::Checkpoint, 0, 1, &saved);
    breaker.forged("checkpoint without object", 2, Kind::Checkpoint, 0, 0, &[]);
    breaker.forged(
        "checkpoint of two objects",
        2,
        Kind::Checkpoint,
        0,
        0b11,
        &[],
    );
}

/// The lowest of several bad entries; an entry that only those below it make bad.
fn break_several(breaker: &mut Breaker) {
    breaker.on(&bench(), 1);
    for (first, second) in [(0, 4), (1, 3), (2, 3), (3, 4)] {
        let mut log = breaker.base.clone();
        slot_mut(&mut log, second)[0] = 0;
        slot_mut(&mut log, first)[255] = 1;
        breaker.at = first;
        breaker.push("the lowest of two bad entries", log);
    }
    let mut log = breaker.base.clone();
    log[..5 * SLOT].fill(0xFF);
    breaker.at = 0;
    breaker.push("all bytes 255", log);
    // Entry 0 becomes one of object 3: good in itself, but entry 1 then has no earlier entry.
    let mut log = breaker.base.clone();
    put32(&mut log, 8, 3);
    put32(&mut log, 56, 3);
    breaker.at = 1;
    breaker.push("pointers back to another object", log);
    // Entry 1 becomes a plain update: commit 9 has no update.
    let mut log = breaker.base.clone();
    put32(slot_mut(&mut log, 1), 4, 0);
    breaker.at = 3;
    breaker.push("the update made plain", log);
    // Entry 2 gets number 9: commit 10 has no update.
    let mut log = breaker.base.clone();
    put32(slot_mut(&mut log, 2), 4, 9);
    breaker.at = 4;
    breaker.push("the update given to the other number", log);
    // The tail hides the bad entry.
    let mut log = breaker.base.clone();
    slot_mut(&mut log, 4).fill(7);
    let hidden = case("a bad entry above the tail", 4, log, Expected::Good);
    breaker.cases.push(hidden);
}
