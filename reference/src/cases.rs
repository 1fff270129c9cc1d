//! Logs for stored vectors: good ones, ones whose frame is refused, random ones; those with a slot rule broken are in
//! `broken`.

use crate::append::{Request, Writer};
use crate::broken::broken;
use crate::directory::the_eight;
use crate::random::{damage, History, Mix, Random};
use crate::sample::*;
use crate::slot::{ABORT, COMMIT, SLOT};
use crate::table::Row;

/// A log and a tail, and what check must say of them.
pub struct Case {
    pub name: String,
    pub tail: u32,
    pub log: Vec<u8>,
    pub expected: Expected,
}

#[derive(Clone, Copy, Debug, PartialEq, Eq)]
pub enum Expected {
    Good,
    Frame,
    Bad(u64),
    /// Whatever it is.
    Any,
}

/// All cases of the reading calls.
pub fn reading() -> Vec<Case> {
    let mut cases = frames();
    cases.extend(good());
    cases.extend(broken());
    cases.extend(random());
    cases
}

pub fn case(name: &str, tail: u32, log: Vec<u8>, expected: Expected) -> Case {
    Case {
        name: name.to_string(),
        tail,
        log,
        expected,
    }
}

/// All slots used and good.
fn whole(name: &str, requests: &[Request]) -> Case {
    case(
        name,
        requests.len() as u32,
        log_of(requests),
        Expected::Good,
    )
}

/// Frames, good and not, and the bench log at each tail.
pub fn frames() -> Vec<Case> {
    let bench = log_of(&bench());
    let mut longer = bench.clone();
    longer.resize(8 * SLOT, 0x5A);
    let mut cases = vec![
        case("no bytes", 0, vec![], Expected::Good),
        case("two empty slots", 0, vec![0; 2 * SLOT], Expected::Good),
        case("an empty slot used", 1, vec![0; SLOT], Expected::Bad(0)),
    ];
    for tail in 0..=5 {
        cases.push(case("bench log", tail, bench.clone(), Expected::Good));
    }
    cases.push(case(
        "bench log, free slots",
        5,
        longer.clone(),
        Expected::Good,
    ));
    cases.push(case("a free slot used", 6, longer, Expected::Bad(5)));
    cases.push(case(
        "tail above the slots",
        6,
        bench.clone(),
        Expected::Frame,
    ));
    for (tail, length) in [
        (1, 0),
        (0, 1),
        (0, 255),
        (1, 255),
        (0, 257),
        (1, 257),
        (131_072, 512),
        (131_073, 512),
        (4_294_967_295, 256),
        (4_294_967_295, 0),
        (2_147_483_648, 0),
    ] {
        cases.push(case(
            "frame",
            tail,
            bench[..length].to_vec(),
            Expected::Frame,
        ));
    }
    cases
}

/// Good logs: streams, transactions, owed decisions, checkpoints.
pub fn good() -> Vec<Case> {
    vec![
        whole("twelve entries of object 2", &stream(12)),
        whole("thirty-three entries of object 2", &stream(33)),
        whole("several objects interleaved", &interleaved()),
        whole("commit and decision", &transactions()),
        whole("owed commits", &owing()[..9]),
        whole("owed commits, the lowest decided", &owing()[..10]),
        whole("owed commits, all decided", &owing()),
        whole("checkpoints", &checkpoints()),
        whole("twelve reads and twelve writes", &widest()),
        whole("a version equal to the offset", &newest_read()),
        whole("four objects in one transaction", &four_objects()),
        whole("false decision and checkpoint", &false_records()),
        whole("the largest numbers", &largest()),
        whole("an astray read", &bench_with(2)),
        whole("the delivery log", &delivery()),
        whole("records that name numbers", &naming()),
    ]
}

fn stream(entries: u32) -> Vec<Request> {
    (0..entries)
        .map(|at| update(0, &[put(2, at % 3, at)]))
        .collect()
}

fn interleaved() -> Vec<Request> {
    vec![
        update(0, &[put(1, 1, 1)]),
        update(0, &[put(2, 1, 1), put(5, 1, 1)]),
        update(0, &[put(5, 2, 1), put(1, 9999, 7)]),
        update(0, &[put(8, 0, 1)]),
        update(0, &[put(5, 9999, 1)]),
        update(0, &[put(1, 1, 2), put(2, 1, 2), put(5, 1, 2), put(8, 0, 2)]),
        update(0, &[remove(5, 1)]),
        update(0, &[put(7, 0, 1), put(6, 0, 1)]),
        update(0, &[put(5, 3, 1)]),
        update(0, &[put(4, 499, 1), put(3, 499, 1)]),
        update(0, &[put(5, 4, 1), put(2, 2, 1)]),
        update(0, &[remove(6, 0)]),
        update(0, &[put(1, 3, 1)]),
        update(0, &[put(1, 4, 1), put(8, 0, 9)]),
    ]
}

pub fn transactions() -> Vec<Request> {
    vec![
        update(0, &[put(2, 7, 43), remove(2, 3)]),
        update(9, &[put(2, 7, 42), put(5, 1, 1)]),
        update(10, &[put(2, 8, 3)]),
        commit(9, &[read(2, 7, 1), read(5, 1, 0)]),
        decision(3, COMMIT),
        commit(10, &[read(2, 7, 1)]),
        decision(5, ABORT),
    ]
}

fn owing() -> Vec<Request> {
    vec![
        update(1, &[put(2, 1, 1)]),
        update(2, &[put(2, 2, 1), put(3, 2, 1)]),
        update(3, &[put(5, 3, 1)]),
        update(4, &[put(4, 3, 1)]),
        commit(1, &[read(5, 1, 0), read(8, 0, 0)]),
        commit(2, &[read(3, 1, 0)]),
        commit(3, &[read(5, 1, 0), read(6, 0, 0)]),
        commit(4, &[read(1, 1, 5)]),
        update(0, &[put(2, 9, 9)]),
        decision(5, COMMIT),
        decision(7, ABORT),
        decision(6, COMMIT),
    ]
}

/// Cells for a checkpoint: none, one, several, and removed ones.
fn checkpoints() -> Vec<Request> {
    let mut requests = vec![
        checkpoint_of(2, 0, &[]),
        update(0, &[put(2, 7, 43), put(6, 0, 5)]),
        update(0, &[remove(2, 3), put(2, 499, 0)]),
    ];
    let (_, run) = grown(3, &requests);
    requests.push(checkpoint_of(2, 3, &rows_of(the_eight(), &run, 0b10)));
    requests.push(checkpoint_of(6, 4, &rows_of(the_eight(), &run, 0b10_0000)));
    requests.push(checkpoint_of(4, 5, &[]));
    requests.push(update(0, &[put(2, 7, 1)]));
    let twelve: Vec<Row> = (0..12).map(|key| Row::of(2, key, Some(key), 1)).collect();
    requests.push(checkpoint_of(2, 7, &twelve));
    requests
}

fn widest() -> Vec<Request> {
    let writes: Vec<_> = (0..12).map(|key| put(2, key, 1)).collect();
    let reads: Vec<_> = (0..12).map(|key| read(5, key, 0)).collect();
    vec![update(3, &writes), commit(3, &reads)]
}

fn newest_read() -> Vec<Request> {
    vec![
        update(3, &[put(5, 1, 1)]),
        update(0, &[put(2, 7, 1)]),
        commit(3, &[read(2, 7, 2)]),
    ]
}

fn four_objects() -> Vec<Request> {
    vec![
        update(7, &[put(8, 0, 1), put(1, 0, 1)]),
        update(7, &[put(4, 0, 1), put(3, 0, 1)]),
        update(7, &[put(3, 1, 1)]),
        commit(7, &[]),
    ]
}

fn false_records() -> Vec<Request> {
    vec![
        update(7, &[put(8, 0, 1)]),
        commit(7, &[]),
        decision(1, ABORT),
        checkpoint_of(8, 3, &[Row::of(8, 0, None, 3)]),
    ]
}

fn largest() -> Vec<Request> {
    vec![
        update(u32::MAX, &[put(1, 9999, u32::MAX)]),
        update(1 << 31, &[put(1, 9999, 1 << 31)]),
        commit(u32::MAX, &[]),
        commit(1 << 31, &[]),
    ]
}

/// Numbers named: one and two, the largest, one that nobody uses, one whose commit record comes later; with reads and without.
fn naming() -> Vec<Request> {
    let mut requests: Vec<Request> = [5, 6, 7, u32::MAX]
        .map(|number| update(number, &[put(4, number % 500, 1)]))
        .to_vec();
    requests.extend([
        commit(7, &[]),
        commit_after(6, &[read(4, 7, 5)], 7, 0),
        commit_after(u32::MAX, &[read(2, 1, 0)], 6, 7),
        commit_after(5, &[], 8, u32::MAX),
        decision(7, ABORT),
        update(8, &[put(5, 8, 1)]),
        commit(8, &[]),
    ]);
    requests
}

/// Small random logs of the library's own appends, some with one byte changed.
pub fn random() -> Vec<Case> {
    (0..40).map(random_case).collect()
}

fn random_case(seed: u64) -> Case {
    let mut random = Random::new(1000 + seed);
    let slots = 3 + random.below(6) as usize;
    let appends = slots + random.below(4) as usize;
    let mix = Mix {
        disorder: 0,
        ..Mix::rough().before()
    };
    let history = History::made(seed, slots, appends, mix);
    let Writer { mut log, tail, .. } = history.writer;
    let expected = if seed % 5 < 3 {
        Expected::Good
    } else {
        damage(&mut random, &mut log, tail);
        Expected::Any
    };
    let shown = tail - random.below(2).min(tail as u64) as usize;
    Case {
        name: format!("random log {seed}"),
        tail: shown as u32,
        log,
        expected,
    }
}
