//! Stored vectors of the two forms that carry their state: a stream reader moved on to its end, and a record moved on in
//! place by instalments. What must come of them is taken from the calls that carry none: the stream list, and one play by
//! value. The format stands at the head of `src/vectors.rs`.

use std::fmt::Write;

use crate::appending::junk;
use crate::cases::{frames, good, random, Case};
use crate::directory::eight;
use crate::log::{list, next};
use crate::playing::{record, record_shown, words};
use crate::replica::{play, Record};

/// Plays on one log, one after the other.
pub struct Run {
    pub table: Vec<u8>,
    pub record: Record,
    /// Tail and stop of each instalment.
    pub instalments: Vec<(u32, u64)>,
}

/// The logs of readers.
pub fn readers() -> Vec<Case> {
    let mut cases: Vec<Case> = frames().into_iter().step_by(3).collect();
    cases.extend(good());
    cases.extend(random().into_iter().take(10));
    cases
}

/// The logs of runs; the longest is left out.
pub fn logs() -> Vec<Case> {
    let few = |case: &Case| case.tail <= 14 && case.log.len() == 256 * case.tail as usize;
    frames().into_iter().chain(good()).filter(few).collect()
}

/// One by one on the whole log, one by one as the log grew, with refused calls between, and without room.
pub fn runs(tail: u32, place: usize) -> Vec<Run> {
    let last = u64::from(tail);
    let hosted = [255, 0b10, 0b1_0010][place % 3];
    let fresh = record(hosted, 0, 0);
    let run = |cells: usize, record: Record, instalments: Vec<(u32, u64)>| Run {
        table: junk(24 * cells + 5),
        record,
        instalments,
    };
    let mixed = vec![
        (tail, last / 2),
        (tail, last / 2),
        (tail, (last / 2).wrapping_sub(1)),
        (tail + 1, last),
        (tail, last + 1),
        (tail, last),
    ];
    vec![
        run(
            20,
            fresh,
            (1..=tail).map(|stop| (tail, u64::from(stop))).collect(),
        ),
        run(
            20,
            fresh,
            (1..=tail).map(|stop| (stop, u64::from(stop))).collect(),
        ),
        run(20, fresh, mixed),
        run(1, fresh, vec![(tail, last / 2), (tail, last), (tail, last)]),
        run(0, record(hosted, 0, 1), vec![(tail, last)]),
    ]
}

/// The bytes of stdin.
pub fn input() -> Vec<u8> {
    let mut bytes = Vec::new();
    for case in readers() {
        bytes.extend(1_u32.to_be_bytes());
        bytes.extend((case.log.len() as u32).to_be_bytes());
        bytes.extend(&case.log);
        bytes.extend(case.tail.to_be_bytes());
    }
    for (place, case) in logs().iter().enumerate() {
        let runs = runs(case.tail, place);
        bytes.extend(2_u32.to_be_bytes());
        bytes.extend((case.log.len() as u32).to_be_bytes());
        bytes.extend(&case.log);
        bytes.extend((runs.len() as u32).to_be_bytes());
        for run in runs {
            bytes.extend(run_bytes(&run));
        }
    }
    bytes
}

fn run_bytes(run: &Run) -> Vec<u8> {
    let mut bytes = Vec::new();
    bytes.extend((run.table.len() as u32).to_be_bytes());
    bytes.extend(&run.table);
    bytes.extend((run.record.hosted as u32).to_be_bytes());
    bytes.extend(run.record.position.to_be_bytes());
    bytes.extend(run.record.count.to_be_bytes());
    bytes.extend((run.instalments.len() as u32).to_be_bytes());
    for (tail, stop) in &run.instalments {
        bytes.extend(tail.to_be_bytes());
        bytes.extend(stop.to_be_bytes());
    }
    bytes
}

/// What a program prints.
pub fn output() -> String {
    let mut text = String::new();
    for case in readers() {
        for object in 0..=9 {
            print_streams(&mut text, &case.log, case.tail as usize, object);
        }
    }
    for (place, case) in logs().iter().enumerate() {
        for run in runs(case.tail, place) {
            print_run(&mut text, &case.log, &run);
        }
    }
    text
}

/// The stream from the start, the middle, the tail and the offset after it.
fn print_streams(text: &mut String, log: &[u8], tail: usize, object: u32) {
    let last = tail as u64;
    for from in [0, last / 2, last, last + 1] {
        let (shown, reader) = stream(log, tail, object, from);
        let _ = writeln!(text, "stream {object} {from} {shown} {reader}");
    }
}

/// By the stream list: its offsets at or above `from`, the end, and the tail. A start above the tail is not the list's to
/// refuse.
fn stream(log: &[u8], tail: usize, object: u32, from: u64) -> (String, u64) {
    let mut lent = vec![0; 64];
    let answer = list(eight(), log, tail, object, &mut lent);
    if !answer.is_done() || from > tail as u64 {
        let (answer, reader) = next(eight(), log, tail, object, from);
        return (answer.shown(|_| unreachable!("it is refused")), reader);
    }
    let count = answer.done().unwrap_or(0);
    let mut shown = String::new();
    for offset in lent[..count].iter().filter(|&&at| u64::from(at) >= from) {
        let _ = write!(shown, "{offset} ");
    }
    (shown + "end", tail as u64)
}

fn print_run(text: &mut String, log: &[u8], run: &Run) {
    let mut table = run.table.clone();
    let mut at = run.record;
    for &(tail, stop) in &run.instalments {
        let (answer, left) = play(eight(), log, tail as usize, at, &mut table, stop);
        at = left;
        let shown = answer.shown(|()| "done".to_string());
        let _ = writeln!(text, "play {shown} {}", record_shown(left));
    }
    // One play of the whole leaves the same record and table.
    let mut whole = run.table.clone();
    if let Some(&(tail, stop)) = run.instalments.last() {
        let (_, left) = play(eight(), log, tail as usize, run.record, &mut whole, stop);
        assert!(left == at && whole == table, "instalments leave the same");
    }
    let _ = writeln!(text, "left {}", record_shown(at));
    let _ = writeln!(text, "table{}", words(&whole));
}
