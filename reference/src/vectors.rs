//! The stored vectors of the programs: for each one its files stdin and stdout, under `crates/NAME`.
//!
//! stdin is a sequence of cases to its end, its numbers stored most significant byte first. stdout is what a program
//! prints for all cases, in order. Numbers are decimal, with single spaces and '\n' ends; K is what is told or "-".
//!
//! # Reading
//!
//! A case is 4 bytes tail, 4 bytes length of the log in bytes, then the log's bytes. T is the given tail.
//!
//! - `check done` or `check refused N at K`.
//! - For each of the eleven lists of sets of `DECLARED`, with its place from 0: `owed PLACE none`, `owed PLACE OFFSET` or `owed PLACE
//!   refused N at K`.
//! - For each offset o of 0, 1, .. min(T, 7), then T, then T + 1, without repeats: `entry o KIND NUMBER HEADERS
//!   ITEMS FIRST SECOND`, with kind 1 update, 2 commit, 3 decision, 4 checkpoint, the two numbers of the last eight bytes, and for
//!   each header ` OBJECT FORMAT POINTER` on the same line (the pointer is the stored 8 bytes as one number); or `entry o refused N
//!   at K`. Then `items o` and the item list's bytes as 4-byte words; nothing follows where it is empty or refused.
//! - For each object x of 0, 1, .. 9, and f of 0, T / 2, T, T + 1, without repeats: `next x f OFFSET r`, `next x f end
//!   r` or `next x f refused N at K r`, with r the reader's next offset afterwards.
//! - For each object x of 0, 1, .. 9, with a lent list of 5 numbers, then of 40, each filled with 77777: `list x LENGTH
//!   COUNT` or `list x LENGTH refused N at K`, and then all numbers of the lent list after the call.
//!
//! # Appending
//!
//! A case is 4 bytes tail, 4 bytes length of the log in bytes, the log's bytes, 4 bytes number of requests, then the
//! requests. Each is made on the log and tail that the last left; a refused one leaves them as they were. A request is
//! 4 bytes kind, then its arguments:
//!
//! - 1 update: 4 bytes number, 4 bytes length of the items in bytes, the items' bytes.
//! - 2 commit: the same, with the reads' bytes; then 4 bytes first and 4 bytes second number that it names.
//! - 3 decision: 8 bytes offset, 4 bytes outcome.
//! - 4 checkpoint: 4 bytes hosted set, 8 bytes position, 8 bytes count, 4 bytes object, 4 bytes length of the table in
//!   bytes, the table's bytes.
//!
//! For each request: `update done T` with the new tail T, or `update refused N at K`; likewise `commit`, `decision`,
//! `checkpoint`. At the end of a case: `log`, and after a space each all bytes of the log as 4-byte words; a last part
//! of fewer than 4 bytes is left out.
//!
//! # Replicas
//!
//! A case is 4 bytes length of the log in bytes, the log's bytes, 4 bytes length of the table in bytes, the table's
//! bytes, the record to start with (4 bytes hosted set, 8 bytes position, 8 bytes count), 4 bytes number of requests,
//! then the requests. Each is made on the table and record that the last left. A request is 4 bytes kind, then its
//! arguments:
//!
//! - 1 open fresh: 4 bytes hosted set. `open done H P C`, with hosted set, position and count of the record, or `open
//!   refused N at K`; refused, the record stays.
//! - 2 play: 4 bytes tail, 8 bytes stop. `play done H P C` or `play refused N at K H P C`, with the record as left.
//! - 3 read cell: 4 bytes object, 4 bytes key. `cell X KEY never`, `cell X KEY value V VERSION`, `cell X KEY removed
//!   VERSION` or `cell X KEY refused N at K`.
//! - 4 open at a checkpoint: 4 bytes tail, 8 bytes offset. `restore done H P C` or `restore refused N at K`; refused,
//!   the record stays.
//! - 5 audit, with the table as its scratch: 4 bytes tail. `audit done H P C` or `audit refused N at K H P C`, with the
//!   record as left, which is 0 0 0 where the log is refused. The next request is made on that record.
//!
//! At the end of a case: `table`, and after a space each all bytes of the table as 4-byte words; a last part of fewer
//! than 4 bytes is left out.
//!
//! # Forms
//!
//! A case is 4 bytes kind, 4 bytes length of the log in bytes, the log's bytes, then:
//!
//! - 1 readers: 4 bytes tail T. For each object x of 0, 1, .. 9, and f of 0, T / 2, T, T + 1: `stream x f`, then what a
//!   reader at f answers, call by call, to its end or a refusal, and its next offset r afterwards: the offsets and `end`,
//!   or `refused N at K`.
//! - 2 runs: 4 bytes their number, then of each 4 bytes length of the table in bytes, the table's bytes, the record (4
//!   bytes hosted set, 8 bytes position, 8 bytes count), 4 bytes number of instalments, then of each 4 bytes tail and 8
//!   bytes stop. For each instalment, on the record and table that the last left: `play done H P C` or `play refused N at
//!   K H P C`, with the record as left. At the end of a run: `left H P C`, and `table` as above.
//!
//! # Directories
//!
//! A case is 4 bytes length of the directory in bytes, the directory's bytes, 4 bytes length of the log in bytes, the log's bytes, 4
//! bytes tail T, 8 bytes hosted set, 4 bytes object x, 4 bytes key. A line for each call:
//!
//! - `check done`; `owed 0 none` or `owed 0 OFFSET` with the set 1 declared, `owed 1` likewise with the set 2; `entry KIND NUMBER HEADERS
//!   ITEMS FIRST SECOND` of offset 3; `items` of offset 3 as above.
//! - `next OFFSET r` or `next end r` of object x from 1, with r as above. `list COUNT` of object x, with a lent list of 3 numbers filled
//!   with 77777, and then its numbers.
//! - `update done T`, a plain put of 1 to the cell; `commit done T` of number 9, which reads the cell with version 0 and names no
//!   number; `decision done T`, of offset 3 with outcome 1; `checkpoint done T` of object x, from a record of the hosted set, T and count 0 with a table of 96 bytes
//!   of zero. Each is made on a copy of the log, and its line goes on with the last 256 bytes of that log afterwards, or all where
//!   they are fewer, as 4-byte words.
//! - `open done H P C` of the hosted set; `restore done H P C` of offset 0 into a table of 96 bytes of zero; `play done H P C` on the same
//!   table to T, from a record of the hosted set, 0 and 0, with the record as left, refused too; `table` as above.
//! - `cell never`, `cell value V VERSION` or `cell removed VERSION` of that record and table.
//! - `audit done H P C` with another table of 96 bytes of zero, the record as left, refused too; `table` as above.
//!
//! Refused, a line has `refused N at K` in the place of what is done.
//!
//! # Pricing
//!
//! A case is 4 bytes length of the directory in bytes, the directory's bytes, the record (8 bytes hosted set, 8 bytes position, 8 bytes
//! count), 4 bytes length of the table in bytes, the table's bytes, 4 bytes object, 4 bytes length of the list of prices in bytes, the
//! list's bytes. One line for each: `price HIGH LOW`, the total's two parts, or `price refused N at K`.
//!
//! # Playlog
//!
//! stdin is the bench log, stdout what `playlog` prints of it (`report`).

use std::fmt::Write;

use crate::appending::{self, appending};
use crate::auditing::auditing;
use crate::cases::reading;
use crate::directing::{self, directing};
use crate::directory::eight;
use crate::forms;
use crate::log::{check, entry, header, items, list, next, owed, MOST_SETS};
use crate::playing::{self, playing};
use crate::pricing::{self, pricing};
use crate::report;
use crate::sample::{bench, log_of};
use crate::Answer;

const FILLED: u32 = 77_777;

/// The sets that are declared, list by list: none; object 5; 2 and 5; both of these; 2; all; each by itself; an empty one; one with a bit
/// past the eight; the most sets; one more.
const DECLARED: [&[u64]; 11] = [
    &[],
    &[16],
    &[18],
    &[18, 16],
    &[2],
    &[255],
    &[1, 2, 4, 8, 16, 32, 64, 128],
    &[4, 0],
    &[256],
    &[254; MOST_SETS],
    &[254; MOST_SETS + 1],
];

/// The programs that have stored vectors.
pub const PROGRAMS: [&str; 7] = [
    "test_reading",
    "test_appending",
    "test_replicas",
    "test_forms",
    "test_directories",
    "test_pricing",
    "playlog",
];

/// What a program reads and what it prints.
pub struct Vectors {
    pub cases: usize,
    pub input: Vec<u8>,
    pub output: String,
}

/// The vectors of one of `PROGRAMS`.
pub fn vectors(program: &str) -> Option<Vectors> {
    match program {
        "test_reading" => Some(of_reading()),
        "test_appending" => Some(of_appending()),
        "test_replicas" => Some(of_replicas()),
        "test_forms" => Some(of_forms()),
        "playlog" => Some(of_playlog()),
        "test_directories" => Some(of_directories()),
        "test_pricing" => Some(of_pricing()),
        _ => None,
    }
}

fn of_appending() -> Vectors {
    let cases = appending();
    Vectors {
        cases: cases.len(),
        input: appending::input(&cases),
        output: appending::output(&cases),
    }
}

fn of_replicas() -> Vectors {
    let mut cases = playing();
    cases.extend(auditing());
    Vectors {
        cases: cases.len(),
        input: playing::input(&cases),
        output: playing::output(&cases),
    }
}

fn of_forms() -> Vectors {
    Vectors {
        cases: forms::readers().len() + forms::logs().len(),
        input: forms::input(),
        output: forms::output(),
    }
}

fn of_directories() -> Vectors {
    let cases = directing();
    Vectors {
        cases: cases.len(),
        input: directing::input(&cases),
        output: directing::output(&cases),
    }
}

fn of_pricing() -> Vectors {
    let cases = pricing();
    Vectors {
        cases: cases.len(),
        input: pricing::input(&cases),
        output: pricing::output(&cases),
    }
}

fn of_playlog() -> Vectors {
    let input = log_of(&bench());
    Vectors {
        cases: 1,
        output: report::playlog(&input),
        input,
    }
}

fn of_reading() -> Vectors {
    let cases = reading();
    let mut input = Vec::new();
    let mut output = String::new();
    for case in &cases {
        input.extend(case.tail.to_be_bytes());
        input.extend((case.log.len() as u32).to_be_bytes());
        input.extend(&case.log);
        print_case(&mut output, &case.log, case.tail as usize);
    }
    Vectors {
        cases: cases.len(),
        input,
        output,
    }
}

fn print_case(text: &mut String, log: &[u8], tail: usize) {
    line(text, "check", check(eight(), log, tail), |()| {
        "done".to_string()
    });
    for (place, sets) in DECLARED.iter().enumerate() {
        let answer = owed(eight(), log, tail, sets);
        line(text, &format!("owed {place}"), answer, |owed| {
            owed.map_or("none".to_string(), |offset| offset.to_string())
        });
    }
    let last = tail as u64;
    for offset in distinct((0..=last.min(7)).chain([last, last + 1])) {
        print_entry(text, log, tail, offset);
    }
    for object in 0..=9 {
        for from in distinct([0, last / 2, last, last + 1].into_iter()) {
            print_next(text, log, tail, object, from);
        }
    }
    for object in 0..=9 {
        for length in [5, 40] {
            print_list(text, log, tail, object, length);
        }
    }
}

/// The numbers in their order, each once.
fn distinct(numbers: impl Iterator<Item = u64>) -> Vec<u64> {
    let mut seen = Vec::new();
    for number in numbers {
        if !seen.contains(&number) {
            seen.push(number);
        }
    }
    seen
}

fn line<T>(text: &mut String, name: &str, answer: Answer<T>, done: impl FnOnce(T) -> String) {
    let _ = writeln!(text, "{name} {}", answer.shown(done));
}

fn print_entry(text: &mut String, log: &[u8], tail: usize, offset: u64) {
    let answer = entry(eight(), log, tail, offset);
    line(text, &format!("entry {offset}"), answer, |entry| {
        let mut shown = format!(
            "{} {} {} {} {} {}",
            entry.kind as u32,
            entry.number,
            entry.headers,
            entry.items,
            entry.names.first,
            entry.names.second
        );
        for place in 0..entry.headers as u32 {
            if let Answer::Done(header) = header(eight(), log, tail, offset, place) {
                let _ = write!(
                    shown,
                    " {} {} {}",
                    header.object, header.format, header.pointer
                );
            }
        }
        shown
    });
    let _ = write!(text, "items {offset}");
    for word in items(eight(), log, tail, offset).chunks_exact(4) {
        let word = u32::from_be_bytes([word[0], word[1], word[2], word[3]]);
        let _ = write!(text, " {word}");
    }
    text.push('\n');
}

fn print_next(text: &mut String, log: &[u8], tail: usize, object: u32, from: u64) {
    let (answer, reader) = next(eight(), log, tail, object, from);
    let shown = answer.shown(|next| next.map_or("end".to_string(), |offset| offset.to_string()));
    let _ = writeln!(text, "next {object} {from} {shown} {reader}");
}

fn print_list(text: &mut String, log: &[u8], tail: usize, object: u32, length: usize) {
    let mut lent = vec![FILLED; length];
    let answer = list(eight(), log, tail, object, &mut lent);
    let shown = answer.shown(|count| count.to_string());
    let _ = write!(text, "list {object} {length} {shown}");
    for number in lent {
        let _ = write!(text, " {number}");
    }
    text.push('\n');
}
