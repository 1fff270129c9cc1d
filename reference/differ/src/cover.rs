//! What the run has met: each number of each call, and some cases of their own.

use std::collections::BTreeMap;

use reference::append::{self, Request};
use reference::boundary::Said;
use reference::directory::Directory;
use reference::header::{BackPointer, Header, FARTHEST};
use reference::log::{owed, MOST_SETS};
use reference::objects::Structure;
use reference::price::price;
use reference::replica::{pointed_at, Record};
use reference::rules::{names_good, objects_written};
use reference::sample::run_of;
use reference::slot::{reads_in, slot_at, writes_in, Kind, Names, Read, MOST_HEADERS, SLOT};
use reference::table::{capacity, in_order, rows};
use reference::Answer;

use crate::calls::{Call, NAMES};

/// Cases that must be met beside the numbers.
pub const CASES: [&str; 64] = [
    "owed: an offset",
    "owed: none",
    "entry: update",
    "entry: commit",
    "entry: decision",
    "entry: checkpoint",
    "header: format 0",
    "stream_next: an entry",
    "stream_next: the end",
    "append_update: 5 for its own objects",
    "append_update: 5 for its transaction",
    "read_cell: never written",
    "read_cell: a value",
    "read_cell: removed",
    "play: 12 past other entries",
    "play: 13 past other entries",
    "play: on from a later position",
    "audit: 11 at a decision",
    "audit: 11 at a checkpoint",
    "audit: 13 past other entries",
    "append_checkpoint: 10 for the order of the rows",
    "play: 10 for the order of the rows",
    "read_cell: 10 for the order of the rows",
    "check: 2 at a back-pointer past offset 0",
    "check: 2 at format 1 where no entry is far",
    "append_commit: 16 at a plain update",
    "append_commit: 16 at an update of its number",
    "append_commit: 16 at an update of another number",
    "append_commit: 16 at a commit record",
    "append_commit: 16 at a decision",
    "append_commit: 16 at a checkpoint",
    "append_commit: 16 past the first read",
    "append_commit: 16 where no slot is free",
    "append_commit: 0 with a commit record's version",
    "owed: 3 for a 17th set",
    "owed: 3 for an empty set",
    "owed: none of 16 sets",
    "owed: an offset for the last set alone",
    "price: nothing",
    "price: a total",
    "price: a total over 64 bits",
    "price: 19 past the first line",
    "price: 3 for a register",
    "price: 3 for the list alone",
    "price: 10 for the order of the rows",
    "append_commit: 0 with one number named",
    "append_commit: 0 with two numbers named",
    "append_commit: 3 for a lone second number alone",
    "append_commit: 3 for equal numbers alone",
    "append_commit: 3 for descending numbers alone",
    "append_commit: 3 for its own number alone",
    "entry: commit that names numbers",
    "check: 2 at the numbers that a commit record names",
    "check: 2 at the last bytes of another entry",
    "owed: an offset for a named number alone",
    "play: 12 at a named number alone",
    "play: on to a named number that has committed",
    "play: on to one that aborted",
    "play: on to one that commits later",
    "play: on to one that is open",
    "play: on to one that nobody uses",
    "play: on to one that aborted and names numbers too",
    "play: past a named number by its decision record",
    "audit: 11 at a decision about a named number",
];

/// Where the cases of named numbers begin, and how long a log is looked at for them.
const NAMING: usize = 45;
const LOOKED_AT: u64 = 60;

/// Cases of directories that must be met, beside 15 in every call.
pub const DIRECTED_CASES: [&str; 10] = [
    "15 at place 0",
    "15 past place 0",
    "15 at place 64",
    "append_checkpoint: 10 for a bit past the last record",
    "open_fresh: 10 for a bit past the last record",
    "play: 10 for a bit past the last record",
    "read_cell: 10 for a bit past the last record",
    "open_fresh: all of 64 objects",
    "owed: 3 for a bit past the last record",
    "price: 10 for a bit past the last record",
];

/// Met on far logs alone.
pub const FAR_CASE: &str = "header: format 1";

#[derive(Default)]
pub struct Cover {
    /// By call and number; the last place is for any that no call has.
    numbers: [[u64; 21]; NAMES.len()],
    cases: BTreeMap<&'static str, u64>,
    pub calls: u64,
}

impl Cover {
    /// Takes in a call, as it was before, and its answer.
    pub fn note(&mut self, dir: &[u8], log: &[u8], tail: u64, call: &Call, said: &Said) {
        self.calls += 1;
        let number = (said.number as usize).min(20);
        self.numbers[call.place()][number] += 1;
        let of_commit = match call {
            Call::Append(Request::Commit { number, reads, .. }) => {
                commit_cases(log, tail, (*number, reads), said)
            }
            _ => Vec::new(),
        };
        let of_names = named_cases(dir, log, tail, call, said);
        let directed = directed_case(dir, call, said).map(|place| DIRECTED_CASES[place]);
        let of_call = case_of(dir, log, call, said);
        let of_sets = case_of_sets(dir, log, tail, call, said).or_else(|| priced(dir, call, said));
        let cases = of_call.into_iter().chain(of_commit).chain(of_sets);
        let cases = cases.chain(of_names);
        for case in cases.chain(directed) {
            *self.cases.entry(case).or_default() += 1;
        }
    }

    /// The counts as a table, one call to a line.
    pub fn table(&self) -> String {
        let mut text = String::new();
        for (place, (name, allowed)) in NAMES.iter().enumerate() {
            let counts: Vec<String> = numbers(allowed)
                .map(|number| format!("{number}: {}", self.numbers[place][number as usize]))
                .collect();
            text += &format!("{name:18} {}\n", counts.join(", "));
        }
        for (case, count) in &self.cases {
            text += &format!("{case}: {count}\n");
        }
        text
    }

    /// What document 01 allows and was never met.
    pub fn missing(&self, far: bool) -> Vec<String> {
        let mut missing = Vec::new();
        for (place, (name, allowed)) in NAMES.iter().enumerate() {
            for number in numbers(allowed) {
                if self.numbers[place][number as usize] == 0 {
                    missing.push(format!("{name}: {number}"));
                }
            }
        }
        let cases = CASES
            .iter()
            .chain(&DIRECTED_CASES)
            .copied()
            .chain(far.then_some(FAR_CASE));
        missing.extend(
            cases
                .filter(|case| !self.cases.contains_key(case))
                .map(str::to_string),
        );
        missing
    }
}

/// The numbers allowed, and 15, which every call can answer.
fn numbers(allowed: &[u32]) -> impl Iterator<Item = u32> + '_ {
    allowed.iter().copied().chain([15])
}

/// What a call met of its directory, by its place among those cases.
fn directed_case(dir: &[u8], call: &Call, said: &Said) -> Option<usize> {
    if said.number == 15 {
        return Some(match said.out[3] {
            0 => 0,
            64 => 2,
            _ => 1,
        });
    }
    let past = |hosted: u64| {
        let directory = Directory::of(dir).ok()?;
        (said.number == 10 && hosted & !directory.everything() != 0).then_some(())
    };
    if let (Call::Owed { sets }, 3) = (call, said.number) {
        let directory = Directory::of(dir).ok()?;
        let past = sets.iter().any(|set| set & !directory.everything() != 0);
        return (past && sets.len() <= MOST_SETS && !sets.contains(&0)).then_some(8);
    }
    match call {
        Call::Append(Request::Checkpoint { record, .. }) => past(record.hosted).map(|()| 3),
        Call::OpenFresh { hosted: u64::MAX } if said.number == 0 => Some(7),
        Call::OpenFresh { hosted } => past(*hosted).map(|()| 4),
        Call::Play { record, .. } => past(record.hosted).map(|()| 5),
        Call::ReadCell { record, .. } => past(record.hosted).map(|()| 6),
        Call::Price { record, .. } => past(record.hosted).map(|()| 9),
        _ => None,
    }
}

/// The record's set and count are good, and its rows do not ascend.
fn disorder_alone(dir: &[u8], record: &Record, table: &[u8]) -> bool {
    Directory::of(dir).is_ok_and(|directory| directory.can_host(record.hosted))
        && record.count <= capacity(table) as u64
        && !in_order(table, record.count as usize)
}

/// A bad entry with a header that reads as no good one can there.
fn bad_header(log: &[u8], at: usize) -> Option<&'static str> {
    let slot = slot_at(log, at);
    let count = slot.header_count().min(MOST_HEADERS);
    let mut headers = (0..count).map(|place| slot.header(place));
    let past = |header: Header| header.back_pointers(at).contains(&BackPointer::Past);
    if headers.clone().any(past) {
        Some(CASES[23])
    } else if at <= FARTHEST && headers.any(|header| header.format == 1) {
        Some(CASES[24])
    } else {
        None
    }
}

/// Of a commit that gets as far as its reads: what the first astray one points to, and where it is; or what it may point to.
fn commit_cases(
    log: &[u8],
    tail: u64,
    (number, reads): (u32, &[u8]),
    said: &Said,
) -> Vec<&'static str> {
    let pointed_to = |read: Read| slot_at(log, pointed_at(read.version));
    if said.number == 0 {
        let mut versions = reads_in(reads).filter(|read| read.version > 0);
        let commit = versions.any(|read| pointed_to(read).kind() == Some(Kind::Commit));
        return commit.then_some(CASES[33]).into_iter().collect();
    }
    let Some(read) = reads_in(reads)
        .nth(said.out[3] as usize)
        .filter(|_| said.number == 16)
    else {
        return Vec::new();
    };
    let entry = pointed_to(read);
    let place = match entry.kind() {
        Some(Kind::Update) if entry.number() == 0 => 25,
        Some(Kind::Update) if entry.number() == number => 26,
        Some(Kind::Update) => 27,
        Some(Kind::Commit) => 28,
        Some(Kind::Decision) => 29,
        _ => 30,
    };
    let past_first = (said.out[3] > 0).then_some(CASES[31]);
    let full = (tail == (log.len() / SLOT) as u64).then_some(CASES[32]);
    [Some(CASES[place]), past_first, full]
        .into_iter()
        .flatten()
        .collect()
}

/// What a call met of the numbers that commit records name. Play is looked at where the log is short.
fn named_cases(dir: &[u8], log: &[u8], tail: u64, call: &Call, said: &Said) -> Vec<&'static str> {
    let Ok(directory) = Directory::of(dir) else {
        return Vec::new();
    };
    let out = said.out;
    let met = match (call, said.number) {
        (Call::Append(request @ Request::Commit { .. }), 0 | 3) => {
            let names = names_of(request);
            match said.number {
                0 => names.any().then(|| names.numbers().count() - 1),
                _ => names_alone(dir, log, tail, request),
            }
        }
        (Call::Entry { .. }, 0) => (out[5] != 0).then_some(6),
        (Call::Check, 2) => last_bytes(log, out[3] as usize),
        (Call::Owed { sets }, 0) if out[0] == 1 => {
            let lacks = |set: &u64| *set != directory.everything();
            (reads_within(&directory, log, out[1] as usize, sets) && sets.iter().any(lacks))
                .then_some(9)
        }
        (Call::Play { record, .. }, 12) => {
            reads_within(&directory, log, out[1] as usize, &[record.hosted]).then_some(10)
        }
        (Call::Play { record, .. }, 0 | 13) if tail <= LOOKED_AT => {
            let entries = record.position as usize..out[1] as usize;
            let everything = record.hosted == directory.everything();
            return entries
                .filter(|at| passed_naming(&directory, log, *at, record.hosted))
                .flat_map(|at| match everything {
                    true => numbers_met(log, at, tail as usize),
                    false => vec![NAMING + 17],
                })
                .map(|place| CASES[place])
                .collect();
        }
        (Call::Audit { .. }, 11) => {
            let slot = slot_at(log, out[3] as usize);
            let about = slot.kind() == Some(Kind::Decision)
                && slot_at(log, slot.verdict().commit as usize).names().any();
            about.then_some(18)
        }
        _ => None,
    };
    met.map(|place| CASES[NAMING + place]).into_iter().collect()
}

fn names_of(request: &Request) -> Names {
    match request {
        Request::Commit { names, .. } => *names,
        _ => Names::NONE,
    }
}

/// The commit is 3 for what it names and for nothing else: which fault.
fn names_alone(dir: &[u8], log: &[u8], tail: u64, request: &Request) -> Option<usize> {
    let Request::Commit {
        number,
        reads,
        names,
    } = request
    else {
        return None;
    };
    let unnamed = Request::Commit {
        number: *number,
        reads: reads.clone(),
        names: Names::NONE,
    };
    let mut copy = log.to_vec();
    if append::request(dir, &mut copy, tail as usize, &unnamed).number() == 3 {
        return None;
    }
    Some(match (names.first, names.second) {
        (0, second) if second != *number => 2,
        (first, second) if first == second && first != *number => 3,
        (first, second) if second != 0 && first > second && second != *number => 4,
        _ => 5,
    })
}

/// A bad entry that would be good with zeros at its end: which kind.
fn last_bytes(log: &[u8], at: usize) -> Option<usize> {
    let slot = slot_at(log, at);
    match slot.kind() {
        Some(Kind::Commit) if !names_good(slot.number(), slot.names()) => Some(7),
        Some(Kind::Commit) | None => None,
        Some(_) => slot.names().any().then_some(8),
    }
}

/// The commit record names a number, and each of these sets with an object of its headers has all that it reads.
fn reads_within(directory: &Directory, log: &[u8], at: usize, sets: &[u64]) -> bool {
    let slot = slot_at(log, at);
    let met = |set: &&u64| {
        slot.headers()
            .any(|header| directory.has(**set, header.object))
    };
    slot.names().any()
        && sets
            .iter()
            .filter(met)
            .all(|set| slot.reads().all(|read| directory.has(*set, read.object)))
}

/// A commit record of a hosted object that names a number.
fn passed_naming(directory: &Directory, log: &[u8], at: usize, hosted: u64) -> bool {
    let slot = slot_at(log, at);
    slot.kind() == Some(Kind::Commit)
        && slot.names().any()
        && slot
            .headers()
            .any(|header| directory.has(hosted, header.object))
}

/// What became of each number that the commit record at an offset names, as places among the cases.
fn numbers_met(log: &[u8], at: usize, tail: usize) -> Vec<usize> {
    let below = run_of(log, at);
    let commit_of = |number: u32| {
        (0..tail).find(|&other| {
            let slot = slot_at(log, other);
            slot.kind() == Some(Kind::Commit) && slot.number() == number
        })
    };
    let used = |number: u32| (0..tail).any(|other| slot_at(log, other).number() == number);
    let place = |number: u32| match commit_of(number) {
        _ if below.has_committed(number) => 11,
        Some(commit) if commit < at && slot_at(log, commit).names().any() => 16,
        Some(commit) if commit < at => 12,
        Some(_) => 13,
        None if used(number) => 14,
        None => 15,
    };
    let names = slot_at(log, at).names();
    names
        .numbers()
        .map(|number| NAMING + place(number))
        .collect()
}

/// What the number of declared sets, and the last of them, did to what is owed.
fn case_of_sets(
    dir: &[u8],
    log: &[u8],
    tail: u64,
    call: &Call,
    said: &Said,
) -> Option<&'static str> {
    let Call::Owed { sets } = call else {
        return None;
    };
    let owes = match (said.number, said.out[0]) {
        (0, 0) => return (sets.len() == MOST_SETS).then_some(CASES[36]),
        (0, _) => true,
        _ => false,
    };
    let (_, others) = sets.split_last()?;
    let alone = || owed(dir, log, tail as usize, others) == Answer::Done(None);
    (owes && !others.is_empty() && alone()).then_some(CASES[37])
}

/// What a price met.
fn priced(dir: &[u8], call: &Call, said: &Said) -> Option<&'static str> {
    let Call::Price {
        record,
        table,
        object,
        prices,
    } = call
    else {
        return None;
    };
    let lines = || {
        let of_object = rows(table, record.count as usize).filter(|row| row.object == *object);
        of_object.filter(|row| row.present == 1 && row.value > 0)
    };
    let is_map = || {
        let directory = Directory::of(dir).ok()?;
        let found = directory.object(*object)?;
        Some(found.structure == Structure::Map)
    };
    let list_alone = || price(dir, record, table, *object, &[]).number() != 3;
    match (said.number, said.out) {
        (0, [0, 0, ..]) => Some(CASES[38]),
        (0, [0, ..]) => Some(CASES[39]),
        (0, _) => Some(CASES[40]),
        (19, out) => {
            let first = lines().next().map(|row| u64::from(row.key));
            (first < Some(out[3])).then_some(CASES[41])
        }
        (3, _) if is_map() == Some(false) => Some(CASES[42]),
        (3, _) if !prices.is_empty() && list_alone() => Some(CASES[43]),
        (10, _) if disorder_alone(dir, record, table) => Some(CASES[44]),
        _ => None,
    }
}

fn case_of(dir: &[u8], log: &[u8], call: &Call, said: &Said) -> Option<&'static str> {
    let (number, out) = (said.number, &said.out);
    match (call, number) {
        (Call::Check, 2) => bad_header(log, out[3] as usize),
        (Call::Owed { .. }, 0) => Some(["owed: none", "owed: an offset"][out[0] as usize]),
        (Call::Owed { sets }, 3) if sets.len() > MOST_SETS => Some(CASES[34]),
        (Call::Owed { sets }, 3) if sets.contains(&0) => Some(CASES[35]),
        (Call::Entry { .. }, 0) => Some(CASES[1 + out[0] as usize]),
        (Call::Header { .. }, 0) => Some(["header: format 0", FAR_CASE][out[1] as usize]),
        (Call::StreamNext { .. }, 0) => {
            Some(["stream_next: the end", "stream_next: an entry"][out[0] as usize])
        }
        (Call::Append(Request::Update { items, .. }), 5) => {
            let directory = Directory::of(dir).ok()?;
            let objects = objects_written(&directory, writes_in(items))?;
            if objects.count_ones() > 4 {
                Some("append_update: 5 for its own objects")
            } else {
                Some("append_update: 5 for its transaction")
            }
        }
        (Call::ReadCell { .. }, 0) => Some(CASES[11 + out[0] as usize]),
        (Call::Append(Request::Checkpoint { record, table, .. }), 10)
            if disorder_alone(dir, record, table) =>
        {
            Some(CASES[20])
        }
        (Call::Play { record, table, .. }, 10) if disorder_alone(dir, record, table) => {
            Some(CASES[21])
        }
        (Call::ReadCell { record, table, .. }, 10) if disorder_alone(dir, record, table) => {
            Some(CASES[22])
        }
        (Call::Play { record, .. }, 12) if out[1] > record.position => {
            Some("play: 12 past other entries")
        }
        (Call::Play { record, .. }, 13) if out[1] > record.position => {
            Some("play: 13 past other entries")
        }
        (Call::Play { record, .. }, 0) if record.position > 0 && out[2] > record.count => {
            Some("play: on from a later position")
        }
        (Call::Audit { .. }, 11) => match slot_at(log, out[3] as usize).kind() {
            Some(Kind::Decision) => Some("audit: 11 at a decision"),
            _ => Some("audit: 11 at a checkpoint"),
        },
        (Call::Audit { .. }, 13) if out[3] > 0 => Some("audit: 13 past other entries"),
        _ => None,
    }
}
