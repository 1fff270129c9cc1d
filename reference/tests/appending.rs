//! The stored vectors of the appends: each named case gets the answers it was made for, all are as a plain judge of
//! the requests says, and the stored bytes are as the format says.

use std::collections::{BTreeMap, BTreeSet};

use reference::append::{self, Request};
use reference::appending::{
    appending, histories, input, named, orders, output, request_bytes, Case,
};
use reference::directory::eight;
use reference::log::{check, entry, header, items};
use reference::random::{broken, directory, History, Mix, Random};
use reference::replica::Record;
use reference::sample::*;
use reference::slot::{Kind, Names, SLOT};
use reference::table::Row;
use reference::Answer::{self, Done, Refused};

fn refused<T>(number: u32, told: Option<u64>) -> Answer<T> {
    Refused { number, told }
}

#[test]
fn named_cases_answer_as_made_for() {
    for case in named() {
        let expected = case.expected.as_ref().expect("a named case has answers");
        assert_eq!(&case.outcome().answers, expected, "{}", case.name);
        assert_eq!(case.requests.len(), expected.len());
    }
}

/// The "Order" lines once more, by hand: the numbers for each set that a request meets, from all to none.
#[test]
fn orders_by_hand() {
    let update: &[u32] = &[3, 5, 3, 4, 3, 5, 3, 5, 3, 5, 3, 4, 3, 5, 3, 0];
    let commit: &[u32] = &[3, 6, 3, 4, 3, 16, 3, 6, 3, 4, 3, 0];
    let decision: &[u32] = &[3, 8, 3, 7, 3, 0];
    let checkpoint: &[u32] = &[10, 3, 10, 14, 10, 3, 10, 13, 10, 3, 10, 14, 10, 3, 10, 0];
    let cases = orders::cases();
    assert_eq!(cases.len(), 32);
    let lines = [(update, 3), (commit, 3), (decision, 5), (checkpoint, 3)];
    for ((line, tail), cases) in lines.into_iter().zip(cases.chunks(8)) {
        for (case, by_log) in cases.iter().zip((0..8).rev()) {
            assert_eq!(case.tail, tail);
            let expected: Vec<Answer<usize>> = line
                .iter()
                .map(|number| match (by_log, number) {
                    (1 | 3 | 5 | 7, _) => refused(1, None),
                    (2 | 6, _) => refused(2, Some(1)),
                    (4, 0) => refused(9, None),
                    (_, 0) => Done(tail as usize + 1),
                    (_, 16) => refused(16, Some(0)),
                    (_, number) => refused(*number, None),
                })
                .collect();
            assert_eq!(case.outcome().answers, expected, "{}", case.name);
        }
    }
}

/// An entry's 64 words, with one header and one item.
fn words(head: u32, number: u32, header: [u32; 3], item: [u32; 4]) -> Vec<u32> {
    let mut words = vec![head, number];
    words.extend(header);
    words.resize(14, 0);
    words.extend(item);
    words.resize(64, 0);
    words
}

#[test]
fn the_bench_log_as_printed() {
    let cases = named();
    assert_eq!(
        (cases[0].name.as_str(), cases[0].log.len()),
        ("bench log", 2048)
    );
    let (up, co) = (0x5550_0101, 0x434F_0101);
    let mut expected = words(up, 0, [2, 0, 0], [2, 7, 1, 43]);
    expected.extend(words(up, 9, [2, 0x0001_0000, 0], [2, 7, 1, 42]));
    expected.extend(words(up, 10, [2, 0x0001_0002, 0], [2, 7, 1, 40]));
    expected.extend(words(co, 9, [2, 0x0001_0002, 0x0003_0000], [2, 7, 0, 1]));
    expected.extend(words(co, 10, [2, 0x0001_0002, 0x0003_0004], [2, 7, 0, 1]));
    expected.resize(8 * 64, 0);
    let mut text = "update done 1\nupdate done 2\nupdate done 3\n".to_string();
    text.push_str("commit done 4\ncommit done 5\nlog");
    for word in expected {
        text.push_str(&format!(" {word}"));
    }
    text.push('\n');
    assert_eq!(output(&cases[..1]), text);
}

#[test]
fn only_the_slot_at_the_tail_is_written() {
    for case in appending() {
        let (mut log, mut tail) = (case.log.clone(), case.tail as usize);
        for request in &case.requests {
            let before = log.clone();
            let Done(after) = append::request(eight(), &mut log, tail, request) else {
                assert_eq!(log, before, "{}", case.name);
                continue;
            };
            assert_eq!(after, tail + 1);
            assert_eq!(log[..tail * SLOT], before[..tail * SLOT]);
            assert_eq!(log[after * SLOT..], before[after * SLOT..]);
            assert_eq!(check(eight(), &log, after), Done(()));
            let (kind, stored) = match request {
                Request::Update { items, .. } => (Kind::Update, items.clone()),
                Request::Commit { reads, .. } => (Kind::Commit, reads.clone()),
                Request::Decision { offset, outcome } => {
                    let mut item = offset.to_be_bytes().to_vec();
                    item.extend(outcome.to_be_bytes());
                    item.extend([0; 4]);
                    (Kind::Decision, item)
                }
                Request::Checkpoint {
                    record,
                    table,
                    object,
                } => {
                    let cells = cells_of(table, record.count, u64::from(*object));
                    (Kind::Checkpoint, saved_items(&cells))
                }
            };
            let named = match request {
                Request::Commit { names, .. } => *names,
                _ => Names::NONE,
            };
            let told = entry(eight(), &log, after, tail as u64).done().unwrap();
            assert_eq!((told.kind, told.names), (kind, named));
            assert_eq!(items(eight(), &log, after, tail as u64), stored);
            tail = after;
        }
        assert_eq!(case.outcome().log, log);
    }
}

/// A lone second number, two that do not ascend, or the commit's own.
fn bad_names(number: u32, names: Names) -> bool {
    let Names { first, second } = names;
    let own = first == number || second == number;
    number != 0 && own || second != 0 && (first == 0 || first >= second)
}

/// What the entries of a log mean to later appends, kept in plain sets.
#[derive(Default)]
struct Judge {
    dir: Vec<u8>,
    slots: u64,
    tail: u64,
    objects: BTreeMap<u32, BTreeSet<u32>>,
    closed: BTreeSet<u32>,
    commits: BTreeSet<u64>,
    decided: BTreeSet<u64>,
    /// The cells of each number's updates; those that get a version, with it.
    aside: BTreeMap<u32, BTreeSet<[u64; 2]>>,
    stamped: BTreeSet<([u64; 2], u64)>,
}

fn get(bytes: &[u8], at: usize, length: usize) -> u64 {
    bytes[at..at + length]
        .iter()
        .fold(0, |number, byte| number << 8 | u64::from(*byte))
}

impl Judge {
    /// The record's place, as it stands in the directory's bytes.
    fn place(&self, object: u64) -> Option<usize> {
        let mut records = self.dir.chunks(16);
        records.position(|record| get(record, 4, 4) == object)
    }

    fn is_cell(&self, object: u64, key: u64) -> bool {
        let place = self.place(object);
        place.is_some_and(|place| key <= get(&self.dir, 16 * place + 8, 4))
    }

    /// A good log, read with the reading calls.
    fn of(dir: &[u8], log: &[u8], tail: usize) -> Judge {
        let mut judge = Judge {
            dir: dir.to_vec(),
            slots: (log.len() / SLOT) as u64,
            ..Judge::default()
        };
        for at in 0..tail as u64 {
            let told = entry(dir, log, tail, at).done().unwrap();
            let objects = (0..told.headers as u32)
                .map(|place| header(dir, log, tail, at, place).done().unwrap().object);
            match told.kind {
                Kind::Update => {
                    judge.updated(told.number, objects.collect());
                    judge.wrote(told.number, items(dir, log, tail, at));
                }
                Kind::Commit => judge.committed(told.number),
                Kind::Decision => judge.decide(get(items(dir, log, tail, at), 0, 8)),
                Kind::Checkpoint => {}
            }
            judge.tail += 1;
        }
        judge
    }

    fn updated(&mut self, number: u32, objects: BTreeSet<u32>) {
        if number != 0 {
            self.objects.entry(number).or_default().extend(objects);
        }
    }

    /// A plain update's cells get its version, others are set aside.
    fn wrote(&mut self, number: u32, items: &[u8]) {
        for item in items.chunks(16) {
            let cell = [get(item, 0, 4), get(item, 4, 4)];
            if number == 0 {
                self.stamped.insert((cell, self.tail + 1));
            } else {
                self.aside.entry(number).or_default().insert(cell);
            }
        }
    }

    fn committed(&mut self, number: u32) {
        self.closed.insert(number);
        self.commits.insert(self.tail);
        for cell in &self.aside[&number] {
            self.stamped.insert((*cell, self.tail + 1));
        }
    }

    /// The place of the first read with a version that no entry gives its cell.
    fn astray(&self, reads: &[u8]) -> Option<u64> {
        let good = |item: &[u8]| {
            let (cell, version) = ([get(item, 0, 4), get(item, 4, 4)], get(item, 8, 8));
            version == 0 || self.stamped.contains(&(cell, version))
        };
        let place = reads.chunks(16).position(|item| !good(item));
        place.map(|place| place as u64)
    }

    fn decide(&mut self, offset: u64) {
        self.decided.insert(offset);
    }

    /// 0 where done, else the number; what is done is noted.
    fn ask(&mut self, request: &Request) -> u32 {
        let number = match request {
            Request::Update { number, items } => self.update(*number, items),
            Request::Commit {
                number,
                reads,
                names,
            } => self.commit(*number, reads, *names),
            Request::Decision { offset, outcome } => self.decision(*offset, *outcome),
            Request::Checkpoint {
                record,
                table,
                object,
            } => self.checkpoint(record, table, u64::from(*object)),
        };
        if number != 0 {
            return number;
        }
        if self.tail == self.slots {
            return 9;
        }
        match request {
            Request::Update { number, items } => {
                self.updated(*number, written(items));
                self.wrote(*number, items);
            }
            Request::Commit { number, .. } => self.committed(*number),
            Request::Decision { offset, .. } => self.decide(*offset),
            Request::Checkpoint { .. } => {}
        }
        self.tail += 1;
        0
    }

    fn update(&self, number: u32, items: &[u8]) -> u32 {
        if items.is_empty() || items.len() > 192 || !items.len().is_multiple_of(16) {
            return 3;
        }
        for item in items.chunks(16) {
            let (operation, value) = (get(item, 8, 4), get(item, 12, 4));
            let known = operation == 1 || operation == 2 && value == 0;
            if !self.is_cell(get(item, 0, 4), get(item, 4, 4)) || !known {
                return 3;
            }
        }
        let mut objects = written(items);
        if objects.len() > 4 {
            return 5;
        }
        if number == 0 {
            return 0;
        }
        if self.closed.contains(&number) {
            return 4;
        }
        objects.extend(self.objects.get(&number).into_iter().flatten());
        if objects.len() > 4 {
            5
        } else {
            0
        }
    }

    fn commit(&self, number: u32, reads: &[u8], names: Names) -> u32 {
        if number == 0 || reads.len() > 192 || !reads.len().is_multiple_of(16) {
            return 3;
        }
        let cells: Vec<(u64, u64)> = reads
            .chunks(16)
            .map(|item| (get(item, 0, 4), get(item, 4, 4)))
            .collect();
        let sorted = cells.windows(2).all(|pair| pair[0] < pair[1]);
        let known = cells
            .iter()
            .all(|(object, key)| self.is_cell(*object, *key));
        let old = reads.chunks(16).all(|item| get(item, 8, 8) <= self.tail);
        if !sorted || !known || !old || bad_names(number, names) {
            3
        } else if self.closed.contains(&number) {
            4
        } else if !self.objects.contains_key(&number) {
            6
        } else if self.astray(reads).is_some() {
            16
        } else {
            0
        }
    }

    fn decision(&self, offset: u64, outcome: u32) -> u32 {
        if offset >= self.tail || outcome == 0 || outcome > 2 {
            3
        } else if !self.commits.contains(&offset) {
            7
        } else if self.decided.contains(&offset) {
            8
        } else {
            0
        }
    }

    fn checkpoint(&self, record: &Record, table: &[u8], object: u64) -> u32 {
        let rows = table.len() as u64 / 24;
        let past = (self.dir.len() / 16..64).any(|place| record.hosted >> place & 1 == 1);
        if record.hosted == 0 || past || record.count > rows || record.position > self.tail {
            return 10;
        }
        let cells: Vec<u64> = table.chunks_exact(24).map(|row| get(row, 0, 8)).collect();
        let counted = &cells[..record.count as usize];
        if counted.windows(2).any(|pair| pair[0] >= pair[1]) {
            return 10;
        }
        let place = self.place(object);
        if place.is_none_or(|place| record.hosted >> place & 1 == 0) {
            return 3;
        }
        let cells = cells_of(table, record.count, object);
        let good = |(key, held): (&u64, &[u64; 3])| {
            self.is_cell(object, *key) && held[2] >= 1 && held[2] <= self.tail
        };
        if !cells.iter().all(good) {
            3
        } else if record.position != self.tail {
            14
        } else if cells.len() > 12 {
            13
        } else {
            0
        }
    }
}

/// An object's counted rows by key: value and present fields and version.
fn cells_of(table: &[u8], count: u64, object: u64) -> BTreeMap<u64, [u64; 3]> {
    let mut cells = BTreeMap::new();
    for row in table.chunks_exact(24).take(count as usize) {
        if get(row, 0, 4) == object {
            let held = [get(row, 8, 4), get(row, 12, 4), get(row, 16, 8)];
            cells.insert(get(row, 4, 4), held);
        }
    }
    cells
}

/// Key 4, value 4, version 8; a removed cell has value 0 and the top bit.
fn saved_items(cells: &BTreeMap<u64, [u64; 3]>) -> Vec<u8> {
    let mut bytes = Vec::new();
    for (key, [value, present, version]) in cells {
        let (value, field) = match present {
            1 => (*value, *version),
            _ => (0, 0x8000_0000_0000_0000 + version),
        };
        bytes.extend((*key as u32).to_be_bytes());
        bytes.extend((value as u32).to_be_bytes());
        bytes.extend(field.to_be_bytes());
    }
    bytes
}

fn written(items: &[u8]) -> BTreeSet<u32> {
    items
        .chunks(16)
        .map(|item| get(item, 0, 4) as u32)
        .collect()
}

#[test]
fn a_plain_judge_says_the_same() {
    let mut judged = 0;
    for case in appending() {
        if !check(eight(), &case.log, case.tail as usize).is_done() {
            continue;
        }
        let mut judge = Judge::of(eight(), &case.log, case.tail as usize);
        let answers = case.outcome().answers;
        for (request, answer) in case.requests.iter().zip(answers) {
            let expected = match (judge.ask(request), request) {
                (0, _) => Done(judge.tail as usize),
                (16, Request::Commit { reads, .. }) => refused(16, judge.astray(reads)),
                (number, _) => refused(number, None),
            };
            assert_eq!(answer, expected, "{}: {request:?}", case.name);
        }
        judged += 1;
    }
    assert!(judged >= 60, "{judged}");
}

/// The same over directories of all kinds, and with hosted sets that have a bit past the last record.
#[test]
fn a_plain_judge_says_the_same_over_any_directory() {
    let mut met = [0; 17];
    for seed in 0..400 {
        let mut random = Random::new(seed ^ 0xD3);
        let directory = directory(&mut random);
        let dir = directory.bytes();
        let mix = Mix::rough().over(&directory, &mut random, 8).naming(30);
        let mut judge = Judge::of(&dir, &vec![0; 40 * SLOT], 0);
        let mut history = History::over(directory, seed, 40, mix);
        let mut log = vec![0x5A; 40 * SLOT];
        for _ in 0..60 {
            let mut request = history.request();
            if random.percent(12) {
                let (directory, tail) = (&history.writer.directory, history.writer.tail);
                broken(directory, &mut random, &mut request, tail);
            }
            if let Request::Checkpoint { record, .. } = &mut request {
                if random.percent(5) {
                    record.hosted |= 1 << random.below(64);
                }
            }
            let tail = history.writer.tail;
            let expected = match (judge.ask(&request), &request) {
                (0, _) => Done(judge.tail as usize),
                (16, Request::Commit { reads, .. }) => refused(16, judge.astray(reads)),
                (number, _) => refused(number, None),
            };
            let answer = append::request(&dir, &mut log, tail, &request);
            assert_eq!(answer, expected, "seed {seed}: {request:?}");
            assert_eq!(history.append(request), answer);
            assert!(history.writer.used() == &log[..history.writer.used().len()]);
            met[answer.number() as usize] += 1;
        }
        assert_eq!(check(&dir, &log, history.writer.tail), Done(()));
    }
    for number in [0, 3, 4, 5, 6, 7, 8, 9, 10, 14, 16] {
        assert!(met[number] > 10, "no {number}: {met:?}");
    }
}

#[test]
fn the_histories_are_as_wide_as_meant() {
    let cases = histories::cases();
    assert_eq!(cases.len(), 18);
    let mut seen = BTreeMap::new();
    for case in &cases {
        assert!((6..=16).contains(&(case.log.len() / SLOT)));
        assert!((10..=25).contains(&case.requests.len()));
        assert_eq!(check(eight(), &case.log, case.tail as usize), Done(()));
        for (request, answer) in case.requests.iter().zip(case.outcome().answers) {
            let kind = request_bytes(request)[3];
            *seen.entry((kind, answer.number())).or_insert(0) += 1;
        }
    }
    for (kind, numbers) in [
        (1, vec![0, 3, 4, 5, 9]),
        (2, vec![0, 3, 4, 6, 9, 16]),
        (3, vec![0, 3, 7, 8, 9]),
        (4, vec![0, 3, 9, 10, 14]),
    ] {
        for number in numbers {
            let count = seen.get(&(kind, number)).copied().unwrap_or(0);
            assert!(count >= 2, "kind {kind}, {number}: {count}");
        }
    }
}

#[test]
fn the_vectors_stay_within_their_bounds() {
    let cases = appending();
    let (stdin, stdout) = (input(&cases), output(&cases));
    assert!(stdin.len() < 327_680, "{}", stdin.len());
    assert!(stdout.len() < 1_500_000, "{}", stdout.len());
    assert!(cases.iter().all(|case| case.log.len() <= 4_096));
    let requests: usize = cases.iter().map(|case| case.requests.len()).sum();
    assert_eq!(stdout.lines().count(), cases.len() + requests);
    let mut rest = stdin.as_slice();
    for case in &cases {
        read_back(&mut rest, case);
    }
    assert!(rest.is_empty());
}

fn take<'a>(rest: &mut &'a [u8], length: usize) -> &'a [u8] {
    let (first, later) = rest.split_at(length);
    *rest = later;
    first
}

fn number(rest: &mut &[u8], length: usize) -> u64 {
    get(take(rest, length), 0, length)
}

/// Reads a case as the format says.
fn read_back(rest: &mut &[u8], case: &Case) {
    assert_eq!(number(rest, 4), u64::from(case.tail));
    let length = number(rest, 4) as usize;
    assert_eq!(take(rest, length), case.log);
    let requests = number(rest, 4) as usize;
    assert_eq!(requests, case.requests.len());
    for request in &case.requests {
        let kind = number(rest, 4);
        let read = if kind == 3 {
            Request::Decision {
                offset: number(rest, 8),
                outcome: number(rest, 4) as u32,
            }
        } else if kind == 4 {
            let record = Record {
                hosted: number(rest, 4),
                position: number(rest, 8),
                count: number(rest, 8),
            };
            let object = number(rest, 4) as u32;
            let length = number(rest, 4) as usize;
            Request::Checkpoint {
                record,
                table: take(rest, length).to_vec(),
                object,
            }
        } else {
            let transaction = number(rest, 4) as u32;
            let length = number(rest, 4) as usize;
            let items = take(rest, length).to_vec();
            match kind {
                1 => Request::Update {
                    number: transaction,
                    items,
                },
                2 => Request::Commit {
                    number: transaction,
                    reads: items,
                    names: Names::of(number(rest, 4) as u32, number(rest, 4) as u32),
                },
                _ => panic!("kind {kind}"),
            }
        };
        assert_eq!(&read, request);
    }
}

#[test]
fn requests_as_stored() {
    let mut expected = vec![0, 0, 0, 1, 0, 0, 0, 9, 0, 0, 0, 16];
    expected.extend([0, 0, 0, 2, 0, 0, 0, 7, 0, 0, 0, 1, 0, 0, 0, 42]);
    assert_eq!(request_bytes(&update(9, &[put(2, 7, 42)])), expected);
    let mut expected = vec![0, 0, 0, 2, 0, 0, 1, 0, 0, 0, 0, 16];
    expected.extend([0, 0, 0, 2, 0, 0, 0, 7, 0, 0, 0, 0, 0, 0, 0, 3]);
    expected.extend([0; 8]);
    assert_eq!(request_bytes(&commit(256, &[read(2, 7, 3)])), expected);
    let mut expected = vec![0, 0, 0, 2, 0, 0, 0, 9, 0, 0, 0, 0];
    expected.extend([0, 0, 0, 4, 0, 0, 1, 5]);
    assert_eq!(request_bytes(&commit_after(9, &[], 4, 261)), expected);
    let expected = [0, 0, 0, 3, 0, 0, 0, 1, 0, 0, 0, 4, 0, 0, 0, 2];
    assert_eq!(request_bytes(&decision(1 << 32 | 4, 2)), expected);
    let mut expected = vec![0, 0, 0, 4, 0, 0, 0, 0x80, 0, 0, 0, 0, 0, 0, 0, 5];
    expected.extend([0, 0, 0, 0, 0, 0, 0, 1, 0, 0, 0, 8, 0, 0, 0, 24]);
    expected.extend([0, 0, 0, 8, 0, 0, 0, 0, 0, 0, 0, 6, 0, 0, 0, 1]);
    expected.extend([0, 0, 0, 0, 0, 0, 0, 4]);
    let row = Row::of(8, 0, Some(6), 4);
    assert_eq!(request_bytes(&checkpoint_of(8, 5, &[row])), expected);
}
