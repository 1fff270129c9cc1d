//! Random histories from a seed: few keys, several open transactions, fresh, stale and astray reads, true and false
//! decisions and checkpoints, and now and then a broken request. The same seed makes the same history.

use std::collections::BTreeMap;

use crate::answer::Answer;
use crate::append::{Request, Writer};
use crate::bytes::put32;
use crate::directory::{
    bytes_of, fault, the_eight, Directory, HIGHEST_ID, HIGHEST_KEY, MOST_RECORDS, RECORD,
};
use crate::objects::{Object, Structure};
use crate::replica::Record;
use crate::run::Run;
use crate::sample::{
    append_before, commit_after, decision, put, read, remove, rows_of, table_of, update,
};
use crate::slot::{writes_in, Names, Read, Write, ABORT, COMMIT, SLOT};
use crate::table::Row;

/// Splitmix64.
#[derive(Clone, Debug)]
pub struct Random(u64);

impl Random {
    pub fn new(seed: u64) -> Random {
        Random(seed)
    }

    pub fn number(&mut self) -> u64 {
        self.0 = self.0.wrapping_add(0x9E37_79B9_7F4A_7C15);
        let mut mixed = self.0;
        mixed = (mixed ^ mixed >> 30).wrapping_mul(0xBF58_476D_1CE4_E5B9);
        mixed = (mixed ^ mixed >> 27).wrapping_mul(0x94D0_49BB_1331_11EB);
        mixed ^ mixed >> 31
    }

    /// A number below the bound; 0 for bound 0.
    pub fn below(&mut self, bound: u64) -> u64 {
        self.number() % bound.max(1)
    }

    pub fn percent(&mut self, chance: u64) -> bool {
        self.below(100) < chance
    }

    pub fn pick<T: Copy>(&mut self, choices: &[T]) -> Option<T> {
        choices
            .get(self.below(choices.len() as u64) as usize)
            .copied()
    }
}

/// Numbers at the edges of what a call takes.
pub const EDGES: [u64; 14] = [
    0,
    1,
    2,
    3,
    7,
    12,
    255,
    256,
    131_072,
    131_073,
    u32::MAX as u64,
    1 << 32,
    1 << 63,
    u64::MAX,
];

/// A number at an edge or just below one.
pub fn edge(random: &mut Random) -> u64 {
    let back = u64::from(random.percent(20));
    random.pick(&EDGES).unwrap_or(0).wrapping_sub(back)
}

/// Any bytes, at most so many.
pub fn junk(random: &mut Random, longest: u64) -> Vec<u8> {
    let length = random.below(longest + 1);
    (0..length).map(|_| random.number() as u8).collect()
}

/// What a history is like.
#[derive(Clone, Copy, Debug)]
pub struct Mix {
    /// The objects in use.
    pub objects: u64,
    /// How many keys of each object are in use.
    pub keys: u32,
    /// Chance in percent that a key is counted down from the object's highest.
    pub far_keys: u64,
    /// How many transactions are open at once.
    pub open: usize,
    /// Transaction numbers are multiples of it.
    pub stride: u32,
    /// Chances in percent: a read has an old version, a decision or checkpoint is false, a checkpoint's table is out of order, a
    /// request is broken.
    pub stale: u64,
    /// Of the old versions, those that may be any, so that most of them are astray, in percent; an entry gave the cell the others.
    pub astray: u64,
    /// The log is one written before, with astray reads (6.12).
    pub before: bool,
    pub false_decisions: u64,
    pub false_checkpoints: u64,
    pub disorder: u64,
    pub broken: u64,
    /// Chance in percent that a commit names numbers.
    pub names: u64,
}

impl Mix {
    /// Good requests that the audit passes.
    pub fn true_records() -> Mix {
        Mix {
            objects: 0xFF,
            keys: 3,
            far_keys: 0,
            open: 4,
            stride: 1,
            stale: 15,
            astray: 30,
            before: false,
            false_decisions: 0,
            false_checkpoints: 0,
            disorder: 0,
            broken: 0,
            names: 0,
        }
    }

    /// Some of everything.
    pub fn rough() -> Mix {
        Mix {
            stale: 25,
            astray: 40,
            false_decisions: 10,
            false_checkpoints: 10,
            disorder: 5,
            broken: 12,
            ..Mix::true_records()
        }
    }

    /// On a log written before: every old version may be any, and no read is turned down for it.
    pub fn before(self) -> Mix {
        Mix {
            astray: 100,
            before: true,
            ..self
        }
    }

    /// With commits that name numbers.
    pub fn naming(self, names: u64) -> Mix {
        Mix { names, ..self }
    }

    /// Over a directory: up to so many of its objects are in use, with keys near 0 and near the highest.
    pub fn over(self, directory: &Directory, random: &mut Random, most: u64) -> Mix {
        let records = directory.objects().len() as u64;
        let mut objects = 0;
        for _ in 0..most {
            objects |= 1 << random.below(records);
        }
        Mix {
            objects,
            far_keys: 40,
            ..self
        }
    }

    /// As rough, with two objects of many keys, so that a checkpoint may have too many cells.
    pub fn crowded() -> Mix {
        Mix {
            objects: 0b1_0010,
            keys: 16,
            ..Mix::rough()
        }
    }
}

/// A log that grows by random appends.
#[derive(Clone)]
pub struct History {
    pub random: Random,
    pub mix: Mix,
    pub writer: Writer,
    pub run: Run,
    /// Every append's arguments and answer, in order.
    pub appends: Vec<(Request, Answer<usize>)>,
    open: Vec<u32>,
    /// The numbers that have a commit record, in the order of these.
    closed: Vec<u32>,
    /// How many transaction numbers were begun.
    numbers: u32,
    undecided: Vec<u64>,
    /// The cells that a number's updates write.
    aside: BTreeMap<u32, Vec<(u32, u32)>>,
    /// The versions that entries gave a cell, or would have if they had committed.
    given: BTreeMap<(u32, u32), Vec<u64>>,
}

impl History {
    /// Over the eight.
    pub fn new(seed: u64, slots: usize, mix: Mix) -> History {
        History::over(the_eight().clone(), seed, slots, mix)
    }

    pub fn over(directory: Directory, seed: u64, slots: usize, mix: Mix) -> History {
        History {
            random: Random::new(seed),
            mix,
            writer: Writer::over(directory, slots),
            run: Run::new(),
            appends: Vec::new(),
            open: Vec::new(),
            closed: Vec::new(),
            numbers: 0,
            undecided: Vec::new(),
            aside: BTreeMap::new(),
            given: BTreeMap::new(),
        }
    }

    /// A history of so many appends, refused ones too.
    pub fn made(seed: u64, slots: usize, appends: usize, mix: Mix) -> History {
        let mut history = History::new(seed, slots, mix);
        for _ in 0..appends {
            history.step();
        }
        history
    }

    /// One random append.
    pub fn step(&mut self) -> Answer<usize> {
        let mut request = self.request();
        if self.random.percent(self.mix.broken) {
            let (directory, tail) = (&self.writer.directory, self.writer.tail);
            broken(directory, &mut self.random, &mut request, tail);
        }
        self.append(request)
    }

    /// Appends a request and keeps the books.
    pub fn append(&mut self, request: Request) -> Answer<usize> {
        let at = self.writer.tail as u64;
        let answer = match self.mix.before {
            true => append_before(&mut self.writer, &request),
            false => self.writer.append(&request),
        };
        self.run.feed(&request, !answer.is_done());
        if answer.is_done() {
            self.note(&request, at);
        }
        self.appends.push((request, answer));
        answer
    }

    fn note(&mut self, request: &Request, at: u64) {
        match request {
            Request::Update { number, items } => {
                let cells = writes_in(items).map(|write| (write.object, write.key));
                if *number == 0 {
                    self.give(cells.collect(), at);
                    return;
                }
                self.aside.entry(*number).or_default().extend(cells);
                if !self.open.contains(number) {
                    self.open.push(*number);
                }
            }
            Request::Commit { number, .. } => {
                self.open.retain(|open| open != number);
                self.closed.push(*number);
                self.undecided.push(at);
                let cells = self.aside.remove(number).unwrap_or_default();
                self.give(cells, at);
            }
            Request::Decision { offset, .. } => self.undecided.retain(|commit| commit != offset),
            _ => {}
        }
    }

    fn give(&mut self, cells: Vec<(u32, u32)>, at: u64) {
        for cell in cells {
            self.given.entry(cell).or_default().push(at + 1);
        }
    }

    /// A request that breaks no slot rule; it may be refused with 4 to 9, 13 and 16.
    pub fn request(&mut self) -> Request {
        match self.random.below(100) {
            0..=24 => update(0, &self.writes()),
            25..=59 => {
                let number = self.transaction();
                update(number, &self.writes())
            }
            60..=79 => self.commit(),
            80..=91 => self.decision(),
            _ => self.checkpoint(),
        }
    }

    fn cell(&mut self) -> (u32, u32) {
        let directory = &self.writer.directory;
        let objects: Vec<Object> = directory.objects_of(self.mix.objects).copied().collect();
        let (id, highest) = match self.random.pick(&objects) {
            Some(object) => (object.id, object.highest_key),
            None => (1, 0),
        };
        let keys = self.mix.keys.min(highest + 1);
        let key = self.random.below(u64::from(keys)) as u32;
        if self.mix.far_keys != 0 && self.random.percent(self.mix.far_keys) {
            return (id, highest - key);
        }
        (id, key)
    }

    fn writes(&mut self) -> Vec<Write> {
        let count = if self.random.percent(4) {
            1 + self.random.below(12)
        } else {
            1 + self.random.below(3)
        };
        (0..count).map(|_| self.write()).collect()
    }

    fn write(&mut self) -> Write {
        let (object, key) = self.cell();
        if self.random.percent(20) {
            remove(object, key)
        } else {
            put(object, key, self.random.below(5) as u32)
        }
    }

    /// The number of an open transaction, or a new one, or rarely any used one.
    fn transaction(&mut self) -> u32 {
        if self.random.percent(3) {
            let place = 1 + self.random.below(u64::from(self.numbers) + 1) as u32;
            return self.number(place);
        }
        if self.open.len() < self.mix.open && self.random.percent(60) {
            self.numbers += 1;
            return self.number(self.numbers);
        }
        let first = self.number(1);
        self.random.pick(&self.open.clone()).unwrap_or(first)
    }

    /// The transaction number at a place from 1.
    fn number(&self, place: u32) -> u32 {
        place.wrapping_mul(self.mix.stride)
    }

    fn commit(&mut self) -> Request {
        let open = self.open.clone();
        let number = match self.random.pick(&open) {
            Some(number) if !self.random.percent(3) => number,
            _ => {
                let place = 1 + self.random.below(u64::from(self.numbers) + 2) as u32;
                self.number(place)
            }
        };
        let reads = self.reads();
        let names = match self.mix.names {
            0 => Names::NONE,
            chance if self.random.percent(chance) => self.names(number),
            _ => Names::NONE,
        };
        commit_after(number, &reads, names.first, names.second)
    }

    /// One or two numbers for the commit of a number to name; now and then such that the request is bad.
    fn names(&mut self, number: u32) -> Names {
        let one = self.named(number);
        let other = self.named(number);
        let (low, high) = (one.min(other), one.max(other));
        if self.random.percent(self.mix.broken) {
            return broken_names(&mut self.random, number, low, high);
        }
        match self.random.percent(65) || low == high {
            true => Names::of(one, 0),
            false => Names::of(low, high),
        }
    }

    /// A number that is not this one: mostly one that has committed; or one with a commit record, the one before it, an open one, or
    /// one that is yet unused.
    fn named(&mut self, number: u32) -> u32 {
        let (mut committed, mut others) = (self.closed.clone(), self.open.clone());
        committed.retain(|closed| self.run.has_committed(*closed));
        others.retain(|open| *open != number);
        let named = match self.random.below(14) {
            0..=9 => self.random.pick(&committed),
            10 => self.random.pick(&self.closed.clone()),
            11 => self.closed.last().copied(),
            12 => self.random.pick(&others),
            _ => None,
        };
        match named.filter(|named| *named != number && *named != 0) {
            Some(named) => named,
            None if self.random.percent(20) => u32::MAX - u32::from(number == u32::MAX),
            None => {
                let ahead = 2 + self.random.below(3) as u32;
                self.number(self.numbers + ahead)
            }
        }
    }

    fn reads(&mut self) -> Vec<Read> {
        let count = if self.random.percent(3) {
            self.random.below(13)
        } else {
            self.random.below(4)
        };
        let mut cells: Vec<(u32, u32)> = (0..count).map(|_| self.cell()).collect();
        cells.sort_unstable();
        cells.dedup();
        cells
            .into_iter()
            .map(|(object, key)| read(object, key, self.version(object, key)))
            .collect()
    }

    /// The cell's version, one that it was given before, or any that a read may have.
    fn version(&mut self, object: u32, key: u32) -> u64 {
        let shown = self.run.cell(object, key).version();
        if !self.random.percent(self.mix.stale) {
            return shown;
        }
        let tail = self.writer.tail as u64;
        if self.mix.astray == 100 {
            return self.random.below(tail + 1);
        }
        if !self.random.percent(self.mix.astray) {
            let given = self.given.get(&(object, key));
            let given = given.cloned().unwrap_or_default();
            return self.random.pick(&given).unwrap_or(0);
        }
        match self.random.below(4) {
            // the entry's offset, or the one after it
            0 => shown.saturating_sub(1),
            1 => tail.min(shown + 1),
            _ => self.random.below(tail + 1),
        }
    }

    fn decision(&mut self) -> Request {
        let undecided = self.undecided.clone();
        let offset = match self.random.pick(&undecided) {
            Some(offset) if !self.random.percent(5) => offset,
            _ => self.random.below(self.writer.tail as u64),
        };
        let commits = self.run.outcome(offset + 1).unwrap_or(false);
        let lies = self.random.percent(self.mix.false_decisions);
        decision(offset, if commits != lies { COMMIT } else { ABORT })
    }

    /// A checkpoint from the run's cells; a false one has one cell changed.
    fn checkpoint(&mut self) -> Request {
        let (object, _) = self.cell();
        let directory = &self.writer.directory;
        let others = self.random.number() & directory.everything();
        let hosted = directory.set_of(object) | others;
        let mut rows = rows_of(directory, &self.run, hosted);
        self.shuffle(&mut rows);
        if self.random.percent(self.mix.false_checkpoints) {
            self.falsify(&mut rows, object);
        }
        if self.random.percent(10) {
            self.repeat(&mut rows);
        }
        if self.mix.disorder == 0 || !self.random.percent(self.mix.disorder) {
            put_in_order(&mut rows);
        }
        let mut table = table_of(&rows);
        let spare = self.random.below(60) as usize;
        table.resize(table.len() + spare, 0xEE);
        Request::Checkpoint {
            record: Record {
                hosted,
                position: self.writer.tail as u64,
                count: rows.len() as u64,
            },
            table,
            object,
        }
    }

    fn shuffle(&mut self, rows: &mut [Row]) {
        for last in (1..rows.len()).rev() {
            rows.swap(last, self.random.below(last as u64 + 1) as usize);
        }
    }

    fn falsify(&mut self, rows: &mut Vec<Row>, object: u32) {
        let own: Vec<usize> = (0..rows.len())
            .filter(|&place| rows[place].object == object)
            .collect();
        let Some(place) = self.random.pick(&own) else {
            return;
        };
        match self.random.below(5) {
            0 => rows[place].value ^= 1,
            1 => rows[place].present ^= 1,
            2 => rows[place].version = 1 + self.random.below(self.writer.tail as u64),
            3 => rows[place].key = self.random.below(2) as u32,
            _ => {
                rows.remove(place);
            }
        }
    }

    /// Repeats a cell further down with other content, and stores a removed cell otherwise.
    fn repeat(&mut self, rows: &mut Vec<Row>) {
        if let Some(first) = self.random.pick(&rows.clone()) {
            rows.push(Row {
                value: first.value ^ 5,
                version: self.random.number(),
                ..first
            });
        }
        for row in rows.iter_mut().filter(|row| row.present != 1) {
            row.present = 2 + self.random.below(9) as u32;
            row.value = self.random.below(100) as u32;
        }
    }
}

/// A directory without fault: few objects or many, ids without a gap or far apart, registers, maps of one key up to the most.
pub fn directory(random: &mut Random) -> Directory {
    let count = match random.below(8) {
        0 => 1,
        1..=4 => 2 + random.below(7),
        5..=6 => 9 + random.below(56),
        _ => MOST_RECORDS as u64,
    };
    // 64 times the widest gap is an id.
    let gap = random.pick(&[1, 1, 3, 1000, 33_000_000]).unwrap_or(1);
    let mut objects: Vec<Object> = Vec::new();
    let mut id = 0;
    for _ in 0..count {
        id += 1 + random.below(gap) as u32;
        objects.push(any_object(random, id));
    }
    if let Some(last) = objects.last_mut().filter(|_| random.percent(25)) {
        last.id = HIGHEST_ID;
    }
    Directory::of(&bytes_of(&objects)).expect("a directory without fault")
}

fn any_object(random: &mut Random, id: u32) -> Object {
    let is_map = random.percent(75);
    let highest = match random.below(10) {
        0..=1 => 0,
        2..=3 => 1 + random.below(3) as u32,
        4 => 499,
        5 => 9999,
        6 => random.number() as u32 / 2,
        _ => HIGHEST_KEY - random.below(2) as u32,
    };
    Object {
        id,
        structure: match is_map {
            true => Structure::Map,
            false => Structure::Register,
        },
        highest_key: if is_map { highest } else { 0 },
        marked: random.percent(50),
    }
}

/// The bytes of a directory with a fault.
pub fn faulty_directory(random: &mut Random) -> Vec<u8> {
    let mut bytes = directory(random).bytes();
    while fault(&bytes).is_none() {
        let records = (bytes.len() / RECORD) as u64;
        let place = RECORD * random.below(records) as usize;
        match random.below(10) {
            0 => bytes.clear(),
            1 => bytes.truncate(random.below(bytes.len() as u64) as usize),
            2 => bytes.extend(junk(random, 40)),
            3 => too_many(random, &mut bytes),
            4 => {
                let other = RECORD * random.below(records) as usize;
                let record = bytes[other..other + RECORD].to_vec();
                bytes[place..place + RECORD].copy_from_slice(&record);
            }
            5 => put32(&mut bytes, place + 4, edge(random) as u32),
            6 => put32(&mut bytes, place + 8, edge(random) as u32),
            7 => bytes[place + 12 + random.below(2) as usize] = random.below(4) as u8,
            _ => flip(random, &mut bytes),
        }
    }
    bytes
}

/// 65 to 69 records that have no fault of their own.
fn too_many(random: &mut Random, bytes: &mut Vec<u8>) {
    let count = MOST_RECORDS as u32 + 1 + random.below(5) as u32;
    let objects: Vec<Object> = (1..=count).map(|id| any_object(random, 5 * id)).collect();
    *bytes = bytes_of(&objects);
}

/// The rows as a table has them: ascending, the first of each cell.
pub fn put_in_order(rows: &mut Vec<Row>) {
    rows.sort_by_key(|row| (row.object, row.key));
    rows.dedup_by_key(|row| (row.object, row.key));
}

/// Numbers that no commit record of a number may name (3.12), from two that it may.
pub fn broken_names(random: &mut Random, number: u32, low: u32, high: u32) -> Names {
    match random.below(6) {
        0 => Names::of(0, low),
        1 => Names::of(low, low),
        2 => Names::of(high.max(low.saturating_add(1)), low),
        3 => Names::of(number, 0),
        4 => Names::of(low.min(number), low.max(number)),
        _ => Names::of(number, number.saturating_add(1)),
    }
}

/// Breaks one argument of a request.
pub fn broken(directory: &Directory, random: &mut Random, request: &mut Request, tail: usize) {
    match request {
        Request::Update { items, .. } => break_items(random, items),
        Request::Commit { number, reads, .. } => match random.below(4) {
            0 => *number = 0,
            1 => reads.extend(read(2, 499, tail as u64 + 1).bytes()),
            _ => break_items(random, reads),
        },
        Request::Decision { offset, outcome } => match random.below(5) {
            0 => *outcome = 0,
            1 => *outcome = 3,
            2 => *offset = tail as u64 + random.below(2),
            3 => *offset = u64::MAX,
            _ => *offset = random.below(tail as u64),
        },
        Request::Checkpoint {
            record,
            table,
            object,
        } => match random.below(8) {
            0 => record.hosted = 0,
            1 => record.count = table.len() as u64 / 24 + 1,
            2 => record.position = tail as u64 + 1,
            3 => record.position = (tail as u64).saturating_sub(1),
            4 => *object = random.below(10) as u32,
            5 => record.count = u64::MAX,
            6 => record.hosted ^= directory.set_of(*object),
            _ => flip(random, table),
        },
    }
}

fn break_items(random: &mut Random, items: &mut Vec<u8>) {
    match random.below(4) {
        0 => items.truncate(random.below(items.len() as u64 + 1) as usize),
        1 => items.resize(13 * 16, 0),
        2 => {
            let whole = items.clone();
            items.extend(whole);
        }
        _ => flip(random, items),
    }
}

/// Changes one random byte.
pub fn flip(random: &mut Random, bytes: &mut [u8]) {
    let place = random.below(bytes.len() as u64) as usize;
    let change = match random.below(3) {
        0 => 1,
        1 => 1 << random.below(8),
        _ => 1 + random.below(255) as u8,
    };
    if let Some(byte) = bytes.get_mut(place) {
        *byte ^= change;
    }
}

/// Changes one random byte below the tail.
pub fn damage(random: &mut Random, log: &mut [u8], tail: usize) {
    let used = log.len().min(tail * SLOT);
    flip(random, &mut log[..used]);
}
