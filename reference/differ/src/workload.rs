//! A log as the depots make one: plain updates, transactions of 1 to 4 updates with 1 to 4 reads, mostly fresh,
//! decisions where a marked object is read, and now and then a checkpoint of an object with at most 12 cells. Also over another
//! directory, on which such a log can go on from one that is there.

use std::collections::VecDeque;

use reference::append::{Request, Writer};
use reference::directory::{eight, the_eight, Directory};
use reference::objects::objects;
use reference::random::Random;
use reference::replica::Record;
use reference::run::Run;
use reference::sample::{
    append_before, commit_after, decision, put, read, remove, rows_of, table_of, update,
    write_bytes,
};
use reference::slot::{Names, Read, Write, ABORT, COMMIT, SLOT};

/// What is in use of an object of the directory.
#[derive(Clone, Copy, Debug)]
pub struct Used {
    /// How many keys, and how far each is from the next.
    pub keys: u64,
    pub step: u32,
    /// How often it is written, beside the others' shares.
    pub share: u64,
}

const fn used(keys: u64, share: u64) -> Used {
    Used {
        keys,
        step: 1,
        share,
    }
}

/// Of the eight, by place: thousands of patients and orders, a small van; the shares are parts of 100.
const OF_EIGHT: [Used; 8] = [
    used(6000, 30),
    used(500, 20),
    used(500, 12),
    used(12, 6),
    used(8000, 24),
    used(1, 4),
    used(1, 2),
    used(1, 2),
];
/// The van and the registers.
const SAVED: [u32; 4] = [4, 6, 7, 8];

struct Open {
    number: u32,
    objects: Vec<u32>,
    updates_left: u64,
}

/// A log to measure calls on.
pub struct Made {
    /// The directory that is handed to them.
    pub dir: Vec<u8>,
    /// How many rows their table has.
    pub cells: usize,
    /// The writes of the update with which the append is measured.
    pub items: Vec<u8>,
    /// All of its slots are used.
    pub log: Vec<u8>,
    /// The number of the update with which the append is measured, and of the commit.
    pub number: u32,
    /// The reads of the commit, whose number has an update below the last entry; without them, those of an honest one are made.
    pub reads: Option<Vec<u8>>,
    /// The record and the table with which the play is measured; a fresh one without them.
    pub replica: Option<(Record, Vec<u8>)>,
    /// The list with which the price is measured.
    pub prices: Vec<u8>,
}

impl Made {
    /// On a log of the eight.
    pub fn of_eight(log: Vec<u8>, number: u32) -> Made {
        let cells = objects()
            .iter()
            .map(|object| object.highest_key as usize + 1);
        Made {
            dir: eight().to_vec(),
            cells: cells.sum(),
            items: write_bytes(&[put(2, 7, 43), put(5, 77, 1)]),
            log,
            number,
            reads: None,
            replica: None,
            prices: Vec::new(),
        }
    }
}

/// A growing log.
pub struct Depots {
    random: Random,
    stride: u32,
    pub writer: Writer,
    pub run: Run,
    /// By place in the directory.
    used: Vec<Used>,
    /// Objects of which checkpoints are made.
    saved: Vec<u32>,
    open: VecDeque<Open>,
    pub last_number: u32,
    owed: VecDeque<u64>,
    /// Chance in percent that a commit record names numbers.
    names: u64,
    /// Some numbers that have committed, the last ones.
    committed: VecDeque<u32>,
}

/// How many of them are kept.
const KEPT: usize = 16;

/// A log of so many slots, written before: its stale reads are half a version, which mostly is astray. Transaction numbers are the
/// multiples of the stride; the append has one that is new.
pub fn workload(slots: usize, seed: u64, stride: u32) -> Made {
    let saved = SAVED.to_vec();
    let mut depots = Depots::over(the_eight().clone(), slots, OF_EIGHT.to_vec(), saved);
    depots.random = Random::new(seed);
    depots.stride = stride;
    depots.fill();
    Made::of_eight(depots.writer.log, depots.last_number + stride)
}

/// The same, with that chance in percent that a commit record names numbers.
pub fn naming(slots: usize, names: u64) -> Made {
    let saved = SAVED.to_vec();
    let mut depots = Depots::over(the_eight().clone(), slots, OF_EIGHT.to_vec(), saved);
    depots.names = names;
    depots.fill();
    Made::of_eight(depots.writer.log, depots.last_number + 1)
}

impl Depots {
    /// An empty log of so many slots.
    pub fn over(directory: Directory, slots: usize, used: Vec<Used>, saved: Vec<u32>) -> Depots {
        Depots {
            random: Random::new(1),
            stride: 1,
            writer: Writer::over(directory, slots),
            run: Run::new(),
            used,
            saved,
            open: VecDeque::new(),
            last_number: 0,
            owed: VecDeque::new(),
            names: 0,
            committed: VecDeque::new(),
        }
    }

    pub fn append(&mut self, request: &Request) {
        let answer = append_before(&mut self.writer, request);
        assert!(answer.is_done(), "{request:?} is refused: {answer:?}");
        self.run.feed(request, false);
        if let Request::Commit { number, .. } = request {
            if self.run.has_committed(*number) {
                self.committed.push_back(*number);
            }
            if self.committed.len() > KEPT {
                self.committed.pop_front();
            }
        }
    }

    /// Goes on until no slot is free.
    pub fn fill(&mut self) {
        while self.writer.tail * SLOT < self.writer.log.len() {
            let request = self.next();
            self.append(&request);
        }
    }

    fn next(&mut self) -> Request {
        if !self.owed.is_empty() && self.random.percent(60) {
            return self.decision();
        }
        if !self.open.is_empty() && self.random.percent(55) {
            return self.go_on();
        }
        match self.random.below(1000) {
            0..=4 => self.checkpoint(),
            5..=549 => {
                let count = 1 + self.random.below(3);
                let writes: Vec<Write> = (0..count).map(|_| self.write(&[])).collect();
                update(0, &writes)
            }
            _ => self.begin(),
        }
    }

    fn object(&mut self) -> u32 {
        let mut part = self
            .random
            .below(self.used.iter().map(|used| used.share).sum());
        let objects = self.writer.directory.objects();
        for (used, object) in self.used.iter().zip(objects) {
            if part < used.share {
                return object.id;
            }
            part -= used.share;
        }
        objects[0].id
    }

    fn cell(&mut self, object: u32) -> (u32, u32) {
        let place = self.writer.directory.place(object).unwrap_or(0);
        let used = self.used[place];
        (object, self.random.below(used.keys) as u32 * used.step)
    }

    /// A write of any object, or of one of these.
    fn write(&mut self, objects: &[u32]) -> Write {
        let object = match self.random.pick(objects) {
            Some(object) => object,
            None => self.object(),
        };
        let (object, key) = self.cell(object);
        match self.random.percent(8) {
            true => remove(object, key),
            false => put(object, key, self.random.below(1000) as u32),
        }
    }

    fn begin(&mut self) -> Request {
        self.last_number += self.stride;
        let mut objects: Vec<u32> = (0..1 + self.random.below(3))
            .map(|_| self.object())
            .collect();
        objects.sort_unstable();
        objects.dedup();
        self.open.push_back(Open {
            number: self.last_number,
            objects,
            updates_left: self.random.below(4),
        });
        self.update_of(self.open.len() - 1)
    }

    fn update_of(&mut self, place: usize) -> Request {
        let number = self.open[place].number;
        let objects = self.open[place].objects.clone();
        let count = 1 + self.random.below(2);
        let writes: Vec<Write> = (0..count).map(|_| self.write(&objects)).collect();
        update(number, &writes)
    }

    /// One more update of the oldest open transaction, or its commit record.
    fn go_on(&mut self) -> Request {
        if let Some(open) = self.open.front_mut() {
            if open.updates_left > 0 {
                open.updates_left -= 1;
                return self.update_of(0);
            }
        }
        let number = self.open.pop_front().map_or(1, |open| open.number);
        let reads = self.reads();
        let directory = &self.writer.directory;
        if reads.iter().any(|read| directory.is_marked(read.object)) {
            self.owed.push_back(self.writer.tail as u64);
        }
        let names = self.names();
        commit_after(number, &reads, names.first, names.second)
    }

    /// None, or one or two of the last numbers that have committed; now and then one that has not.
    fn names(&mut self) -> Names {
        if self.names == 0 || !self.random.percent(self.names) {
            return Names::NONE;
        }
        let committed: Vec<u32> = self.committed.iter().copied().collect();
        let mut named = || self.random.pick(&committed).unwrap_or(u32::MAX);
        let (one, other) = (named(), named());
        match one == other || self.random.percent(50) {
            true if self.random.percent(2) => Names::of(u32::MAX, 0),
            true => Names::of(one, 0),
            false => Names::of(one.min(other), one.max(other)),
        }
    }

    fn reads(&mut self) -> Vec<Read> {
        let mut cells: Vec<(u32, u32)> = Vec::new();
        for _ in 0..1 + self.random.below(4) {
            let object = self.object();
            cells.push(self.cell(object));
        }
        cells.sort_unstable();
        cells.dedup();
        cells
            .into_iter()
            .map(|(object, key)| {
                let version = self.run.cell(object, key).version();
                let stale = self.random.percent(3);
                read(object, key, if stale { version / 2 } else { version })
            })
            .collect()
    }

    fn decision(&mut self) -> Request {
        let offset = self.owed.pop_front().unwrap_or(0);
        let commits = self.run.outcome(offset + 1).unwrap_or(false);
        decision(offset, if commits { COMMIT } else { ABORT })
    }

    fn checkpoint(&mut self) -> Request {
        let object = self.random.pick(&self.saved).unwrap_or(1);
        let directory = &self.writer.directory;
        let hosted = directory.set_of(object);
        let rows = rows_of(directory, &self.run, hosted);
        Request::Checkpoint {
            record: Record {
                hosted,
                position: self.writer.tail as u64,
                count: rows.len() as u64,
            },
            table: table_of(&rows),
            object,
        }
    }
}
