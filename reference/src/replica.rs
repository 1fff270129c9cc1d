//! Openings, play and cell reading (§8 to §10).

use crate::answer::{
    refuse, refuse_if, Answer, Refusal, BAD_REPLICA, BAD_REQUEST, NO_ROOM, WAITING,
};
use crate::directory::Directory;
use crate::earlier::{Earlier, Transaction};
use crate::log::{below, pass};
use crate::slot::{slot_at, Kind, Slot, Write, COMMIT, PUT};
use crate::table::{capacity, in_order, put_row, row, search, Cell, Index, Named, Row, CELL};

/// The part of a replica that is not its table.
#[derive(Clone, Copy, Debug, PartialEq, Eq)]
pub struct Record {
    /// By place in the directory (7.2).
    pub hosted: u64,
    pub position: u64,
    pub count: u64,
}

/// The one place that turns an offset into a version (1.8).
pub fn version_at(at: usize) -> u64 {
    at as u64 + 1
}

/// The offset to which a version points that is not 0, and the one place that goes back (1.8).
pub fn pointed_at(version: u64) -> usize {
    version as usize - 1
}

/// 10 where no tail is given (7.9).
pub fn replica_good(directory: &Directory, record: &Record, table: &[u8]) -> Result<(), Refusal> {
    refuse_if(
        !directory.can_host(record.hosted)
            || record.count > capacity(table) as u64
            || !in_order(table, record.count as usize),
        BAD_REPLICA,
    )
}

/// 10, with the position too (7.9).
pub fn replica_good_at(
    directory: &Directory,
    record: &Record,
    table: &[u8],
    tail: usize,
) -> Result<(), Refusal> {
    replica_good(directory, record, table)?;
    refuse_if(record.position > tail as u64, BAD_REPLICA)
}

/// Opening fresh (8.1).
pub fn open_fresh(dir: &[u8], hosted: u64) -> Answer<Record> {
    Directory::of(dir)
        .and_then(|directory| refuse_if(!directory.can_host(hosted), BAD_REPLICA))
        .map(|_| Record {
            hosted,
            position: 0,
            count: 0,
        })
        .into()
}

/// Opening at a checkpoint (8.2).
pub fn open_at(
    dir: &[u8],
    log: &[u8],
    tail: usize,
    offset: u64,
    table: &mut [u8],
) -> Answer<Record> {
    opened(dir, log, tail, offset, table).into()
}

fn opened(
    dir: &[u8],
    log: &[u8],
    tail: usize,
    offset: u64,
    table: &mut [u8],
) -> Result<Record, Refusal> {
    let (directory, _) = pass(dir, log, tail)?;
    let at = below(offset, tail)?;
    let slot = slot_at(log, at);
    refuse_if(slot.kind() != Some(Kind::Checkpoint), BAD_REQUEST)?;
    refuse_if(slot.item_count() > capacity(table), NO_ROOM)?;
    let object = slot.header(0).object;
    for (place, saved) in slot.saved().enumerate() {
        let value = (!saved.removed()).then_some(saved.value);
        put_row(
            table,
            place,
            Row::of(object, saved.key, value, saved.version()),
        );
    }
    Ok(Record {
        hosted: directory.set_of(object),
        position: offset + 1,
        count: slot.item_count() as u64,
    })
}

/// Plays up to a stop, and answers the record as it is left.
pub fn play(
    dir: &[u8],
    log: &[u8],
    tail: usize,
    record: Record,
    table: &mut [u8],
    stop: u64,
) -> (Answer<()>, Record) {
    let mut moved = record;
    let answer = play_in_place(dir, log, tail, &mut moved, table, stop);
    (answer, moved)
}

/// Play in place (9.13).
pub fn play_in_place(
    dir: &[u8],
    log: &[u8],
    tail: usize,
    record: &mut Record,
    table: &mut [u8],
    stop: u64,
) -> Answer<()> {
    play_to(dir, log, tail, record, table, stop).into()
}

fn play_to(
    dir: &[u8],
    log: &[u8],
    tail: usize,
    record: &mut Record,
    table: &mut [u8],
    stop: u64,
) -> Result<(), Refusal> {
    let (directory, earlier) = pass(dir, log, tail)?;
    replica_good_at(&directory, record, table, tail)?;
    refuse_if(stop > tail as u64 || stop < record.position, BAD_REQUEST)?;
    let whole = Whole::needed(&directory, log, &earlier, record, stop as usize);
    let entries = (stop - record.position) as usize;
    let mut player = Player::new(&directory, log, &earlier, record, table, entries);
    player.whole = whole;
    let mut answer = Ok(());
    while answer.is_ok() && record.position < stop {
        match player.step(record.position as usize) {
            Step::Waits => answer = refuse(WAITING),
            Step::LacksRoom => answer = refuse(NO_ROOM),
            _ => record.position += 1,
        }
    }
    record.count = player.count as u64;
    player.settle();
    answer
}

/// How an entry was played.
#[derive(Clone, Copy, Debug, PartialEq, Eq)]
pub enum Step {
    Passed,
    Commits,
    Aborts,
    /// Nothing of the entry shows.
    Waits,
    /// Nothing of the entry shows.
    LacksRoom,
}

/// What a player knows of the log played whole (9.14).
#[derive(Default)]
pub struct Whole {
    /// By offset, as far as it is known: a commit record there commits.
    committed: Vec<bool>,
    /// The player's own play is the log played whole, and outcomes are noted as they come.
    noted: bool,
}

impl Whole {
    /// For a play from offset 0 without cells that hosts all objects, of so many entries.
    pub fn noted(entries: usize) -> Whole {
        Whole {
            committed: vec![false; entries],
            noted: true,
        }
    }

    /// What a play to a stop asks for: nothing, unless it decides a commit record that names a number.
    fn needed(
        directory: &Directory,
        log: &[u8],
        earlier: &Earlier,
        record: &Record,
        stop: usize,
    ) -> Whole {
        let position = record.position as usize;
        if record.hosted != directory.everything() {
            return Whole::default();
        }
        match earlier.last_naming(position, stop) {
            None => Whole::default(),
            Some(_) if position == 0 && record.count == 0 => Whole::noted(stop),
            Some(last) => Whole::worked_out(directory, log, earlier, last),
        }
    }

    /// By a play of its own up to an offset, with a row for every write.
    fn worked_out(directory: &Directory, log: &[u8], earlier: &Earlier, to: usize) -> Whole {
        let writes: usize = (0..to)
            .map(|at| slot_at(log, at))
            .filter(|slot| slot.kind() == Some(Kind::Update))
            .map(Slot::item_count)
            .sum();
        let mut table = vec![0; writes * CELL];
        let fresh = Record {
            hosted: directory.everything(),
            position: 0,
            count: 0,
        };
        let mut player = Player::new(directory, log, earlier, &fresh, &mut table, to);
        player.whole = Whole::noted(to);
        for at in 0..to {
            player.step(at);
        }
        Whole {
            committed: player.whole.committed,
            noted: false,
        }
    }

    pub fn commits(&self, at: usize) -> bool {
        self.committed.get(at) == Some(&true)
    }
}

/// Plays the entries of a checked log, one at a time, over a table. Rows that it adds are in order of first writing until `settle`.
pub struct Player<'a> {
    directory: &'a Directory,
    log: &'a [u8],
    earlier: &'a Earlier,
    hosted: u64,
    table: &'a mut [u8],
    pub count: usize,
    index: Index,
    /// Room for the updates of one commit record.
    updates: Vec<usize>,
    pub whole: Whole,
}

impl<'a> Player<'a> {
    /// For a record that is no bad replica, and so many entries.
    pub fn new(
        directory: &'a Directory,
        log: &'a [u8],
        earlier: &'a Earlier,
        record: &Record,
        table: &'a mut [u8],
        entries: usize,
    ) -> Player<'a> {
        let count = record.count as usize;
        let index = Index::of(directory, table, count, entries);
        Player {
            directory,
            log,
            earlier,
            hosted: record.hosted,
            table,
            count,
            index,
            updates: Vec::new(),
            whole: Whole::default(),
        }
    }

    /// Plays the entry at an offset; one without a hosted header object is passed over (9.3).
    pub fn step(&mut self, at: usize) -> Step {
        if self.earlier.objects(at) & self.hosted == 0 {
            return Step::Passed;
        }
        let slot = slot_at(self.log, at);
        match slot.kind() {
            // a plain update (9.4)
            Some(Kind::Update) if slot.number() == 0 => self.apply(&[at], at, Step::Passed),
            Some(Kind::Commit) => self.finish(slot, at),
            // no cell is changed (9.5)
            _ => Step::Passed,
        }
    }

    fn finish(&mut self, commit: Slot, at: usize) -> Step {
        match self.outcome(commit, at) {
            None => Step::Waits,
            Some(false) => Step::Aborts,
            // all updates of the number, with the commit record's version (9.6)
            Some(true) => {
                let mut updates = std::mem::take(&mut self.updates);
                self.earlier.updates(at, &mut updates);
                let step = self.apply(&updates, at, Step::Commits);
                self.updates = updates;
                if self.whole.noted && step == Step::Commits {
                    self.whole.committed[at] = true;
                }
                step
            }
        }
    }

    /// The outcome, or none where it waits (9.7, 9.8).
    fn outcome(&self, commit: Slot, at: usize) -> Option<bool> {
        let names = commit.names();
        if names.any() && self.hosted != self.directory.everything() {
            return self.decided(at);
        }
        let mut commits = names.numbers().all(|named| self.has_committed(named, at));
        for read in commit.reads() {
            let Some(cell) = self.hosted_cell(read.object, read.key) else {
                return self.decided(at);
            };
            // a stale read (9.7)
            commits = commits && read.version == self.version(cell);
        }
        Some(commits)
    }

    /// What a decision record says (9.8).
    fn decided(&self, commit: usize) -> Option<bool> {
        let outcome = self.earlier.decision(commit)?;
        Some(outcome == COMMIT)
    }

    /// Whether a number has committed below an offset (9.14).
    fn has_committed(&self, number: u32, below: usize) -> bool {
        let commit = self
            .earlier
            .transaction(number)
            .and_then(Transaction::commit);
        commit.is_some_and(|at| at < below && self.whole.commits(at))
    }

    /// A cell of a checked log, if its object is hosted.
    #[inline]
    fn hosted_cell(&self, object: u32, key: u32) -> Option<Named> {
        let of = self.directory.place(object)?;
        (self.hosted >> of & 1 == 1).then_some(Named { of, object, key })
    }

    fn hosts(&self, object: u32) -> bool {
        self.directory.has(self.hosted, object)
    }

    /// The version of a cell; 0 where it has no row (1.5).
    #[inline]
    fn version(&self, cell: Named) -> u64 {
        let place = self.index.find(self.table, cell);
        place.map_or(0, |place| row(self.table, place).version)
    }

    fn find(&self, object: u32, key: u32) -> Option<usize> {
        let cell = self.hosted_cell(object, key)?;
        self.index.find(self.table, cell)
    }

    /// The row of a hosted cell.
    pub fn row(&self, object: u32, key: u32) -> Option<Row> {
        self.find(object, key).map(|place| row(self.table, place))
    }

    /// How many cells of an object of the directory have got a row.
    pub fn added_of(&self, object: u32) -> usize {
        let of = self.directory.place(object);
        of.map_or(0, |of| self.index.added_of(of))
    }

    /// Puts the table in order, as every answer that leaves one played does (9.11, 11.2, 11.5).
    pub fn settle(self) {
        self.index.settle(self.table);
    }

    /// Applies the hosted writes of these updates with the version of `at`, all of them or none for want of room.
    fn apply(&mut self, updates: &[usize], at: usize, done: Step) -> Step {
        if !self.has_room(updates) {
            return Step::LacksRoom;
        }
        let version = version_at(at);
        for &update in updates {
            for write in slot_at(self.log, update).writes() {
                if let Some(cell) = self.hosted_cell(write.object, write.key) {
                    self.write(cell, write, version);
                }
            }
        }
        done
    }

    /// One write (7.10); where its cell has no row, there is room for one.
    fn write(&mut self, cell: Named, write: Write, version: u64) {
        let place = match self.index.find(self.table, cell) {
            Some(place) => place,
            None => self.add(cell),
        };
        let value = (write.operation == PUT).then_some(write.value);
        let row = Row::of(write.object, write.key, value, version);
        put_row(self.table, place, row);
    }

    /// A new row, for now after the counted ones.
    fn add(&mut self, cell: Named) -> usize {
        let place = self.count;
        self.index.add(cell, place);
        self.count += 1;
        place
    }

    /// Whether the table has rows for the new cells (9.9). They are counted only where the writes are more than the free rows.
    fn has_room(&self, updates: &[usize]) -> bool {
        let free = capacity(self.table) - self.count;
        let writes: usize = updates
            .iter()
            .map(|&update| slot_at(self.log, update).item_count())
            .sum();
        writes <= free || self.new_cells(updates) <= free
    }

    /// How many hosted cells these updates write that have no row; one that is written more than once counts once.
    fn new_cells(&self, updates: &[usize]) -> usize {
        let mut cells: Vec<(u32, u32)> = updates
            .iter()
            .flat_map(|&update| slot_at(self.log, update).writes())
            .filter(|write| self.hosts(write.object))
            .map(|write| (write.object, write.key))
            .filter(|&(object, key)| self.find(object, key).is_none())
            .collect();
        cells.sort_unstable();
        cells.dedup();
        cells.len()
    }
}

/// What a cell of the replica holds.
pub fn read_cell(dir: &[u8], record: &Record, table: &[u8], object: u32, key: u32) -> Answer<Cell> {
    cell_of(dir, record, table, object, key).into()
}

fn cell_of(
    dir: &[u8],
    record: &Record,
    table: &[u8],
    object: u32,
    key: u32,
) -> Result<Cell, Refusal> {
    let directory = Directory::of(dir)?;
    replica_good(&directory, record, table)?;
    refuse_if(
        !directory.is_cell(object, key) || !directory.has(record.hosted, object),
        BAD_REQUEST,
    )?;
    let found = search(table, record.count as usize, object, key);
    Ok(found
        .map(|place| row(table, place))
        .map_or(Cell::NeverWritten, |row| Cell::of(row.held(), row.version)))
}
