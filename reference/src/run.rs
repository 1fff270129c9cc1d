//! The one-by-one run (§12). It sees no log.

use std::collections::{BTreeMap, HashMap, HashSet};

use crate::append::Request;
use crate::directory::Directory;
use crate::slot::{reads_in, writes_in, Names, Write, PUT};
use crate::table::Cell;

/// The run's state (12.2).
#[derive(Clone, Debug, Default)]
pub struct Run {
    pub count: u64,
    /// The written cells, by object and key.
    cells: BTreeMap<(u32, u32), Cell>,
    aside: HashMap<u32, Vec<Write>>,
    /// The numbers that have committed.
    won: HashSet<u32>,
    /// For each commit, by its count: it committed.
    outcomes: BTreeMap<u64, bool>,
}

impl Run {
    pub fn new() -> Run {
        Run::default()
    }

    /// One append (12.3).
    pub fn feed(&mut self, request: &Request, refused: bool) {
        if refused {
            return;
        }
        self.count += 1;
        match request {
            Request::Update { number: 0, items } => self.make(writes_in(items)),
            // set aside (12.4)
            Request::Update { number, items } => self
                .aside
                .entry(*number)
                .or_default()
                .extend(writes_in(items)),
            Request::Commit {
                number,
                reads,
                names,
            } => self.commit(*number, reads, *names),
            // no cell is changed (12.6)
            Request::Decision { .. } | Request::Checkpoint { .. } => {}
        }
    }

    /// A commit (12.5).
    fn commit(&mut self, number: u32, reads: &[u8], names: Names) {
        let current =
            reads_in(reads).all(|read| self.cell(read.object, read.key).version() == read.version);
        let met = [names.first, names.second]
            .iter()
            .all(|named| *named == 0 || self.has_committed(*named));
        let commits = current && met;
        self.outcomes.insert(self.count, commits);
        if commits {
            self.won.insert(number);
            let writes = self.aside.get(&number).cloned().unwrap_or_default();
            self.make(writes.into_iter());
        }
    }

    /// Makes writes in order, with the count as version (12.4).
    fn make(&mut self, writes: impl Iterator<Item = Write>) {
        for write in writes {
            let value = (write.operation == PUT).then_some(write.value);
            let cell = Cell::of(value, self.count);
            self.cells.insert((write.object, write.key), cell);
        }
    }

    /// Whether a number has committed (12.2).
    pub fn has_committed(&self, number: u32) -> bool {
        self.won.contains(&number)
    }

    pub fn cell(&self, object: u32, key: u32) -> Cell {
        self.cells
            .get(&(object, key))
            .copied()
            .unwrap_or(Cell::NeverWritten)
    }

    /// The written cells, by object and key.
    pub fn written(&self) -> impl Iterator<Item = ((u32, u32), Cell)> + '_ {
        self.cells.iter().map(|(cell, held)| (*cell, *held))
    }

    /// How many cells of a set of objects have been written.
    pub fn written_of(&self, directory: &Directory, hosted: u64) -> u64 {
        let hosted = |cell: &&(u32, u32)| directory.has(hosted, cell.0);
        self.cells.keys().filter(hosted).count() as u64
    }

    /// The outcome of the commit that was run with this count.
    pub fn outcome(&self, count: u64) -> Option<bool> {
        self.outcomes.get(&count).copied()
    }
}
