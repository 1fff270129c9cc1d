//! Random histories: a log grows by appends while replicas are opened on it, played in instalments and read, and the
//! other calls are made in between.

use reference::append::Request;
use reference::directory::{the_eight, Directory};
use reference::random::{broken, put_in_order, History, Mix, Random};
use reference::replica::Record;
use reference::slot::{slot_at, Kind, SLOT};
use reference::table::{capacity, put_row, row, rows, Row, CELL};

use crate::arguments::{self, Seen};
use crate::calls::{Call, NAMES};
use crate::pair::{Difference, Pair};

struct Replica {
    record: Record,
    table: Vec<u8>,
}

struct Case<'a> {
    pair: &'a mut Pair,
    random: Random,
    history: History,
    /// As the calls leave it; above the tail it is not what the history's own log is.
    log: Vec<u8>,
    replicas: Vec<Replica>,
}

/// One history, with all calls that are made on it.
pub fn history(pair: &mut Pair, seed: u64) -> Result<(), Difference> {
    pair.begin("history", seed);
    let mut random = Random::new(seed ^ 0x5EED_0001);
    let slots = slots(&mut random);
    let steps = slots + 3 + random.below(4) as usize;
    Case::new(pair, random, seed, slots).run(steps)
}

/// A history of which the first thousand entries are there before calls are made, about the length at which a library
/// may change its way of working.
pub fn long_history(pair: &mut Pair, seed: u64) -> Result<(), Difference> {
    pair.begin("long history", seed);
    let mut random = Random::new(seed ^ 0x5EED_0005);
    let grown = 1_005 + random.below(20) as usize;
    let mut case = Case::new(pair, random, seed, grown + 20);
    case.history.mix.broken = 0;
    while case.history.writer.tail < grown {
        case.history.step();
    }
    let used = case.history.writer.used();
    case.log[..used.len()].copy_from_slice(used);
    case.history.mix.broken = 12;
    case.run(22)
}

impl<'a> Case<'a> {
    fn new(pair: &'a mut Pair, mut random: Random, seed: u64, slots: usize) -> Case<'a> {
        let directory = arguments::directory(&mut random);
        pair.dir = directory.bytes();
        let mix = mix(&mut random, &directory);
        let fill = random.pick(&[0, 0x5A, 0xFF]).unwrap_or(0);
        Case {
            pair,
            random,
            history: History::over(directory, seed, slots, mix),
            log: vec![fill; slots * SLOT],
            replicas: Vec::new(),
        }
    }

    /// So many appends, with other calls in between and after.
    fn run(mut self, steps: usize) -> Result<(), Difference> {
        for _ in 0..steps {
            self.append()?;
            if self.random.percent(55) {
                self.probe()?;
            }
        }
        for _ in 0..6 {
            self.probe()?;
        }
        self.everything()
    }
}

/// Tables of more rows than these are made for few histories only: each takes as long as many others.
const MANY_ROWS: u64 = 2_000;
/// And of more than these for none.
const MOST_ROWS: u64 = 30_000;

/// Few slots mostly, so that logs are full soon.
fn slots(random: &mut Random) -> usize {
    let slots = match random.below(1000) {
        0..=249 => random.below(9),
        250..=849 => 9 + random.below(18),
        850..=989 => 27 + random.below(28),
        990..=998 => 55 + random.below(70),
        _ => 150 + random.below(250),
    };
    slots as usize
}

/// Strides of transaction numbers, for tables that a library may keep by their low or high bits or by a rest.
const STRIDES: [u32; 12] = [
    1,
    1,
    1,
    7,
    256,
    1 << 12,
    1021,
    65_521,
    1 << 16,
    1 << 17,
    1 << 24,
    0x0101_0101,
];

/// What a history over a directory is like.
pub fn mix(random: &mut Random, directory: &Directory) -> Mix {
    let mut mix = kind(random);
    if directory != the_eight() {
        let most = u64::from(mix.objects.count_ones());
        mix = mix.over(directory, random, most);
    }
    Mix {
        stride: random.pick(&STRIDES).unwrap_or(1),
        names: random.pick(&[0, 0, 20, 50, 80]).unwrap_or(0),
        ..mix
    }
}

fn kind(random: &mut Random) -> Mix {
    match random.below(8) {
        0..=1 => Mix::true_records(),
        2 => Mix::crowded(),
        3 => Mix {
            keys: 1,
            open: 2,
            ..Mix::rough()
        },
        4 => Mix {
            objects: 0b1110,
            keys: 2,
            open: 7,
            ..Mix::rough()
        },
        _ => Mix::rough(),
    }
}

impl Case<'_> {
    fn tail(&self) -> u64 {
        self.history.writer.tail as u64
    }

    fn directory(&self) -> &Directory {
        &self.history.writer.directory
    }

    fn seen(&self) -> Seen<'_> {
        Seen {
            directory: self.directory(),
            tail: self.tail(),
            slots: (self.log.len() / SLOT) as u64,
            keys: self.history.mix.keys,
        }
    }

    /// The next append of the history, or a checkpoint by one of the replicas.
    fn append(&mut self) -> Result<(), Difference> {
        let mut request = self.history.request();
        if self.random.percent(self.history.mix.broken) {
            let writer = &self.history.writer;
            let random = &mut self.history.random;
            broken(&writer.directory, random, &mut request, writer.tail);
        }
        if self.random.percent(7) {
            request = self.checkpoint().unwrap_or(request);
        }
        let tail = self.tail();
        let mut call = Call::Append(request.clone());
        let said = self.pair.call(&mut self.log, tail, &mut call)?;
        let answer = self.history.append(request);
        assert_eq!(
            said.number,
            answer.number(),
            "the second implementation's two ways of appending differ"
        );
        let used = self.history.writer.used();
        assert!(
            self.log[..used.len()] == *used,
            "the second implementation's two ways of appending differ"
        );
        Ok(())
    }

    fn checkpoint(&mut self) -> Option<Request> {
        let place = self.random.below(self.replicas.len() as u64) as usize;
        let object = arguments::object(&mut self.random, &self.history.writer.directory);
        self.replicas.get(place).map(|replica| Request::Checkpoint {
            record: replica.record,
            table: replica.table.clone(),
            object,
        })
    }

    /// A call that adds nothing to the history.
    fn probe(&mut self) -> Result<(), Difference> {
        if self.random.percent(45) {
            return self.replica();
        }
        let mut random = self.random.clone();
        let seen = self.seen();
        let place = random.below(NAMES.len() as u64) as usize;
        let mut call = arguments::call(&mut random, seen, place);
        let tail = arguments::tail(&mut random, seen);
        let dir = arguments::handed(&mut random, seen.directory);
        self.random = random;
        if matches!(call, Call::Append(_)) {
            let mut copy = self.log.clone();
            self.pair.call_over(dir, &mut copy, tail, &mut call)?;
        } else {
            self.pair.call_over(dir, &mut self.log, tail, &mut call)?;
        }
        Ok(())
    }

    /// Opens a replica, plays one, or reads a cell of one.
    fn replica(&mut self) -> Result<(), Difference> {
        if self.replicas.is_empty() || self.replicas.len() < 3 && self.random.percent(25) {
            return self.open();
        }
        let place = self.random.below(self.replicas.len() as u64) as usize;
        let replica = self.replicas.swap_remove(place);
        if self.random.percent(30) {
            return self.read(replica);
        }
        self.play(replica)
    }

    fn open(&mut self) -> Result<(), Difference> {
        let cells = arguments::mostly(&mut self.random, 50, 8, 40);
        let spare = self.random.below(CELL as u64);
        let table = vec![0xAA; cells as usize * CELL + spare as usize];
        let tail = self.random.below(self.tail() + 1);
        let offset = self.checkpoint_below(tail);
        let mut call = match offset {
            Some(offset) if self.random.percent(60) => Call::OpenCheckpoint { offset, table },
            _ => {
                let hosted = arguments::hosted(&mut self.random, &self.history.writer.directory);
                let mut call = Call::OpenFresh { hosted };
                let said = self.pair.call(&mut self.log, 0, &mut call)?;
                self.keep(said.number, said.out, table);
                return Ok(());
            }
        };
        let said = self.pair.call(&mut self.log, tail, &mut call)?;
        if let Call::OpenCheckpoint { table, .. } = call {
            self.keep(said.number, said.out, table);
        }
        Ok(())
    }

    fn checkpoint_below(&mut self, tail: u64) -> Option<u64> {
        let offsets: Vec<u64> = (0..tail)
            .filter(|&at| slot_at(&self.log, at as usize).kind() == Some(Kind::Checkpoint))
            .collect();
        self.random.pick(&offsets)
    }

    fn keep(&mut self, number: u32, out: [u64; 8], table: Vec<u8>) {
        if number == 0 {
            self.replicas.push(Replica {
                record: record_of(out),
                table,
            });
        }
    }

    /// An instalment, at the tail or an older one; now and then on a table that somebody changed, or first on a copy that is out
    /// of order.
    fn play(&mut self, mut replica: Replica) -> Result<(), Difference> {
        if self.random.percent(12) {
            let directory = &self.history.writer.directory;
            tamper(&mut self.random, directory, &mut replica);
        }
        if self.random.percent(8) {
            self.out_of_order(&replica)?;
        }
        let tail = match self.random.percent(60) {
            true => self.tail(),
            false => self.random.below(self.tail() + 1),
        };
        let left = tail.saturating_sub(replica.record.position);
        let stop = match self.random.below(20) {
            0 => arguments::offset(&mut self.random, tail),
            1..=8 => tail,
            _ => replica.record.position + self.random.below(left + 1),
        };
        let mut call = Call::Play {
            record: replica.record,
            table: replica.table,
            stop,
        };
        let said = self.pair.call(&mut self.log, tail, &mut call)?;
        if let Call::Play { table, .. } = call {
            self.replicas.push(Replica {
                record: record_of(said.out),
                table,
            });
        }
        Ok(())
    }

    /// All objects played from offset 0 on to some stop, and audited, on a table with a row for each cell of the directory, or one more or
    /// less: where all cells have room, a library may work in another way.
    fn everything(&mut self) -> Result<(), Difference> {
        let objects = self.directory().objects().iter();
        let cells: u64 = objects
            .map(|object| u64::from(object.highest_key) + 1)
            .sum();
        if cells > MOST_ROWS || cells > MANY_ROWS && !self.random.percent(3) {
            return Ok(());
        }
        let rows = (cells + self.random.below(3)).saturating_sub(1) as usize;
        let tail = self.tail();
        let stop = match self.random.percent(50) {
            true => tail,
            false => self.random.below(tail + 1),
        };
        let mut play = Call::Play {
            record: Record {
                hosted: self.directory().everything(),
                position: 0,
                count: 0,
            },
            table: vec![0xAA; rows * CELL],
            stop,
        };
        self.pair.call(&mut self.log, tail, &mut play)?;
        let mut audit = Call::Audit {
            scratch: vec![0xD5; rows * CELL],
        };
        self.pair.call(&mut self.log, tail, &mut audit)?;
        Ok(())
    }

    /// The calls that take a record with a table, on one whose rows do not ascend.
    fn out_of_order(&mut self, replica: &Replica) -> Result<(), Difference> {
        let Some((record, table)) = disordered(&mut self.random, replica) else {
            return Ok(());
        };
        let tail = self.tail();
        let object = arguments::object(&mut self.random, &self.history.writer.directory);
        let mut calls = [
            Call::Play {
                record,
                table: table.clone(),
                stop: record.position + self.random.below(3),
            },
            Call::ReadCell {
                record,
                table: table.clone(),
                object,
                key: 0,
            },
            Call::Price {
                record,
                table: table.clone(),
                object,
                prices: Vec::new(),
            },
            Call::Append(Request::Checkpoint {
                record,
                table,
                object,
            }),
        ];
        for call in &mut calls {
            let mut copy = self.log.clone();
            self.pair.call(&mut copy, tail, call)?;
        }
        Ok(())
    }

    fn read(&mut self, replica: Replica) -> Result<(), Difference> {
        let mut table = replica.table;
        for _ in 0..4 {
            let object = arguments::object(&mut self.random, &self.history.writer.directory);
            let mut call = Call::ReadCell {
                record: replica.record,
                table,
                object,
                key: arguments::key(
                    &mut self.random,
                    &self.history.writer.directory,
                    object,
                    self.history.mix.keys,
                ),
            };
            self.pair.call(&mut self.log, 0, &mut call)?;
            table = match call {
                Call::ReadCell { table, .. } => table,
                _ => Vec::new(),
            };
        }
        self.price(replica.record, &table)?;
        self.replicas.push(Replica {
            record: replica.record,
            table,
        });
        Ok(())
    }

    /// What the cells of one of its objects cost.
    fn price(&mut self, record: Record, table: &[u8]) -> Result<(), Difference> {
        let object = arguments::object(&mut self.random, &self.history.writer.directory);
        let counted = &table[..CELL * record.count as usize];
        let mut call = Call::Price {
            record,
            table: table.to_vec(),
            object,
            prices: arguments::price_list(&mut self.random, counted, object),
        };
        self.pair.call(&mut self.log, 0, &mut call)?;
        Ok(())
    }
}

/// Changes a row's value, present field or version, or adds a row that the replica does not have; the rows still ascend.
fn tamper(random: &mut Random, directory: &Directory, replica: &mut Replica) {
    let count = replica.record.count as usize;
    if count == 0 {
        return;
    }
    let place = random.below(count as u64) as usize;
    let given = row(&replica.table, place);
    match random.below(4) {
        0..=1 if count < capacity(&replica.table) => add(random, directory, replica),
        2 => {
            let present = random.below(4) as u32;
            put_row(&mut replica.table, place, Row { present, ..given });
        }
        _ => {
            let change = Row {
                value: given.value ^ 5,
                version: random.below(replica.record.position + 1),
                ..given
            };
            put_row(&mut replica.table, place, change);
        }
    }
}

/// One row more, of any object and key, in its place.
fn add(random: &mut Random, directory: &Directory, replica: &mut Replica) {
    let count = replica.record.count as usize;
    let object = arguments::object(random, directory);
    let mut all: Vec<Row> = rows(&replica.table, count).collect();
    all.push(Row {
        object,
        key: arguments::key(random, directory, object, 3),
        value: 77,
        present: random.below(4) as u32,
        version: random.number(),
    });
    put_in_order(&mut all);
    for (place, row) in all.iter().enumerate() {
        put_row(&mut replica.table, place, *row);
    }
    replica.record.count = all.len() as u64;
}

/// A copy of the record and the table with two rows changed about, or a row in the place of the next too.
fn disordered(random: &mut Random, replica: &Replica) -> Option<(Record, Vec<u8>)> {
    let count = replica.record.count as usize;
    if count < 2 || count > capacity(&replica.table) {
        return None;
    }
    let mut table = replica.table.clone();
    let one = random.below(count as u64 - 1) as usize;
    let other = one + 1 + random.below((count - one - 1) as u64) as usize;
    let (first, second) = (row(&table, one), row(&table, other));
    put_row(&mut table, other, first);
    if random.percent(60) {
        put_row(&mut table, one, second);
    }
    Some((replica.record, table))
}

fn record_of(out: [u64; 8]) -> Record {
    Record {
        hosted: out[0],
        position: out[1],
        count: out[2],
    }
}
