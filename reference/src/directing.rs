//! The vectors of directories: good ones and faulty ones, each with a small log, handed to every call.

use std::fmt::Write;

use crate::append::{self, Request, Writer};
use crate::audit::audit;
use crate::directory::{bytes_of, eight, Directory, HIGHEST_ID, HIGHEST_KEY, MOST_RECORDS, RECORD};
use crate::log::{check, entry, items, list, next, owed};
use crate::objects::{Object, Structure};
use crate::replica::{open_at, open_fresh, play, read_cell, Record};
use crate::sample::{commit, commit_after, put, read, update};
use crate::slot::{Names, SLOT};
use crate::table::{Cell, CELL};

/// What is handed to the calls.
pub struct Case {
    pub dir: Vec<u8>,
    /// The place at fault that is due.
    pub due: Option<usize>,
    pub tail: u32,
    pub log: Vec<u8>,
    pub hosted: u64,
    pub object: u32,
    pub key: u32,
}

/// The table has so many bytes, the list so many numbers.
pub const TABLE: usize = 4 * CELL;
pub const LIST: usize = 3;

fn map(id: u32, highest_key: u32, marked: bool) -> Object {
    Object {
        id,
        structure: Structure::Map,
        highest_key,
        marked,
    }
}

fn register(id: u32, marked: bool) -> Object {
    Object {
        structure: Structure::Register,
        ..map(id, 0, marked)
    }
}

/// The directory of two clinics: ids far apart, the highest id and the most keys.
pub fn clinics() -> Vec<u8> {
    bytes_of(&[
        map(10, 99, false),
        register(20, true),
        map(HIGHEST_ID, HIGHEST_KEY, false),
    ])
}

/// So many objects, whose ids are the multiples of 7; every fifth is a register.
fn many(count: u32) -> Vec<u8> {
    let object = |place: u32| match place % 5 {
        4 => register(7 * place, place.is_multiple_of(2)),
        _ => map(7 * place, place, place.is_multiple_of(2)),
    };
    let objects: Vec<Object> = (1..=count).map(object).collect();
    bytes_of(&objects)
}

/// A checkpoint of an empty object, an update of it, a transaction of it and its commit record; one slot is free.
fn log_of(dir: &[u8], object: u32, key: u32) -> Vec<u8> {
    let directory = Directory::of(dir).expect("a directory without fault");
    let hosted = directory.set_of(object);
    let mut writer = Writer::over(directory, 5);
    let record = Record {
        hosted,
        position: 0,
        count: 0,
    };
    let requests = [
        Request::Checkpoint {
            record,
            table: Vec::new(),
            object,
        },
        update(0, &[put(object, key, 41)]),
        update(9, &[put(object, key, 42)]),
        commit(9, &[read(object, key, 2)]),
    ];
    for request in &requests {
        let answer = writer.append(request);
        assert!(answer.is_done(), "{request:?} is refused: {answer:?}");
    }
    writer.log
}

/// The cases that go by one good directory: its own object and key, and what is just outside.
struct Of {
    dir: Vec<u8>,
    log: Vec<u8>,
    hosted: u64,
    object: u32,
    key: u32,
}

impl Of {
    fn new(dir: Vec<u8>, place: usize) -> Of {
        let directory = Directory::of(&dir).expect("a directory without fault");
        let object = directory.objects()[place];
        Of {
            log: log_of(&dir, object.id, object.highest_key),
            hosted: 1 << place,
            object: object.id,
            key: object.highest_key,
            dir,
        }
    }

    fn case(&self) -> Case {
        Case {
            dir: self.dir.clone(),
            due: None,
            tail: 4,
            log: self.log.clone(),
            hosted: self.hosted,
            object: self.object,
            key: self.key,
        }
    }

    /// Another directory in the place of its own; the log may be bad by it.
    fn by(&self, dir: Vec<u8>, due: Option<usize>) -> Case {
        Case {
            dir,
            due,
            ..self.case()
        }
    }

    /// As a faulty directory is handed with all else wrong: 1, 10 and 3 come after 15.
    fn wrong(&self, dir: Vec<u8>, place: usize) -> Case {
        Case {
            log: vec![0x5A; SLOT + 1],
            tail: 7,
            hosted: 0,
            object: 0,
            key: u32::MAX,
            ..self.by(dir, Some(place))
        }
    }
}

/// A directory with a byte changed.
fn with(dir: &[u8], at: usize, value: u8) -> Vec<u8> {
    let mut changed = dir.to_vec();
    changed[at] = value;
    changed
}

/// Wrong values of each byte of a map's record, and of a register's where they differ; an id's and a key's bytes make another object.
const WRONG: [(usize, u8); 14] = [
    (0, 0x4E),
    (0, 0x6F),
    (1, 0),
    (1, 0x43),
    (2, 1),
    (3, 0x80),
    (4, 0x80),
    (12, 0),
    (12, 3),
    (12, 0x81),
    (13, 2),
    (13, 0xFF),
    (14, 1),
    (15, 0x10),
];

pub fn directing() -> Vec<Case> {
    let clinics = Of::new(clinics(), 2);
    let eight = Of::new(eight().to_vec(), 1);
    let full = Of::new(many(MOST_RECORDS as u32), 63);
    let mut cases = vec![clinics.case(), eight.case(), full.case()];
    cases.extend(outside(&clinics));
    cases.extend(outside(&full));
    cases.extend(lengths(&clinics));
    cases.extend(lengths(&eight));
    cases.extend(lengths(&full));
    for of in [&clinics, &full] {
        let last = of.dir.len() / RECORD - 1;
        for place in [0, last] {
            for (at, value) in WRONG {
                let dir = with(&of.dir, RECORD * place + at, value);
                cases.push(of.by(dir.clone(), Some(place)));
                cases.push(of.wrong(dir, place));
            }
        }
    }
    cases.extend(records(&clinics, &full));
    cases.extend(naming());
    cases
}

/// A transaction of two updates that names another: who hosts every object of the directory decides it alone, whatever it reads. With
/// one object that is who hosts it.
fn naming() -> Vec<Case> {
    let one = bytes_of(&[map(10, 99, false)]);
    let mut cases = Vec::new();
    for (dir, place) in [
        (one, 0),
        (clinics(), 0),
        (clinics(), 2),
        (eight().to_vec(), 1),
        (many(MOST_RECORDS as u32), 63),
    ] {
        let of = Of::new(dir, place);
        let directory = Directory::of(&of.dir).expect("a directory without fault");
        let everything = directory.everything();
        for names in [Names::of(8, 0), Names::of(7, 8)] {
            let log = naming_log(&directory, (of.object, of.key), names);
            for hosted in [of.hosted, everything & !1, everything] {
                cases.push(Case {
                    log: log.clone(),
                    hosted,
                    ..of.case()
                });
            }
        }
    }
    cases
}

/// Number 8 commits; number 9 names it.
fn naming_log(directory: &Directory, (object, key): (u32, u32), names: Names) -> Vec<u8> {
    let mut writer = Writer::over(directory.clone(), 5);
    for request in [
        update(8, &[put(object, key, 41)]),
        commit(8, &[]),
        update(9, &[put(object, key, 42)]),
        commit_after(9, &[read(object, key, 2)], names.first, names.second),
    ] {
        let answer = writer.append(&request);
        assert!(answer.is_done(), "{request:?} is refused: {answer:?}");
    }
    writer.log
}

/// Sets with a bit past the last record, all and none; objects and keys that are not there; other directories without fault.
fn outside(of: &Of) -> Vec<Case> {
    let records = of.dir.len() / RECORD;
    let everything = u64::MAX >> (MOST_RECORDS - records);
    let mut cases = Vec::new();
    for hosted in [0, everything, u64::MAX, 1 << 63, everything.wrapping_add(1)] {
        cases.push(Case {
            hosted,
            ..of.case()
        });
    }
    for (object, key) in [
        (0, 0),
        (1, 0),
        (of.object, of.key + 1),
        (of.object, u32::MAX),
        (of.object - 1, 0),
        (of.object | 1 << 31, 0),
        (u32::MAX, 0),
    ] {
        cases.push(Case {
            object,
            key,
            ..of.case()
        });
    }
    // by the eight, and by its own without the first record or the last, which puts its object at another place or nowhere
    for dir in [eight(), &of.dir[RECORD..], &of.dir[..of.dir.len() - RECORD]] {
        cases.push(of.by(dir.to_vec(), None));
    }
    cases
}

/// No byte, one, a record cut, a byte more, a record of zeros more.
fn lengths(of: &Of) -> Vec<Case> {
    let (dir, records) = (&of.dir, of.dir.len() / RECORD);
    let longer = |more: usize| [&dir[..], &vec![0; more]].concat();
    let mut cases = vec![
        of.by(Vec::new(), Some(0)),
        of.wrong(Vec::new(), 0),
        of.by(dir[..1].to_vec(), Some(0)),
        of.by(dir[..RECORD - 1].to_vec(), Some(0)),
        of.by(dir[..dir.len() - 1].to_vec(), Some(records - 1)),
        of.by(dir[..dir.len() - RECORD + 1].to_vec(), Some(records - 1)),
    ];
    for more in [1, RECORD - 1, RECORD] {
        cases.push(of.by(longer(more), Some(records)));
        cases.push(of.wrong(longer(more), records));
    }
    cases
}

/// Ids out of order, twice, 0 and too high; keys of a register, and the most that a map has; 65 records and more.
fn records(clinics: &Of, full: &Of) -> Vec<Case> {
    let by = |objects: &[Object], due: Option<usize>| clinics.by(bytes_of(objects), due);
    let last = map(HIGHEST_ID, HIGHEST_KEY, false);
    let keyed = Object {
        highest_key: 1,
        ..register(20, true)
    };
    let mut too_early = many(70);
    too_early[3 * RECORD + 13] = 2;
    vec![
        by(&[register(20, true), map(10, 99, false), last], Some(1)),
        by(&[map(10, 99, false), map(10, 99, false), last], Some(1)),
        by(&[map(10, 99, false), last, register(20, true)], Some(2)),
        by(&[map(0, 99, false), last], Some(0)),
        by(
            &[map(10, 99, false), map(HIGHEST_ID + 1, 0, false)],
            Some(1),
        ),
        by(&[map(10, 99, false), map(u32::MAX, 0, false)], Some(1)),
        by(&[keyed, last], Some(0)),
        by(&[map(10, u32::MAX, false), last], Some(0)),
        by(&[map(10, HIGHEST_KEY, true), last], None),
        by(&[map(10, 0, true), last], None),
        by(&[register(10, false), last], None),
        by(&[last], None),
        full.by(many(65), Some(64)),
        full.wrong(many(65), 64),
        full.by([many(64), vec![0x4F]].concat(), Some(64)),
        full.by(many(128), Some(64)),
        full.by(too_early.clone(), Some(3)),
        full.wrong(too_early, 3),
    ]
}

/// The input of the program.
pub fn input(cases: &[Case]) -> Vec<u8> {
    let mut bytes = Vec::new();
    for case in cases {
        for part in [&case.dir, &case.log] {
            bytes.extend((part.len() as u32).to_be_bytes());
            bytes.extend(part);
        }
        bytes.extend(case.tail.to_be_bytes());
        bytes.extend(case.hosted.to_be_bytes());
        bytes.extend(case.object.to_be_bytes());
        bytes.extend(case.key.to_be_bytes());
    }
    bytes
}

/// What the program prints.
pub fn output(cases: &[Case]) -> String {
    let mut text = String::new();
    for case in cases {
        reading(&mut text, case);
        appending(&mut text, case);
        playing(&mut text, case);
    }
    text
}

fn line(text: &mut String, words: &str) {
    let _ = writeln!(text, "{words}");
}

fn words(bytes: &[u8]) -> String {
    let word = |word: &[u8]| u32::from_be_bytes([word[0], word[1], word[2], word[3]]);
    bytes
        .chunks_exact(4)
        .map(|bytes| format!(" {}", word(bytes)))
        .collect()
}

fn reading(text: &mut String, case: &Case) {
    let (dir, log, tail) = (&case.dir, &case.log, case.tail as usize);
    let answer = check(dir, log, tail).shown(|()| "done".to_string());
    line(text, &format!("check {answer}"));
    for (place, set) in [1, 2].into_iter().enumerate() {
        let answer = owed(dir, log, tail, &[set])
            .shown(|owed| owed.map_or("none".to_string(), |offset| offset.to_string()));
        line(text, &format!("owed {place} {answer}"));
    }
    let answer = entry(dir, log, tail, 3).shown(|entry| {
        let kind = entry.kind as u32;
        let Names { first, second } = entry.names;
        format!(
            "{kind} {} {} {} {first} {second}",
            entry.number, entry.headers, entry.items
        )
    });
    line(text, &format!("entry {answer}"));
    line(text, &format!("items{}", words(items(dir, log, tail, 3))));
    let (answer, reader) = next(dir, log, tail, case.object, 1);
    let answer = answer.shown(|next| next.map_or("end".to_string(), |offset| offset.to_string()));
    line(text, &format!("next {answer} {reader}"));
    let mut lent = [77_777; LIST];
    let answer = list(dir, log, tail, case.object, &mut lent).shown(|count| count.to_string());
    let lent: String = lent.iter().map(|number| format!(" {number}")).collect();
    line(text, &format!("list {answer}{lent}"));
}

/// The four appends, each on a copy of the log.
fn appending(text: &mut String, case: &Case) {
    let tail = case.tail as usize;
    let record = Record {
        hosted: case.hosted,
        position: u64::from(case.tail),
        count: 0,
    };
    let requests = [
        ("update", update(0, &[put(case.object, case.key, 1)])),
        ("commit", commit(9, &[read(case.object, case.key, 0)])),
        (
            "decision",
            Request::Decision {
                offset: 3,
                outcome: 1,
            },
        ),
        (
            "checkpoint",
            Request::Checkpoint {
                record,
                table: vec![0; TABLE],
                object: case.object,
            },
        ),
    ];
    for (name, request) in requests {
        let mut copy = case.log.clone();
        let answer = append::request(&case.dir, &mut copy, tail, &request);
        let last = copy.len().saturating_sub(SLOT);
        let answer = answer.shown(|tail| format!("done {tail}"));
        line(text, &format!("{name} {answer}{}", words(&copy[last..])));
    }
}

fn playing(text: &mut String, case: &Case) {
    let (dir, log, tail) = (&case.dir, &case.log, case.tail as usize);
    let shown = |record: Record| {
        let Record {
            hosted,
            position,
            count,
        } = record;
        format!("{hosted} {position} {count}")
    };
    let done = |record: Record| format!("done {}", shown(record));
    line(
        text,
        &format!("open {}", open_fresh(dir, case.hosted).shown(done)),
    );
    let mut table = [0; TABLE];
    let answer = open_at(dir, log, tail, 0, &mut table).shown(done);
    line(text, &format!("restore {answer}"));
    let fresh = Record {
        hosted: case.hosted,
        position: 0,
        count: 0,
    };
    let (answer, record) = play(dir, log, tail, fresh, &mut table, u64::from(case.tail));
    let answer = answer.shown(|()| "done".to_string());
    line(text, &format!("play {answer} {}", shown(record)));
    line(text, &format!("table{}", words(&table)));
    let answer = read_cell(dir, &record, &table, case.object, case.key).shown(|cell| match cell {
        Cell::NeverWritten => "never".to_string(),
        Cell::Holds { value, version } => format!("value {value} {version}"),
        Cell::Removed { version } => format!("removed {version}"),
    });
    line(text, &format!("cell {answer}"));
    let mut scratch = [0; TABLE];
    let (answer, record) = audit(dir, log, tail, &mut scratch);
    let answer = answer.shown(|()| "done".to_string());
    line(text, &format!("audit {answer} {}", shown(record)));
    line(text, &format!("table{}", words(&scratch)));
}
