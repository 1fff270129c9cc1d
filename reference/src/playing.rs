//! Stored vectors of opening fresh, play and cell reading: a log, a table and a record, the requests made on them one
//! after the other, and what must come of each. The format stands at the head of `src/vectors.rs`. `auditing` has
//! those with openings at a checkpoint and audits.

pub mod after;
pub mod histories;
pub mod order;
pub mod outcomes;
pub mod refusals;
pub mod rooms;
pub mod tables;
pub mod worked;

use std::fmt::Write;

use crate::answer::Answer;
use crate::audit::audit;
use crate::directory::eight;
use crate::replica::{open_at, open_fresh, play, read_cell, Record};
use crate::table::{put_row, Cell, Row};

/// One request.
#[derive(Clone, Copy, Debug, PartialEq, Eq)]
pub enum Request {
    Open { hosted: u64 },
    Play { tail: u32, stop: u64 },
    Cell { object: u32, key: u32 },
    OpenAt { tail: u32, offset: u64 },
    Audit { tail: u32 },
}

/// What a request answers.
#[derive(Clone, Copy, Debug, PartialEq, Eq)]
pub enum Said {
    Opened(Answer<Record>),
    /// The record is as it was left.
    Played(Answer<()>, Record),
    Read(Answer<Cell>),
    /// At a checkpoint.
    Restored(Answer<Record>),
    /// The record is as it was left.
    Audited(Answer<()>, Record),
}

/// What comes of a case.
#[derive(Clone, Debug, PartialEq, Eq)]
pub struct Outcome {
    pub said: Vec<Said>,
    pub table: Vec<u8>,
}

/// A lent log and table, and requests that are each made on the table and record that the last left.
pub struct Case {
    pub name: String,
    pub log: Vec<u8>,
    pub table: Vec<u8>,
    pub record: Record,
    pub requests: Vec<Request>,
    /// What it was made for; a random history has none.
    pub expected: Option<Outcome>,
}

impl Case {
    pub fn outcome(&self) -> Outcome {
        let mut table = self.table.clone();
        let mut record = self.record;
        let mut said = Vec::new();
        for &request in &self.requests {
            said.push(match request {
                Request::Open { hosted } => {
                    let answer = open_fresh(eight(), hosted);
                    record = answer.done().unwrap_or(record);
                    Said::Opened(answer)
                }
                Request::Play { tail, stop } => {
                    let (answer, left) =
                        play(eight(), &self.log, tail as usize, record, &mut table, stop);
                    record = left;
                    Said::Played(answer, left)
                }
                Request::Cell { object, key } => {
                    Said::Read(read_cell(eight(), &record, &table, object, key))
                }
                Request::OpenAt { tail, offset } => {
                    let answer = open_at(eight(), &self.log, tail as usize, offset, &mut table);
                    record = answer.done().unwrap_or(record);
                    Said::Restored(answer)
                }
                Request::Audit { tail } => {
                    let (answer, left) = audit(eight(), &self.log, tail as usize, &mut table);
                    record = left;
                    Said::Audited(answer, left)
                }
            });
        }
        Outcome { said, table }
    }
}

/// All cases of playing.
pub fn playing() -> Vec<Case> {
    let mut cases = named();
    cases.extend(histories::cases());
    cases.extend(histories::naming());
    cases
}

/// Those with stated answers.
pub fn named() -> Vec<Case> {
    let mut cases = worked::cases();
    cases.extend(outcomes::cases());
    cases.extend(rooms::cases());
    cases.extend(tables::cases());
    cases.extend(order::cases());
    cases.extend(refusals::cases());
    cases.extend(after::cases());
    cases
}

/// A case in the making: a request is added with the answer that it must get. The table must be left as it was given,
/// but for the rows that are stated.
pub struct Asking {
    case: Case,
    record: Record,
    said: Vec<Said>,
    left: Vec<u8>,
}

impl Asking {
    /// Starts with the record 0, 0, 0.
    pub fn on(name: &str, log: Vec<u8>, table: Vec<u8>) -> Asking {
        Asking::with(name, log, table, record(0, 0, 0))
    }

    pub fn with(name: &str, log: Vec<u8>, table: Vec<u8>, record: Record) -> Asking {
        Asking {
            left: table.clone(),
            record,
            said: Vec::new(),
            case: Case {
                name: name.to_string(),
                log,
                table,
                record,
                requests: Vec::new(),
                expected: None,
            },
        }
    }

    fn ask(&mut self, request: Request, said: Said) {
        self.case.requests.push(request);
        self.said.push(said);
    }

    /// Opens fresh; hosted set 0 is refused.
    pub fn opens(&mut self, hosted: u64) {
        let answer = if hosted == 0 {
            refused(10)
        } else {
            self.record = record(hosted, 0, 0);
            Answer::Done(self.record)
        };
        self.ask(Request::Open { hosted }, Said::Opened(answer));
    }

    /// A play that is done, with so many cells counted.
    pub fn plays(&mut self, tail: u32, stop: u64, count: u64) {
        self.record = Record {
            position: stop,
            count,
            ..self.record
        };
        self.play(tail, stop, Answer::Done(()));
    }

    /// A play that stops at an entry: 12 or 13.
    pub fn stops(&mut self, tail: u32, stop: u64, number: u32, position: u64, count: u64) {
        self.record = Record {
            position,
            count,
            ..self.record
        };
        self.play(tail, stop, refused(number));
    }

    /// A play that is refused, with the record as it was.
    pub fn refuses(&mut self, tail: u32, stop: u64, number: u32) {
        self.play(tail, stop, refused(number));
    }

    /// Refusal 2 with its offset.
    pub fn bad_entry(&mut self, tail: u32, stop: u64, at: u64) {
        let refusal = Answer::Refused {
            number: crate::answer::BAD_ENTRY,
            told: Some(at),
        };
        self.play(tail, stop, refusal);
    }

    fn play(&mut self, tail: u32, stop: u64, answer: Answer<()>) {
        let said = Said::Played(answer, self.record);
        self.ask(Request::Play { tail, stop }, said);
    }

    /// An opening at a checkpoint that is done.
    pub fn restores(&mut self, tail: u32, offset: u64, hosted: u64, count: u64) {
        self.record = record(hosted, offset + 1, count);
        let said = Said::Restored(Answer::Done(self.record));
        self.ask(Request::OpenAt { tail, offset }, said);
    }

    /// One that is refused, with the record as it was; 2 tells an offset.
    pub fn restores_not(&mut self, tail: u32, offset: u64, number: u32, at: Option<u64>) {
        let refusal = Answer::Refused { number, told: at };
        self.ask(Request::OpenAt { tail, offset }, Said::Restored(refusal));
    }

    /// An audit that passes, with so many cells counted.
    pub fn audits(&mut self, tail: u32, count: u64) {
        self.record = record(0xFF, u64::from(tail), count);
        let said = Said::Audited(Answer::Done(()), self.record);
        self.ask(Request::Audit { tail }, said);
    }

    /// An audit that finds a false record, with the table as played to the tail.
    pub fn finds(&mut self, tail: u32, at: u64, count: u64) {
        self.record = record(0xFF, u64::from(tail), count);
        self.audited(tail, crate::answer::FALSE_RECORD, Some(at));
    }

    /// An audit that lacks room at an entry.
    pub fn lacks(&mut self, tail: u32, at: u64, count: u64) {
        self.record = record(0xFF, at, count);
        self.audited(tail, crate::answer::NO_ROOM, Some(at));
    }

    /// An audit that is refused by the log, with the record 0, 0, 0; 2 tells an offset.
    pub fn audits_not(&mut self, tail: u32, number: u32, at: Option<u64>) {
        self.record = record(0, 0, 0);
        self.audited(tail, number, at);
    }

    fn audited(&mut self, tail: u32, number: u32, told: Option<u64>) {
        let said = Said::Audited(Answer::Refused { number, told }, self.record);
        self.ask(Request::Audit { tail }, said);
    }

    pub fn holds(&mut self, object: u32, key: u32, value: u32, version: u64) {
        self.reads(object, key, Answer::Done(Cell::Holds { value, version }));
    }

    pub fn removed(&mut self, object: u32, key: u32, version: u64) {
        self.reads(object, key, Answer::Done(Cell::Removed { version }));
    }

    pub fn never(&mut self, object: u32, key: u32) {
        self.reads(object, key, Answer::Done(Cell::NeverWritten));
    }

    /// A cell reading that is refused.
    pub fn no_cell(&mut self, object: u32, key: u32, number: u32) {
        self.reads(object, key, refused(number));
    }

    fn reads(&mut self, object: u32, key: u32, answer: Answer<Cell>) {
        self.ask(Request::Cell { object, key }, Said::Read(answer));
    }

    /// The row that the table has at a place when all requests have been made.
    pub fn row(&mut self, place: usize, object: u32, key: u32, value: Option<u32>, version: u64) {
        put_row(&mut self.left, place, Row::of(object, key, value, version));
    }

    /// A row that is there as it was given, at another place.
    pub fn moved(&mut self, place: usize, row: Row) {
        put_row(&mut self.left, place, row);
    }

    pub fn case(self) -> Case {
        Case {
            expected: Some(Outcome {
                said: self.said,
                table: self.left,
            }),
            ..self.case
        }
    }
}

pub fn record(hosted: u64, position: u64, count: u64) -> Record {
    Record {
        hosted,
        position,
        count,
    }
}

fn refused<T>(number: u32) -> Answer<T> {
    Answer::Refused { number, told: None }
}

/// The bytes of stdin for these cases.
pub fn input(cases: &[Case]) -> Vec<u8> {
    let mut bytes = Vec::new();
    for case in cases {
        bytes.extend((case.log.len() as u32).to_be_bytes());
        bytes.extend(&case.log);
        bytes.extend((case.table.len() as u32).to_be_bytes());
        bytes.extend(&case.table);
        bytes.extend((case.record.hosted as u32).to_be_bytes());
        bytes.extend(case.record.position.to_be_bytes());
        bytes.extend(case.record.count.to_be_bytes());
        bytes.extend((case.requests.len() as u32).to_be_bytes());
        for request in &case.requests {
            bytes.extend(request_bytes(request));
        }
    }
    bytes
}

/// A request's kind and arguments.
pub fn request_bytes(request: &Request) -> Vec<u8> {
    let mut bytes = Vec::new();
    match request {
        Request::Open { hosted } => {
            bytes.extend(1_u32.to_be_bytes());
            bytes.extend((*hosted as u32).to_be_bytes());
        }
        Request::Play { tail, stop } => {
            bytes.extend(2_u32.to_be_bytes());
            bytes.extend(tail.to_be_bytes());
            bytes.extend(stop.to_be_bytes());
        }
        Request::Cell { object, key } => {
            bytes.extend(3_u32.to_be_bytes());
            bytes.extend(object.to_be_bytes());
            bytes.extend(key.to_be_bytes());
        }
        Request::OpenAt { tail, offset } => {
            bytes.extend(4_u32.to_be_bytes());
            bytes.extend(tail.to_be_bytes());
            bytes.extend(offset.to_be_bytes());
        }
        Request::Audit { tail } => {
            bytes.extend(5_u32.to_be_bytes());
            bytes.extend(tail.to_be_bytes());
        }
    }
    bytes
}

/// What a program prints for these cases.
pub fn output(cases: &[Case]) -> String {
    let mut text = String::new();
    for case in cases {
        print_case(&mut text, case);
    }
    text
}

fn print_case(text: &mut String, case: &Case) {
    let Outcome { said, table } = case.outcome();
    for (request, said) in case.requests.iter().zip(said) {
        let _ = match said {
            Said::Opened(answer) => {
                let shown = answer.shown(|record| format!("done {}", record_shown(record)));
                writeln!(text, "open {shown}")
            }
            Said::Played(answer, left) => {
                let shown = answer.shown(|()| "done".to_string());
                writeln!(text, "play {shown} {}", record_shown(left))
            }
            Said::Read(answer) => {
                let Request::Cell { object, key } = request else {
                    unreachable!("only a cell reading is answered so");
                };
                writeln!(text, "cell {object} {key} {}", answer.shown(cell_shown))
            }
            Said::Restored(answer) => {
                let shown = answer.shown(|record| format!("done {}", record_shown(record)));
                writeln!(text, "restore {shown}")
            }
            Said::Audited(answer, left) => {
                let shown = answer.shown(|()| "done".to_string());
                writeln!(text, "audit {shown} {}", record_shown(left))
            }
        };
    }
    let _ = writeln!(text, "table{}", words(&table));
}

/// After a space each, the bytes as 4-byte words.
pub fn words(bytes: &[u8]) -> String {
    let mut text = String::new();
    for word in bytes.chunks_exact(4) {
        let word = u32::from_be_bytes([word[0], word[1], word[2], word[3]]);
        let _ = write!(text, " {word}");
    }
    text
}

pub fn record_shown(record: Record) -> String {
    format!("{} {} {}", record.hosted, record.position, record.count)
}

fn cell_shown(cell: Cell) -> String {
    match cell {
        Cell::NeverWritten => "never".to_string(),
        Cell::Holds { value, version } => format!("value {value} {version}"),
        Cell::Removed { version } => format!("removed {version}"),
    }
}
