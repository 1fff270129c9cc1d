//! Stored vectors of the appends: a log, the requests made on it one after the other, and what must come of each.
//! The format stands at the head of `src/vectors.rs`.

pub mod after;
pub mod astray;
pub mod checkpoints;
pub mod fields;
pub mod growing;
pub mod histories;
pub mod lent;
pub mod orders;

use std::fmt::Write;

use crate::answer::Answer;
use crate::append::{self, Request};
use crate::directory::eight;
use crate::sample::log_of;
use crate::slot::SLOT;

/// A lent log, and requests that are each made on the log and tail that the last left.
pub struct Case {
    pub name: String,
    pub tail: u32,
    pub log: Vec<u8>,
    pub requests: Vec<Request>,
    /// The answers it was made for; a random history has none.
    pub expected: Option<Vec<Answer<usize>>>,
}

/// What comes of a case.
pub struct Outcome {
    pub answers: Vec<Answer<usize>>,
    pub log: Vec<u8>,
}

impl Case {
    pub fn outcome(&self) -> Outcome {
        let mut log = self.log.clone();
        let mut tail = self.tail as usize;
        let mut answers = Vec::new();
        for request in &self.requests {
            let answer = append::request(eight(), &mut log, tail, request);
            tail = answer.done().unwrap_or(tail);
            answers.push(answer);
        }
        Outcome { answers, log }
    }
}

/// All cases of the appends.
pub fn appending() -> Vec<Case> {
    let mut cases = named();
    cases.extend(histories::cases());
    cases.extend(histories::naming());
    cases
}

/// Those with stated answers.
pub fn named() -> Vec<Case> {
    let mut cases = growing::cases();
    cases.extend(orders::cases());
    cases.extend(fields::cases());
    cases.extend(checkpoints::cases());
    cases.extend(lent::cases());
    cases.extend(astray::cases());
    cases.extend(after::cases());
    cases
}

/// A case in the making: a request is added with the answer that it must get.
pub struct Asking {
    name: String,
    log: Vec<u8>,
    given: u32,
    tail: usize,
    requests: Vec<Request>,
    expected: Vec<Answer<usize>>,
}

impl Asking {
    pub fn on(name: &str, log: Vec<u8>, tail: u32) -> Asking {
        Asking {
            name: name.to_string(),
            log,
            given: tail,
            tail: tail as usize,
            requests: Vec::new(),
            expected: Vec::new(),
        }
    }

    /// The request is accepted, and the tail one higher.
    pub fn done(&mut self, request: Request) {
        self.tail += 1;
        self.ask(request, Answer::Done(self.tail));
    }

    pub fn refused(&mut self, number: u32, request: Request) {
        self.ask(request, refused(number));
    }

    pub fn ask(&mut self, request: Request, expected: Answer<usize>) {
        self.requests.push(request);
        self.expected.push(expected);
    }

    pub fn case(self) -> Case {
        Case {
            name: self.name,
            tail: self.given,
            log: self.log,
            requests: self.requests,
            expected: Some(self.expected),
        }
    }
}

pub fn refused(number: u32) -> Answer<usize> {
    Answer::Refused { number, told: None }
}

/// Refusal 2 with its offset.
pub fn bad_entry(at: u64) -> Answer<usize> {
    Answer::Refused {
        number: crate::answer::BAD_ENTRY,
        told: Some(at),
    }
}

/// Refusal 16 with the read's place.
pub fn astray(place: u64) -> Answer<usize> {
    Answer::Refused {
        number: crate::answer::ASTRAY,
        told: Some(place),
    }
}

/// Bytes that are no slot and differ from place to place.
pub fn junk(length: usize) -> Vec<u8> {
    (0..length)
        .map(|at| (at * 37 + at / 256 + 129) as u8)
        .collect()
}

/// A log of these appends with so many slots of junk above the tail.
pub fn with_junk(requests: &[Request], free: usize) -> Vec<u8> {
    let mut log = log_of(requests);
    log.extend(junk(free * SLOT));
    log
}

/// The bytes of stdin for these cases.
pub fn input(cases: &[Case]) -> Vec<u8> {
    let mut bytes = Vec::new();
    for case in cases {
        bytes.extend(case.tail.to_be_bytes());
        extend_counted(&mut bytes, &case.log);
        bytes.extend((case.requests.len() as u32).to_be_bytes());
        for request in &case.requests {
            bytes.extend(request_bytes(request));
        }
    }
    bytes
}

/// A request's kind and arguments.
pub fn request_bytes(request: &Request) -> Vec<u8> {
    let mut bytes = Vec::new();
    match request {
        Request::Update { number, items } => {
            bytes.extend(1_u32.to_be_bytes());
            bytes.extend(number.to_be_bytes());
            extend_counted(&mut bytes, items);
        }
        Request::Commit {
            number,
            reads,
            names,
        } => {
            bytes.extend(2_u32.to_be_bytes());
            bytes.extend(number.to_be_bytes());
            extend_counted(&mut bytes, reads);
            bytes.extend(names.first.to_be_bytes());
            bytes.extend(names.second.to_be_bytes());
        }
        Request::Decision { offset, outcome } => {
            bytes.extend(3_u32.to_be_bytes());
            bytes.extend(offset.to_be_bytes());
            bytes.extend(outcome.to_be_bytes());
        }
        Request::Checkpoint {
            record,
            table,
            object,
        } => {
            bytes.extend(4_u32.to_be_bytes());
            bytes.extend((record.hosted as u32).to_be_bytes());
            bytes.extend(record.position.to_be_bytes());
            bytes.extend(record.count.to_be_bytes());
            bytes.extend(object.to_be_bytes());
            extend_counted(&mut bytes, table);
        }
    }
    bytes
}

/// 4 bytes length, then the bytes.
fn extend_counted(bytes: &mut Vec<u8>, part: &[u8]) {
    bytes.extend((part.len() as u32).to_be_bytes());
    bytes.extend(part);
}

/// What a program prints for these cases.
pub fn output(cases: &[Case]) -> String {
    let mut text = String::new();
    for case in cases {
        print_case(&mut text, case);
    }
    text
}

fn print_case(text: &mut String, case: &Case) {
    let Outcome { answers, log } = case.outcome();
    for (request, answer) in case.requests.iter().zip(answers) {
        let name = match request {
            Request::Update { .. } => "update",
            Request::Commit { .. } => "commit",
            Request::Decision { .. } => "decision",
            Request::Checkpoint { .. } => "checkpoint",
        };
        let shown = answer.shown(|tail| format!("done {tail}"));
        let _ = writeln!(text, "{name} {shown}");
    }
    text.push_str("log");
    for word in log.chunks_exact(4) {
        let word = u32::from_be_bytes([word[0], word[1], word[2], word[3]]);
        let _ = write!(text, " {word}");
    }
    text.push('\n');
}
