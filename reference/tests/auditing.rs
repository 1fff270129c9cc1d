//! The stored vectors of auditing: each named case gets the answers and leaves the table that it was made for, a plain
//! auditor finds what the audits find, and the stored bytes are as the format says.

use std::collections::BTreeMap;

use reference::audit::audit;
use reference::auditing::{auditing, histories, named};
use reference::directory::eight;
use reference::log::check;
use reference::playing::{input, output, record, Case, Request, Said};
use reference::random::{damage, directory, History, Mix, Random};
use reference::replica::{open_fresh, play};
use reference::sample::run_of;
use reference::slot::{slot_at, Kind, COMMIT};
use reference::table::{row, CELL};
use reference::Answer::{self, Done, Refused};

#[test]
fn named_cases_answer_as_made_for() {
    for case in named() {
        let expected = case.expected.as_ref().expect("a named case has answers");
        let outcome = case.outcome();
        let lists = case.requests.iter().zip(&outcome.said).zip(&expected.said);
        for (place, ((request, said), expected)) in lists.enumerate() {
            assert_eq!(said, expected, "{}: {place} {request:?}", case.name);
        }
        assert_eq!(&outcome, expected, "{}", case.name);
    }
}

fn case(name: &str) -> Case {
    let found = named().into_iter().find(|case| case.name == name);
    found.unwrap_or_else(|| panic!("no case {name}"))
}

#[test]
fn printed_as_the_format_says() {
    let text = output(&[case("openings one after another")]);
    let lines: Vec<&str> = text.lines().collect();
    assert_eq!(lines[3], "restore refused 3 at -");
    assert_eq!(lines[5], "restore done 2 4 2");
    let text = output(&[case("13 before 11, a table of 48 bytes")]);
    assert!(text.starts_with("audit refused 11 at 5 255 7 2\naudit refused 13 at 7 255 7 2\n"));
    let text = output(&[case("a bad entry above the checkpoint")]);
    assert!(text.starts_with("restore refused 2 at 4\naudit refused 2 at 4 0 0 0\n"));
    assert!(output(&[case("bench log, audited")]).starts_with("audit done 255 5 1\n"));
}

/// Takes numbers and bytes off stdin.
struct Taker<'a>(&'a [u8]);

impl<'a> Taker<'a> {
    fn bytes(&mut self, length: usize) -> &'a [u8] {
        let (taken, rest) = self.0.split_at(length);
        self.0 = rest;
        taken
    }

    fn number(&mut self, length: usize) -> u64 {
        let bytes = self.bytes(length).iter();
        bytes.fold(0, |number, byte| number << 8 | u64::from(*byte))
    }

    fn word(&mut self) -> u32 {
        self.number(4) as u32
    }

    fn counted(&mut self) -> Vec<u8> {
        let length = self.number(4) as usize;
        self.bytes(length).to_vec()
    }

    fn request(&mut self) -> Request {
        match self.number(4) {
            1 => Request::Open {
                hosted: self.number(4),
            },
            2 => Request::Play {
                tail: self.word(),
                stop: self.number(8),
            },
            3 => Request::Cell {
                object: self.word(),
                key: self.word(),
            },
            4 => Request::OpenAt {
                tail: self.word(),
                offset: self.number(8),
            },
            5 => Request::Audit { tail: self.word() },
            kind => panic!("kind {kind}"),
        }
    }
}

#[test]
fn stdin_reads_back_within_its_bounds() {
    let cases = auditing();
    let (bytes, text) = (input(&cases), output(&cases));
    assert!(bytes.len() < 250_000 && text.len() < 1_000_000);
    let mut taker = Taker(&bytes);
    for case in &cases {
        assert_eq!(taker.counted(), case.log);
        assert_eq!(taker.counted(), case.table);
        assert!(case.log.len() <= 4096 && case.table.len() <= 2400);
        let hosted = taker.number(4);
        let given = record(hosted, taker.number(8), taker.number(8));
        assert_eq!(given, case.record);
        let requests: Vec<Request> = (0..taker.number(4)).map(|_| taker.request()).collect();
        assert_eq!(requests, case.requests);
    }
    assert!(taker.0.is_empty());
}

/// A plain auditor: plays everything anew up to each entry that it judges.
fn plainly(dir: &[u8], log: &[u8], tail: usize, table: &[u8]) -> (u32, Option<u64>) {
    if let Refused { number, told } = check(dir, log, tail) {
        return (number, told);
    }
    let all = u64::MAX >> (64 - dir.len() / 16);
    let fresh = open_fresh(dir, all).done().unwrap();
    let to = |stop: u64| {
        let mut scratch = table.to_vec();
        let (answer, left) = play(dir, log, tail, fresh, &mut scratch, stop);
        (answer, left, scratch)
    };
    let (answer, left, _) = to(tail as u64);
    if !answer.is_done() {
        return (answer.number(), Some(left.position));
    }
    for at in 0..tail {
        let slot = slot_at(log, at);
        let fair = match slot.kind() {
            Some(Kind::Decision) => {
                let verdict = slot.verdict();
                // It commits exactly where no read is stale, as a cell's version stands just below it.
                let (_, below, scratch) = to(verdict.commit);
                let version = |object: u32, key: u32| {
                    let mut rows = (0..below.count as usize).map(|at| row(&scratch, at));
                    let found = rows.find(|row| (row.object, row.key) == (object, key));
                    found.map_or(0, |row| row.version)
                };
                let commit = slot_at(log, verdict.commit as usize);
                let mut reads = commit.reads();
                let current = reads.all(|read| version(read.object, read.key) == read.version);
                // And each number that it names has committed below it.
                let run = run_of(log, verdict.commit as usize);
                let met = commit
                    .names()
                    .numbers()
                    .all(|named| run.has_committed(named));
                (verdict.outcome == COMMIT) == (current && met)
            }
            Some(Kind::Checkpoint) => {
                let object = slot.header(0).object;
                let (_, below, scratch) = to(at as u64);
                let mut cells: Vec<_> = (0..below.count as usize)
                    .map(|at| row(&scratch, at))
                    .filter(|row| row.object == object)
                    .map(|row| (row.key, row.held(), row.version))
                    .collect();
                cells.sort_unstable();
                let saved: Vec<_> = slot
                    .saved()
                    .map(|saved| {
                        let value = (!saved.removed()).then_some(saved.value);
                        (saved.key, value, saved.version())
                    })
                    .collect();
                cells == saved
            }
            _ => true,
        };
        if !fair {
            return (11, Some(at as u64));
        }
    }
    (0, None)
}

fn told(answer: Answer<()>) -> (u32, Option<u64>) {
    match answer {
        Done(()) => (0, None),
        Refused { number, told } => (number, told),
    }
}

#[test]
fn audits_find_what_a_plain_auditor_finds() {
    for case in auditing() {
        for (request, said) in case.requests.iter().zip(case.outcome().said) {
            if let (Request::Audit { tail }, Said::Audited(answer, _)) = (request, said) {
                let found = plainly(eight(), &case.log, *tail as usize, &case.table);
                assert_eq!(told(answer), found, "{} {tail}", case.name);
            }
        }
    }
}

/// The same over directories of all kinds; the record hosts all of them.
#[test]
fn audits_over_any_directory_find_what_a_plain_auditor_finds() {
    let mut found = [0; 16];
    for seed in 0..500 {
        let mut random = Random::new(seed ^ 0xD1);
        let directory = directory(&mut random);
        let mix = Mix::rough().over(&directory, &mut random, 8);
        let mix = match seed % 3 {
            0 => Mix { broken: 0, ..mix },
            1 => mix.before(),
            _ => mix,
        };
        let mix = mix.naming([0, 50][seed as usize % 2]);
        let dir = directory.bytes();
        let mut history = History::over(directory, seed, 30, mix);
        for _ in 0..30 {
            history.step();
        }
        let mut log = history.writer.log;
        if random.percent(10) {
            damage(&mut random, &mut log, history.writer.tail);
        }
        for _ in 0..3 {
            let tail = random.below(history.writer.tail as u64 + 1) as usize;
            let table = vec![0xEE; random.below(40 * CELL as u64) as usize];
            let mut scratch = table.clone();
            let (answer, left) = audit(&dir, &log, tail, &mut scratch);
            assert_eq!(told(answer), plainly(&dir, &log, tail, &table));
            let number = answer.number();
            found[number as usize] += 1;
            let all = u64::MAX >> (64 - dir.len() / 16);
            assert_eq!(left.hosted, if number == 2 { 0 } else { all });
            // What it leaves is what a play of all leaves.
            if number != 2 {
                let mut played = table.clone();
                let fresh = open_fresh(&dir, all).done().unwrap();
                let (_, due) = play(&dir, &log, tail, fresh, &mut played, tail as u64);
                assert!(left == due && scratch == played, "seed {seed}");
            } else {
                assert_eq!(scratch, table);
            }
        }
    }
    assert!(
        found[0] > 100 && found[2] > 20 && found[11] > 100 && found[13] > 100,
        "{found:?}"
    );
}

/// The random histories meet enough of everything.
#[test]
fn the_histories_are_rich() {
    let mut audits = BTreeMap::new();
    let mut openings = BTreeMap::new();
    for case in histories::cases() {
        assert!(case.table.len() <= 16 * CELL);
        for said in case.outcome().said {
            match said {
                Said::Audited(answer, _) => *audits.entry(answer.number()).or_insert(0) += 1,
                Said::Restored(answer) => *openings.entry(answer.number()).or_insert(0) += 1,
                _ => {}
            }
        }
    }
    assert!(
        audits[&0] > 20 && audits[&11] > 15 && audits[&13] > 8,
        "{audits:?}"
    );
    assert!(openings[&0] > 25 && openings[&3] > 20, "{openings:?}");
}
