//! The stored vectors of playing: each named case gets the answers and leaves the table that it was made for, all are as
//! a plain player says, and the stored bytes are as the format says.

use std::collections::BTreeMap;

use reference::directory::{eight, the_eight, Directory};
use reference::log::check;
use reference::playing::{histories, input, named, output, playing, record, Case, Request, Said};
use reference::random::{directory, History, Mix, Random};
use reference::replica::{play, Record};
use reference::run::Run;
use reference::sample::run_of;
use reference::slot::{slot_at, Kind, Write, COMMIT, PUT};
use reference::table::{capacity, row, Row, CELL};
use reference::Answer::{Done, Refused};

#[test]
fn named_cases_answer_as_made_for() {
    for case in named() {
        let expected = case.expected.as_ref().expect("a named case has answers");
        let outcome = case.outcome();
        let lists = case.requests.iter().zip(&outcome.said).zip(&expected.said);
        for (place, ((request, said), expected)) in lists.enumerate() {
            assert_eq!(said, expected, "{}: {place} {request:?}", case.name);
        }
        assert_eq!(&outcome, expected, "{}", case.name);
    }
}

fn case(name: &str) -> Case {
    let found = named().into_iter().find(|case| case.name == name);
    found.unwrap_or_else(|| panic!("no case {name}"))
}

#[test]
fn printed_as_the_format_says() {
    let text = output(&[case("a commit with its decision above, outcome 1")]);
    let lines: Vec<&str> = text.lines().collect();
    assert_eq!(
        lines[..7],
        [
            "open done 16 0 0",
            "play refused 12 at - 16 2 0",
            "cell 5 1 never",
            "play done 16 3 1",
            "cell 5 1 value 9 3",
            "play done 16 5 2",
            "cell 5 2 value 8 5",
        ]
    );
    assert_eq!(lines[7..], ["table 5 1 9 1 0 3 5 2 8 1 0 5"]);
    assert!(text.ends_with("5\n"));
    let text = output(&[case("opening fresh")]);
    assert!(text.starts_with("open refused 10 at -\ncell 2 7 refused 10 at -\n"));
    let text = output(&[case("a bad entry")]);
    assert!(text.contains("play refused 2 at 2 2 0 0\n"));
    assert!(output(&[case("put and remove")]).contains("cell 2 7 removed 2\n"));
    // 23 bytes: 5 words, and 3 bytes that are left out.
    let text = output(&[case("bench log, a table of 23 bytes")]);
    assert_eq!(text.lines().last().unwrap().split(' ').count(), 6);
    let text = output(&[case("no slots")]);
    assert_eq!(text.lines().last(), Some("table"));
}

#[test]
fn instalments_leave_what_one_play_leaves() {
    let (parts, whole) = (case("instalments"), case("instalments: one play"));
    assert_eq!((&parts.log, &parts.table), (&whole.log, &whole.table));
    let (parts, whole) = (parts.outcome(), whole.outcome());
    assert_eq!(parts.table, whole.table);
    assert_eq!(parts.said.last(), whole.said.last());
}

/// Takes numbers and bytes off stdin.
struct Taker<'a>(&'a [u8]);

impl<'a> Taker<'a> {
    fn bytes(&mut self, length: usize) -> &'a [u8] {
        let (taken, rest) = self.0.split_at(length);
        self.0 = rest;
        taken
    }

    fn number(&mut self, length: usize) -> u64 {
        let bytes = self.bytes(length).iter();
        bytes.fold(0, |number, byte| number << 8 | u64::from(*byte))
    }

    fn counted(&mut self) -> Vec<u8> {
        let length = self.number(4) as usize;
        self.bytes(length).to_vec()
    }

    fn request(&mut self) -> Request {
        match self.number(4) {
            1 => Request::Open {
                hosted: self.number(4),
            },
            2 => Request::Play {
                tail: self.number(4) as u32,
                stop: self.number(8),
            },
            3 => Request::Cell {
                object: self.number(4) as u32,
                key: self.number(4) as u32,
            },
            kind => panic!("kind {kind}"),
        }
    }
}

#[test]
fn stdin_reads_back_within_its_bounds() {
    let cases = playing();
    let (bytes, text) = (input(&cases), output(&cases));
    // With those of auditing in one file, below 524,288.
    assert!(bytes.len() < 288_000 && text.len() < 1_000_000);
    let mut taker = Taker(&bytes);
    for case in &cases {
        assert_eq!(taker.counted(), case.log);
        assert_eq!(taker.counted(), case.table);
        assert!(case.log.len() <= 4096 && case.table.len() <= 2400);
        let hosted = taker.number(4);
        let given = record(hosted, taker.number(8), taker.number(8));
        assert_eq!(given, case.record);
        let requests: Vec<Request> = (0..taker.number(4)).map(|_| taker.request()).collect();
        assert_eq!(requests, case.requests);
    }
    assert!(taker.0.is_empty());
    assert!(cases.iter().any(|case| case.log.len() == 4096));
    assert!(cases.iter().any(|case| case.table.len() == 2400));
}

/// A plain player: searches the rows for each cell, and works on a copy of them for each entry.
fn plainly(
    (directory, log): (&Directory, &[u8]),
    tail: usize,
    given: Record,
    table: &mut [u8],
    stop: u64,
) -> (u32, Record) {
    let mut left = given;
    if let Refused { number, .. } = check(&directory.bytes(), log, tail) {
        return (number, left);
    }
    let room = capacity(table);
    let past = (directory.objects().len()..64).any(|place| given.hosted >> place & 1 == 1);
    if given.hosted == 0 || past || given.count > room as u64 || given.position > tail as u64 {
        return (10, left);
    }
    let mut rows: Vec<Row> = (0..given.count as usize).map(|at| row(table, at)).collect();
    if rows.windows(2).any(|pair| cell(&pair[0]) >= cell(&pair[1])) {
        return (10, left);
    }
    if stop < given.position || stop > tail as u64 {
        return (3, left);
    }
    let mut number = 0;
    for at in given.position as usize..stop as usize {
        let Some(writes) = due((directory, log), tail, given.hosted, at, &rows) else {
            number = 12;
            break;
        };
        let mut after = rows.clone();
        for write in writes
            .iter()
            .filter(|write| directory.has(given.hosted, write.object))
        {
            let value = (write.operation == PUT).then_some(write.value);
            let made = Row::of(write.object, write.key, value, at as u64 + 1);
            match place(&after, write.object, write.key) {
                Some(place) => after[place] = made,
                None => after.push(made),
            }
        }
        after.sort_by_key(cell);
        if after.len() > room && after.len() > rows.len() {
            number = 13;
            break;
        }
        rows = after;
        left.position += 1;
    }
    for (at, row) in rows.iter().enumerate() {
        table[at * CELL..at * CELL + CELL].copy_from_slice(&row.bytes());
    }
    left.count = rows.len() as u64;
    (number, left)
}

fn cell(row: &Row) -> (u32, u32) {
    (row.object, row.key)
}

fn place(rows: &[Row], object: u32, key: u32) -> Option<usize> {
    rows.iter()
        .position(|row| (row.object, row.key) == (object, key))
}

/// The writes that are due at an entry; none where it waits.
fn due(
    (directory, log): (&Directory, &[u8]),
    tail: usize,
    hosted: u64,
    at: usize,
    rows: &[Row],
) -> Option<Vec<Write>> {
    let slot = slot_at(log, at);
    let number = slot.number();
    if slot.kind() == Some(Kind::Update) && number == 0 {
        return Some(slot.writes().collect());
    }
    if slot.kind() != Some(Kind::Commit) || !slot.headers().any(|h| directory.has(hosted, h.object))
    {
        return Some(Vec::new());
    }
    let names: Vec<u32> = slot.names().numbers().collect();
    let everything = directory
        .objects()
        .iter()
        .all(|object| directory.has(hosted, object.id));
    let alone = slot.reads().all(|read| directory.has(hosted, read.object))
        && (names.is_empty() || everything);
    let commits = if alone {
        let run = match names.is_empty() {
            true => Run::new(),
            false => run_of(log, at),
        };
        let current = slot.reads().all(|read| {
            let version = place(rows, read.object, read.key).map_or(0, |at| rows[at].version);
            version == read.version
        });
        current && names.iter().all(|named| run.has_committed(*named))
    } else {
        let decided = (0..tail)
            .map(|at| slot_at(log, at))
            .filter(|slot| slot.kind() == Some(Kind::Decision))
            .find(|slot| slot.verdict().commit == at as u64)?;
        decided.verdict().outcome == COMMIT
    };
    let updates = (0..at)
        .map(|at| slot_at(log, at))
        .filter(|slot| slot.kind() == Some(Kind::Update) && slot.number() == number);
    Some(if commits {
        updates.flat_map(|slot| slot.writes()).collect()
    } else {
        Vec::new()
    })
}

#[test]
fn all_cases_are_as_a_plain_player_says() {
    for case in playing() {
        let outcome = case.outcome();
        let (mut table, mut at) = (case.table.clone(), case.record);
        for (request, said) in case.requests.iter().zip(&outcome.said) {
            match (*request, *said) {
                (Request::Open { hosted }, Said::Opened(answer)) => {
                    assert_eq!(answer.is_done(), hosted != 0);
                    at = answer.done().unwrap_or(at);
                    assert!(!answer.is_done() || at == record(hosted, 0, 0));
                }
                (Request::Play { tail, stop }, Said::Played(answer, left)) => {
                    let (number, plain) = plainly(
                        (the_eight(), &case.log),
                        tail as usize,
                        at,
                        &mut table,
                        stop,
                    );
                    assert_eq!((answer.number(), left), (number, plain), "{}", case.name);
                    at = left;
                }
                (Request::Cell { object, key }, Said::Read(answer)) => {
                    if let Done(cell) = answer {
                        let mut rows = (0..at.count as usize).map(|at| row(&table, at));
                        let found = rows.find(|row| (row.object, row.key) == (object, key));
                        assert_eq!(cell.version(), found.map_or(0, |row| row.version));
                    }
                }
                _ => panic!("{request:?} is answered {said:?}"),
            }
        }
        assert_eq!(outcome.table, table, "{}", case.name);
    }
}

/// Plays in instalments over directories of all kinds, of any hosted set, a bit past the last record among them.
#[test]
fn plays_over_any_directory_are_as_a_plain_player_says() {
    let mut numbers = [0; 16];
    for seed in 0..400 {
        let mut random = Random::new(seed ^ 0xD2);
        let directory = directory(&mut random);
        let mix = Mix::rough().over(&directory, &mut random, 6);
        let mix = mix.naming([0, 20, 60][seed as usize % 3]);
        let dir = directory.bytes();
        let mut history = History::over(directory.clone(), seed, 40, mix);
        for _ in 0..45 {
            history.step();
        }
        let (log, tail) = (&history.writer.log, history.writer.tail);
        for _ in 0..4 {
            let hosted = match random.below(8) {
                0 => random.number(),
                1..=3 => directory.everything(),
                _ => {
                    mix.objects & random.number()
                        | directory.everything() & random.number() & random.number()
                }
            };
            let mut at = record(hosted, 0, 0);
            let mut table = vec![0xAA; random.below(30 * CELL as u64) as usize];
            let mut plain = table.clone();
            for _ in 0..4 {
                let left = tail as u64 - at.position;
                let seen = match random.below(8) {
                    0 => random.below(tail as u64 + 1),
                    _ => at.position + random.below(left + 1),
                };
                let stop = match random.below(8) {
                    0 => random.below(tail as u64 + 2),
                    _ => seen,
                };
                let (answer, left) = play(&dir, log, seen as usize, at, &mut table, stop);
                let due = plainly((&directory, log), seen as usize, at, &mut plain, stop);
                assert_eq!((answer.number(), left), due, "seed {seed}");
                assert!(table == plain, "seed {seed}");
                numbers[answer.number() as usize] += 1;
                at = left;
            }
        }
    }
    for number in [0, 3, 10, 12, 13] {
        assert!(numbers[number] > 40, "{numbers:?}");
    }
}

/// The random histories meet enough of everything.
#[test]
fn the_histories_are_rich() {
    let cases = histories::cases();
    assert_eq!(cases.len(), 40);
    let mut numbers = BTreeMap::new();
    let mut kinds = BTreeMap::new();
    for case in &cases {
        for said in case.outcome().said {
            if let Said::Played(answer, _) = said {
                *numbers.entry(answer.number()).or_insert(0) += 1;
            }
        }
        let entries = (0..case.log.len() / 256).filter_map(|at| slot_at(&case.log, at).kind());
        let entries: Vec<Kind> = entries.collect();
        assert!((8..=16).contains(&entries.len()));
        assert_eq!(check(eight(), &case.log, entries.len()), Done(()));
        for kind in entries {
            *kinds.entry(kind as u32).or_insert(0) += 1;
        }
    }
    assert!(numbers[&0] > 100 && numbers[&12] > 10 && numbers[&13] > 20);
    assert!((1..=4).all(|kind| kinds[&kind] > 30), "{kinds:?}");
}
