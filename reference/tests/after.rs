//! Commit records that name other numbers: the delivery log (16.7), what may be named (3.12), who decides alone (9.7), what has
//! committed (9.14, 9.15), what is owed (5.3), the audit (11.3) and the run (12.5).

use std::collections::BTreeMap;

use reference::append::{Request, Writer};
use reference::audit::{audit, audit_whole};
use reference::boundary;
use reference::directory::{bytes_of, eight, Directory};
use reference::log::{check, entry, owed};
use reference::objects::{objects, Object};
use reference::random::{directory, History, Mix, Random};
use reference::replica::{open_at, open_fresh, play, read_cell, Record};
use reference::report::playlog;
use reference::run::Run;
use reference::sample::*;
use reference::slot::{slot_at, Kind, Names, ABORT, COMMIT, SLOT};
use reference::table::{row, Cell, Row, CELL};
use reference::Answer::{self, Done};

fn refused<T>(number: u32) -> Answer<T> {
    Answer::Refused { number, told: None }
}

fn refused_at<T>(number: u32, told: u64) -> Answer<T> {
    Answer::Refused {
        number,
        told: Some(told),
    }
}

fn record(hosted: u64, position: u64, count: u64) -> Record {
    Record {
        hosted,
        position,
        count,
    }
}

/// A play of the eight from a record over an empty table with room for 60 cells: the number, the position, and the table.
fn played_from(log: &[u8], from: Record, stop: usize) -> (u32, Record, Vec<u8>) {
    let mut table = vec![0; 60 * CELL];
    let tail = log.len() / SLOT;
    let (answer, left) = play(eight(), log, tail, from, &mut table, stop as u64);
    (answer.number(), left, table)
}

/// The number and the position of a fresh replica's play to the tail, and what it shows of a cell.
fn shown(log: &[u8], hosted: u64, object: u32, key: u32) -> (u32, u64, Answer<Cell>) {
    let (number, left, table) = played_from(log, record(hosted, 0, 0), log.len() / SLOT);
    let cell = read_cell(eight(), &left, &table, object, key);
    (number, left.position, cell)
}

fn holds(value: u32, version: u64) -> Answer<Cell> {
    Done(Cell::Holds { value, version })
}

const NEVER: Answer<Cell> = Done(Cell::NeverWritten);

/// The outcomes of a log's commit records, by number, as the audit plays it and as the run has them.
fn outcomes(requests: &[Request]) -> BTreeMap<u32, bool> {
    let log = log_of(requests);
    let tail = requests.len();
    let audited = audit_whole(eight(), &log, tail, &mut vec![0; 100 * CELL]);
    let mut run = Run::new();
    let mut found = BTreeMap::new();
    for (at, request) in requests.iter().enumerate() {
        run.feed(request, false);
        if let Request::Commit { number, .. } = request {
            assert_eq!(run.outcome(at as u64 + 1), Some(audited.committed[at]));
            assert_eq!(run.has_committed(*number), audited.committed[at]);
            found.insert(*number, audited.committed[at]);
        }
    }
    found
}

fn with(mut requests: Vec<Request>, more: &[Request]) -> Vec<Request> {
    requests.extend_from_slice(more);
    requests
}

#[test]
fn the_delivery_log() {
    let log = log_of(&delivery());
    let slot = &log[3 * SLOT..];
    assert_eq!(slot[..8], [0x43, 0x4F, 1, 0, 0, 0, 0, 10]);
    assert_eq!(slot[8..20], [0, 0, 0, 4, 0, 1, 0, 0, 0, 0, 0, 0]);
    assert_eq!(slot[20..248], [0; 228]);
    assert_eq!(slot[248..], [0, 0, 0, 9, 0, 0, 0, 0]);
    assert_eq!(check(eight(), &log, 4), Done(()));
    let told = entry(eight(), &log, 4, 3).done().unwrap();
    assert_eq!((told.kind, told.number), (Kind::Commit, 10));
    assert_eq!((told.headers, told.items), (1, 0));
    assert_eq!(told.names, Names::of(9, 0));
    let said = boundary::entry(eight(), &log, 4, 3);
    assert_eq!((said.number, said.out), (0, [2, 10, 1, 0, 0, 9, 0, 0]));
    let said = boundary::entry(eight(), &log, 4, 2);
    assert_eq!((said.number, said.out), (0, [1, 10, 1, 0, 1, 0, 0, 0]));
    let said = boundary::entry(eight(), &log, 4, 4);
    assert_eq!((said.number, said.out), (3, [0; 8]));
    assert_eq!(
        playlog(&log),
        "offset number outcome\n1 9 commit\n3 10 commit\nobject key value version\n4 2 1 4\n5 1 6 2\n"
    );
}

#[test]
fn who_decides_alone() {
    let log = log_of(&delivery());
    assert_eq!(shown(&log, 255, 4, 2), (0, 4, holds(1, 4)));
    for hosted in [24, 8, 254, 127] {
        assert_eq!(shown(&log, hosted, 4, 2), (12, 3, NEVER), "{hosted}");
    }
    for hosted in [16, 2, 247] {
        assert_eq!(shown(&log, hosted, 4, 2).0, 0, "{hosted}");
    }
    assert_eq!(shown(&log, 16, 5, 1), (0, 4, holds(6, 2)));
    let decided = log_of(&with(delivery(), &[decision(3, COMMIT)]));
    for hosted in [24, 8, 254, 255] {
        assert_eq!(shown(&decided, hosted, 4, 2), (0, 5, holds(1, 4)));
    }
    let undone = log_of(&with(delivery(), &[decision(3, ABORT)]));
    assert_eq!(shown(&undone, 24, 4, 2), (0, 5, NEVER));
    // A replica of everything decides by itself, also where a decision record is.
    assert_eq!(shown(&undone, 255, 4, 2), (0, 5, holds(1, 4)));
    let audited = audit(eight(), &undone, 5, &mut [0; 2 * CELL]);
    assert_eq!(audited, (refused_at(11, 4), record(255, 5, 2)));
    let audited = audit(eight(), &decided, 5, &mut [0; 2 * CELL]);
    assert_eq!(audited, (Done(()), record(255, 5, 2)));
}

#[test]
fn instalments_and_records_of_any_making() {
    let log = log_of(&delivery());
    let (_, first, mut table) = played_from(&log, record(255, 0, 0), 3);
    assert_eq!(first, record(255, 3, 1));
    let (answer, second) = play(eight(), &log, 4, first, &mut table, 4);
    assert_eq!((answer, second), (Done(()), record(255, 4, 2)));
    assert_eq!(row(&table, 0), Row::of(4, 2, Some(1), 4));
    let (number, left, table) = played_from(&log, record(255, 3, 0), 4);
    assert_eq!((number, left), (0, record(255, 4, 1)));
    assert_eq!(row(&table, 0), Row::of(4, 2, Some(1), 4));
    // Rows of its own, in order, and a position past the order: the reads go by them, the names by the log.
    let odd = [Row::of(4, 2, Some(77), 1 << 63), Row::of(5, 1, None, 3)];
    let mut table = table_of(&odd);
    let (answer, left) = play(eight(), &log, 4, record(255, 3, 2), &mut table, 4);
    assert_eq!((answer, left), (Done(()), record(255, 4, 2)));
    assert_eq!(row(&table, 0), Row::of(4, 2, Some(1), 4));
    // The order has no room in its table, and has committed all the same.
    let (answer, left) = play(eight(), &log, 4, record(255, 3, 0), &mut table[..24], 4);
    assert_eq!((answer, left), (Done(()), record(255, 4, 1)));
}

/// A replica whose own cells are not as the log has them: the named number goes by the log played whole, the read by the table.
#[test]
fn named_by_the_log_and_read_by_the_table() {
    let requests = [
        update(0, &[put(2, 7, 1)]),
        update(9, &[put(5, 1, 6)]),
        commit(9, &[read(2, 7, 1)]),
        update(10, &[put(4, 2, 1)]),
        commit_after(10, &[read(2, 7, 1)], 9, 0),
    ];
    let log = log_of(&requests);
    // At position 1 without the cell (2, 7): by its own cells number 9 aborts, by the log it commits.
    let (number, left, table) = played_from(&log, record(255, 1, 0), 5);
    assert_eq!((number, left), (0, record(255, 5, 0)));
    assert_eq!(read_cell(eight(), &left, &table, 4, 2), NEVER);
    let log = log_of(&with(
        requests[..4].to_vec(),
        &[commit_after(10, &[], 9, 0)],
    ));
    let (number, left, table) = played_from(&log, record(255, 1, 0), 5);
    assert_eq!((number, left), (0, record(255, 5, 1)));
    assert_eq!(read_cell(eight(), &left, &table, 4, 2), holds(1, 5));
    assert_eq!(read_cell(eight(), &left, &table, 5, 1), NEVER);
    // The other way about: the table makes number 9 commit, the log has it abort.
    let requests = [
        update(0, &[put(2, 7, 1)]),
        update(9, &[put(5, 1, 6)]),
        commit(9, &[read(2, 7, 0)]),
        update(10, &[put(4, 2, 1)]),
        commit_after(10, &[], 9, 0),
    ];
    let log = log_of(&requests);
    let (number, left, table) = played_from(&log, record(255, 1, 0), 5);
    assert_eq!((number, left), (0, record(255, 5, 1)));
    assert_eq!(read_cell(eight(), &left, &table, 5, 1), holds(6, 3));
    assert_eq!(read_cell(eight(), &left, &table, 4, 2), NEVER);
}

/// A false decision record below plays no part in what has committed.
#[test]
fn decisions_play_no_part() {
    let requests = [
        update(9, &[put(5, 1, 6)]),
        commit(9, &[]),
        decision(1, ABORT),
        update(10, &[put(4, 2, 1)]),
        commit_after(10, &[], 9, 0),
    ];
    let log = log_of(&requests);
    assert_eq!(shown(&log, 255, 4, 2), (0, 5, holds(1, 5)));
    assert_eq!(played_from(&log, record(255, 3, 0), 5).1.count, 1);
    let audited = audit(eight(), &log, 5, &mut [0; 2 * CELL]);
    assert_eq!(audited.0, refused_at(11, 2));
}

/// Where the named number has not committed below, nothing is refused, and the transaction aborts.
#[test]
fn what_has_not_committed() {
    let pair = vec![update(9, &[put(5, 1, 6)]), update(10, &[put(4, 2, 1)])];
    let ten_after_nine = commit_after(10, &[], 9, 0);
    // committed above
    let later = with(pair.clone(), &[ten_after_nine.clone(), commit(9, &[])]);
    assert_eq!(outcomes(&later), [(9, true), (10, false)].into());
    assert_eq!(shown(&log_of(&later), 255, 4, 2), (0, 4, NEVER));
    // one that names what aborted
    let eleven = [update(11, &[put(4, 3, 2)]), commit_after(11, &[], 10, 0)];
    let chain = outcomes(&with(later, &eleven));
    assert_eq!(chain, [(9, true), (10, false), (11, false)].into());
    // still open
    let open = with(pair.clone(), std::slice::from_ref(&ten_after_nine));
    assert_eq!(outcomes(&open), [(10, false)].into());
    // never used
    let unknown = with(pair.clone(), &[commit_after(10, &[], 77, 0)]);
    assert_eq!(outcomes(&unknown), [(10, false)].into());
    // aborted by a stale read
    let mut stale = vec![update(0, &[put(2, 7, 1)])];
    stale.extend(pair.clone());
    stale.extend([commit(9, &[read(2, 7, 0)]), ten_after_nine.clone()]);
    assert_eq!(outcomes(&stale), [(9, false), (10, false)].into());
    // by an astray one, put there by hand
    let astray = [
        update(9, &[put(5, 1, 6)]),
        commit(9, &[read(5, 1, 1)]),
        update(10, &[put(4, 2, 1)]),
        ten_after_nine.clone(),
    ];
    assert_eq!(outcomes(&astray), [(9, false), (10, false)].into());
    // a named number that has committed does not save a stale read
    let mut stale = vec![update(0, &[put(2, 7, 1)])];
    stale.extend(pair.clone());
    stale.extend([commit(9, &[]), commit_after(10, &[read(2, 7, 0)], 9, 0)]);
    assert_eq!(outcomes(&stale), [(9, true), (10, false)].into());
    // an abort needs no room, a commit does
    let log = log_of(&with(pair.clone(), &[ten_after_nine]));
    let (answer, left) = play(eight(), &log, 3, record(255, 0, 0), &mut [], 3);
    assert_eq!((answer, left), (Done(()), record(255, 3, 0)));
    let log = log_of(&delivery());
    let (answer, left) = play(eight(), &log, 4, record(255, 0, 0), &mut [0; 24], 4);
    assert_eq!((answer, left), (refused(13), record(255, 3, 1)));
}

/// Of two named numbers both must have committed.
#[test]
fn two_names() {
    for (first, second) in [(true, true), (true, false), (false, true), (false, false)] {
        let mut requests = vec![
            update(0, &[put(2, 7, 1)]),
            update(8, &[put(5, 1, 6)]),
            update(9, &[put(5, 2, 6)]),
            update(10, &[put(4, 2, 1)]),
        ];
        let reads = |commits: bool| read(2, 7, u64::from(commits));
        requests.push(commit(8, &[reads(first)]));
        requests.push(commit(9, &[reads(second)]));
        requests.push(commit_after(10, &[], 8, 9));
        let due = [(8, first), (9, second), (10, first && second)];
        assert_eq!(outcomes(&requests), due.into());
        // A name in the way of no read: the largest and the smallest number.
        requests[6] = commit_after(10, &[], 1, u32::MAX);
        assert!(!outcomes(&requests)[&10]);
    }
}

/// Fifty transactions, each after the one before: all commit where the first does, and none where it does not.
#[test]
fn a_chain() {
    for commits in [true, false] {
        let mut requests = vec![
            update(0, &[put(2, 0, 1)]),
            update(100, &[put(3, 0, 1)]),
            commit(100, &[read(2, 0, u64::from(commits))]),
        ];
        for number in 101..150 {
            requests.push(update(number, &[put(4, number, number)]));
            requests.push(commit_after(number, &[], number - 1, 0));
        }
        let found = outcomes(&requests);
        assert_eq!(found.len(), 50);
        assert!(found.values().all(|outcome| *outcome == commits));
        let log = log_of(&requests);
        let last = requests.len() as u64 - 1;
        let (number, left, _) = played_from(&log, record(255, last, 0), requests.len());
        assert_eq!((number, left.count), (0, u64::from(commits)));
    }
}

#[test]
fn what_may_be_named() {
    let base = delivery()[..3].to_vec();
    let (writer, _) = grown(4, &base);
    for (first, second) in [
        (0, 0),
        (9, 0),
        (9, 11),
        (11, 12),
        (u32::MAX, 0),
        (1, u32::MAX),
    ] {
        let mut writer = writer.clone();
        let request = commit_after(10, &[], first, second);
        assert_eq!(writer.append(&request), Done(4));
        assert_eq!(check(eight(), &writer.log, 4), Done(()));
        let told = entry(eight(), &writer.log, 4, 3).done().unwrap();
        assert_eq!(told.names, Names::of(first, second));
    }
    for (first, second) in [
        (0, 9),
        (9, 9),
        (11, 9),
        (10, 0),
        (9, 10),
        (10, 11),
        (0, 10),
        (10, 10),
        (11, 10),
        (0, u32::MAX),
        (u32::MAX, 1),
        (u32::MAX, u32::MAX),
    ] {
        let mut asked = writer.clone();
        let request = commit_after(10, &[], first, second);
        assert_eq!(asked.append(&request), refused(3), "{first} {second}");
        assert_eq!(asked.log, writer.log);
        let mut log = log_of(&delivery());
        log[3 * SLOT + 248..3 * SLOT + 252].copy_from_slice(&first.to_be_bytes());
        log[3 * SLOT + 252..].copy_from_slice(&second.to_be_bytes());
        assert_eq!(check(eight(), &log, 4), refused_at(2, 3));
        assert_eq!(check(eight(), &log, 3), Done(()));
    }
}

/// 3 for names comes before 4, 6, 16 and 9, and after 15, 1 and 2.
#[test]
fn the_order_of_refusals() {
    let log = log_of(&delivery());
    let ask = |log: &[u8], tail: usize, number: u32, reads: &[u8], names: Names| {
        let mut asked = log.to_vec();
        let request = Request::Commit {
            number,
            reads: reads.to_vec(),
            names,
        };
        let said = boundary::append(eight(), &mut asked, tail, &request);
        assert!(said.number == 0 || asked == log);
        said.number
    };
    let bad = Names::of(0, 5);
    let astray = read(4, 2, 3).bytes();
    assert_eq!(ask(&log, 4, 9, &[], bad), 3);
    assert_eq!(ask(&log, 4, 9, &[], Names::of(5, 0)), 4);
    assert_eq!(ask(&log, 4, 77, &[], bad), 3);
    assert_eq!(ask(&log, 4, 77, &[], Names::of(5, 0)), 6);
    assert_eq!(ask(&log, 3, 10, &astray, bad), 3);
    assert_eq!(ask(&log, 3, 10, &astray, Names::of(5, 0)), 16);
    assert_eq!(ask(&log[..3 * SLOT], 3, 10, &[], bad), 3);
    assert_eq!(ask(&log[..3 * SLOT], 3, 10, &[], Names::of(5, 0)), 9);
    assert_eq!(ask(&log, 5, 10, &[], bad), 1);
    let mut damaged = log.clone();
    damaged[SLOT + 255] = 9;
    assert_eq!(ask(&damaged, 3, 10, &[], bad), 2);
}

/// Bytes 248 to 255 of any entry but a commit record are zero.
#[test]
fn only_commit_records_name() {
    let rows = [Row::of(4, 2, Some(1), 4)];
    let more = [
        update(0, &[put(4, 3, 1)]),
        decision(3, COMMIT),
        checkpoint_of(4, 6, &rows),
    ];
    let log = log_of(&with(delivery(), &more));
    let tail = log.len() / SLOT;
    assert_eq!(check(eight(), &log, tail), Done(()));
    for at in [0, 2, 4, 5, 6] {
        for byte in 248..256 {
            let mut changed = log.clone();
            changed[at * SLOT + byte] = 9;
            let answer = check(eight(), &changed, tail);
            assert_eq!(answer, refused_at(2, at as u64), "{at} {byte}");
        }
    }
    // Of a commit record: a lone second number, one that is below the first, and others.
    for (byte, good) in [(248, true), (251, true), (252, false), (255, false)] {
        let mut changed = log.clone();
        changed[SLOT + byte] = 3;
        let answer = check(eight(), &changed, tail);
        assert_eq!(answer.is_done(), good, "{byte}");
    }
    let mut changed = log.clone();
    changed[3 * SLOT + 252] = 1;
    assert_eq!(check(eight(), &changed, tail), Done(()));
}

#[test]
fn owed_by_records_that_name() {
    let log = log_of(&delivery());
    for (sets, due) in [
        (&[24][..], Some(3)),
        (&[8], Some(3)),
        (&[254], Some(3)),
        (&[255], None),
        (&[16], None),
        (&[], None),
        (&[255, 16], None),
        (&[255, 9], Some(3)),
    ] {
        assert_eq!(owed(eight(), &log, 4, sets), Done(due), "{sets:?}");
        let decided = log_of(&with(delivery(), &[decision(3, ABORT)]));
        assert_eq!(owed(eight(), &decided, 5, sets), Done(None));
        assert_eq!(owed(eight(), &decided, 4, sets), Done(due));
    }
}

fn one_object() -> Directory {
    let four: Vec<Object> = objects()
        .iter()
        .filter(|object| object.id == 4)
        .copied()
        .collect();
    Directory::of(&bytes_of(&four)).unwrap()
}

/// With one object a replica opened at its checkpoint hosts everything, and decides alone what names a number.
#[test]
fn a_directory_of_one_object() {
    let directory = one_object();
    let dir = directory.bytes();
    let mut writer = Writer::over(directory, 5);
    let rows = [Row::of(4, 1, Some(6), 2)];
    for (request, after) in [
        (update(9, &[put(4, 1, 6)]), 1),
        (commit(9, &[]), 2),
        (
            Request::Checkpoint {
                record: record(1, 2, 1),
                table: table_of(&rows),
                object: 4,
            },
            3,
        ),
        (update(10, &[put(4, 2, 1)]), 4),
        (commit_after(10, &[], 9, 0), 5),
    ] {
        assert_eq!(writer.append(&request), Done(after));
    }
    let mut table = [0; 2 * CELL];
    let opened = open_at(&dir, &writer.log, 5, 2, &mut table).done().unwrap();
    assert_eq!(opened, record(1, 3, 1));
    let (answer, left) = play(&dir, &writer.log, 5, opened, &mut table, 5);
    assert_eq!((answer, left), (Done(()), record(1, 5, 2)));
    assert_eq!(row(&table, 1), Row::of(4, 2, Some(1), 5));
    assert_eq!(owed(&dir, &writer.log, 5, &[1]), Done(None));
}

/// A replica opened at a checkpoint of the eight takes the decision, or waits.
#[test]
fn opened_at_a_checkpoint() {
    let mut requests = vec![update(0, &[put(4, 1, 5)])];
    requests.push(checkpoint_of(4, 1, &[Row::of(4, 1, Some(5), 1)]));
    requests.extend(delivery());
    requests.push(decision(5, COMMIT));
    let log = log_of(&requests);
    let mut table = [0; 2 * CELL];
    let opened = open_at(eight(), &log, 6, 1, &mut table).done().unwrap();
    let (answer, left) = play(eight(), &log, 6, opened, &mut table, 6);
    assert_eq!((answer, left), (refused(12), record(8, 5, 1)));
    let (answer, left) = play(eight(), &log, 7, left, &mut table, 7);
    assert_eq!((answer, left), (Done(()), record(8, 7, 2)));
}

/// The run asks of each named number whether it has committed.
#[test]
fn the_run() {
    let mut run = Run::new();
    run.feed(&update(9, &[put(5, 1, 6)]), false);
    run.feed(&update(10, &[put(4, 2, 1)]), false);
    run.feed(&update(11, &[put(4, 3, 1)]), false);
    run.feed(&commit(9, &[]), true);
    assert!(!run.has_committed(9));
    run.feed(&commit_after(10, &[], 9, 0), false);
    assert_eq!((run.count, run.outcome(4)), (4, Some(false)));
    assert_eq!(run.cell(4, 2), Cell::NeverWritten);
    run.feed(&commit(9, &[]), false);
    assert!(run.has_committed(9) && !run.has_committed(10));
    run.feed(&commit_after(11, &[], 9, 0), false);
    assert_eq!(run.outcome(6), Some(true));
    assert_eq!(run.cell(4, 3).version(), 6);
    run.feed(&update(12, &[put(4, 4, 1)]), false);
    run.feed(&commit_after(12, &[], 10, 11), false);
    assert_eq!(run.outcome(8), Some(false));
}

/// A log of any kind, true or not: played whole it has the run's cells and the run's committed numbers at every offset (17.23).
#[test]
fn the_log_played_whole_is_the_run() {
    let (mut met, mut unmet) = (0, 0);
    for seed in 0..400 {
        let mut random = Random::new(seed ^ 0x08);
        let directory = directory(&mut random);
        let mix = match seed % 3 {
            0 => Mix::rough().before(),
            1 => Mix::rough(),
            _ => Mix::true_records(),
        };
        let mix = mix.over(&directory, &mut random, 6).naming(60);
        let mut history = History::over(directory.clone(), seed, 40, mix);
        for _ in 0..50 {
            history.step();
        }
        let (dir, log) = (directory.bytes(), &history.writer.log);
        let tail = random.below(history.writer.tail as u64 + 1) as usize;
        let mut scratch = vec![0; 120 * CELL];
        let audited = audit_whole(&dir, log, tail, &mut scratch);
        assert!([0, 11].contains(&audited.answer.number()), "seed {seed}");
        let run = run_of(log, tail);
        let rows = rows_of(&directory, &run, directory.everything());
        assert_eq!(audited.record.count, rows.len() as u64);
        assert_eq!(scratch[..rows.len() * CELL], table_of(&rows));
        for at in (0..tail).filter(|&at| slot_at(log, at).kind() == Some(Kind::Commit)) {
            let slot = slot_at(log, at);
            assert_eq!(run.outcome(at as u64 + 1), Some(audited.committed[at]));
            assert_eq!(run.has_committed(slot.number()), audited.committed[at]);
            if slot.names().any() {
                let below = run_of(log, at);
                let all = slot
                    .names()
                    .numbers()
                    .all(|named| below.has_committed(named));
                assert!(all || !audited.committed[at]);
                met += u32::from(all);
                unmet += u32::from(!all);
            }
        }
        // A replica of everything shows the same, however it is played.
        let mut at = open_fresh(&dir, directory.everything()).done().unwrap();
        let mut table = vec![0; 120 * CELL];
        while at.position < tail as u64 {
            let stop = at.position + 1 + random.below(tail as u64 - at.position);
            let (answer, left) = play(&dir, log, tail, at, &mut table, stop);
            assert!(answer.is_done(), "seed {seed}: {answer:?}");
            at = left;
        }
        assert_eq!(table[..rows.len() * CELL], table_of(&rows));
    }
    assert!(met > 150 && unmet > 150, "{met} {unmet}");
}

/// The same entries without their names: every slot is the same in its other bytes, and who waits, what is owed and what commits is what
/// the read sets alone say.
#[test]
fn without_names_as_before() {
    let (mut cleared, mut differing) = (0, 0);
    for seed in 0..200 {
        let mut random = Random::new(seed ^ 0x80);
        let mix = Mix::rough().naming(50);
        let history = History::made(seed, 40, 50, Mix { broken: 0, ..mix });
        let (log, tail) = (&history.writer.log, history.writer.tail);
        let mut plain = Writer::new(40);
        for at in 0..tail {
            let mut request = append_of(log, at);
            if slot_at(log, at).kind() == Some(Kind::Checkpoint) {
                // its bytes stay as they are
                let object = slot_at(log, at).header(0).object;
                let rows: Vec<Row> = slot_at(log, at)
                    .saved()
                    .map(|saved| {
                        let value = (!saved.removed()).then_some(saved.value);
                        Row::of(object, saved.key, value, saved.version())
                    })
                    .collect();
                request = checkpoint_of(object, at, &rows);
            }
            if let Request::Commit { names, .. } = &mut request {
                cleared += u32::from(names.any());
                *names = Names::NONE;
            }
            assert_eq!(plain.append(&request), Done(at + 1));
            let mut due = slot_at(log, at).bytes.to_vec();
            due[248..].fill(0);
            assert_eq!(slot_at(&plain.log, at).bytes[..], due);
        }
        let sets = [1 + random.below(255), 1 + random.below(255), 255];
        for set in sets {
            let waits = |at: &usize| {
                let slot = slot_at(&plain.log, *at);
                let has = |object: u32| set >> (object - 1) & 1 == 1;
                let decided = (0..tail).any(|other| {
                    let other = slot_at(&plain.log, other);
                    other.kind() == Some(Kind::Decision) && other.verdict().commit == *at as u64
                });
                slot.kind() == Some(Kind::Commit)
                    && slot.headers().any(|header| has(header.object))
                    && slot.reads().any(|read| !has(read.object))
                    && !decided
            };
            let first = (0..tail).find(waits).map(|at| at as u64);
            assert_eq!(owed(eight(), &plain.log, tail, &[set]), Done(first));
            let mut table = vec![0; 100 * CELL];
            let fresh = record(set, 0, 0);
            let (answer, left) = play(eight(), &plain.log, tail, fresh, &mut table, tail as u64);
            assert_eq!(answer.number(), if first.is_some() { 12 } else { 0 });
            assert_eq!(left.position, first.unwrap_or(tail as u64));
            let with_names = owed(eight(), log, tail, &[set]);
            differing += u32::from(with_names != Done(first));
        }
    }
    assert!(cleared > 400 && differing > 50, "{cleared} {differing}");
}
