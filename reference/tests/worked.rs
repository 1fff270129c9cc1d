//! The worked logs of document 01, and the mistakes this log has seen.

use reference::append;
use reference::append::{Request, Writer};
use reference::audit::audit;
use reference::directory::{eight, the_eight};
use reference::log::{check, entry, header, items, list, next, owed, scan, Reader};
use reference::replica::{open_at, open_fresh, play, play_in_place, read_cell, Record};
use reference::report::playlog;
use reference::sample::*;
use reference::slot::{slot_at, Kind, Names, Read, ABORT, COMMIT, SLOT};
use reference::table::{row, Cell, Row, CELL};
use reference::Answer::{self, Done};

fn refused<T>(number: u32) -> Answer<T> {
    Answer::Refused { number, told: None }
}

fn refused_at<T>(number: u32, offset: u64) -> Answer<T> {
    Answer::Refused {
        number,
        told: Some(offset),
    }
}

fn holds(value: u32, version: u64) -> Answer<Cell> {
    Done(Cell::Holds { value, version })
}

fn distances(log: &[u8], at: usize) -> [u16; 4] {
    let header = slot_at(log, at).header(0);
    assert_eq!(header.format, 0);
    [0, 1, 2, 3].map(|place| header.distance(place))
}

/// Plays a fresh replica of a set to the tail.
fn play_fresh(log: &[u8], hosted: u64, cells: usize) -> (Answer<()>, Record, Vec<u8>) {
    let tail = log.len() / SLOT;
    let mut table = vec![0xAA; cells * CELL];
    let fresh = open_fresh(eight(), hosted).done().unwrap();
    let (answer, record) = play(eight(), log, tail, fresh, &mut table, tail as u64);
    (answer, record, table)
}

#[test]
fn empty_log_passes_and_has_no_cells() {
    let everything = Record {
        hosted: 0xFF,
        position: 0,
        count: 0,
    };
    assert_eq!(audit(eight(), &[], 0, &mut []), (Done(()), everything));
    assert_eq!(
        playlog(&[]),
        "offset number outcome\nobject key value version\n"
    );
    let mut slots = vec![0; 3 * SLOT];
    assert_eq!(check(eight(), &slots, 0), Done(()));
    assert_eq!(owed(eight(), &slots, 0, &[1, 255]), Done(None));
    assert_eq!(
        append::update(eight(), &mut slots, 0, 0, &put(2, 7, 1).bytes()),
        Done(1)
    );
}

#[test]
fn bench_log_as_printed() {
    let log = log_of(&bench());
    let printed =
        "offset number outcome\n3 9 commit\n4 10 abort\nobject key value version\n2 7 42 4\n";
    assert_eq!(playlog(&log), printed);
}

#[test]
fn bench_log_bytes() {
    // Entry 3, byte for byte.
    let log = log_of(&bench());
    let mut slot = [0; SLOT];
    slot[..8].copy_from_slice(&[b'C', b'O', 1, 1, 0, 0, 0, 9]);
    slot[8..20].copy_from_slice(&[0, 0, 0, 2, 0, 1, 0, 2, 0, 3, 0, 0]);
    slot[56..72].copy_from_slice(&[0, 0, 0, 2, 0, 0, 0, 7, 0, 0, 0, 0, 0, 0, 0, 1]);
    assert_eq!(log[3 * SLOT..4 * SLOT], slot);
    // Entry 0.
    let mut slot = [0; SLOT];
    slot[..8].copy_from_slice(&[b'U', b'P', 1, 1, 0, 0, 0, 0]);
    slot[11] = 2;
    slot[56..72].copy_from_slice(&[0, 0, 0, 2, 0, 0, 0, 7, 0, 0, 0, 1, 0, 0, 0, 43]);
    assert_eq!(log[..SLOT], slot);
}

#[test]
fn bench_log_with_read_version_0() {
    let log = log_of(&bench_with(0));
    let printed =
        "offset number outcome\n3 9 abort\n4 10 commit\nobject key value version\n2 7 40 5\n";
    assert_eq!(playlog(&log), printed);
}

/// An astray read that a log has is stale and nothing else (6.12).
#[test]
fn bench_log_with_read_version_2() {
    let mut log = log_of(&bench());
    slot_mut(&mut log, 3)[71] = 2;
    assert_eq!(log, log_of(&bench_with(2)));
    assert_eq!(check(eight(), &log, 5), Done(()));
    assert_eq!(playlog(&log), playlog(&log_of(&bench_with(0))));
    let (answer, record, table) = play_fresh(&log, 2, 1);
    assert_eq!((answer, record.position, record.count), (Done(()), 5, 1));
    assert_eq!(table, Row::of(2, 7, Some(40), 5).bytes());
    let mut scratch = [0; 24];
    assert_eq!(audit(eight(), &log, 5, &mut scratch).0, Done(()));
    assert_eq!(scratch[..], table);
    // a true decision record on it passes, a false one does not
    for (outcome, expected) in [(ABORT, Done(())), (COMMIT, refused_at(11, 5))] {
        let mut requests = bench_with(2);
        requests.push(decision(3, outcome));
        let log = log_of(&requests);
        assert_eq!(audit(eight(), &log, 6, &mut scratch).0, expected);
    }
}

/// A commit of 10 over the bench log's entries 0 to 3, or others: 0 where it is accepted, else the number and the place.
fn commits(base: &[Request], free: usize, number: u32, reads: &[Read]) -> (u32, Option<u64>) {
    let mut log = log_of(base);
    let tail = base.len();
    log.resize(log.len() + free * SLOT, 0x77);
    let before = log.clone();
    match append::commit(
        eight(),
        &mut log,
        tail,
        number,
        &read_bytes(reads),
        Names::NONE,
    ) {
        Done(after) => {
            assert_eq!(after, tail + 1);
            assert_eq!(items(eight(), &log, after, tail as u64), read_bytes(reads));
            assert_eq!(check(eight(), &log, after), Done(()));
            (0, None)
        }
        Answer::Refused { number, told } => {
            assert_eq!(log, before);
            (number, told)
        }
    }
}

/// The rows of 16.4.
#[test]
fn offsets_sent_as_versions() {
    let four = &bench()[..4];
    let with = |version| commits(four, 1, 10, &[read(2, 7, version)]);
    for version in [0, 1, 4] {
        assert_eq!(with(version), (0, None));
    }
    for version in [2, 3] {
        assert_eq!(with(version), (16, Some(0)));
    }
    assert_eq!(with(5), (3, None));
    assert_eq!(commits(four, 1, 10, &[read(2, 8, 1)]), (16, Some(0)));
    let second = [read(2, 7, 1), read(2, 8, 3)];
    assert_eq!(commits(four, 1, 10, &second), (16, Some(1)));
    let mut decided = four.to_vec();
    decided.push(decision(3, COMMIT));
    assert_eq!(commits(&decided, 1, 10, &[read(2, 7, 5)]), (16, Some(0)));
    assert_eq!(commits(&decided, 1, 10, &[read(2, 7, 4)]), (0, None));
    let aborted = &bench_with(0)[..4];
    assert_eq!(commits(aborted, 1, 10, &[read(2, 7, 4)]), (0, None));
    assert_eq!(commits(four, 0, 10, &[read(2, 7, 2)]), (16, Some(0)));
    assert_eq!(commits(four, 0, 10, &[read(2, 7, 1)]), (9, None));
    for free in [0, 1] {
        assert_eq!(commits(four, free, 11, &[read(2, 7, 2)]), (6, None));
        assert_eq!(commits(four, free, 9, &[read(2, 7, 2)]), (4, None));
    }
}

/// What may be pointed to: the first, the middle and the last update of a commit record; the last of 12 writes; a removal; the
/// place told is the first.
#[test]
fn versions_point_to_what_writes_the_cell() {
    let mut twelve: Vec<_> = (0..11).map(|key| put(2, key, 1)).collect();
    twelve.push(remove(2, 11));
    let base = [
        update(0, &twelve),
        update(5, &[put(3, 1, 1), put(3, 2, 1)]),
        update(6, &[put(3, 4, 1)]),
        update(5, &[remove(3, 3)]),
        update(5, &[put(4, 1, 1)]),
        commit(5, &[]),
        checkpoint_of(3, 6, &[Row::of(3, 1, Some(1), 6)]),
        update(6, &[put(8, 0, 1)]),
    ];
    let alone = |object, key, version| commits(&base, 1, 6, &[read(object, key, version)]);
    for (object, key) in [(3, 1), (3, 2), (3, 3), (4, 1)] {
        assert_eq!(alone(object, key, 6), (0, None));
        // not to its own update, to the checkpoint, or to the plain update
        for version in [1, 2, 4, 5, 7, 8] {
            assert_eq!(alone(object, key, version), (16, Some(0)));
        }
    }
    for key in 0..12 {
        assert_eq!(alone(2, key, 1), (0, None));
        assert_eq!(alone(2, key, 6), (16, Some(0)));
    }
    // a numbered update of its own number and of another, and cells that no entry writes
    for (object, key) in [(3, 4), (8, 0), (2, 12), (5, 1)] {
        assert_eq!(alone(object, key, 0), (0, None));
        for version in 1..=8 {
            assert_eq!(alone(object, key, version), (16, Some(0)));
        }
    }
    let good: Vec<_> = (0..12).map(|key| read(2, key, 1)).collect();
    assert_eq!(commits(&base, 1, 6, &good), (0, None));
    for first in 0..12 {
        for last in first..12 {
            let mut reads = good.clone();
            reads[first].version = 2;
            reads[last].version = 8;
            assert_eq!(commits(&base, 1, 6, &reads), (16, Some(first as u64)));
        }
    }
}

#[test]
fn bench_log_by_its_calls() {
    let mut log = log_of(&bench());
    log.resize(8 * SLOT, 0x5A);
    assert_eq!(check(eight(), &log, 5), Done(()));
    assert_eq!(owed(eight(), &log, 5, &[2, 253]), Done(None));
    let three = entry(eight(), &log, 5, 3).done().unwrap();
    assert_eq!((three.kind, three.number), (Kind::Commit, 9));
    assert_eq!((three.headers, three.items), (1, 1));
    assert_eq!(header(eight(), &log, 5, 3, 0).done().unwrap().object, 2);
    assert_eq!(items(eight(), &log, 5, 3), read(2, 7, 1).bytes());
    assert_eq!(next(eight(), &log, 5, 2, 3), (Done(Some(3)), 4));
    assert_eq!(next(eight(), &log, 5, 2, 5), (Done(None), 5));
    assert_eq!(next(eight(), &log, 5, 3, 0), (Done(None), 5));
    let mut reader = Reader { log: &log, next: 4 };
    assert_eq!(reader.read(eight(), 5, 2), Done(Some(4)));
    assert_eq!(reader.next, 5);
    let mut lent = [77; 7];
    assert_eq!(list(eight(), &log, 5, 2, &mut lent), Done(5));
    assert_eq!(lent, [0, 1, 2, 3, 4, 77, 77]);
}

#[test]
fn distances_of_the_bench_log() {
    let mut requests = bench();
    requests.push(update(0, &[put(2, 8, 1)]));
    let log = log_of(&requests);
    assert_eq!(distances(&log, 0), [0, 0, 0, 0]);
    assert_eq!(distances(&log, 1), [1, 0, 0, 0]);
    assert_eq!(distances(&log, 2), [1, 2, 0, 0]);
    assert_eq!(distances(&log, 3), [1, 2, 3, 0]);
    assert_eq!(distances(&log, 4), [1, 2, 3, 4]);
    assert_eq!(distances(&log, 5), [1, 2, 3, 4]);
}

/// A log with an entry of object 2 at 0 and object 5 up to `at`, then one of object 2.
fn far(at: usize) -> Writer {
    let mut writer = Writer::new(at + 7);
    writer.append(&update(0, &[put(2, 7, 1)]));
    for _ in 1..at {
        writer.append(&update(0, &[put(5, 1, 1)]));
    }
    writer.append(&update(0, &[put(2, 7, 2)]));
    assert_eq!(writer.tail, at + 1);
    writer
}

#[test]
fn formats_at_65535_and_65536() {
    let near = far(65_535);
    let stored = &near.log[65_535 * SLOT + 8..][..12];
    assert_eq!(stored, [0, 0, 0, 2, 0xFF, 0xFF, 0, 0, 0, 0, 0, 0]);
    let mut far = far(65_536);
    let stored = &far.log[65_536 * SLOT + 8..][..12];
    assert_eq!(stored, [0x80, 0, 0, 2, 0, 0, 0, 0, 0, 0, 0, 0]);
    assert_eq!(check(eight(), &near.log, near.tail), Done(()));
    assert_eq!(check(eight(), &far.log, far.tail), Done(()));
    // A second entry of object 2: the first is near again, the one at 0 is not.
    far.append(&update(0, &[put(2, 7, 3)]));
    assert_eq!(distances(&far.log, 65_537), [1, 0, 0, 0]);
    far.append(&commit(1, &[]));
    far.append(&update(0, &[put(2, 7, 3)]));
    assert_eq!(distances(&far.log, 65_538), [1, 2, 0, 0]);
    assert_eq!(check(eight(), &far.log, far.tail), Done(()));
    // The stream list crosses the far pointer; absolute offset 0 is an offset.
    let mut lent = [0; 4];
    assert_eq!(list(eight(), &far.log, far.tail, 2, &mut lent), Done(4));
    assert_eq!(lent, [0, 65_536, 65_537, 65_538]);
    assert_eq!(scan(&far.log, far.tail, 2), [0, 65_536, 65_537, 65_538]);
    // Either format where the other is due is bad.
    let mut wrong = far.log.clone();
    wrong[65_536 * SLOT + 8] = 0;
    assert_eq!(check(eight(), &wrong, far.tail), refused_at(2, 65_536));
    let mut wrong = near.log.clone();
    wrong[65_535 * SLOT + 8..][..12].copy_from_slice(&[0x80, 0, 0, 2, 0, 0, 0, 0, 0, 0, 0, 0]);
    assert_eq!(check(eight(), &wrong, near.tail), refused_at(2, 65_535));
}

#[test]
fn put_then_remove_then_a_stale_read() {
    let mut requests = vec![update(0, &[put(2, 7, 1)]), update(0, &[remove(2, 7)])];
    let log = log_of(&requests);
    let (answer, record, table) = play_fresh(&log, 0b10, 1);
    assert_eq!((answer, record.count), (Done(()), 1));
    assert_eq!(
        read_cell(eight(), &record, &table, 2, 7),
        Done(Cell::Removed { version: 2 })
    );
    assert_eq!(row(&table, 0), Row::of(2, 7, None, 2));
    // A read with version 0 aborts; with version 2 it commits.
    requests.push(update(4, &[put(5, 1, 1)]));
    requests.push(commit(4, &[read(2, 7, 0)]));
    requests.push(update(5, &[put(5, 2, 1)]));
    requests.push(commit(5, &[read(2, 7, 2)]));
    let printed = playlog(&log_of(&requests));
    assert_eq!(
        printed,
        "offset number outcome\n3 4 abort\n5 5 commit\nobject key value version\n2 7 - 2\n5 2 1 6\n"
    );
}

#[test]
fn waiting_and_then_played_with_a_decision() {
    let mut requests = vec![
        update(0, &[put(2, 7, 1)]),
        update(9, &[put(5, 1, 3)]),
        commit(9, &[read(2, 7, 1)]),
    ];
    let log = log_of(&requests);
    let (answer, record, mut table) = play_fresh(&log, 1 << 4, 1);
    assert_eq!(answer, refused(12));
    assert_eq!((record.position, record.count), (2, 0));
    assert_eq!(table, vec![0xAA; CELL]);
    requests.push(decision(2, COMMIT));
    let longer = log_of(&requests);
    let (answer, record) = play(eight(), &longer, 4, record, &mut table, 4);
    assert_eq!((answer, record.position), (Done(()), 4));
    assert_eq!(read_cell(eight(), &record, &table, 5, 1), holds(3, 3));
    // Stopped at the commit record it does not wait; without the decision it waits again.
    let (answer, record, _) = play_fresh(&log[..2 * SLOT], 1 << 4, 1);
    assert_eq!((answer, record.position), (Done(()), 2));
    // A decision to abort is taken too, though it is not as played.
    requests[3] = decision(2, ABORT);
    let aborted = log_of(&requests);
    let (answer, record, table) = play_fresh(&aborted, 1 << 4, 1);
    assert_eq!((answer, record.count), (Done(()), 0));
    assert_eq!(
        read_cell(eight(), &record, &table, 5, 1),
        Done(Cell::NeverWritten)
    );
    let (answer, _) = audit(eight(), &aborted, 4, &mut [0; 10 * CELL]);
    assert_eq!(answer, refused_at(11, 3));
    // Who hosts all objects read decides alone.
    let (_, record, table) = play_fresh(&aborted, 1 << 4 | 1 << 1, 2);
    assert_eq!(read_cell(eight(), &record, &table, 5, 1), holds(3, 3));
}

#[test]
fn tables_of_23_and_24_bytes() {
    let log = log_of(&bench());
    let fresh = open_fresh(eight(), 0b10).done().unwrap();
    let mut small = [0xAA; 23];
    let (answer, record) = play(eight(), &log, 5, fresh, &mut small, 5);
    assert_eq!((answer, record), (refused(13), fresh));
    assert_eq!(small, [0xAA; 23]);
    let (answer, record) = audit(eight(), &log, 5, &mut small);
    assert_eq!(answer, refused_at(13, 0));
    assert_eq!((record.hosted, record.position, record.count), (0xFF, 0, 0));
    let mut enough = [0xAA; 24];
    let (answer, record) = play(eight(), &log, 5, fresh, &mut enough, 5);
    assert_eq!((answer, record.position, record.count), (Done(()), 5, 1));
    assert_eq!(enough[..], Row::of(2, 7, Some(42), 4).bytes());
    assert_eq!(audit(eight(), &log, 5, &mut [0; 24]).0, Done(()));
}

#[test]
fn twelve_and_thirteen_reads() {
    let mut log = log_of(&[update(3, &[put(2, 7, 1)])]);
    log.resize(2 * SLOT, 0);
    let reads: Vec<_> = (0..13).map(|key| read(2, key, 0)).collect();
    let before = log.clone();
    assert_eq!(
        append::commit(eight(), &mut log, 1, 3, &read_bytes(&reads), Names::NONE),
        refused(3)
    );
    assert_eq!(log, before);
    assert_eq!(
        append::commit(
            eight(),
            &mut log,
            1,
            3,
            &read_bytes(&reads[..12]),
            Names::NONE
        ),
        Done(2)
    );
    assert_eq!(check(eight(), &log, 2), Done(()));
}

#[test]
fn read_version_equal_to_the_tail() {
    let mut log = log_of(&[update(3, &[put(5, 1, 1)]), update(0, &[put(2, 7, 1)])]);
    log.resize(3 * SLOT, 0);
    let above = read(2, 7, 3).bytes();
    assert_eq!(
        append::commit(eight(), &mut log, 2, 3, &above, Names::NONE),
        refused(3)
    );
    assert_eq!(
        append::commit(eight(), &mut log, 2, 3, &read(2, 7, 2).bytes(), Names::NONE),
        Done(3)
    );
    assert!(playlog(&log).contains("2 3 commit"));
}

// The mistakes this log has seen.

#[test]
fn an_offset_is_no_version() {
    let log = log_of(&[update(0, &[put(2, 7, 1)])]);
    let (_, record, table) = play_fresh(&log, 0b10, 1);
    assert_eq!(read_cell(eight(), &record, &table, 2, 7), holds(1, 1));
    // A read of version 0 is stale although the entry stands at offset 0.
    let log = log_of(&[
        update(0, &[put(2, 7, 1)]),
        update(1, &[put(2, 7, 2)]),
        commit(1, &[read(2, 7, 0)]),
    ]);
    assert!(playlog(&log).contains("2 1 abort"));
}

#[test]
fn the_commit_record_gives_the_version() {
    let log = log_of(&bench());
    let (_, record, table) = play_fresh(&log, 0b10, 1);
    assert_eq!(read_cell(eight(), &record, &table, 2, 7), holds(42, 4));
}

#[test]
fn opened_at_a_checkpoint_updates_set_aside_before_count() {
    let mut requests = vec![
        update(0, &[put(2, 7, 1), put(2, 9, 5), remove(2, 3)]),
        update(6, &[put(2, 8, 2)]),
    ];
    let (_, run) = grown(4, &requests);
    requests.push(checkpoint_of(2, 2, &rows_of(the_eight(), &run, 0b10)));
    requests.push(commit(6, &[]));
    let log = log_of(&requests);
    let mut table = vec![0xAA; 5 * CELL + 3];
    let record = open_at(eight(), &log, 4, 2, &mut table).done().unwrap();
    assert_eq!((record.hosted, record.position, record.count), (0b10, 3, 3));
    assert_eq!(row(&table, 0), Row::of(2, 3, None, 1));
    assert_eq!(row(&table, 1), Row::of(2, 7, Some(1), 1));
    assert_eq!(row(&table, 2), Row::of(2, 9, Some(5), 1));
    assert_eq!(table[3 * CELL..], vec![0xAA; 2 * CELL + 3]);
    let (answer, record) = play(eight(), &log, 4, record, &mut table, 4);
    assert_eq!((answer, record.count), (Done(()), 4));
    assert_eq!(read_cell(eight(), &record, &table, 2, 8), holds(2, 4));
    assert_eq!(table[4 * CELL..], vec![0xAA; CELL + 3]);
    assert_eq!(audit(eight(), &log, 4, &mut [0; 4 * CELL]).0, Done(()));
}

#[test]
fn an_aborted_write_raises_no_version() {
    let log = log_of(&bench());
    let (_, record, table) = play_fresh(&log, 0b10, 1);
    assert_eq!(read_cell(eight(), &record, &table, 2, 7), holds(42, 4));
    assert_eq!(record.count, 1);
}

#[test]
fn absolute_offset_0_is_an_entry() {
    let far = far(65_536);
    let mut lent = [7; 2];
    assert_eq!(list(eight(), &far.log, far.tail, 2, &mut lent), Done(2));
    assert_eq!(lent, [0, 65_536]);
}

// Sentences that the worked logs do not reach.

/// What every call that takes a record with a table answers on these counted rows; nothing is changed.
fn refused_by_order(rows: &[Row], count: u64) -> [u32; 3] {
    let log = with_room(&[update(0, &[put(2, 7, 9)])], 1);
    let mut table = table_of(rows);
    table.extend([0xAA; CELL]);
    let given = table.clone();
    let record = Record {
        hosted: 0b10,
        position: 1,
        count,
    };
    let (played, left) = play(eight(), &log, 1, record, &mut table, 1);
    assert_eq!((left, &table), (record, &given));
    let mut after = log.clone();
    let appended = append::checkpoint(eight(), &mut after, 1, &record, &table, 2);
    assert!(appended.is_done() || after == log);
    let read = read_cell(eight(), &record, &table, 2, 3);
    [played.number(), appended.number(), read.number()]
}

fn with_room(requests: &[Request], free: usize) -> Vec<u8> {
    let mut log = log_of(requests);
    log.resize(log.len() + free * SLOT, 0);
    log
}

#[test]
fn a_table_with_a_cell_twice() {
    let rows = [
        Row::of(2, 7, Some(1), 1),
        Row::of(2, 7, Some(2), 1),
        Row::of(9, 7, Some(3), 3),
    ];
    assert_eq!(refused_by_order(&rows, 3), [10; 3]);
    assert_eq!(refused_by_order(&rows, 2), [10; 3]);
    assert_eq!(refused_by_order(&rows, 1), [0; 3]);
    let same = [Row::of(2, 3, Some(1), 1), Row::of(2, 3, Some(1), 1)];
    assert_eq!(refused_by_order(&same, 2), [10; 3]);
}

#[test]
fn counted_rows_ascend_strictly() {
    let rows = [Row::of(2, 9, Some(1), 1), Row::of(2, 3, Some(1), 1)];
    assert_eq!(refused_by_order(&rows, 2), [10; 3]);
    assert_eq!(refused_by_order(&rows, 1), [0; 3]);
    assert_eq!(refused_by_order(&rows, 0), [0; 3]);
    // Rows of other objects too, whatever they name.
    let other = [Row::of(99, 0, Some(1), 1), Row::of(2, 9, Some(1), 1)];
    assert_eq!(refused_by_order(&other, 2), [10; 3]);
    let between = [
        Row::of(1, 5, Some(1), 1),
        Row::of(2, 9, Some(1), 1),
        Row::of(99, 0, Some(1), 1),
        Row::of(0x8000_0002, 0, Some(1), 1),
        Row::of(0x8000_0002, u32::MAX, Some(1), 1),
    ];
    assert_eq!(refused_by_order(&between, 5), [0; 3]);
}

/// Puts (5, 1) and (2, 9), puts (2, 3), removes (2, 9).
fn three_updates() -> Vec<u8> {
    log_of(&[
        update(0, &[put(5, 1, 6), put(2, 9, 4)]),
        update(0, &[put(2, 3, 5)]),
        update(0, &[remove(2, 9)]),
    ])
}

#[test]
fn rows_ascend_by_object_then_key() {
    let log = three_updates();
    let mut table = vec![7; 4 * CELL];
    let fresh = open_fresh(eight(), 18).done().unwrap();
    let (answer, record) = play(eight(), &log, 3, fresh, &mut table, 3);
    assert_eq!((answer, record.count), (Done(()), 3));
    let expected = [
        0, 0, 0, 2, 0, 0, 0, 3, 0, 0, 0, 5, 0, 0, 0, 1, 0, 0, 0, 0, 0, 0, 0, 2, //
        0, 0, 0, 2, 0, 0, 0, 9, 0, 0, 0, 0, 0, 0, 0, 0, 0, 0, 0, 0, 0, 0, 0, 3, //
        0, 0, 0, 5, 0, 0, 0, 1, 0, 0, 0, 6, 0, 0, 0, 1, 0, 0, 0, 0, 0, 0, 0, 1, //
        7, 7, 7, 7, 7, 7, 7, 7, 7, 7, 7, 7, 7, 7, 7, 7, 7, 7, 7, 7, 7, 7, 7, 7,
    ];
    assert_eq!(table, expected);
    // The audit's scratch likewise.
    let mut scratch = vec![7; 4 * CELL];
    assert_eq!(audit(eight(), &log, 3, &mut scratch).0, Done(()));
    assert_eq!(scratch, expected);
    // Without room for the third cell.
    for audited in [false, true] {
        let mut table = vec![7; 2 * CELL];
        let (answer, left) = match audited {
            true => audit(eight(), &log, 3, &mut table),
            false => play(eight(), &log, 3, fresh, &mut table, 3),
        };
        assert_eq!(answer.number(), 13);
        assert_eq!((left.position, left.count), (1, 2));
        let rows = [Row::of(2, 9, Some(4), 1), Row::of(5, 1, Some(6), 1)];
        assert_eq!(table, table_of(&rows));
    }
}

#[test]
fn a_row_that_is_not_written_moves_whole() {
    let log = log_of(&[update(0, &[put(2, 7, 1)])]);
    let other = Row {
        object: 3,
        key: 1,
        value: 77,
        present: 9,
        version: 1 << 63,
    };
    let mut table = table_of(&[other, other]);
    let record = Record {
        hosted: 0b10,
        position: 0,
        count: 1,
    };
    let (answer, left) = play(eight(), &log, 1, record, &mut table, 1);
    assert_eq!((answer, left.count), (Done(()), 2));
    assert_eq!(table, table_of(&[Row::of(2, 7, Some(1), 1), other]));
}

/// Rows of no cell before, between and after those of the replica, in a table with many of them.
#[test]
fn a_table_of_70_000_other_rows() {
    let mut rows: Vec<Row> = (0..30_000)
        .map(|place| Row::of(0, 3 * place, Some(place), 9))
        .collect();
    rows.extend((0..10_000).map(|place| Row::of(2, 500 + 7 * place, Some(place), 9)));
    rows.extend((0..30_000).map(|place| Row::of(0x8000_0000 + place, place, None, 9)));
    let writes = [put(2, 499, 1), put(8, 0, 2), put(1, 0, 3), put(2, 0, 4)];
    let log = log_of(&[update(0, &writes), update(0, &[put(3, 3, 3)])]);
    let mut table = table_of(&rows);
    table.resize(table.len() + 4 * CELL + 5, 0xAA);
    let record = Record {
        hosted: 0xFF,
        position: 0,
        count: 70_000,
    };
    let (answer, left) = play(eight(), &log, 2, record, &mut table, 2);
    assert_eq!(answer, refused(13));
    assert_eq!((left.position, left.count), (1, 70_004));
    let new = writes.map(|write| Row::of(write.object, write.key, Some(write.value), 1));
    rows.extend(new);
    rows.sort_by_key(|row| (row.object, row.key));
    assert_eq!(table[..70_004 * CELL], table_of(&rows));
    assert_eq!(table[70_004 * CELL..], [0xAA; 5]);
    assert_eq!(read_cell(eight(), &left, &table, 8, 0), holds(2, 1));
}

#[test]
fn a_present_field_other_than_1_is_removed() {
    let mut odd = Row::of(2, 7, Some(5), 1);
    odd.present = 2;
    let table = table_of(&[odd]);
    let record = Record {
        hosted: 0b10,
        position: 1,
        count: 1,
    };
    assert_eq!(
        read_cell(eight(), &record, &table, 2, 7),
        Done(Cell::Removed { version: 1 })
    );
    let mut log = log_of(&[update(0, &[remove(2, 7)])]);
    log.resize(2 * SLOT, 0);
    assert_eq!(
        append::checkpoint(eight(), &mut log, 1, &record, &table, 2),
        Done(2)
    );
    let item = &log[SLOT + 56..][..16];
    assert_eq!(item, [0, 0, 0, 7, 0, 0, 0, 0, 0x80, 0, 0, 0, 0, 0, 0, 1]);
    assert_eq!(audit(eight(), &log, 2, &mut [0; CELL]).0, Done(()));
}

#[test]
fn no_room_shows_nothing_of_its_entry() {
    let requests = [
        update(0, &[put(2, 1, 1), put(3, 1, 1)]),
        update(0, &[put(2, 1, 9), put(2, 2, 2), put(2, 2, 3), put(2, 3, 4)]),
    ];
    let log = log_of(&requests);
    let (answer, record, table) = play_fresh(&log, 0b10, 2);
    assert_eq!(answer, refused(13));
    assert_eq!((record.position, record.count), (1, 1));
    assert_eq!(row(&table, 0), Row::of(2, 1, Some(1), 1));
    assert_eq!(table[CELL..], [0xAA; CELL]);
    let (answer, record, table) = play_fresh(&log, 0b10, 3);
    assert_eq!((answer, record.count), (Done(()), 3));
    assert_eq!(row(&table, 1), Row::of(2, 2, Some(3), 2));
}

#[test]
fn in_place_answers_as_the_ordinary_call() {
    let log = log_of(&bench());
    let fresh = open_fresh(eight(), 0xFF).done().unwrap();
    for (cells, stop) in [(0, 5), (1, 3), (1, 5), (1, 6), (2, 0)] {
        let (mut table, mut other) = (vec![1; cells * CELL], vec![1; cells * CELL]);
        let mut record = fresh;
        let answer = play_in_place(eight(), &log, 5, &mut record, &mut table, stop);
        assert_eq!(
            (answer, record),
            play(eight(), &log, 5, fresh, &mut other, stop)
        );
        assert_eq!(table, other);
    }
}

#[test]
fn the_audit_finds_each_false_record() {
    let good = [
        update(0, &[put(2, 7, 1)]),
        update(9, &[put(5, 1, 3)]),
        commit(9, &[read(2, 7, 1)]),
    ];
    let rows = [Row::of(2, 7, Some(1), 1)];
    let cases: Vec<(Vec<Request>, Answer<()>)> = vec![
        (
            vec![decision(2, COMMIT), checkpoint_of(2, 4, &rows)],
            Done(()),
        ),
        (
            vec![decision(2, ABORT), checkpoint_of(2, 4, &[])],
            refused_at(11, 3),
        ),
        (
            vec![checkpoint_of(2, 3, &[]), decision(2, ABORT)],
            refused_at(11, 3),
        ),
        (
            vec![checkpoint_of(2, 3, &rows), decision(2, ABORT)],
            refused_at(11, 4),
        ),
        (
            vec![checkpoint_of(2, 3, &[Row::of(2, 7, Some(2), 1)])],
            refused_at(11, 3),
        ),
        (
            vec![checkpoint_of(2, 3, &[Row::of(2, 7, None, 1)])],
            refused_at(11, 3),
        ),
        (
            vec![checkpoint_of(2, 3, &[Row::of(2, 7, Some(1), 2)])],
            refused_at(11, 3),
        ),
        (
            vec![checkpoint_of(2, 3, &[Row::of(2, 8, Some(1), 1)])],
            refused_at(11, 3),
        ),
        (vec![checkpoint_of(3, 3, &[])], Done(())),
        (
            vec![checkpoint_of(5, 3, &[Row::of(5, 1, Some(3), 3)])],
            Done(()),
        ),
        (
            vec![checkpoint_of(5, 3, &[Row::of(5, 1, Some(3), 2)])],
            refused_at(11, 3),
        ),
    ];
    for (more, expected) in cases {
        let requests: Vec<Request> = good.iter().cloned().chain(more).collect();
        let log = log_of(&requests);
        let tail = requests.len();
        let mut scratch = vec![0xAA; 3 * CELL];
        let (answer, record) = audit(eight(), &log, tail, &mut scratch);
        assert_eq!(answer, expected, "{requests:?}");
        // "scratch as played to the tail"
        assert_eq!((record.position, record.count), (tail as u64, 2));
        assert_eq!(row(&scratch, 0), Row::of(2, 7, Some(1), 1));
        assert_eq!(row(&scratch, 1), Row::of(5, 1, Some(3), 3));
        assert_eq!(scratch[2 * CELL..], [0xAA; CELL]);
        // 13 comes before 11.
        let (answer, record) = audit(eight(), &log, tail, &mut [0; CELL]);
        assert_eq!((answer, record.position), (refused_at(13, 2), 2));
    }
}

#[test]
fn playlog_refuses() {
    assert_eq!(playlog(&[0; 255]), "refused 1 at -\n");
    assert_eq!(playlog(&vec![0; 65_536 + 256]), "refused 1 at -\n");
    assert_eq!(playlog(&[0; 512]), "refused 2 at 0\n");
    let mut writer = Writer::new(256);
    for block in 0..256 {
        let writes: Vec<_> = (0..12).map(|place| put(5, 12 * block + place, 1)).collect();
        writer.append(&update(0, &writes));
    }
    assert_eq!(playlog(&writer.log), "refused 13 at 227\n");
    let false_record = log_of(&[
        update(1, &[put(2, 1, 1)]),
        commit(1, &[]),
        decision(1, ABORT),
    ]);
    assert_eq!(playlog(&false_record), "refused 11 at 2\n");
}
