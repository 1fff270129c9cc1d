//! Each refusal of each call, alone and together with those that come later in the "Order" paragraph.

use reference::append;
use reference::append::Request;
use reference::audit::audit;
use reference::directory::eight;
use reference::log::{check, entry, header, items, list, next, owed, stretch};
use reference::replica::{open_at, open_fresh, play, read_cell, Record};
use reference::sample::*;
use reference::slot::{Names, ABORT, COMMIT, SLOT};
use reference::table::{Cell, Row, CELL};
use reference::Answer::{self, Done};

fn refused<T>(number: u32) -> Answer<T> {
    Answer::Refused { number, told: None }
}

fn refused_at<T>(number: u32, offset: u64) -> Answer<T> {
    Answer::Refused {
        number,
        told: Some(offset),
    }
}

fn record(hosted: u64, position: u64, count: u64) -> Record {
    Record {
        hosted,
        position,
        count,
    }
}

/// A log with so many free slots past its entries.
fn with_room(requests: &[Request], free: usize) -> Vec<u8> {
    let mut log = log_of(requests);
    log.resize(log.len() + free * SLOT, 0xEE);
    log
}

/// The log with the entry at an offset broken.
fn damaged(log: &[u8], at: usize) -> Vec<u8> {
    let mut log = log.to_vec();
    slot_mut(&mut log, at)[255] = 1;
    log
}

/// An append on these bytes answers so, and, refused, changes nothing.
fn appends(log: &[u8], tail: usize, request: &Request, expected: Answer<usize>) {
    let mut after = log.to_vec();
    assert_eq!(
        append::request(eight(), &mut after, tail, request),
        expected,
        "{request:?}"
    );
    match expected {
        Done(_) => {
            let free = (tail + 1) * SLOT;
            assert_eq!(after[..tail * SLOT], log[..tail * SLOT]);
            assert_eq!(after[free..], log[free..]);
            assert_eq!(check(eight(), &after, tail + 1), Done(()));
        }
        _ => assert_eq!(after, log),
    }
}

/// The frame's three refusals and a bad entry come before everything that the request itself has wrong.
fn frame_and_entries_first(log: &[u8], tail: usize, bad: usize, request: &Request) {
    let broken = damaged(log, bad);
    appends(&broken, tail, request, refused_at(2, bad as u64));
    appends(&broken, log.len() / SLOT + 1, request, refused(1));
    appends(&broken[..log.len() - 1], tail, request, refused(1));
    appends(&broken, usize::MAX, request, refused(1));
}

#[test]
fn update_order() {
    let base = [
        update(7, &[put(2, 0, 0), put(3, 0, 0), put(4, 0, 0)]),
        commit(7, &[]),
        update(8, &[put(2, 0, 0), put(3, 0, 0), put(4, 0, 0)]),
    ];
    let two = [put(5, 1, 1), put(6, 0, 1)];
    let five = [
        put(1, 0, 0),
        put(2, 0, 0),
        put(3, 0, 0),
        put(4, 0, 0),
        put(5, 0, 0),
    ];
    let mut bad = five.to_vec();
    bad[4].operation = 3;
    for (free, full) in [(0, refused(9)), (1, Done(4))] {
        let log = with_room(&base, free);
        appends(&log, 3, &update(0, &[put(2, 1, 1)]), full);
        appends(&log, 3, &update(8, &[put(4, 0, 1), put(5, 0, 1)]), full);
        appends(&log, 3, &update(8, &two), refused(5));
        appends(&log, 3, &update(7, &two), refused(4));
        appends(&log, 3, &update(7, &[put(2, 1, 1)]), refused(4));
        appends(&log, 3, &update(7, &five), refused(5));
        appends(&log, 3, &update(0, &five), refused(5));
        appends(&log, 3, &update(7, &bad), refused(3));
        frame_and_entries_first(&log, 3, 1, &update(7, &bad));
    }
}

#[test]
fn update_fields() {
    let log = with_room(&[], 1);
    let request = |items: Vec<u8>| Request::Update { number: 0, items };
    let good = put(2, 499, 1).bytes().to_vec();
    appends(&log, 0, &request(good.clone()), Done(1));
    appends(&log, 0, &request(good.repeat(12)), Done(1));
    appends(&log, 0, &request(good.repeat(13)), refused(3));
    appends(&log, 0, &request(vec![]), refused(3));
    appends(&log, 0, &request(good[..15].to_vec()), refused(3));
    appends(&log, 0, &request(good.repeat(2)[..17].to_vec()), refused(3));
    for (object, key) in [
        (0, 0),
        (9, 0),
        (2, 500),
        (6, 1),
        (u32::MAX, 0),
        (1, u32::MAX),
    ] {
        appends(&log, 0, &update(0, &[put(object, key, 0)]), refused(3));
    }
    for (object, key) in [(1, 9999), (3, 499), (5, 9999), (8, 0)] {
        appends(&log, 0, &update(0, &[put(object, key, u32::MAX)]), Done(1));
        appends(&log, 0, &update(u32::MAX, &[remove(object, key)]), Done(1));
    }
    for (operation, value, expected) in [
        (0, 0, refused(3)),
        (1, 0, Done(1)),
        (2, 0, Done(1)),
        (2, 1, refused(3)),
        (3, 0, refused(3)),
    ] {
        let mut write = put(2, 1, value);
        write.operation = operation;
        appends(&log, 0, &update(0, &[write]), expected);
    }
}

#[test]
fn commit_order() {
    let base = [
        update(7, &[put(2, 0, 0)]),
        commit(7, &[]),
        update(8, &[put(2, 0, 0)]),
    ];
    for (free, full) in [(0, refused(9)), (1, Done(4))] {
        let log = with_room(&base, free);
        appends(&log, 3, &commit(8, &[]), full);
        appends(&log, 3, &commit(9, &[]), refused(6));
        appends(&log, 3, &commit(7, &[]), refused(4));
        appends(&log, 3, &commit(0, &[]), refused(3));
        appends(&log, 3, &commit(7, &[read(2, 0, 4)]), refused(3));
        appends(&log, 3, &commit(9, &[read(9, 0, 0)]), refused(3));
        // 16, from the order's end on: alone and in a full log, then with 6, 4 and 3 before it.
        let astray = [read(2, 0, 2), read(2, 1, 2)];
        appends(&log, 3, &commit(8, &astray[..1]), full);
        appends(&log, 3, &commit(8, &astray), refused_at(16, 1));
        appends(&log, 3, &commit(8, &astray[1..]), refused_at(16, 0));
        appends(&log, 3, &commit(9, &astray), refused(6));
        appends(&log, 3, &commit(7, &astray), refused(4));
        let both = [astray[0], astray[1], read(4, 0, 4)];
        appends(&log, 3, &commit(8, &both), refused(3));
        frame_and_entries_first(&log, 3, 2, &commit(8, &astray));
        frame_and_entries_first(&log, 3, 2, &commit(0, &[]));
    }
}

#[test]
fn commit_fields() {
    let log = with_room(&[update(8, &[put(2, 0, 0)])], 1);
    let with = |reads: &[_], expected| appends(&log, 1, &commit(8, reads), expected);
    with(&[read(2, 0, 0)], Done(2));
    with(&[read(2, 0, 1)], refused_at(16, 0));
    with(&[read(2, 0, 2)], refused(3));
    with(&[read(2, 0, u64::MAX)], refused(3));
    with(&[read(2, 500, 0)], refused(3));
    with(&[read(0, 0, 0)], refused(3));
    with(&[read(2, 1, 0), read(2, 1, 0)], refused(3));
    with(&[read(2, 2, 0), read(2, 1, 0)], refused(3));
    with(&[read(3, 0, 0), read(2, 1, 0)], refused(3));
    with(&[read(2, 9, 0), read(3, 1, 0)], Done(2));
    let reads = read(2, 0, 0).bytes()[..15].to_vec();
    let cut = Request::Commit {
        number: 8,
        reads,
        names: Names::NONE,
    };
    appends(&log, 1, &cut, refused(3));
}

#[test]
fn decision_order() {
    let base = [
        update(7, &[put(2, 0, 0)]),
        commit(7, &[]),
        decision(1, COMMIT),
        update(8, &[put(2, 0, 0), put(4, 0, 0)]),
        commit(8, &[]),
    ];
    for (free, full) in [(0, refused(9)), (1, Done(6))] {
        let log = with_room(&base, free);
        appends(&log, 5, &decision(4, ABORT), full);
        appends(&log, 5, &decision(1, ABORT), refused(8));
        for other in [0, 2, 3] {
            appends(&log, 5, &decision(other, COMMIT), refused(7));
        }
        for (offset, outcome) in [
            (1, 0),
            (0, 3),
            (5, COMMIT),
            (6, COMMIT),
            (u64::MAX, COMMIT),
            (1 << 32, COMMIT),
            (4, u32::MAX),
        ] {
            appends(&log, 5, &decision(offset, outcome), refused(3));
        }
        frame_and_entries_first(&log, 5, 0, &decision(u64::MAX, 0));
    }
}

#[test]
fn checkpoint_order() {
    let writes: Vec<_> = (0..12).map(|key| put(2, key, 1)).collect();
    let base = [update(0, &writes), update(0, &[put(2, 12, 1)])];
    let twelve: Vec<Row> = (0..12).map(|key| Row::of(2, key, Some(1), 1)).collect();
    let mut thirteen = twelve.clone();
    thirteen.push(Row::of(2, 12, Some(1), 2));
    for (free, full) in [(0, refused(9)), (1, Done(3))] {
        let log = with_room(&base, free);
        appends(&log, 2, &checkpoint_of(2, 2, &twelve), full);
        appends(&log, 2, &checkpoint_of(2, 2, &thirteen), refused(13));
        appends(&log, 2, &checkpoint_of(2, 1, &thirteen), refused(14));
        let mut bad = thirteen.clone();
        bad[12].version = 3;
        appends(&log, 2, &checkpoint_of(2, 1, &bad), refused(3));
        let Request::Checkpoint { record, table, .. } = checkpoint_of(2, 1, &bad) else {
            unreachable!()
        };
        let ask = |record: Record, object: u32| Request::Checkpoint {
            record,
            table: table.clone(),
            object,
        };
        appends(&log, 2, &ask(record, 3), refused(3));
        appends(&log, 2, &ask(record, 9), refused(3));
        appends(&log, 2, &ask(record, 0), refused(3));
        for broken in [
            Record {
                hosted: 0,
                ..record
            },
            Record {
                count: 14,
                ..record
            },
            Record {
                position: 3,
                ..record
            },
            Record {
                count: u64::MAX,
                position: u64::MAX,
                hosted: 2,
            },
        ] {
            appends(&log, 2, &ask(broken, 9), refused(10));
            frame_and_entries_first(&log, 2, 0, &ask(broken, 9));
        }
    }
}

#[test]
fn checkpoint_cells() {
    let log = with_room(&[update(0, &[put(2, 7, 1)])], 1);
    let with = |rows: &[Row], expected| appends(&log, 1, &checkpoint_of(2, 1, rows), expected);
    with(&[], Done(2));
    with(&[Row::of(2, 7, Some(1), 1)], Done(2));
    with(&[Row::of(2, 7, None, 1)], Done(2));
    with(&[Row::of(2, 7, Some(1), 0)], refused(3));
    with(&[Row::of(2, 7, Some(1), 2)], refused(3));
    with(&[Row::of(2, 7, None, 1 << 63 | 1)], refused(3));
    with(&[Row::of(2, 500, Some(1), 1)], refused(3));
    // Rows of other objects are judged by their order alone, and rows past the count not at all.
    with(&[Row::of(3, 500, Some(1), 9)], Done(2));
    with(
        &[Row::of(2, 7, Some(1), 1), Row::of(2, 7, Some(1), 1)],
        refused(10),
    );
    with(
        &[Row::of(2, 7, Some(1), 9), Row::of(2, 6, Some(1), 1)],
        refused(10),
    );
    with(
        &[Row::of(3, 500, Some(1), 9), Row::of(2, 7, Some(1), 1)],
        refused(10),
    );
    let past = Request::Checkpoint {
        record: record(2, 1, 0),
        table: table_of(&[Row::of(2, 500, Some(1), 9)]),
        object: 2,
    };
    appends(&log, 1, &past, Done(2));
}

#[test]
fn a_checkpoint_reads_back_in_key_order() {
    let mut log = with_room(&[update(0, &[put(2, 7, 1), put(2, 3, 2)])], 1);
    let rows = [
        Row::of(1, 1, Some(9), 1),
        Row::of(2, 3, Some(2), 1),
        Row::of(2, 7, Some(1), 1),
        Row::of(5, 1, Some(9), 1),
    ];
    let request = checkpoint_of(2, 1, &rows);
    assert_eq!(append::request(eight(), &mut log, 1, &request), Done(2));
    let expected = [
        0, 0, 0, 3, 0, 0, 0, 2, 0, 0, 0, 0, 0, 0, 0, 1, //
        0, 0, 0, 7, 0, 0, 0, 1, 0, 0, 0, 0, 0, 0, 0, 1,
    ];
    assert_eq!(items(eight(), &log, 2, 1), expected);
    assert_eq!(stretch(eight(), &log, 2, 1).done().unwrap().from, 256 + 56);
}

#[test]
fn play_order() {
    let log = log_of(&[
        update(0, &[put(2, 7, 1)]),
        update(9, &[put(5, 1, 3)]),
        commit(9, &[read(2, 7, 1)]),
        update(0, &[put(5, 2, 3)]),
    ]);
    let broken = damaged(&log, 1);
    let plays = |log: &[u8], tail, given: Record, cells: usize, stop| {
        let mut table = vec![0xAA; cells * CELL];
        let (answer, left) = play(eight(), log, tail, given, &mut table, stop);
        (answer, left)
    };
    let bad = record(0, 9, 9);
    assert_eq!(plays(&broken, 5, bad, 0, 10), (refused(1), bad));
    assert_eq!(plays(&broken[1..], 4, bad, 0, 10), (refused(1), bad));
    assert_eq!(plays(&broken, 4, bad, 0, 10), (refused_at(2, 1), bad));
    for bad in [
        record(0, 0, 0),
        record(2, 5, 0),
        record(2, 0, 2),
        record(2, u64::MAX, 0),
        record(2, 0, u64::MAX),
    ] {
        assert_eq!(plays(&log, 4, bad, 1, 9), (refused(10), bad));
    }
    // Two rows of the same bytes do not ascend: after 1 and 2, before 3, also where nothing is to be played.
    let twice = record(2, 1, 2);
    assert_eq!(plays(&broken, 5, twice, 2, 9), (refused(1), twice));
    assert_eq!(plays(&broken, 4, twice, 2, 9), (refused_at(2, 1), twice));
    for stop in [0, 1, 4, 9] {
        assert_eq!(plays(&log, 4, twice, 2, stop), (refused(10), twice));
    }
    let later = record(0x10, 3, 0);
    assert_eq!(plays(&log, 4, later, 0, 5), (refused(3), later));
    assert_eq!(plays(&log, 4, later, 0, 2), (refused(3), later));
    assert_eq!(plays(&log, 4, later, 0, u64::MAX), (refused(3), later));
    assert_eq!(plays(&log, 4, later, 0, 3), (Done(()), later));
    // The commit record waits and lacks room: 12. The update after it lacks room: 13.
    let (answer, left) = plays(&log, 4, record(0x10, 0, 0), 0, 4);
    assert_eq!((answer, left), (refused(12), record(0x10, 2, 0)));
    let (answer, left) = plays(&log, 4, later, 0, 4);
    assert_eq!((answer, left), (refused(13), later));
    // With the object read hosted too, the commit record lacks room.
    let (answer, left) = plays(&log, 4, record(0x12, 0, 0), 1, 4);
    assert_eq!((answer, left), (refused(13), record(0x12, 2, 1)));
}

#[test]
fn opening_order() {
    let rows = [Row::of(2, 7, Some(1), 1)];
    let log = log_of(&[update(0, &[put(2, 7, 1)]), checkpoint_of(2, 1, &rows)]);
    let broken = damaged(&log, 0);
    let opens = |log: &[u8], tail, offset| {
        let mut table = [0xAA; 23];
        let answer = open_at(eight(), log, tail, offset, &mut table);
        assert_eq!(table, [0xAA; 23]);
        answer
    };
    assert_eq!(opens(&broken, 3, 9), refused(1));
    assert_eq!(opens(&broken, 2, 9), refused_at(2, 0));
    assert_eq!(opens(&log, 2, 2), refused(3));
    assert_eq!(opens(&log, 2, u64::MAX), refused(3));
    assert_eq!(opens(&log, 2, 0), refused(3));
    assert_eq!(opens(&log, 1, 1), refused(3));
    assert_eq!(opens(&log, 2, 1), refused(13));
    assert_eq!(
        open_at(eight(), &log, 2, 1, &mut [0; 24]),
        Done(record(2, 2, 1))
    );
    assert_eq!(open_fresh(eight(), 0), refused(10));
    assert_eq!(open_fresh(eight(), 0x80), Done(record(0x80, 0, 0)));
}

#[test]
fn cell_reading_order() {
    let table = table_of(&[Row::of(2, 7, Some(1), 1), Row::of(3, 7, None, 0)]);
    let reads = |given, object, key| read_cell(eight(), &given, &table, object, key);
    for bad in [record(0, 0, 0), record(2, 0, 3), record(2, 0, u64::MAX)] {
        assert_eq!(reads(bad, 9, 9), refused(10));
    }
    // The position is not tested.
    let far = record(0x86, u64::MAX, 2);
    for (object, key) in [
        (0, 0),
        (9, 0),
        (2, 500),
        (1, 0),
        (8, 1),
        (u32::MAX, u32::MAX),
    ] {
        assert_eq!(reads(far, object, key), refused(3));
    }
    let held = Cell::Holds {
        value: 1,
        version: 1,
    };
    assert_eq!(reads(far, 2, 7), Done(held));
    assert_eq!(reads(far, 3, 7), Done(Cell::Removed { version: 0 }));
    assert_eq!(reads(far, 8, 0), Done(Cell::NeverWritten));
    assert_eq!(reads(record(2, 0, 0), 2, 7), Done(Cell::NeverWritten));
    // Rows that descend: 10 before 3, up to the count alone.
    let table = table_of(&[Row::of(3, 7, Some(1), 1), Row::of(2, 7, Some(1), 1)]);
    assert_eq!(
        read_cell(eight(), &record(2, 0, 2), &table, 9, 9),
        refused(10)
    );
    assert_eq!(
        read_cell(eight(), &record(2, 0, 1), &table, 9, 9),
        refused(3)
    );
}

#[test]
fn reading_order() {
    let log = log_of(&bench());
    let broken = damaged(&log, 3);
    for (bytes, tail, refusal) in [
        (&broken[..], 6, refused::<()>(1)),
        (&broken[..1279], 4, refused(1)),
        (&broken[..], 5, refused_at(2, 3)),
    ] {
        assert_eq!(check(eight(), bytes, tail), refusal);
        assert_eq!(owed(eight(), bytes, tail, &[0]).number(), refusal.number());
        assert_eq!(entry(eight(), bytes, tail, 9).number(), refusal.number());
        assert_eq!(
            header(eight(), bytes, tail, 0, 9).number(),
            refusal.number()
        );
        assert_eq!(items(eight(), bytes, tail, 0), []);
        assert_eq!(stretch(eight(), bytes, tail, 9).number(), refusal.number());
        let (answer, reader) = next(eight(), bytes, tail, 9, 99);
        assert_eq!((answer.number(), reader), (refusal.number(), 99));
        assert_eq!(
            list(eight(), bytes, tail, 9, &mut []).number(),
            refusal.number()
        );
    }
    // An entry below the tail is judged also above the offset asked for; nothing above the tail is.
    assert_eq!(entry(eight(), &broken, 4, 0).number(), 2);
    assert_eq!(entry(eight(), &broken, 3, 0).number(), 0);
    for offset in [5, 6, u64::MAX] {
        assert_eq!(entry(eight(), &log, 5, offset), refused(3));
        assert_eq!(header(eight(), &log, 5, offset, 0), refused(3));
        assert_eq!(items(eight(), &log, 5, offset), []);
        assert_eq!(stretch(eight(), &log, 5, offset), refused(3));
    }
    assert_eq!(header(eight(), &log, 5, 0, 1), refused(3));
    assert_eq!(header(eight(), &log, 5, 0, u32::MAX), refused(3));
    for (object, from) in [(0, 0), (9, 0), (2, 6), (2, u64::MAX), (u32::MAX, 0)] {
        assert_eq!(next(eight(), &log, 5, object, from), (refused(3), from));
    }
    let mut lent = [7; 4];
    assert_eq!(list(eight(), &log, 5, 9, &mut []), refused(3));
    assert_eq!(list(eight(), &log, 5, 2, &mut lent), refused(13));
    assert_eq!(lent, [7; 4]);
    assert_eq!(list(eight(), &log, 5, 3, &mut []), Done(0));
}

#[test]
fn audit_order() {
    let log = log_of(&[
        update(1, &[put(2, 1, 1)]),
        commit(1, &[]),
        decision(1, ABORT),
        update(0, &[put(2, 2, 2)]),
    ]);
    let broken = damaged(&log, 2);
    let mut scratch = [0xAA; 24];
    let none = record(0, 0, 0);
    assert_eq!(audit(eight(), &broken, 5, &mut scratch), (refused(1), none));
    assert_eq!(
        audit(eight(), &broken, 4, &mut scratch),
        (refused_at(2, 2), none)
    );
    assert_eq!(scratch, [0xAA; 24]);
    let (answer, left) = audit(eight(), &log, 4, &mut scratch);
    assert_eq!((answer, left), (refused_at(13, 3), record(0xFF, 3, 1)));
    let (answer, left) = audit(eight(), &log, 4, &mut [0; 48]);
    assert_eq!((answer, left), (refused_at(11, 2), record(0xFF, 4, 2)));
}

#[test]
fn the_most_slots() {
    let log = vec![0; 131_073 * SLOT];
    assert_eq!(check(eight(), &log, 0), refused(1));
    assert_eq!(check(eight(), &log[SLOT..], 0), Done(()));
    assert_eq!(check(eight(), &log[SLOT..], 1), refused_at(2, 0));
    assert_eq!(check(eight(), &log[SLOT..], 131_072), refused_at(2, 0));
    assert_eq!(check(eight(), &log[SLOT..], 131_073), refused(1));
    assert_eq!(check(eight(), &[], usize::MAX), refused(1));
    let mut empty = Vec::new();
    assert_eq!(
        append::update(eight(), &mut empty, 0, 0, &put(2, 1, 1).bytes()),
        refused(9)
    );
    assert_eq!(
        append::commit(eight(), &mut empty, 0, 1, &[], Names::NONE),
        refused(6)
    );
    assert_eq!(append::decision(eight(), &mut empty, 0, 0, 1), refused(3));
    assert_eq!(
        append::checkpoint(eight(), &mut empty, 0, &record(1, 0, 0), &[], 1),
        refused(9)
    );
}
