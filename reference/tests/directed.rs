//! The calls with directories other than the eight, and with faulty ones: 15 ahead of every other number, the clinics of 16.5,
//! 64 objects, maps with very many keys, logs of another directory.

use std::collections::{BTreeMap, BTreeSet};

use reference::answer::Answer::{self, Done, Refused};
use reference::append::{self, Request, Writer};
use reference::audit::audit;
use reference::boundary::{self, Said};
use reference::directory::{bytes_of, eight, fault, Directory, HIGHEST_ID, HIGHEST_KEY};
use reference::log::{check, entry, header, items, list, next, Reader};
use reference::objects::{Object, Structure};
use reference::price::{list_of, Price};
use reference::random::{faulty_directory, junk, Random};
use reference::replica::{open_at, open_fresh, play, play_in_place, read_cell, Record};
use reference::report::playlog;
use reference::sample::{
    bench, commit, decision, log_of, put, read, remove, table_of, update, write_bytes,
};
use reference::slot::{slot_at, Names, SLOT};
use reference::table::{row, rows, Cell, Row, CELL};

fn refused<T>(number: u32) -> Answer<T> {
    Refused { number, told: None }
}

fn refused_at<T>(number: u32, at: u64) -> Answer<T> {
    Refused {
        number,
        told: Some(at),
    }
}

fn map(id: u32, highest_key: u32) -> Object {
    Object {
        id,
        structure: Structure::Map,
        highest_key,
        marked: false,
    }
}

fn register(id: u32, marked: bool) -> Object {
    Object {
        id,
        structure: Structure::Register,
        highest_key: 0,
        marked,
    }
}

fn record(hosted: u64, position: u64, count: u64) -> Record {
    Record {
        hosted,
        position,
        count,
    }
}

/// A log of these appends over a directory, and no slot more.
fn log_over(dir: &[u8], requests: &[Request]) -> Vec<u8> {
    let mut log = vec![0; requests.len() * SLOT];
    for (at, request) in requests.iter().enumerate() {
        let answer = append::request(dir, &mut log, at, request);
        assert_eq!(answer, Done(at + 1), "{request:?}");
    }
    log
}

/// What a call may write.
#[derive(Clone, Debug, PartialEq)]
struct Lent {
    log: Vec<u8>,
    table: Vec<u8>,
    list: Vec<u32>,
}

type Made = Box<dyn Fn(&[u8], &mut Lent) -> Said>;

/// A call with arguments for which the eight give a number.
struct Try {
    call: &'static str,
    number: u32,
    /// The first three of `out` where the directory is refused.
    left: [u64; 3],
    lent: Lent,
    made: Made,
}

#[derive(Default)]
struct Tries(Vec<Try>);

impl Tries {
    fn on(
        &mut self,
        call: &'static str,
        number: u32,
        log: &[u8],
        table: &[u8],
        made: impl Fn(&[u8], &mut Lent) -> Said + 'static,
    ) -> &mut Try {
        self.0.push(Try {
            call,
            number,
            left: [0; 3],
            lent: Lent {
                log: log.to_vec(),
                table: table.to_vec(),
                list: vec![7; 2],
            },
            made: Box::new(made),
        });
        self.0.last_mut().unwrap()
    }

    /// An append at a tail.
    fn append(
        &mut self,
        call: &'static str,
        number: u32,
        log: &[u8],
        tail: usize,
        request: Request,
    ) {
        self.on(call, number, log, &[], move |dir, lent| {
            boundary::append(dir, &mut lent.log, tail, &request)
        });
    }
}

/// The bench log; one byte more; a bad entry; with a decision for entry 3; with a checkpoint of its cells.
struct Logs {
    good: Vec<u8>,
    frame: Vec<u8>,
    bad: Vec<u8>,
    decided: Vec<u8>,
    saved: Vec<u8>,
}

fn saved(key: u32) -> Row {
    Row::of(2, key, Some(42), 4)
}

fn logs() -> Logs {
    let good = log_of(&bench());
    let mut bad = good.clone();
    bad[0] = 0;
    let mut requests = bench();
    requests.push(decision(3, 1));
    let decided = log_of(&requests);
    requests[5] = by_all(2, 5, &[saved(7)]);
    Logs {
        frame: [&good[..], &[0]].concat(),
        decided,
        saved: log_of(&requests),
        bad,
        good,
    }
}

fn by_all(object: u32, position: u64, rows: &[Row]) -> Request {
    Request::Checkpoint {
        record: record(0xFF, position, rows.len() as u64),
        table: table_of(rows),
        object,
    }
}

/// Every call with every number that it can answer, but for 15.
fn tries() -> Tries {
    let mut tries = Tries::default();
    let logs = logs();
    for (number, log) in [(0, &logs.good), (1, &logs.frame), (2, &logs.bad)] {
        tries.on("check", number, log, &[], |dir, lent| {
            boundary::check(dir, &lent.log, 5)
        });
    }
    let logs_and = |three: u64| {
        [
            (0, &logs.good, 0),
            (1, &logs.frame, 0),
            (2, &logs.bad, 0),
            (3, &logs.good, three),
        ]
    };
    for (number, log, set) in logs_and(256) {
        tries.on("owed", number, log, &[], move |dir, lent| {
            boundary::owed(dir, &lent.log, 5, &[1, set.max(2)])
        });
    }
    for (number, log, offset) in logs_and(5) {
        tries.on("entry", number, log, &[], move |dir, lent| {
            boundary::entry(dir, &lent.log, 5, offset)
        });
        tries.on("items", number, log, &[], move |dir, lent| {
            boundary::items(dir, &lent.log, 5, offset)
        });
        tries.on("header", number, log, &[], move |dir, lent| {
            boundary::header(dir, &lent.log, 5, 0, offset as u32)
        });
    }
    for (number, log, from) in logs_and(6) {
        let made = tries.on("stream_next", number, log, &[], move |dir, lent| {
            boundary::stream_next(dir, &lent.log, 5, 2, from)
        });
        made.left = [0, 0, from];
    }
    for (number, log, tail, object) in [
        (0, &logs.good, 2, 2),
        (1, &logs.frame, 2, 2),
        (2, &logs.bad, 2, 2),
        (3, &logs.good, 2, 9),
        (13, &logs.good, 5, 2),
    ] {
        tries.on("stream_list", number, log, &[], move |dir, lent| {
            boundary::stream_list(dir, &lent.log, tail, object, &mut lent.list)
        });
    }
    append_tries(&mut tries, &logs);
    replica_tries(&mut tries, &logs);
    tries
}

fn append_tries(tries: &mut Tries, logs: &Logs) {
    let good = &logs.good;
    let plain = || update(0, &[put(2, 7, 1)]);
    let wide: Vec<_> = (1..=5).map(|object| put(object, 0, 1)).collect();
    for (number, log, tail, request) in [
        (0, good, 4, plain()),
        (1, &logs.frame, 4, plain()),
        (2, &logs.bad, 4, plain()),
        (3, good, 4, update(0, &[])),
        (4, good, 4, update(9, &[put(2, 7, 1)])),
        (5, good, 4, update(0, &wide)),
        (9, good, 5, plain()),
    ] {
        tries.append("append_update", number, log, tail, request);
    }
    let honest = || commit(10, &[read(2, 7, 1)]);
    for (number, log, tail, request) in [
        (0, good, 4, honest()),
        (1, &logs.frame, 4, honest()),
        (2, &logs.bad, 4, honest()),
        (3, good, 4, commit(0, &[])),
        (4, good, 4, commit(9, &[])),
        (6, good, 4, commit(11, &[])),
        (16, good, 4, commit(10, &[read(2, 7, 2)])),
        (9, &good[..4 * SLOT].to_vec(), 4, honest()),
    ] {
        tries.append("append_commit", number, log, tail, request);
    }
    for (number, log, tail, request) in [
        (0, good, 4, decision(3, 1)),
        (1, &logs.frame, 4, decision(3, 1)),
        (2, &logs.bad, 4, decision(3, 1)),
        (3, good, 4, decision(4, 1)),
        (7, good, 4, decision(0, 1)),
        (8, &logs.decided, 6, decision(3, 2)),
        (9, good, 5, decision(3, 1)),
    ] {
        tries.append("append_decision", number, log, tail, request);
    }
    let many: Vec<Row> = (0..13).map(saved).collect();
    for (number, log, tail, request) in [
        (0, good, 4, by_all(2, 4, &[saved(7)])),
        (1, &logs.frame, 4, by_all(2, 4, &[saved(7)])),
        (2, &logs.bad, 4, by_all(2, 4, &[saved(7)])),
        (10, good, 4, by_all(2, 5, &[saved(7)])),
        (3, good, 4, by_all(9, 4, &[saved(7)])),
        (14, good, 4, by_all(2, 3, &[saved(7)])),
        (13, good, 4, by_all(2, 4, &many)),
        (9, good, 5, by_all(2, 5, &[saved(7)])),
    ] {
        tries.append("append_checkpoint", number, log, tail, request);
    }
}

fn replica_tries(tries: &mut Tries, logs: &Logs) {
    let (good, log) = (&logs.good, &logs.saved);
    for (number, hosted) in [(0, 2), (10, 0), (10, 256)] {
        tries.on("open_fresh", number, &[], &[], move |dir, _| {
            boundary::open_fresh(dir, hosted)
        });
    }
    let bad = [&logs.bad[..], &log[5 * SLOT..]].concat();
    let frame = [&log[..], &[0]].concat();
    for (number, log, offset, length) in [
        (0, log, 5, CELL),
        (1, &frame, 5, CELL),
        (2, &bad, 5, CELL),
        (3, log, 0, CELL),
        (13, log, 5, CELL - 1),
    ] {
        let table = vec![0xAA; length];
        tries.on("open_checkpoint", number, log, &table, move |dir, lent| {
            boundary::open_checkpoint(dir, &lent.log, 6, offset, &mut lent.table)
        });
    }
    // A commit that reads object 2 and writes object 5 makes a replica of 5 wait.
    let waits = log_of(&[update(1, &[put(5, 1, 1)]), commit(1, &[read(2, 7, 0)])]);
    for (number, log, given, length, stop) in [
        (0, good, record(2, 0, 0), CELL, 5),
        (1, &logs.frame, record(2, 0, 0), CELL, 5),
        (2, &logs.bad, record(2, 0, 0), CELL, 5),
        (10, good, record(0, 1, 0), CELL, 5),
        (10, good, record(256, 1, 0), CELL, 5),
        (3, good, record(2, 2, 0), CELL, 6),
        (12, &waits, record(16, 0, 0), CELL, 2),
        (13, good, record(2, 0, 0), CELL - 1, 5),
    ] {
        let table = vec![0xAA; length];
        let tail = if number == 12 { 2 } else { 5 };
        let made = tries.on("play", number, log, &table, move |dir, lent| {
            boundary::play(dir, &lent.log, tail, given, &mut lent.table, stop)
        });
        made.left = [given.hosted, given.position, given.count];
    }
    for (number, given, object) in [
        (0, record(2, 9, 1), 2),
        (10, record(0, 9, 1), 2),
        (10, record(258, 9, 1), 2),
        (10, record(2, 9, 2), 2),
        (3, record(2, 9, 1), 1),
    ] {
        tries.on(
            "read_cell",
            number,
            &[],
            &table_of(&[saved(7)]),
            move |dir, lent| boundary::read_cell(dir, given, &lent.table, object, 7),
        );
    }
    for (number, given, object, key) in [
        (0, record(2, 9, 1), 2, 7),
        (10, record(0, 9, 1), 2, 7),
        (10, record(258, 9, 1), 2, 7),
        (10, record(2, 9, 2), 2, 7),
        (3, record(2, 9, 1), 1, 7),
        (3, record(32, 9, 1), 6, 7),
        (19, record(2, 9, 1), 2, 8),
    ] {
        let prices = list_of(&[Price {
            key,
            cents: 5,
            from: 0,
            percent: 0,
        }]);
        let table = table_of(&[saved(7)]);
        tries.on("price", number, &[], &table, move |dir, lent| {
            boundary::price(dir, given, &lent.table, object, &prices)
        });
    }
    let mut requests = bench();
    requests.push(decision(3, 2));
    let untrue = log_of(&requests);
    for (number, log, tail, length) in [
        (0, good, 5, CELL),
        (1, &logs.frame, 5, CELL),
        (2, &logs.bad, 5, CELL),
        (11, &untrue, 6, CELL),
        (13, good, 5, CELL - 1),
    ] {
        let table = vec![0xAA; length];
        tries.on("audit", number, log, &table, move |dir, lent| {
            boundary::audit(dir, &lent.log, tail, &mut lent.table)
        });
    }
}

/// The order of 13.5, without 15.
const NUMBERS: [(&str, &[u32]); 17] = [
    ("check", &[0, 1, 2]),
    ("owed", &[0, 1, 2, 3]),
    ("entry", &[0, 1, 2, 3]),
    ("header", &[0, 1, 2, 3]),
    ("items", &[0, 1, 2, 3]),
    ("stream_next", &[0, 1, 2, 3]),
    ("stream_list", &[0, 1, 2, 3, 13]),
    ("append_update", &[0, 1, 2, 3, 4, 5, 9]),
    ("append_commit", &[0, 1, 2, 3, 4, 6, 9, 16]),
    ("append_decision", &[0, 1, 2, 3, 7, 8, 9]),
    ("append_checkpoint", &[0, 1, 2, 3, 9, 10, 13, 14]),
    ("open_fresh", &[0, 10]),
    ("open_checkpoint", &[0, 1, 2, 3, 13]),
    ("play", &[0, 1, 2, 3, 10, 12, 13]),
    ("read_cell", &[0, 3, 10]),
    ("audit", &[0, 1, 2, 11, 13]),
    ("price", &[0, 3, 10, 19]),
];

#[test]
fn a_faulty_directory_is_15_ahead_of_every_number_in_every_call() {
    let mut met: BTreeMap<&str, BTreeSet<u32>> = BTreeMap::new();
    let mut random = Random::new(15);
    let mut faulty: Vec<(Vec<u8>, u64)> = vec![
        (Vec::new(), 0),
        (eight()[..5].to_vec(), 0),
        (eight()[..127].to_vec(), 7),
        ([eight(), &[0x4F]].concat(), 8),
    ];
    for _ in 0..60 {
        let dir = faulty_directory(&mut random);
        let place = fault(&dir).unwrap() as u64;
        faulty.push((dir, place));
    }
    for Try {
        call,
        number,
        left,
        lent,
        made,
    } in tries().0
    {
        let said = made(eight(), &mut lent.clone());
        assert_eq!(said.number, number, "{call} with the eight: {said:?}");
        met.entry(call).or_default().insert(number);
        for (dir, place) in &faulty {
            let mut after = lent.clone();
            let said = made(dir, &mut after);
            let due = [left[0], left[1], left[2], *place, 0, 0, 0, 0];
            assert_eq!((said.number, said.out), (15, due), "{call}, else {number}");
            assert_eq!(after, lent, "{call}, else {number}: nothing is changed");
        }
    }
    for (call, numbers) in NUMBERS {
        let due: BTreeSet<u32> = numbers.iter().copied().collect();
        assert_eq!(met[call], due, "{call}");
    }
}

/// The forms that the C interface does not have.
#[test]
fn a_faulty_directory_leaves_reader_items_and_a_record_in_place() {
    let log = log_of(&bench());
    let cut = &eight()[..127];
    let mut reader = Reader { log: &log, next: 3 };
    assert_eq!(reader.read(cut, 5, 2), refused_at(15, 7));
    assert_eq!(reader.next, 3);
    assert_eq!(reader.read(eight(), 5, 2), Done(Some(3)));
    assert_eq!(items(cut, &log, 5, 0), []);
    assert_eq!(items(eight(), &log, 5, 0).len(), 16);
    let mut at = record(2, 1, 0);
    let mut table = vec![0xAA; CELL];
    assert_eq!(
        play_in_place(cut, &log, 5, &mut at, &mut table, 5),
        refused_at(15, 7)
    );
    assert_eq!((at, table), (record(2, 1, 0), vec![0xAA; CELL]));
}

/// Any bytes as a directory end in an answer, which is 15 exactly where there is a fault.
#[test]
fn any_bytes_are_a_directory_or_15() {
    let log = log_of(&bench());
    let mut random = Random::new(99);
    for _ in 0..3000 {
        let dir = match random.below(3) {
            0 => junk(&mut random, 200),
            _ => faulty_directory(&mut random),
        };
        let place = fault(&dir).unwrap() as u64;
        assert_eq!(check(&dir, &log, 5), refused_at(15, place));
        assert_eq!(open_fresh(&dir, random.number()), refused_at(15, place));
    }
}

/// 16.5.
fn clinics() -> Vec<u8> {
    let words: [u32; 12] = [
        0x4F42_0000,
        0x0000_000A,
        0x0000_0063,
        0x0100_0000,
        0x4F42_0000,
        0x0000_0014,
        0x0000_0000,
        0x0201_0000,
        0x4F42_0000,
        0x7FFF_FFFF,
        0xFFFF_FFFE,
        0x0100_0000,
    ];
    words.iter().flat_map(|word| word.to_be_bytes()).collect()
}

#[test]
fn the_clinics() {
    let dir = clinics();
    let objects = [
        map(10, 99),
        register(20, true),
        map(HIGHEST_ID, HIGHEST_KEY),
    ];
    assert_eq!(Directory::of(&dir).unwrap().objects(), objects);
    for hosted in [4, 7] {
        assert_eq!(open_fresh(&dir, hosted), Done(record(hosted, 0, 0)));
    }
    for hosted in [8, 0, 9, 1 << 63, u64::MAX] {
        assert_eq!(open_fresh(&dir, hosted), refused(10), "{hosted}");
    }
    let mut log = vec![0; SLOT];
    let far = put(HIGHEST_ID, HIGHEST_KEY, 5);
    for write in [
        put(HIGHEST_ID, u32::MAX, 5),
        put(1, 0, 5),
        put(2_147_483_658, 0, 5),
        put(u32::MAX, 0, 5),
        put(20, 1, 5),
        put(10, 100, 5),
        put(0, 0, 5),
    ] {
        let answer = append::update(&dir, &mut log, 0, 0, &write.bytes());
        assert_eq!(answer, refused(3), "{write:?}");
    }
    assert_eq!(append::update(&dir, &mut log, 0, 0, &far.bytes()), Done(1));
    assert_eq!(log[8..12], [0x7F, 0xFF, 0xFF, 0xFF]);
    let told = header(&dir, &log, 1, 0, 0).done().unwrap();
    assert_eq!((told.object, told.format, told.pointer), (HIGHEST_ID, 0, 0));
    // a hosted set of the last alone
    let mut table = vec![0; 2 * CELL];
    let (answer, left) = play(&dir, &log, 1, record(4, 0, 0), &mut table, 1);
    assert_eq!((answer, left), (Done(()), record(4, 1, 1)));
    assert_eq!(row(&table, 0), Row::of(HIGHEST_ID, HIGHEST_KEY, Some(5), 1));
    let read = |hosted, object, key| read_cell(&dir, &record(hosted, 1, 1), &table, object, key);
    let value = Cell::Holds {
        value: 5,
        version: 1,
    };
    assert_eq!(read(4, HIGHEST_ID, HIGHEST_KEY), Done(value));
    assert_eq!(read(4, HIGHEST_ID, 0), Done(Cell::NeverWritten));
    assert_eq!(read(4, HIGHEST_ID, u32::MAX), refused(3));
    assert_eq!(read(4, 10, 0), refused(3), "not hosted");
    assert_eq!(read(7, 10, 0), Done(Cell::NeverWritten));
    assert_eq!(read(7, 10, 100), refused(3));
    assert_eq!(read(12, HIGHEST_ID, 0), refused(10));
    let (answer, left) = audit(&dir, &log, 1, &mut table);
    assert_eq!((answer, left), (Done(()), record(7, 1, 1)));
    // the bench log is of another directory
    let other = log_of(&bench());
    assert_eq!(check(&dir, &other, 5), refused_at(2, 0));
    assert_eq!(check(eight(), &log, 1), refused_at(2, 0));
    assert_eq!(
        audit(&dir, &other, 5, &mut table),
        (refused_at(2, 0), record(0, 0, 0))
    );
}

/// Header words of format 1: the highest id has all bits set.
#[test]
fn the_clinics_far_headers() {
    let mut writer = Writer::over(Directory::of(&clinics()).unwrap(), 65_540);
    assert!(writer
        .append(&update(0, &[put(HIGHEST_ID, 3, 1)]))
        .is_done());
    while writer.tail < 65_536 {
        assert!(writer.append(&update(0, &[put(20, 0, 1)])).is_done());
    }
    let both = [put(HIGHEST_ID, 3, 2), put(10, 1, 1)];
    assert_eq!(writer.append(&update(0, &both)), Done(65_537));
    let slot = slot_at(&writer.log, 65_536);
    assert_eq!(slot.bytes[8..12], [0, 0, 0, 10]);
    assert_eq!(slot.bytes[20..24], [0xFF; 4]);
    assert_eq!(slot.bytes[24..32], [0; 8], "offset 0");
    let (dir, log) = (clinics(), &writer.log);
    assert_eq!(check(&dir, log, 65_537), Done(()));
    let mut lent = [7; 3];
    assert_eq!(list(&dir, log, 65_537, HIGHEST_ID, &mut lent), Done(2));
    assert_eq!(lent, [0, 65_536, 7]);
    assert_eq!(next(&dir, log, 65_537, HIGHEST_ID, 1).0, Done(Some(65_536)));
    assert_eq!(list(&dir, log, 65_537, u32::MAX, &mut lent), refused(3));
}

/// Ids far apart; an update of five objects is 5, and so is one whose transaction has five.
#[test]
fn sparse_ids() {
    let objects = [
        map(7, 9),
        map(1000, 9),
        map(5000, 9),
        map(6000, 9),
        map(HIGHEST_ID, 9),
    ];
    let dir = bytes_of(&objects);
    let all = objects.map(|object| put(object.id, 1, 1));
    let mut log = vec![0; 3 * SLOT];
    assert_eq!(
        append::update(&dir, &mut log, 0, 0, &write_bytes(&all)),
        refused(5)
    );
    assert_eq!(
        append::update(&dir, &mut log, 0, 8, &write_bytes(&all[1..])),
        Done(1)
    );
    assert_eq!(
        append::update(&dir, &mut log, 1, 8, &write_bytes(&all[..1])),
        refused(5)
    );
    assert_eq!(
        append::update(&dir, &mut log, 1, 8, &write_bytes(&all[1..3])),
        Done(2)
    );
    let headers: Vec<u32> = slot_at(&log, 0)
        .headers()
        .map(|header| header.object)
        .collect();
    assert_eq!(headers, [1000, 5000, 6000, HIGHEST_ID]);
    assert_eq!(
        append::commit(&dir, &mut log, 2, 8, &[], Names::NONE),
        Done(3)
    );
    // hosted by place, not by id
    for (place, rows) in [(0, 0), (1, 1), (2, 1), (3, 1), (4, 1)] {
        let mut table = vec![0; 4 * CELL];
        let (answer, left) = play(&dir, &log, 3, record(1 << place, 0, 0), &mut table, 3);
        assert_eq!((answer, left.count), (Done(()), rows), "place {place}");
    }
    for object in [0, 1, 2, 5, 6, 8, 999, 1001, 1007, 1 << 31 | 7] {
        assert_eq!(next(&dir, &log, 3, object, 0).0, refused(3), "{object}");
        assert_eq!(list(&dir, &log, 3, object, &mut []), refused(3));
    }
}

/// 64 objects, all hosted.
#[test]
fn sixty_four_objects() {
    let objects: Vec<Object> = (0..64).map(|place| map(3 * place + 2, place)).collect();
    let dir = bytes_of(&objects);
    let mut requests: Vec<Request> = objects
        .iter()
        .map(|object| update(0, &[put(object.id, object.highest_key, object.id)]))
        .collect();
    requests.push(update(5, &[put(2, 0, 1), put(191, 62, 1)]));
    let reads = [2, 95, 191].map(|id| {
        let place = (id - 2) / 3;
        read(id, place, u64::from(place) + 1)
    });
    requests.push(commit(5, &reads));
    let log = log_over(&dir, &requests);
    let tail = requests.len();
    let fresh = open_fresh(&dir, u64::MAX).done().unwrap();
    let mut table = vec![0; 70 * CELL];
    let (answer, left) = play(&dir, &log, tail, fresh, &mut table, tail as u64);
    assert_eq!((answer, left), (Done(()), record(u64::MAX, 66, 65)));
    let cells: Vec<(u32, u32)> = rows(&table, 65).map(|row| (row.object, row.key)).collect();
    assert!(cells.is_sorted());
    assert_eq!(cells[63..], [(191, 62), (191, 63)]);
    let mut scratch = vec![0; 70 * CELL];
    assert_eq!(audit(&dir, &log, tail, &mut scratch), (Done(()), left));
    assert_eq!(scratch, table);
    // the last alone does not know the others' versions
    let (answer, left) = play(&dir, &log, tail, record(1 << 63, 0, 0), &mut table, 66);
    assert_eq!((answer, left), (refused(12), record(1 << 63, 65, 1)));
    // a checkpoint of the last, and a replica opened at it
    let mut longer = [&log[..], &[0; SLOT]].concat();
    let last = record(u64::MAX, 66, 65);
    let answer = append::checkpoint(&dir, &mut longer, tail, &last, &scratch, 191);
    assert_eq!(answer, Done(67));
    let mut table = vec![0; 2 * CELL];
    let opened = open_at(&dir, &longer, 67, 66, &mut table);
    assert_eq!(opened, Done(record(1 << 63, 67, 2)));
    // with 63 records the highest bit is past the last, and the log is of another directory
    let fewer = &dir[..63 * 16];
    assert_eq!(open_fresh(fewer, u64::MAX), refused(10));
    assert_eq!(
        open_fresh(fewer, u64::MAX >> 1),
        Done(record(u64::MAX >> 1, 0, 0))
    );
    assert_eq!(check(fewer, &log, tail), refused_at(2, 63));
    assert_eq!(check(fewer, &log, 63), Done(()));
}

/// Two maps have the same keys.
#[test]
fn two_maps_with_the_same_keys_in_one_table() {
    let dir = bytes_of(&[map(4, HIGHEST_KEY), map(1 << 30, HIGHEST_KEY)]);
    let keys = [HIGHEST_KEY, 0, 77, 1 << 31, 70_000];
    let mut requests: Vec<Request> = Vec::new();
    for (at, key) in keys.into_iter().enumerate() {
        let at = at as u32;
        requests.push(update(0, &[put(1 << 30, key, 100 + at), put(4, key, at)]));
    }
    requests.push(update(0, &[remove(4, 77)]));
    let log = log_over(&dir, &requests);
    let mut table = vec![0; 10 * CELL];
    let (answer, left) = play(&dir, &log, 6, record(3, 0, 0), &mut table, 6);
    assert_eq!((answer, left), (Done(()), record(3, 6, 10)));
    let due = |id: u32, more: u32| {
        let place = |key: u32| keys.iter().position(|other| *other == key).unwrap() as u32;
        [0, 77, 70_000, 1 << 31, HIGHEST_KEY].map(|key| {
            let removed = (id, key) == (4, 77);
            let value = (!removed).then_some(place(key) + more);
            let version = if removed {
                6
            } else {
                u64::from(place(key)) + 1
            };
            Row::of(id, key, value, version)
        })
    };
    let found: Vec<Row> = rows(&table, 10).collect();
    assert_eq!(found, [due(4, 0), due(1 << 30, 100)].concat());
    // one of them alone
    let mut table = vec![0; 5 * CELL];
    let (answer, left) = play(&dir, &log, 6, record(2, 0, 0), &mut table, 6);
    assert_eq!((answer, left), (Done(()), record(2, 6, 5)));
    assert_eq!(rows(&table, 5).collect::<Vec<Row>>(), due(1 << 30, 100));
    let mut table = vec![0; 9 * CELL];
    let (answer, left) = play(&dir, &log, 6, record(3, 0, 0), &mut table, 6);
    assert_eq!((answer, left), (refused(13), record(3, 4, 8)));
}

/// A map with all keys there can be, of which 40,000 are written in one play, in no order; beside a small one.
#[test]
fn a_map_with_very_many_keys() {
    let directory = Directory::of(&bytes_of(&[map(3, 5), map(9, HIGHEST_KEY)])).unwrap();
    let dir = directory.bytes();
    let key = |number: u32| HIGHEST_KEY - number.wrapping_mul(2_654_435_761) % 4_294_967_291;
    let mut writer = Writer::over(directory, 4_002);
    let mut cells = BTreeMap::new();
    for entry in 0..4_000 {
        let mut writes = vec![put(3, entry % 6, entry)];
        cells.insert((3, entry % 6), (entry, u64::from(entry) + 1));
        for place in 0..10 {
            let key = key(10 * entry + place);
            writes.push(put(9, key, place));
            cells.insert((9, key), (place, u64::from(entry) + 1));
        }
        assert!(writer.append(&update(0, &writes)).is_done());
    }
    assert_eq!(cells.len(), 40_006);
    let due: Vec<Row> = cells
        .iter()
        .map(|(cell, held)| Row::of(cell.0, cell.1, Some(held.0), held.1))
        .collect();
    let (log, tail) = (&writer.log, writer.tail);
    let mut table = vec![0xEE; 40_006 * CELL + 5];
    let (answer, left) = play(&dir, log, tail, record(3, 0, 0), &mut table, 4_000);
    assert_eq!((answer, left), (Done(()), record(3, 4_000, 40_006)));
    assert!(rows(&table, 40_006).eq(due.iter().copied()));
    assert_eq!(table[40_006 * CELL..], [0xEE; 5]);
    // in instalments, and with one row too few
    let mut parts = vec![0xEE; 40_006 * CELL + 5];
    let mut at = record(3, 0, 0);
    for stop in [1, 700, 3_999, 4_000] {
        let (answer, left) = play(&dir, log, tail, at, &mut parts, stop);
        assert_eq!(answer, Done(()));
        at = left;
    }
    assert!(at == left && parts == table);
    let mut scratch = vec![0; 40_006 * CELL - 1];
    let (answer, left) = audit(&dir, log, tail, &mut scratch);
    assert_eq!((answer, left.position), (refused_at(13, 3_999), 3_999));
    for (object, key) in [(9, key(0)), (9, key(39_999)), (3, 5)] {
        let (value, version) = cells[&(object, key)];
        let shown = read_cell(&dir, &at, &table, object, key);
        assert_eq!(shown, Done(Cell::Holds { value, version }));
    }
    // its 40,000 cells are too many for a checkpoint, the other's are not
    let mut longer = log.clone();
    let answer = append::checkpoint(&dir, &mut longer, tail, &at, &table, 9);
    assert_eq!(answer, refused(13));
    let answer = append::checkpoint(&dir, &mut longer, tail, &at, &table, 3);
    assert_eq!(answer, Done(4_001));
    let mut scratch = table.clone();
    assert_eq!(audit(&dir, &longer, 4_001, &mut scratch).0, Done(()));
}

/// An entry is judged by the directory that is handed over: objects and keys that are not there are bad entries, in a call's
/// field 3, in a counted row nothing.
#[test]
fn logs_and_tables_of_another_directory() {
    let wide = bytes_of(&[map(2, 499), map(5, 9999)]);
    let low = bytes_of(&[map(2, 499), map(5, 8)]);
    let without = bytes_of(&[map(2, 499)]);
    let requests = [
        update(0, &[put(2, 7, 1)]),
        update(1, &[put(2, 8, 1)]),
        commit(1, &[read(5, 9, 0)]),
        update(0, &[put(5, 9, 1)]),
    ];
    let log = log_over(&wide, &requests);
    assert_eq!(check(&wide, &log, 4), Done(()));
    assert_eq!(
        check(eight(), &log, 4),
        Done(()),
        "the bytes do not tell a directory"
    );
    for other in [&low, &without] {
        assert_eq!(check(other, &log, 2), Done(()));
        assert_eq!(check(other, &log, 4), refused_at(2, 2), "a read");
        assert_eq!(entry(other, &log, 4, 0), refused_at(2, 2));
    }
    let log = log_over(
        &wide,
        &[
            update(0, &[put(5, 9, 1)]),
            by(2, 5, 1, &[Row::of(5, 9, Some(1), 1)]),
        ],
    );
    assert_eq!(check(&low, &log, 1), refused_at(2, 0), "a write");
    let log = log_over(
        &wide,
        &[
            update(0, &[put(5, 8, 1)]),
            by(2, 5, 1, &[Row::of(5, 9, Some(1), 1)]),
        ],
    );
    assert_eq!(check(&low, &log, 2), refused_at(2, 1), "a saved cell");
    assert_eq!(check(&without, &log, 1), refused_at(2, 0), "a header");
    // an empty checkpoint has its object in the header alone
    let log = log_over(&wide, &[by(2, 5, 0, &[])]);
    assert_eq!(check(&low, &log, 1), Done(()));
    assert_eq!(check(&without, &log, 1), refused_at(2, 0));
    // rows of what is no cell stay as they are
    let odd = [Row::of(5, 9, Some(3), 99), Row::of(6, 0, None, 1)];
    let mut table = table_of(&odd);
    table.extend([0; CELL]);
    let log = log_over(&low, &[update(0, &[put(5, 8, 4)])]);
    let (answer, left) = play(&low, &log, 1, record(2, 0, 2), &mut table, 1);
    assert_eq!((answer, left), (Done(()), record(2, 1, 3)));
    assert_eq!(
        rows(&table, 3).collect::<Vec<Row>>(),
        [Row::of(5, 8, Some(4), 1), odd[0], odd[1]]
    );
    assert_eq!(read_cell(&low, &left, &table, 5, 9), refused(3));
    let mut longer = [&log[..], &[0; SLOT]].concat();
    let answer = append::checkpoint(&low, &mut longer, 1, &left, &table, 5);
    assert_eq!(
        answer,
        refused(3),
        "a checkpoint of its object judges the row"
    );
}

/// A checkpoint by a replica of one place.
fn by(hosted: u64, object: u32, position: u64, rows: &[Row]) -> Request {
    Request::Checkpoint {
        record: record(hosted, position, rows.len() as u64),
        table: table_of(rows),
        object,
    }
}

#[test]
fn playlog_keeps_the_eight() {
    let nine = bytes_of(&[map(2, 499), map(9, 9)]);
    let log = log_over(&nine, &[update(0, &[put(9, 1, 1)])]);
    assert_eq!(playlog(&log), "refused 2 at 0\n");
    let log = log_over(&nine, &[update(0, &[put(2, 7, 43)])]);
    let printed = "offset number outcome\nobject key value version\n2 7 43 1\n";
    assert_eq!(playlog(&log), printed);
}
