//! Logs of over 65,536 entries, with headers of both formats, and logs at the most slots. Few, since each call checks
//! the whole log.

use reference::append::{Request, Writer};
use reference::directory::{bytes_of, the_eight, Directory, HIGHEST_ID, HIGHEST_KEY};
use reference::log::scan;
use reference::objects::{set_of, Object, Structure};
use reference::price::list_of;
use reference::prices;
use reference::random::{put_in_order, History, Mix, Random};
use reference::replica::{version_at, Record};
use reference::sample::{commit, commit_after, put, read, table_of, update};
use reference::slot::{slot_at, Kind, Read, MOST_SLOTS, SLOT};
use reference::table::{put_row, row, rows, Row, CELL};

use crate::arguments::{self, Seen};
use crate::calls::Call;
use crate::headers::{is_bad, lists, Spot, Wrong};
use crate::pair::{Difference, Pair};

const FILLER: u32 = 8;
/// The number of the transaction whose commit record is far from its update.
const ASIDE: u32 = u32::MAX;

/// Far distances: the nearest entry of an object just within 65,535, at it, and past it.
pub fn far(pair: &mut Pair, seed: u64) -> Result<(), Difference> {
    pair.begin("far", seed);
    let mut random = Random::new(seed ^ 0x5EED_0003);
    let (mut log, tail) = grown(&mut random, seed);
    let seen = Seen {
        directory: the_eight(),
        tail,
        slots: (log.len() / SLOT) as u64,
        keys: 3,
    };
    let far = far_headers(&log, tail);
    worked(pair, &mut log, seen, &far)?;
    on_both_sides(pair, &mut random, &mut log, seen)?;
    damaged(pair, &mut random, &mut log, seen, &far)
}

/// Early entries of objects 1 to 7, a long stretch of object 8, then random appends: their nearest entries are far.
/// Offset 0 is the one early entry of its object, whose next is at 65,535 or 65,536. Offset 1 is the one of another, whose next
/// two have a header of each format. One transaction has its update early and its commit record late.
fn grown(random: &mut Random, seed: u64) -> (Vec<u8>, u64) {
    let mix = Mix {
        broken: 0,
        names: 40 * (seed % 2),
        ..Mix::true_records()
    };
    let slots = 65_560 + random.below(40) as usize;
    let mut history = History::new(seed, slots, mix);
    let lowest = 1 + seed % 7;
    let second = 1 + lowest % 7;
    let others = |random: &mut Random| 1 + (second + random.below(5)) % 7;
    let early = 7 + random.below(20);
    for at in 0..early {
        let object = match at {
            0..=6 => 1 + (at + seed) % 7,
            _ => others(random),
        };
        history.append(update(0, &[put(object as u32, 0, at as u32)]));
    }
    let aside = put(others(random) as u32, 0, 7);
    history.append(update(ASIDE, &[aside]));
    let next = 65_535 + (seed % 2) as usize;
    while history.writer.tail < 65_545 {
        let at = history.writer.tail;
        let object = match at {
            _ if at == next => lowest,
            65_543.. => second,
            65_533.. => others(random),
            _ => FILLER.into(),
        };
        history.append(update(0, &[put(object as u32, 0, at as u32)]));
    }
    history.append(commit(ASIDE, &[]));
    while history.writer.tail < slots - 4 {
        history.step();
    }
    (history.writer.log, history.writer.tail as u64)
}

/// The offset and place of each header of format 1.
fn far_headers(log: &[u8], tail: u64) -> Vec<Spot> {
    let mut far = Vec::new();
    for at in 65_536..tail as usize {
        for (place, header) in slot_at(log, at).headers().enumerate() {
            if header.format == 1 {
                far.push(Spot { at, place });
            }
        }
    }
    far
}

/// Headers, streams and appends at and past the distance.
fn worked(pair: &mut Pair, log: &mut [u8], seen: Seen, far: &[Spot]) -> Result<(), Difference> {
    let tail = seen.tail;
    for spot in far.iter().take(4) {
        let (offset, place) = (spot.at as u64, spot.place as u32);
        pair.call(log, tail, &mut Call::Header { offset, place })?;
    }
    listed(pair, log, tail)?;
    for object in [1, 4] {
        let from = 30;
        pair.call(log, tail, &mut Call::StreamNext { object, from })?;
    }
    for at in [65_534, 65_535, 65_536, 65_537] {
        let objects = [1, 2, 3, 4].map(|object| put(object, 1, 5));
        let mut copy = log.to_vec();
        let mut call = Call::Append(update(0, &objects));
        pair.call(&mut copy, at, &mut call)?;
        let mut call = Call::Header {
            offset: at,
            place: 1,
        };
        pair.call(&mut copy, at + 1, &mut call)?;
    }
    Ok(())
}

/// A play from 0 and one from the far end, an audit, and any calls.
fn on_both_sides(
    pair: &mut Pair,
    random: &mut Random,
    log: &mut [u8],
    seen: Seen,
) -> Result<(), Difference> {
    let tail = seen.tail;
    let scratch = vec![0xD5; 3000];
    pair.call(log, tail, &mut Call::Audit { scratch })?;
    for (position, stop) in [(0, 65_540), (65_540, tail)] {
        let mut call = Call::Play {
            record: Record {
                hosted: 0xFF ^ set_of(FILLER),
                position,
                count: 0,
            },
            table: vec![0xAA; 3000],
            stop,
        };
        pair.call(log, tail, &mut call)?;
    }
    for place in [0, 1, 2, 4, 12] {
        let mut call = arguments::call(random, seen, place);
        pair.call(log, tail, &mut call)?;
    }
    for kind in 0..4 {
        let request: Request = arguments::append(random, seen, kind);
        let mut copy = log.to_vec();
        pair.call(&mut copy, tail, &mut Call::Append(request))?;
    }
    commits(pair, random, log, tail)
}

/// Commits that read each object's key 0 with the version of any of its early and middle entries, the commit record of the far update
/// among them; in half of them one version is another.
fn commits(pair: &mut Pair, random: &mut Random, log: &[u8], tail: u64) -> Result<(), Difference> {
    let mut open = log.to_vec();
    let mut call = Call::Append(update(ASIDE - 1, &[put(1, 1, 1)]));
    pair.call(&mut open, tail, &mut call)?;
    let writes = |at: &usize| {
        let entry = slot_at(log, *at);
        entry.number() == 0 || entry.kind() == Some(Kind::Commit)
    };
    let streams: Vec<Vec<usize>> = (1..=8)
        .map(|object| {
            scan(log, 65_546, object)
                .into_iter()
                .filter(writes)
                .collect()
        })
        .collect();
    for _ in 0..8 {
        let mut reads: Vec<Read> = Vec::new();
        for (object, offsets) in (1..).zip(&streams) {
            let last = offsets.last().copied();
            let at = if random.percent(50) {
                last
            } else {
                random.pick(offsets)
            };
            reads.push(read(object, 0, at.map_or(0, version_at)));
        }
        if random.percent(50) {
            let version = &mut reads[random.below(8) as usize].version;
            *version = match random.below(3) {
                0 => version.saturating_sub(1),
                1 => *version + 1,
                _ => random.below(tail + 1),
            };
        }
        let mut copy = open.clone();
        let mut call = Call::Append(commit(ASIDE - 1, &reads));
        pair.call(&mut copy, tail + 1, &mut call)?;
    }
    Ok(())
}

/// Headers of both formats changed, so that their entries are bad.
fn damaged(
    pair: &mut Pair,
    random: &mut Random,
    log: &mut [u8],
    seen: Seen,
    far: &[Spot],
) -> Result<(), Difference> {
    for way in 0..7 {
        let Some(spot) = random.pick(far) else {
            return Ok(());
        };
        let wrong = wrong_far(log, seen.tail, spot, way);
        is_bad(pair, log, seen.tail, (spot, &wrong), Call::Check)?;
    }
    for (spot, wrong) in wrong_near(log, seen.tail) {
        is_bad(pair, log, seen.tail, (spot, &[wrong]), Call::Check)?;
    }
    Ok(())
}

/// Format 1 with another offset, and format 0 where 1 is due.
fn wrong_far(log: &[u8], tail: u64, spot: Spot, way: u32) -> Vec<Wrong> {
    let stored = slot_at(log, spot.at).header(spot.place).pointer;
    match way {
        0 => vec![Wrong::Offset(stored + 1)],
        1 => vec![Wrong::Offset(stored | 1 << 63)],
        2 => vec![Wrong::Offset(spot.at as u64)],
        3 => vec![Wrong::Offset(tail)],
        4 => vec![Wrong::Offset(u64::MAX)],
        5 => vec![Wrong::Offset(0), Wrong::Format],
        _ => vec![Wrong::Format, Wrong::Distance(0, 0xFFFF)],
    }
}

/// A fourth distance of 65,535 where it is past offset 0 and where it is offset 0, which is no fourth entry; and format 1 with
/// the right offset where that is near.
fn wrong_near(log: &[u8], tail: u64) -> Vec<(Spot, Wrong)> {
    let place = 0;
    let fourth = [65_534, 65_535].map(|at| (Spot { at, place }, Wrong::Distance(3, 0xFFFF)));
    let near = (65_536..tail as usize).find_map(|at| {
        let header = slot_at(log, at).header(place);
        let offset = header.back_pointers(at)[0].offset()?;
        let wrong = Wrong::Offset(offset as u64);
        (header.format == 0).then_some((Spot { at, place }, wrong))
    });
    fourth.into_iter().chain(near).collect()
}

/// The list of every object is what a scan finds, and one of them at least is told by headers of both formats.
fn listed(pair: &mut Pair, log: &mut [u8], tail: u64) -> Result<(), Difference> {
    let mut both = 0;
    for object in 1..=8 {
        let offsets = scan(log, tail as usize, object);
        lists(pair, log, tail, object, &offsets)?;
        both += u32::from(has_both_formats(log, object, &offsets));
    }
    match both {
        0 => Err(Difference("no object has both formats".to_string())),
        _ => Ok(()),
    }
}

fn has_both_formats(log: &[u8], object: u32, offsets: &[usize]) -> bool {
    let mut tells = [false; 2];
    for &at in offsets {
        let mut headers = slot_at(log, at).headers();
        if let Some(header) = headers.find(|header| header.object == object) {
            tells[header.format as usize] |= header.back_pointers(at)[0].offset().is_some();
        }
    }
    tells == [true; 2]
}

/// A table of 70,000 rows that ascend, more than there are cells, and room for one more.
fn crowded(random: &mut Random, tail: u64) -> Vec<u8> {
    let mut rows: Vec<Row> = Vec::new();
    while rows.len() < 70_000 {
        rows.extend((0..4_000).map(|_| {
            let object = random.below(11) as u32;
            let object = object + 0x8000_0000 * u32::from(random.percent(20));
            let key = random.below(20_000) as u32;
            Row::of(object, key, Some(7), random.below(tail + 1))
        }));
        put_in_order(&mut rows);
    }
    while rows.len() > 70_000 {
        rows.remove(random.below(rows.len() as u64) as usize);
    }
    let mut table = table_of(&rows);
    table.resize(70_001 * CELL, 0);
    table
}

/// Tables of many rows, most of them no cells, in order and with two rows changed about: plays, cell readings, checkpoints, the
/// audit.
pub fn large_tables(pair: &mut Pair, seed: u64) -> Result<(), Difference> {
    pair.begin("large tables", seed);
    let mut random = Random::new(seed ^ 0x5EED_0004);
    let history = History::made(seed, 60, 60, Mix::rough());
    let tail = history.writer.tail as u64;
    let mut log = history.writer.log;
    for (count, ascends) in [(3, true), (70_000, true), (70_000, false)] {
        let mut table = crowded(&mut random, tail);
        if !ascends {
            let place = random.below(69_999) as usize;
            let (one, next) = (row(&table, place), row(&table, place + 1));
            put_row(&mut table, place, next);
            put_row(&mut table, place + 1, one);
        }
        let record = |position| Record {
            hosted: 0xFF,
            position,
            count,
        };
        for stop in [tail / 2, tail] {
            let mut call = Call::Play {
                record: record(0),
                table: table.clone(),
                stop,
            };
            pair.call(&mut log, tail, &mut call)?;
        }
        for object in [1, 4, 7] {
            let (record, table) = (record(tail), table.clone());
            read_and_save(pair, &mut log, tail, record, table, object)?;
        }
        pair.call(&mut log, tail, &mut Call::Audit { scratch: table })?;
    }
    Ok(())
}

/// A cell, the prices of all cells with and without one that is missing, and a checkpoint.
fn read_and_save(
    pair: &mut Pair,
    log: &mut [u8],
    tail: u64,
    record: Record,
    table: Vec<u8>,
    object: u32,
) -> Result<(), Difference> {
    let mut call = Call::ReadCell {
        record,
        table: table.clone(),
        object,
        key: 0,
    };
    pair.call(log, tail, &mut call)?;
    let of_object = rows(&table, record.count as usize).filter(|row| row.object == object);
    let keys: Vec<u32> = of_object.map(|row| row.key).collect();
    for missing in [0, 100] {
        let list = prices::list(&mut Random::new(tail), &keys, missing);
        let mut call = Call::Price {
            record,
            table: table.clone(),
            object,
            prices: list_of(&list),
        };
        pair.call(log, tail, &mut call)?;
    }
    let mut copy = log.to_vec();
    let mut call = Call::Append(Request::Checkpoint {
        record,
        table,
        object,
    });
    pair.call(&mut copy, tail, &mut call)?;
    Ok(())
}

/// Directories other than the eight, where the library takes one: far headers of the highest id, and a map with all keys there can
/// be, of which 40,000 are written in one play.
pub fn directed(pair: &mut Pair, seed: u64) -> Result<(), Difference> {
    far_id(pair, seed)?;
    many_keys(pair, seed)?;
    many_named(pair, seed)
}

fn directory_of(highest_keys: [(u32, u32); 2]) -> Directory {
    let objects = highest_keys.map(|(id, highest_key)| Object {
        id,
        structure: Structure::Map,
        highest_key,
        marked: false,
    });
    Directory::of(&bytes_of(&objects)).expect("a directory without fault")
}

fn far_id(pair: &mut Pair, seed: u64) -> Result<(), Difference> {
    pair.begin("far id", seed);
    let directory = directory_of([(20, 9), (HIGHEST_ID, HIGHEST_KEY)]);
    pair.dir = directory.bytes();
    let mut writer = Writer::over(directory, 65_540);
    let far = |value: u32| update(0, &[put(20, 1, value), put(HIGHEST_ID, HIGHEST_KEY, value)]);
    writer.append(&far(1));
    while writer.tail < 65_535 + (seed % 2) as usize {
        writer.append(&update(0, &[put(20, 0, 1)]));
    }
    let (mut log, at) = (writer.log, writer.tail as u64);
    pair.call(&mut log, at, &mut Call::Append(far(2)))?;
    let tail = at + 1;
    pair.call(&mut log, tail, &mut Call::Check)?;
    for place in 0..3 {
        let mut call = Call::Header { offset: at, place };
        pair.call(&mut log, tail, &mut call)?;
    }
    for object in [HIGHEST_ID, HIGHEST_ID | 1 << 31] {
        let from = 1;
        pair.call(&mut log, tail, &mut Call::StreamNext { object, from })?;
    }
    lists(pair, &mut log, tail, HIGHEST_ID, &[0, at as usize])?;
    let scratch = vec![0xD5; 4 * CELL];
    pair.call(&mut log, tail, &mut Call::Audit { scratch })?;
    Ok(())
}

fn many_keys(pair: &mut Pair, seed: u64) -> Result<(), Difference> {
    pair.begin("many keys", seed);
    let mut random = Random::new(seed ^ 0x5EED_0006);
    let directory = directory_of([(3, 5), (9, HIGHEST_KEY)]);
    pair.dir = directory.bytes();
    let mut writer = Writer::over(directory, 4_000);
    while writer.tail < 4_000 {
        let value = writer.tail as u32;
        let mut writes = vec![put(3, value % 6, value)];
        writes.extend((0..10).map(|_| put(9, random.number() as u32 % u32::MAX, value)));
        writer.append(&update(0, &writes));
    }
    let (mut log, tail) = (writer.log, 4_000);
    for rows in [40_010, 39_000] {
        let scratch = vec![0xD5; rows * CELL + 5];
        pair.call(&mut log, tail, &mut Call::Audit { scratch })?;
    }
    let mut record = Record {
        hosted: 3,
        position: 0,
        count: 0,
    };
    let mut table = vec![0xAA; 40_010 * CELL];
    for stop in [1, 1 + random.below(3_000), 3_999, tail] {
        let mut call = Call::Play {
            record,
            table,
            stop,
        };
        let said = pair.call(&mut log, tail, &mut call)?;
        table = match call {
            Call::Play { table, .. } => table,
            _ => Vec::new(),
        };
        record.position = said.out[1];
        record.count = said.out[2];
    }
    for object in [3, 9] {
        read_and_save(pair, &mut log, tail, record, table.clone(), object)?;
    }
    Ok(())
}

/// Named numbers whose outcomes hang on 40,000 cells: transactions that read some of them, each with one after it that names it. Replicas
/// of everything that have none of these cells play them from any of the last entries on.
fn many_named(pair: &mut Pair, seed: u64) -> Result<(), Difference> {
    pair.begin("many named", seed);
    let mut random = Random::new(seed ^ 0x5EED_0008);
    let directory = directory_of([(3, 5), (9, HIGHEST_KEY)]);
    pair.dir = directory.bytes();
    let mut writer = Writer::over(directory, 4_080);
    let mut cells = Vec::new();
    while writer.tail < 4_000 {
        let keys: Vec<u32> = (0..11).map(|_| random.number() as u32 % u32::MAX).collect();
        let writes = keys.iter().map(|key| put(9, *key, 1)).collect::<Vec<_>>();
        cells.extend(keys.iter().map(|key| (*key, version_at(writer.tail))));
        writer.append(&update(0, &writes));
    }
    for number in 1..=20 {
        let late = cells.len() / 2 * usize::from(random.percent(70));
        let (key, version) = random.pick(&cells[late..]).unwrap_or((0, 0));
        let version = if random.percent(30) { 0 } else { version };
        let (order, delivery) = (2 * number, 2 * number + 1);
        let second = if number > 1 { delivery - 2 } else { 0 };
        let names = match random.below(3) {
            0 if second != 0 => (second, order),
            _ => (order, 0),
        };
        for request in [
            update(order, &[put(3, number % 6, order)]),
            commit(order, &[read(9, key, version)]),
            update(delivery, &[put(9, number, delivery)]),
            commit_after(delivery, &[], names.0, names.1),
        ] {
            writer.append(&request);
        }
    }
    let tail = writer.tail as u64;
    let mut log = writer.log;
    for position in [4_000, 4_001 + random.below(40), tail - 3, tail - 1] {
        let record = Record {
            hosted: 3,
            position,
            count: 0,
        };
        let mut call = Call::Play {
            record,
            table: vec![0xAA; 40 * CELL],
            stop: tail,
        };
        pair.call(&mut log, tail, &mut call)?;
    }
    let scratch = vec![0xD5; 44_100 * CELL];
    pair.call(&mut log, tail, &mut Call::Audit { scratch })?;
    Ok(())
}

/// The most slots, and one more.
pub fn most_slots(pair: &mut Pair) -> Result<(), Difference> {
    pair.begin("most slots", 0);
    for (slots, tail) in [
        (MOST_SLOTS, 0),
        (MOST_SLOTS, 1),
        (MOST_SLOTS, MOST_SLOTS as u64 + 1),
        (MOST_SLOTS + 1, 0),
        (MOST_SLOTS + 1, MOST_SLOTS as u64 + 1),
    ] {
        let mut log = vec![0; slots * SLOT];
        pair.call(&mut log, tail, &mut Call::Check)?;
        let mut call = Call::Append(update(0, &[put(2, 7, 43)]));
        pair.call(&mut log, tail, &mut call)?;
    }
    Ok(())
}
