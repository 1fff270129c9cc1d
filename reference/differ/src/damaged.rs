//! Damaged logs and junk: a grown log is changed, and every call is made on it with arguments of any kind.

use reference::bytes::{get32, put16, put32, put64};
use reference::directory::{places, Directory};
use reference::earlier::Earlier;
use reference::header::Header;
use reference::log::pass;
use reference::random::{damage, edge, junk, History, Random};
use reference::sample::{put, read, remove};
use reference::slot::{
    slot_at, write_slot, Kind, Names, Saved, Verdict, HEADER, HEADERS_AT, ITEM, ITEMS_AT, REST_AT,
    SLOT,
};

use crate::arguments::{self, Seen};
use crate::calls::NAMES;
use crate::headers::wrong_header;
use crate::histories::mix;
use crate::pair::{Difference, Pair};

/// One damaged log, with all calls that are made on it.
pub fn damaged(pair: &mut Pair, seed: u64) -> Result<(), Difference> {
    pair.begin("damaged", seed);
    let mut random = Random::new(seed ^ 0x5EED_0002);
    let directory = arguments::directory(&mut random);
    pair.dir = directory.bytes();
    let (mut log, mut seen) = grown(&mut random, &directory, seed);
    let changes = 1 + u64::from(random.percent(15)) * random.below(3);
    for _ in 0..changes {
        change(&mut random, &mut log, &mut seen);
    }
    let given = match random.percent(6) {
        true => arguments::tail(&mut random, seen),
        false => seen.tail,
    };
    let first = random.below(NAMES.len() as u64) as usize;
    for place in 0..NAMES.len() {
        let place = (first + place) % NAMES.len();
        let mut call = arguments::call(&mut random, seen, place);
        let tail = match random.percent(80) {
            true => given,
            false => arguments::tail(&mut random, seen),
        };
        let mut copy = log.clone();
        let dir = arguments::handed(&mut random, &directory);
        pair.call_over(dir, &mut copy, tail, &mut call)?;
    }
    Ok(())
}

fn grown<'a>(random: &mut Random, directory: &'a Directory, seed: u64) -> (Vec<u8>, Seen<'a>) {
    let slots = match random.below(20) {
        0..=3 => random.below(5),
        4..=17 => 4 + random.below(20),
        18 => 24 + random.below(24),
        _ => 48 + random.below(30),
    };
    // Some are written before, with astray reads.
    let mix = match random.percent(25) {
        true => mix(random, directory).before(),
        false => mix(random, directory),
    };
    let appends = slots - random.below(slots / 3 + 1);
    let mut history = History::over(directory.clone(), seed, slots as usize, mix);
    for _ in 0..appends {
        history.step();
    }
    let seen = Seen {
        directory,
        tail: history.writer.tail as u64,
        slots,
        keys: mix.keys,
    };
    (history.writer.log, seen)
}

/// One change of the log, or none, where the arguments alone are junk.
fn change(random: &mut Random, log: &mut Vec<u8>, seen: &mut Seen) {
    let tail = seen.tail as usize;
    match random.below(24) {
        0..=4 if tail > 0 => damage(random, log, tail),
        22..=23 if tail > 0 => wrong_names(random, log, tail),
        5 if tail > 1 => swap(random, log, tail),
        6 if tail > 1 => copy(random, log, tail),
        7..=9 if tail > 0 => wrong_pointer(random, seen.directory, log, tail),
        10..=11 if tail > 0 => wrong_field(random, log, tail),
        12..=15 => forge(random, log, seen),
        16..=18 => wrong_header(random, log, tail),
        19 => log.truncate(random.below(log.len() as u64 + 1) as usize),
        20 => *log = junk(random, 1100),
        _ => {}
    }
    seen.slots = (log.len() / SLOT) as u64;
}

fn slot(log: &mut [u8], at: usize) -> &mut [u8] {
    let at = at.min((log.len() / SLOT).saturating_sub(1));
    match log.get_mut(at * SLOT..at * SLOT + SLOT) {
        Some(slot) => slot,
        None => &mut [],
    }
}

fn swap(random: &mut Random, log: &mut [u8], tail: usize) {
    let (one, other) = two(random, tail);
    let first = slot(log, one).to_vec();
    let second = slot(log, other).to_vec();
    if first.len() == SLOT && second.len() == SLOT {
        slot(log, one).copy_from_slice(&second);
        slot(log, other).copy_from_slice(&first);
    }
}

fn copy(random: &mut Random, log: &mut [u8], tail: usize) {
    let (one, other) = two(random, tail);
    let first = slot(log, one).to_vec();
    if first.len() == SLOT {
        slot(log, other).copy_from_slice(&first);
    }
}

fn two(random: &mut Random, tail: usize) -> (usize, usize) {
    (
        random.below(tail as u64) as usize,
        random.below(tail as u64) as usize,
    )
}

/// A header's word or pointers.
fn wrong_pointer(random: &mut Random, directory: &Directory, log: &mut [u8], tail: usize) {
    let at = random.below(tail as u64) as usize;
    let slot = slot(log, at);
    if slot.len() < SLOT {
        return;
    }
    let count = u64::from(slot[2]).clamp(1, 4);
    let header = HEADERS_AT + HEADER * random.below(count) as usize;
    let distance = header + 4 + 2 * random.below(4) as usize;
    let stored = u16::from_be_bytes([slot[distance], slot[distance + 1]]);
    match random.below(7) {
        0 => put16(slot, distance, stored.wrapping_add(1)),
        1 => put16(slot, distance, stored.wrapping_sub(1)),
        2 => put16(slot, distance, 0),
        3 => put16(slot, distance, random.number() as u16),
        4 => slot[header] ^= 0x80,
        5 => {
            slot[header] |= 0x80;
            put64(slot, header + 4, random.below(at as u64 + 1));
        }
        _ => put32(slot, header, arguments::object(random, directory)),
    }
}

/// A count, the number, or 4 or 8 bytes of an item.
fn wrong_field(random: &mut Random, log: &mut [u8], tail: usize) {
    let at = random.below(tail as u64) as usize;
    let slot = slot(log, at);
    if slot.len() < SLOT {
        return;
    }
    let count = u64::from(slot[3]).clamp(1, 12);
    let item = ITEMS_AT + ITEM * random.below(count) as usize;
    let word = item + 4 * random.below(4) as usize;
    match random.below(8) {
        0 => slot[2] = random.below(6) as u8,
        1 => slot[3] = random.below(15) as u8,
        2 => put32(slot, 4, random.below(9) as u32),
        3 => put64(slot, item + 8, edge(random)),
        4 => put64(slot, item, random.below(tail as u64 + 1)),
        5 => put32(slot, word, edge(random) as u32),
        6 => {
            let stored = get32(slot, word);
            put32(slot, word, stored.wrapping_add(1));
        }
        _ => put32(slot, word, random.below(10) as u32),
    }
}

/// The last eight bytes: of a commit record mostly, and now and then of any entry.
fn wrong_names(random: &mut Random, log: &mut [u8], tail: usize) {
    let slots = log.len() / SLOT;
    let commits: Vec<usize> = (0..tail.min(slots))
        .filter(|&at| slot_at(log, at).kind() == Some(Kind::Commit))
        .collect();
    let at = match random.pick(&commits) {
        Some(at) if random.percent(75) => at,
        _ => random.below(tail as u64) as usize,
    };
    let slot = slot(log, at);
    if slot.len() < SLOT {
        return;
    }
    let (number, tail) = (get32(slot, 4), tail as u64);
    match random.below(4) {
        0 => {
            let at = REST_AT + random.below(8) as usize;
            slot[at] = slot[at].wrapping_add(1 + random.below(255) as u8);
        }
        1 => {
            let (first, second) = (get32(slot, REST_AT), get32(slot, REST_AT + 4));
            put32(slot, REST_AT, second);
            put32(slot, REST_AT + 4, first);
        }
        _ => {
            let names = arguments::names(random, number, tail);
            put32(slot, REST_AT, names.first);
            put32(slot, REST_AT + 4, names.second);
        }
    }
}

/// A slot with the right pointers and whatever else, at the tail or in place of an entry.
fn forge(random: &mut Random, log: &mut [u8], seen: &mut Seen) {
    let slots = log.len() / SLOT;
    let tail = seen.tail as usize;
    if slots == 0 || tail > slots {
        return;
    }
    let at = match random.percent(60) {
        true => tail.min(slots - 1),
        false => random.below(tail as u64).min(slots as u64 - 1) as usize,
    };
    let directory = seen.directory;
    let earlier = pass(&directory.bytes(), &log[..at * SLOT], at)
        .map_or(Earlier::default(), |(_, earlier)| earlier);
    let (kind, number, objects, items) = any_entry(random, directory, log, at);
    let headers: Vec<Header> = places(objects)
        .take(4)
        .map(|place| {
            let object = directory.objects()[place].id;
            Header::made(object, at, earlier.nearest(place))
        })
        .collect();
    let names = match (kind, random.percent(3)) {
        (Kind::Commit, _) | (_, true) => arguments::names(random, number, seen.tail),
        _ => Names::NONE,
    };
    write_slot(slot(log, at), kind, number, &headers, &items, names);
    seen.tail = seen.tail.max(at as u64 + 1);
}

/// An entry that may break the rules of its kind, often near to one that does not.
fn any_entry(
    random: &mut Random,
    directory: &Directory,
    log: &[u8],
    at: usize,
) -> (Kind, u32, u64, Vec<u8>) {
    let records = directory.objects().len() as u64;
    let near = random.below(at.max(1) as u64) as usize;
    let (number, objects) = match at {
        0 => (random.below(3) as u32, 1 << random.below(records)),
        _ => (
            slot_at(log, near).number(),
            objects_at(directory, log, near),
        ),
    };
    let objects = match random.below(4) {
        0 => objects ^ 1 << random.below(records),
        _ => objects,
    };
    let count = random.below(4);
    let id = || directory.ids(objects).next().unwrap_or(1);
    match random.below(4) {
        0 => (
            Kind::Update,
            number,
            objects,
            writes(random, directory, objects),
        ),
        1 => {
            let reads =
                (0..count).map(|place| read(id(), place as u32, random.below(at as u64 + 2)));
            let items = reads.flat_map(|read| read.bytes()).collect();
            (Kind::Commit, number, objects, items)
        }
        2 => {
            let verdict = Verdict {
                commit: near as u64,
                outcome: 1 + random.below(2) as u32,
                rest: u32::from(random.percent(5)),
            };
            (Kind::Decision, number, objects, verdict.bytes().to_vec())
        }
        _ => {
            let first = random.below(2) as u32;
            let saved = (0..count as u32).map(|place| {
                let value = random.percent(70).then(|| random.below(4) as u32);
                let mut saved = Saved::of(place * first, value, random.below(at as u64 + 2));
                saved.value += u32::from(random.percent(4));
                saved
            });
            let items = saved.flat_map(|saved| saved.bytes()).collect();
            let number = if random.percent(90) { 0 } else { number };
            (Kind::Checkpoint, number, directory.set_of(id()), items)
        }
    }
}

/// The header objects of a slot of any bytes.
fn objects_at(directory: &Directory, log: &[u8], at: usize) -> u64 {
    let slot = slot_at(log, at);
    match slot.header_count() <= 4 {
        true => slot
            .headers()
            .fold(0, |set, header| set | directory.set_of(header.object)),
        false => 1,
    }
}

/// A write of each of the objects, and sometimes of one more.
fn writes(random: &mut Random, directory: &Directory, objects: u64) -> Vec<u8> {
    let mut items = Vec::new();
    for object in directory.ids(objects) {
        let write = match random.below(5) {
            0 => remove(object, 0),
            _ => put(object, random.below(2) as u32, random.below(5) as u32),
        };
        items.extend(write.bytes());
    }
    if random.percent(10) {
        items.extend(put(arguments::object(random, directory), 0, 1).bytes());
    }
    items
}
