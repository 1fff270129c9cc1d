//! Directories that are changed, byte by byte and record by record, each handed to every call, with other arguments that are good or
//! would be refused too: a fault is 15 at its first place, ahead of all else.

use reference::directory::{bytes_of, eight, fault, Directory, HIGHEST_ID, HIGHEST_KEY, RECORD};
use reference::objects::{Object, Structure};
use reference::random::{junk, History, Mix, Random};
use reference::slot::SLOT;

use crate::arguments::{self, Seen};
use crate::calls::NAMES;
use crate::pair::{Difference, Pair};

/// All of them, once in a run.
pub fn faults(pair: &mut Pair, seed: u64) -> Result<(), Difference> {
    pair.begin("directories", seed);
    let mut random = Random::new(seed ^ 0x5EED_0007);
    for bytes in [eight().to_vec(), clinics(), wide()] {
        let directory = Directory::of(&bytes).expect("a directory without fault");
        let mut case = Case::new(pair, &mut random, seed, &directory);
        let [changed, cut, moved] = [changed_bytes, lengths, records].map(|made| made(&bytes));
        for dir in changed.iter().chain(&cut).chain(&moved) {
            case.every(dir)?;
        }
    }
    Ok(())
}

fn object(id: u32, highest_key: u32, structure: Structure, marked: bool) -> Object {
    Object {
        id,
        structure,
        highest_key,
        marked,
    }
}

/// The directory of two clinics: ids far apart, the highest id and the most keys.
fn clinics() -> Vec<u8> {
    bytes_of(&[
        object(10, 99, Structure::Map, false),
        object(20, 0, Structure::Register, true),
        object(HIGHEST_ID, HIGHEST_KEY, Structure::Map, false),
    ])
}

/// 64 objects of all kinds, with wide gaps between their ids.
fn wide() -> Vec<u8> {
    let all: Vec<Object> = (0..64_u32)
        .map(|place| {
            let id = 7 + 33_000_000 * place;
            match place % 4 {
                0 => object(id, HIGHEST_KEY, Structure::Map, place % 8 == 0),
                1 => object(id, 0, Structure::Register, true),
                2 => object(id, 0, Structure::Map, false),
                _ => object(id, 499, Structure::Map, true),
            }
        })
        .collect();
    bytes_of(&all)
}

/// Each byte in turn, changed in several ways. Some of them leave a directory without fault, though another one.
fn changed_bytes(bytes: &[u8]) -> Vec<Vec<u8>> {
    let mut all = Vec::new();
    for place in 0..bytes.len() {
        for change in [1, 2, 0x80, 0xFF] {
            let mut changed = bytes.to_vec();
            changed[place] ^= change;
            all.push(changed);
        }
    }
    all
}

/// Cut at each length, none at all, and with up to a record more: of zeros, of other bytes, and a good one.
fn lengths(bytes: &[u8]) -> Vec<Vec<u8>> {
    let mut all: Vec<Vec<u8>> = (0..=bytes.len())
        .filter(|length| *length < 40 || length % RECORD < 2 || *length + 20 > bytes.len())
        .map(|length| bytes[..length].to_vec())
        .collect();
    let after = bytes_of(&[object(HIGHEST_ID, 3, Structure::Map, false)]);
    for more in 1..=RECORD {
        for rest in [[0; RECORD].as_slice(), &[0x4F; RECORD], &after] {
            all.push([bytes, &rest[..more]].concat());
        }
    }
    all
}

/// Records in another order, twice, or left out; 65 of them and more, an early one of those at fault.
fn records(bytes: &[u8]) -> Vec<Vec<u8>> {
    let all: Vec<&[u8]> = bytes.chunks_exact(RECORD).collect();
    let mut changed = Vec::new();
    for place in 0..all.len() {
        let mut without = all.clone();
        without.remove(place);
        changed.push(without.concat());
        let mut twice = all.clone();
        twice.insert(place, all[place]);
        changed.push(twice.concat());
        if place > 0 {
            let mut swapped = all.clone();
            swapped.swap(place - 1, place);
            changed.push(swapped.concat());
        }
    }
    for count in [64, 65, 66, 70, 128] {
        let many: Vec<Object> = (1..=count)
            .map(|id| object(5 * id, id % 3, Structure::Map, false))
            .collect();
        let mut many = bytes_of(&many);
        changed.push(many.clone());
        changed.push([&many[..], &[0x4F]].concat());
        many[3 * RECORD + 13] = 2;
        changed.push(many);
    }
    changed
}

/// A log of a directory, and the calls on it.
struct Case<'a> {
    pair: &'a mut Pair,
    random: &'a mut Random,
    directory: &'a Directory,
    /// A good log, one that is cut within a slot, one with bytes changed, and one of no slots.
    logs: [Vec<u8>; 4],
    tail: u64,
}

impl<'a> Case<'a> {
    fn new(
        pair: &'a mut Pair,
        random: &'a mut Random,
        seed: u64,
        directory: &'a Directory,
    ) -> Case<'a> {
        let slots = 14;
        let mix = Mix::rough().over(directory, random, 8);
        let mut history = History::over(directory.clone(), seed, slots, mix);
        for _ in 0..slots - 2 {
            history.step();
        }
        let good = history.writer.log;
        let tail = history.writer.tail as u64;
        let cut = good[..good.len() - SLOT / 2].to_vec();
        let bad = junk(random, 4 * SLOT as u64);
        Case {
            pair,
            random,
            directory,
            logs: [good, cut, bad, Vec::new()],
            tail,
        }
    }

    /// Every call.
    fn every(&mut self, dir: &[u8]) -> Result<(), Difference> {
        (0..NAMES.len()).try_for_each(|place| self.call(dir.to_vec(), place))
    }

    fn call(&mut self, dir: Vec<u8>, place: usize) -> Result<(), Difference> {
        let mut log = self.logs[self.random.below(4) as usize].clone();
        let seen = Seen {
            directory: self.directory,
            tail: self.tail,
            slots: (log.len() / SLOT) as u64,
            keys: 3,
        };
        let mut call = arguments::call(self.random, seen, place);
        let tail = arguments::tail(self.random, seen);
        let due = fault(&dir);
        let said = self.pair.call_over(dir, &mut log, tail, &mut call)?;
        let told = (said.number == 15).then_some(said.out[3] as usize);
        assert_eq!(
            told, due,
            "the second implementation's 15 and the fault differ"
        );
        Ok(())
    }
}
