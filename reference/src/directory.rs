//! The directory (1.9 to 1.13): its bytes, the place at fault, its objects by place, and sets of them as numbers of 64 bits (7.2).

use std::sync::LazyLock;

use crate::answer::{refuse_at, Refusal, DIRECTORY};
use crate::bytes::{get16, get32, put32};
use crate::objects::{Object, Structure};

pub const RECORD: usize = 16;
pub const MOST_RECORDS: usize = 64;
pub const MARK: [u8; 2] = *b"OB";
pub const HIGHEST_ID: u32 = 2_147_483_647;
/// The highest key that a map can have (1.11).
pub const HIGHEST_KEY: u32 = 4_294_967_294;

const MAP: u8 = 1;
const REGISTER: u8 = 2;

/// The directory of the eight, as 1.13 prints it.
const EIGHT: [u8; 128] = *b"\
    OB\0\0\0\0\0\x01\0\0\x27\x0F\x01\x01\0\0\
    OB\0\0\0\0\0\x02\0\0\x01\xF3\x01\0\0\0\
    OB\0\0\0\0\0\x03\0\0\x01\xF3\x01\x01\0\0\
    OB\0\0\0\0\0\x04\0\0\x01\xF3\x01\x01\0\0\
    OB\0\0\0\0\0\x05\0\0\x27\x0F\x01\0\0\0\
    OB\0\0\0\0\0\x06\0\0\0\0\x02\x01\0\0\
    OB\0\0\0\0\0\x07\0\0\0\0\x02\0\0\0\
    OB\0\0\0\0\0\x08\0\0\0\0\x02\0\0\0";

/// The bytes of the directory of the eight.
pub fn eight() -> &'static [u8] {
    &EIGHT
}

/// The directory of the eight as it is read.
pub fn the_eight() -> &'static Directory {
    static READ: LazyLock<Directory> =
        LazyLock::new(|| Directory::of(eight()).expect("the eight have no fault"));
    &READ
}

/// The first place at fault (1.12). Every record that is begun is judged, and place 0 always.
pub fn fault(bytes: &[u8]) -> Option<usize> {
    let begun = bytes.len().div_ceil(RECORD).max(1);
    (0..begun).find(|&place| at_fault(bytes, place))
}

fn at_fault(bytes: &[u8], place: usize) -> bool {
    let Some(record) = whole_record(bytes, place) else {
        return true;
    };
    place >= MOST_RECORDS || !record_good(record) || !ascends(bytes, place)
}

/// The bytes of a record that is not cut.
fn whole_record(bytes: &[u8], place: usize) -> Option<&[u8]> {
    bytes.get(RECORD * place..RECORD * place + RECORD)
}

/// What a record says by itself (1.10, 1.11).
fn record_good(record: &[u8]) -> bool {
    let (id, highest) = (get32(record, 4), get32(record, 8));
    let key_good = match record[12] {
        MAP => highest <= HIGHEST_KEY,
        REGISTER => highest == 0,
        _ => false,
    };
    record[..2] == MARK
        && get16(record, 2) == 0
        && (1..=HIGHEST_ID).contains(&id)
        && key_good
        && record[13] <= 1
        && get16(record, 14) == 0
}

/// The id is above that of the place before (1.11).
fn ascends(bytes: &[u8], place: usize) -> bool {
    let id = |place: usize| get32(bytes, RECORD * place + 4);
    place == 0 || id(place - 1) < id(place)
}

/// The object of a record without fault.
fn object_in(record: &[u8]) -> Object {
    Object {
        id: get32(record, 4),
        structure: match record[12] {
            REGISTER => Structure::Register,
            _ => Structure::Map,
        },
        highest_key: get32(record, 8),
        marked: record[13] == 1,
    }
}

/// The record of an object (1.10).
pub fn record_of(object: Object) -> [u8; RECORD] {
    let mut record = [0; RECORD];
    record[..2].copy_from_slice(&MARK);
    put32(&mut record, 4, object.id);
    put32(&mut record, 8, object.highest_key);
    record[12] = match object.structure {
        Structure::Map => MAP,
        Structure::Register => REGISTER,
    };
    record[13] = u8::from(object.marked);
    record
}

/// The bytes of these objects, one record each.
pub fn bytes_of(objects: &[Object]) -> Vec<u8> {
    objects
        .iter()
        .flat_map(|object| record_of(*object))
        .collect()
}

/// A directory without fault, as it is read.
#[derive(Clone, Debug, PartialEq, Eq)]
pub struct Directory {
    objects: Vec<Object>,
    /// By place: the id; past the last record one that has no place there.
    ids: [u32; MOST_RECORDS],
    /// By place: the highest key.
    highest: [u32; MOST_RECORDS],
    /// By `mixed` id: the place that an id of the directory has, unless another is mixed alike.
    guessed: [u8; GUESSES],
}

const GUESSES: usize = 1024;

/// The place of an id where ids have no gap from 1 on.
#[inline]
fn dense(id: u32) -> usize {
    id.wrapping_sub(1) as usize % MOST_RECORDS
}

/// Spreads ids of any kind.
fn mixed(id: u32) -> usize {
    id.wrapping_mul(0x9E37_79B1) as usize >> 22
}

impl Directory {
    /// 15, with the first place at fault (13.3).
    pub fn of(bytes: &[u8]) -> Result<Directory, Refusal> {
        if let Some(place) = fault(bytes) {
            return refuse_at(DIRECTORY, place);
        }
        let mut directory = Directory {
            objects: bytes.chunks_exact(RECORD).map(object_in).collect(),
            ids: std::array::from_fn(|place| place as u32 + 2),
            highest: [0; MOST_RECORDS],
            guessed: [0; GUESSES],
        };
        for (place, object) in directory.objects.iter().enumerate() {
            directory.ids[place] = object.id;
            directory.highest[place] = object.highest_key;
            directory.guessed[mixed(object.id)] = place as u8;
        }
        Ok(directory)
    }

    pub fn bytes(&self) -> Vec<u8> {
        bytes_of(&self.objects)
    }

    /// The objects by place.
    pub fn objects(&self) -> &[Object] {
        &self.objects
    }

    /// The place of an id.
    #[inline]
    pub fn place(&self, id: u32) -> Option<usize> {
        let place = dense(id);
        match self.ids[place] == id {
            true => Some(place),
            false => self.sparse(id),
        }
    }

    /// The place guessed is mostly right; where it is not, the ids are searched.
    #[inline(never)]
    fn sparse(&self, id: u32) -> Option<usize> {
        let place = usize::from(self.guessed[mixed(id)]);
        match self.ids[place] == id {
            true => Some(place),
            false => self.ids[..self.objects.len()].binary_search(&id).ok(),
        }
    }

    pub fn object(&self, id: u32) -> Option<&Object> {
        self.place(id).map(|place| &self.objects[place])
    }

    pub fn is_object(&self, id: u32) -> bool {
        self.place(id).is_some()
    }

    /// The place of an object that has this key.
    #[inline]
    pub fn place_of_cell(&self, id: u32, key: u32) -> Option<usize> {
        let place = self.place(id)?;
        (key <= self.highest[place % MOST_RECORDS]).then_some(place)
    }

    /// Whether it is a cell of the directory (1.3).
    pub fn is_cell(&self, id: u32, key: u32) -> bool {
        self.place_of_cell(id, key).is_some()
    }

    pub fn is_marked(&self, id: u32) -> bool {
        self.object(id).is_some_and(|object| object.marked)
    }

    /// All objects as a set (7.2).
    pub fn everything(&self) -> u64 {
        u64::MAX >> (MOST_RECORDS - self.objects.len())
    }

    /// Whether a set may be hosted: it is not 0 and has no bit past the last record (7.9).
    pub fn can_host(&self, set: u64) -> bool {
        set != 0 && set & !self.everything() == 0
    }

    /// The set of one object; of an id that is not here, the empty set.
    #[inline]
    pub fn set_of(&self, id: u32) -> u64 {
        self.place(id).map_or(0, |place| 1 << place)
    }

    #[inline]
    pub fn has(&self, set: u64, id: u32) -> bool {
        set & self.set_of(id) != 0
    }

    /// The objects of a set, by place. A bit past the last record stands for none.
    pub fn objects_of(&self, set: u64) -> impl Iterator<Item = &Object> + '_ {
        places(set).filter_map(|place| self.objects.get(place))
    }

    /// The ids of a set, ascending.
    pub fn ids(&self, set: u64) -> impl Iterator<Item = u32> + '_ {
        self.objects_of(set).map(|object| object.id)
    }
}

/// The places of a set, ascending.
#[inline]
pub fn places(set: u64) -> impl Iterator<Item = usize> {
    let mut rest = set;
    std::iter::from_fn(move || {
        let lowest = rest.trailing_zeros() as usize;
        (rest != 0).then(|| {
            rest &= rest - 1;
            lowest
        })
    })
}
