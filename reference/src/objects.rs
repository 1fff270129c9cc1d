//! What an object is; and the eight of the depots (1.1), by which `playlog`, the stored vectors and the sample logs go.

use crate::directory::the_eight;

#[derive(Clone, Copy, Debug, PartialEq, Eq)]
pub enum Structure {
    Map,
    Register,
}

#[derive(Clone, Copy, Debug, PartialEq, Eq)]
pub struct Object {
    pub id: u32,
    pub structure: Structure,
    pub highest_key: u32,
    pub marked: bool,
}

/// The eight.
pub fn objects() -> &'static [Object] {
    the_eight().objects()
}

/// The one of the eight with that id.
pub fn object(id: u32) -> Option<&'static Object> {
    the_eight().object(id)
}

pub fn is_object(id: u32) -> bool {
    the_eight().is_object(id)
}

/// Whether it is a cell of the eight.
pub fn is_cell(id: u32, key: u32) -> bool {
    the_eight().is_cell(id, key)
}

/// The set of one of the eight; of another id, the empty set.
pub fn set_of(id: u32) -> u64 {
    the_eight().set_of(id)
}

pub fn has(set: u64, id: u32) -> bool {
    the_eight().has(set, id)
}

/// The ids of a set of the eight, ascending.
pub fn ids(set: u64) -> impl Iterator<Item = u32> {
    the_eight().ids(set)
}
