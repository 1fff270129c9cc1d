//! Headers that are damaged on purpose: the edges of how a header is read (4.5, 4.6).

use reference::append::Request;
use reference::bytes::{put16, put64};
use reference::header::{BackPointer, FARTHEST};
use reference::random::Random;
use reference::sample::{log_of, put, slot_mut, update};
use reference::slot::{slot_at, HEADER, HEADERS_AT, SLOT};

use crate::calls::Call;
use crate::pair::{Difference, Pair};

/// A change of one header.
#[derive(Clone, Copy, Debug)]
pub enum Wrong {
    /// The distance at a place.
    Distance(usize, u16),
    /// The format bit is the other one.
    Format,
    /// Format 1 with this offset.
    Offset(u64),
}

/// Where a header is: its entry and its place.
#[derive(Clone, Copy, Debug)]
pub struct Spot {
    pub at: usize,
    pub place: usize,
}

/// Makes the change.
pub fn make(log: &mut [u8], spot: Spot, wrong: Wrong) {
    let word = HEADERS_AT + HEADER * spot.place;
    let slot = slot_mut(log, spot.at);
    match wrong {
        Wrong::Distance(place, distance) => put16(slot, word + 4 + 2 * place, distance),
        Wrong::Format => slot[word] ^= 0x80,
        Wrong::Offset(offset) => {
            slot[word] |= 0x80;
            put64(slot, word + 4, offset);
        }
    }
}

/// A random change at an edge, of a header in use.
pub fn wrong_header(random: &mut Random, log: &mut [u8], tail: usize) {
    let used = tail.min(log.len() / SLOT);
    if used == 0 {
        return;
    }
    let at = random.below(used as u64) as usize;
    let count = slot_at(log, at).header_count().clamp(1, 4);
    let place = random.below(count as u64) as usize;
    let spot = Spot { at, place };
    let wrong = any_wrong(random, log, spot);
    make(log, spot, wrong);
}

fn any_wrong(random: &mut Random, log: &[u8], spot: Spot) -> Wrong {
    let place = random.below(4) as usize;
    let at = spot.at as u64;
    match random.below(9) {
        0 => Wrong::Distance(place, 0),
        1 => Wrong::Distance(place, at as u16),
        2 => Wrong::Distance(place, at as u16 + 1),
        3 => Wrong::Distance(place, FARTHEST as u16),
        4 => Wrong::Format,
        5 => Wrong::Offset(at),
        6 => Wrong::Offset(at.wrapping_sub(1)),
        7 => Wrong::Offset(u64::MAX),
        _ => Wrong::Offset(nearest(log, spot).unwrap_or(0)),
    }
}

/// The first offset that a header tells.
fn nearest(log: &[u8], spot: Spot) -> Option<u64> {
    let header = slot_at(log, spot.at).header(spot.place);
    match header.back_pointers(spot.at)[0] {
        BackPointer::At(offset) => Some(offset),
        BackPointer::Nothing | BackPointer::Past => None,
    }
}

/// With these changes of a header, both sides must refuse the call with 2 at its entry. The log is then as it was.
pub fn is_bad(
    pair: &mut Pair,
    log: &mut [u8],
    tail: u64,
    (spot, wrong): (Spot, &[Wrong]),
    mut call: Call,
) -> Result<(), Difference> {
    let kept = *slot_at(log, spot.at).bytes;
    for change in wrong {
        make(log, spot, *change);
    }
    let said = pair.call(log, tail, &mut call)?;
    slot_mut(log, spot.at).copy_from_slice(&kept);
    match (said.number, said.out[3]) == (2, spot.at as u64) {
        true => Ok(()),
        false => Err(Difference(format!(
            "{wrong:?} at {spot:?}: both sides answer {} and tell {}, due is 2 there",
            said.number, said.out[3]
        ))),
    }
}

/// A log that both sides must find good.
fn is_good(pair: &mut Pair, log: &mut [u8], tail: u64) -> Result<(), Difference> {
    let said = pair.call(log, tail, &mut Call::Check)?;
    match said.number {
        0 => Ok(()),
        number => Err(Difference(format!(
            "a good log of {tail} entries: the check of both sides is {number}"
        ))),
    }
}

/// The list of an object, with room for more, must be these offsets on both sides.
pub fn lists(
    pair: &mut Pair,
    log: &mut [u8],
    tail: u64,
    object: u32,
    offsets: &[usize],
) -> Result<(), Difference> {
    let list = vec![7; offsets.len() + 3];
    let mut call = Call::StreamList { object, list };
    pair.call(log, tail, &mut call)?;
    let Call::StreamList { list, .. } = call else {
        return Ok(());
    };
    let listed = list.iter().take(offsets.len()).map(|at| *at as usize);
    match listed.eq(offsets.iter().copied()) {
        true => Ok(()),
        false => Err(Difference(format!(
            "the list of object {object} is not its {} offsets on either side",
            offsets.len()
        ))),
    }
}

/// All edges on small logs, of one to four headers an entry, and on one with a distance that is the entry's offset.
pub fn worked(pair: &mut Pair, seed: u64) -> Result<(), Difference> {
    pair.begin("headers", seed);
    for headers in 1..=4 {
        let requests: Vec<Request> = (0..7).map(|at| of_objects(headers, at)).collect();
        edges(pair, log_of(&requests))?;
    }
    edges(pair, alone(5 + (seed % 60) as u32))
}

/// An update of objects 1 to so many.
fn of_objects(count: u32, value: u32) -> Request {
    let writes: Vec<_> = (1..=count).map(|object| put(object, 0, value)).collect();
    update(0, &writes)
}

/// Object 1 at offset 0 and at the last alone, so that its one distance is the last offset.
fn alone(last: u32) -> Vec<u8> {
    let between = (1..last).map(|value| update(0, &[put(8, 0, value)]));
    let mut requests = vec![of_objects(1, 0)];
    requests.extend(between);
    requests.push(of_objects(1, last));
    log_of(&requests)
}

/// Every header of a good log at every edge.
fn edges(pair: &mut Pair, mut log: Vec<u8>) -> Result<(), Difference> {
    let tail = log.len() / SLOT;
    is_good(pair, &mut log, tail as u64)?;
    for at in 0..tail {
        for place in 0..slot_at(&log, at).header_count() {
            let spot = Spot { at, place };
            for wrong in edges_of(&log, spot, tail as u64) {
                let wrong = (spot, &[wrong][..]);
                is_bad(pair, &mut log, tail as u64, wrong, Call::Check)?;
                let (object, list) = (1, vec![7; 8]);
                let call = Call::StreamList { object, list };
                is_bad(pair, &mut log, tail as u64, wrong, call)?;
            }
        }
    }
    Ok(())
}

/// A change that leaves the header as it is is not among them.
fn edges_of(log: &[u8], spot: Spot, tail: u64) -> Vec<Wrong> {
    let at = spot.at as u64;
    let header = slot_at(log, spot.at).header(spot.place);
    let mut all = vec![Wrong::Format];
    for place in 0..4 {
        let edges = [0, at as u16, at as u16 + 1, FARTHEST as u16];
        let others = edges
            .into_iter()
            .filter(|edge| *edge != header.distance(place));
        all.extend(others.map(|edge| Wrong::Distance(place, edge)));
    }
    // with the near and right offset a header of format 1 reads as the one due does where there is one earlier entry
    let near = nearest(log, spot).unwrap_or(0);
    let offsets = [near, 0, at, at.wrapping_sub(1), tail, u64::MAX];
    all.extend(offsets.map(Wrong::Offset));
    all
}
