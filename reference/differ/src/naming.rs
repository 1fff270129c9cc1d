//! Logs whose commits name numbers, and plays of everything on them from offset 0 and from a later entry.

use reference::replica::{play, Record};
use reference::slot::SLOT;
use reference::table::CELL;

use crate::workload::{naming, Made};
use crate::worst::{plain, Log};

/// In percent.
const CHANCE: u64 = 33;

pub const FROM_0: Log = plain("numbers named, played from offset 0", |size| {
    naming(size, CHANCE)
});

/// Of the same log, by a replica of everything that was played so far.
pub const LATER: [Log; 2] = [
    plain("numbers named, played on from entry 1", |size| {
        on_from(size, 1)
    }),
    plain("numbers named, played on from the middle", |size| {
        on_from(size, size / 2)
    }),
];

fn on_from(size: usize, position: usize) -> Made {
    let made = naming(size, CHANCE);
    let fresh = Record {
        hosted: 0xFF,
        position: 0,
        count: 0,
    };
    let mut table = vec![0; made.cells * CELL];
    let tail = made.log.len() / SLOT;
    let (_, record) = play(
        &made.dir,
        &made.log,
        tail,
        fresh,
        &mut table,
        position as u64,
    );
    table.truncate(record.count as usize * CELL);
    Made {
        replica: Some((record, table)),
        ..made
    }
}
