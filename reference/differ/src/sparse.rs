//! Logs over a directory of 64 objects whose ids and keys are far apart. Where they are long enough, 200,000 cells are written.

use reference::append::Request;
use reference::directory::{bytes_of, Directory, HIGHEST_KEY, MOST_RECORDS};
use reference::objects::{Object, Structure};
use reference::replica::Record;
use reference::sample::{put, table_of, update, write_bytes};
use reference::slot::{Write, MOST_ITEMS};
use reference::table::Row;

use crate::workload::{Depots, Made, Used};
use crate::worst::{plain, Log};

/// Logs by their names.
pub const SPARSE: [Log; 2] = [
    plain("64 sparse ids, updates and transactions", transactions),
    plain("64 sparse ids, checkpoints", checkpoints),
];

/// Every fourth object is a large map, of which so many keys are in use: 200,000 cells together.
const LARGE: u64 = 12_500;
const LARGES: usize = MOST_RECORDS / 4;
/// As many keys of a small map as a checkpoint can have.
const SMALL: u64 = MOST_ITEMS as u64;

/// Ids spread over all that there are, ascending.
fn ids() -> Vec<u32> {
    let spread = |place: u32| (place + 1).wrapping_mul(0x9E37_79B9) & 0x7FFF_FFFF;
    let mut ids: Vec<u32> = (0..MOST_RECORDS as u32).map(spread).collect();
    ids.sort_unstable();
    ids
}

/// What is in use of the object at a place: a large map, two small ones, a register, and so on.
fn used_at(place: usize) -> Used {
    let used = |keys: u64, share: u64| Used {
        keys,
        step: (u64::from(HIGHEST_KEY) / keys) as u32,
        share,
    };
    match place % 4 {
        0 => used(LARGE, 8),
        1 | 2 => used(SMALL, 1),
        _ => used(1, 1),
    }
}

fn directory() -> Directory {
    let objects: Vec<Object> = (0..)
        .zip(ids())
        .map(|(place, id)| {
            let register = place % 4 == 3;
            Object {
                id,
                structure: match register {
                    true => Structure::Register,
                    false => Structure::Map,
                },
                highest_key: if register { 0 } else { HIGHEST_KEY },
                marked: place % 3 == 0,
            }
        })
        .collect();
    Directory::of(&bytes_of(&objects)).expect("a directory without fault")
}

/// The objects with at most 12 cells in use, by place.
fn small() -> impl Iterator<Item = (usize, u32)> {
    (0..).zip(ids()).filter(|(place, _)| place % 4 > 0)
}

/// A log that is begun: plain updates write the cells of the large maps, 12 new ones each, three of one map; at most so many updates.
fn begun(size: usize, most: usize) -> Depots {
    let used: Vec<Used> = (0..MOST_RECORDS).map(used_at).collect();
    let saved = small().map(|(_, id)| id).collect();
    let mut log = Depots::over(directory(), size, used.clone(), saved);
    let ids = ids();
    let mut written = [0; LARGES];
    let updates = (LARGES * LARGE as usize).div_ceil(MOST_ITEMS).min(most);
    for entry in 0..updates {
        let writes: Vec<Write> = (0..MOST_ITEMS)
            .map(|write| {
                let map = (4 * entry + write % 4) % LARGES;
                // 7,919 is a prime that does not divide the number of keys.
                let key = written[map] * 7_919 % LARGE;
                written[map] += 1;
                put(ids[4 * map], key as u32 * used[4 * map].step, entry as u32)
            })
            .collect();
        log.append(&update(0, &writes));
    }
    log
}

/// The log, with a number that is new, for an update of two objects.
fn made(log: Depots) -> Made {
    let ids = ids();
    let cells: u64 = (0..MOST_RECORDS).map(|place| used_at(place).keys).sum();
    Made {
        dir: log.writer.directory.bytes(),
        cells: cells as usize,
        items: write_bytes(&[put(ids[4], 7, 43), put(ids[63], 0, 1)]),
        number: log.last_number + 1,
        log: log.writer.log,
        reads: None,
        replica: None,
        prices: Vec::new(),
    }
}

/// Then entries as the depots make them.
fn transactions(size: usize) -> Made {
    let mut log = begun(size, size * 3 / 4);
    log.fill();
    made(log)
}

/// Then a plain update of all cells in use of each small object, and checkpoints of them in turn.
fn checkpoints(size: usize) -> Made {
    let mut log = begun(size, size / 2);
    let mut saved = Vec::new();
    for (place, object) in small().take(size - log.writer.tail) {
        let used = used_at(place);
        let keys: Vec<u32> = (0..used.keys).map(|key| key as u32 * used.step).collect();
        let writes: Vec<Write> = keys.iter().map(|key| put(object, *key, *key)).collect();
        log.append(&update(0, &writes));
        let version = log.writer.tail as u64;
        let row = |key: &u32| Row::of(object, *key, Some(*key), version);
        let rows: Vec<Row> = keys.iter().map(row).collect();
        saved.push((1_u64 << place, object, rows));
    }
    for (hosted, object, rows) in saved.iter().cycle() {
        if log.writer.tail == size {
            break;
        }
        let record = Record {
            hosted: *hosted,
            position: log.writer.tail as u64,
            count: rows.len() as u64,
        };
        log.append(&Request::Checkpoint {
            record,
            table: table_of(rows),
            object: *object,
        });
    }
    made(log)
}
