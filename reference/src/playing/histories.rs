//! Random histories from a fixed seed: a good log, a random hosted set and table, plays at older and newer tails, and
//! cells read after each.

use crate::append;
use crate::appending::junk;
use crate::directory::eight;
use crate::objects::{ids, object, set_of};
use crate::random::{History, Mix, Random};
use crate::replica::{play, Record};
use crate::slot::SLOT;

use super::{record, Case, Request};

pub fn cases() -> Vec<Case> {
    (0..40).map(|seed| history(seed, 0)).collect()
}

/// Those in which most commit records name numbers.
pub fn naming() -> Vec<Case> {
    (40..42).map(|seed| history(seed, 75)).collect()
}

/// The history's log has 8 to 16 entries and now and then a slot of junk above them.
fn history(seed: u64, names: u64) -> Case {
    let grown = grown(seed, names);
    let mut random = grown.random.clone();
    let tail = grown.writer.tail;
    let mut log = grown.writer.used().to_vec();
    if tail < 16 && random.percent(20) {
        log.extend(junk(SLOT));
    }
    let hosted = hosted(&mut random, grown.mix.objects);
    let table = junk(table_length(&mut random));
    let requests = requests(&mut random, &log, tail, (hosted, grown.mix.objects), &table);
    Case {
        name: format!("random history {seed}"),
        log,
        table,
        record: record(0, 0, 0),
        requests,
        expected: None,
    }
}

/// A log grown by random appends until it has its entries.
fn grown(seed: u64, names: u64) -> History {
    let mix = Mix {
        objects: [0xFF, 0b1_1110, 0b0001_0010, 0b0110_0110][seed as usize % 4],
        keys: 3,
        open: 2,
        false_decisions: 15,
        false_checkpoints: 20,
        stale: 20,
        names,
        ..Mix::true_records().before()
    };
    let mut history = History::new(55_000 + seed, 16, mix);
    // Mostly few: the stored bytes are bounded.
    let (some, others) = (history.random.below(9), history.random.below(9));
    let entries = 8 + some.min(others) as usize;
    while history.writer.tail < entries {
        // Fewer updates, so that there are more commit records.
        let mut request = history.request();
        if matches!(request, append::Request::Update { .. }) && history.random.percent(45) {
            request = history.request();
        }
        history.append(request);
    }
    history
}

/// Mostly some of the objects in use.
fn hosted(random: &mut Random, used: u64) -> u64 {
    let used: Vec<u32> = ids(used).collect();
    let one = set_of(random.pick(&used).unwrap_or(1));
    match random.below(4) {
        0 => 255,
        1 => one,
        _ => one | random.number() & 0xFF,
    }
}

/// Mostly room for a few cells, at times for all.
fn table_length(random: &mut Random) -> usize {
    let cells = match random.below(4) {
        0 => random.below(4),
        1 => random.below(10),
        2 => 8 + random.below(12),
        _ => 24,
    };
    (cells * 24 + random.below(24)) as usize
}

/// Opens and plays on, at a tail at or above the position; now and then a tail or stop of any value, or a fresh start.
fn requests(
    random: &mut Random,
    log: &[u8],
    tail: usize,
    (hosted, used): (u64, u64),
    table: &[u8],
) -> Vec<Request> {
    let mut table = table.to_vec();
    let mut requests = vec![Request::Open { hosted }];
    let mut at = record(hosted, 0, 0);
    let plays = 4 + random.below(5);
    for turn in 0..plays {
        let (shown, stop) = next_play(random, tail as u64, at, turn + 1 == plays);
        requests.push(Request::Play { tail: shown, stop });
        at = play(eight(), log, shown as usize, at, &mut table, stop).1;
        requests.extend(cells(random, at.hosted & used));
        if random.percent(6) {
            let hosted = self::hosted(random, used);
            requests.push(Request::Open { hosted });
            at = record(hosted, 0, 0);
        }
    }
    requests
}

fn next_play(random: &mut Random, tail: u64, at: Record, last: bool) -> (u32, u64) {
    if last {
        return (tail as u32, tail);
    }
    if random.percent(8) {
        return (random.below(tail + 3) as u32, random.below(tail + 3));
    }
    let left = tail - at.position;
    let shown = if random.percent(40) {
        tail
    } else {
        at.position + random.below(left + 1)
    };
    let stop = at.position + random.below(shown - at.position + 1);
    (shown as u32, stop)
}

/// Some cells in use, mostly of these objects.
fn cells(random: &mut Random, objects: u64) -> Vec<Request> {
    let objects: Vec<u32> = ids(objects).collect();
    (0..3 + random.below(4))
        .map(|_| {
            let id = if random.percent(10) {
                random.below(10) as u32
            } else {
                random.pick(&objects).unwrap_or(1)
            };
            let highest = object(id).map_or(2, |object| object.highest_key.min(2));
            let key = random.below(u64::from(highest) + 1) as u32;
            Request::Cell { object: id, key }
        })
        .collect()
}
