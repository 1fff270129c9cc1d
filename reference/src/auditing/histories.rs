//! Random histories from a fixed seed: audits at older and newer tails, openings at checkpoints and at other entries, plays
//! from there, and cells read after each.

use crate::appending::junk;
use crate::directory::eight;
use crate::objects::{ids, object};
use crate::playing::{record, Case, Request};
use crate::random::{History, Mix, Random};
use crate::replica::{open_at, play};
use crate::slot::{slot_at, Kind};

pub fn cases() -> Vec<Case> {
    (0..32).map(|seed| history(seed, 0)).collect()
}

/// Those in which most commit records name numbers.
pub fn naming() -> Vec<Case> {
    (32..34).map(|seed| history(seed, 75)).collect()
}

/// The history's log has 10 to 16 entries; of every four, one has no false records.
fn history(seed: u64, names: u64) -> Case {
    let grown = grown(seed, names);
    let mut random = grown.random.clone();
    let (tail, log) = (grown.writer.tail, grown.writer.used().to_vec());
    let table = junk(table_length(&mut random));
    let requests = requests(&mut random, &log, tail, &table);
    Case {
        name: format!("random audits {seed}"),
        log,
        table,
        record: record(0, 0, 0),
        requests,
        expected: None,
    }
}

fn grown(seed: u64, names: u64) -> History {
    let chance = if seed.is_multiple_of(4) { 0 } else { 30 };
    let mix = Mix {
        objects: [0b1_1110, 0b0001_0010, 0b0110_0110][seed as usize % 3],
        keys: 3,
        open: 2,
        false_decisions: chance,
        false_checkpoints: chance,
        stale: 20,
        names,
        ..Mix::true_records().before()
    };
    let mut history = History::new(77_000 + seed, 16, mix);
    let entries = 10 + history.random.below(7) as usize;
    while history.writer.tail < entries {
        history.step();
    }
    history
}

/// Mostly room for all.
fn table_length(random: &mut Random) -> usize {
    let cells = match random.below(4) {
        0 => random.below(3),
        _ => 12 + random.below(4),
    };
    (cells * 24 + random.below(24)) as usize
}

fn requests(random: &mut Random, log: &[u8], tail: usize, table: &[u8]) -> Vec<Request> {
    let whole = tail as u32;
    let mut table = table.to_vec();
    let mut requests = vec![Request::Audit { tail: whole }];
    requests.extend(cells(random, 0b0111_1110, 3));
    requests.push(Request::Audit {
        tail: random.below(tail as u64 + 2) as u32,
    });
    for offset in 0..tail as u64 {
        let checkpoint = slot_at(log, offset as usize).kind() == Some(Kind::Checkpoint);
        if !checkpoint && !random.percent(10) {
            continue;
        }
        let shown = if random.percent(60) {
            tail as u64
        } else {
            offset + random.below(tail as u64 - offset + 2)
        };
        let at = Request::OpenAt {
            tail: shown as u32,
            offset,
        };
        requests.push(at);
        let opened = open_at(eight(), log, shown as usize, offset, &mut table).done();
        if let Some(opened) = opened {
            let stop = opened.position + random.below(tail as u64 - opened.position + 1);
            requests.push(Request::Play { tail: whole, stop });
            let (_, left) = play(eight(), log, tail, opened, &mut table, stop);
            requests.extend(cells(random, left.hosted, 2));
        }
    }
    requests.push(Request::Audit { tail: whole });
    requests
}

/// Some cells of these objects.
fn cells(random: &mut Random, objects: u64, least: u64) -> Vec<Request> {
    let objects: Vec<u32> = ids(objects).collect();
    (0..least + random.below(2))
        .map(|_| {
            let id = random.pick(&objects).unwrap_or(1);
            let highest = object(id).map_or(2, |object| object.highest_key.min(2));
            let key = random.below(u64::from(highest) + 1) as u32;
            Request::Cell { object: id, key }
        })
        .collect()
}
