//! Random histories from a fixed seed, refused requests among them.

use crate::append::Request;
use crate::random::{broken, History, Mix, Random};
use crate::slot::SLOT;

use super::{junk, Case};

pub fn cases() -> Vec<Case> {
    (0..18).map(|seed| history(seed, 0)).collect()
}

/// Those in which most commits name numbers.
pub fn naming() -> Vec<Case> {
    (18..26).map(|seed| history(seed, 75)).collect()
}

fn history(seed: u64, names: u64) -> Case {
    let mix = Mix {
        open: 2,
        astray: 100,
        names,
        ..Mix::rough()
    };
    let mut history = History::new(82_283 + seed, 0, mix);
    let slots = slots(&mut history.random);
    history.writer.log = match seed % 4 {
        0 => vec![0; slots * SLOT],
        _ => junk(slots * SLOT),
    };
    // A third start with some entries, checkpoints among them.
    if seed.is_multiple_of(3) {
        for _ in 0..2 + history.random.below(4) {
            history.step();
        }
    }
    let (log, tail) = (history.writer.log.clone(), history.writer.tail as u32);
    let first = history.appends.len();
    for _ in 0..10 + history.random.below(slots.min(16) as u64) {
        let request = next(&mut history, first);
        history.append(request);
    }
    Case {
        name: format!("random history {seed}"),
        tail,
        log,
        requests: history
            .appends
            .drain(first..)
            .map(|(request, _)| request)
            .collect(),
        expected: None,
    }
}

/// 6 to 16, mostly few: the stored bytes are bounded.
fn slots(random: &mut Random) -> usize {
    let spread = [1, 3, 5, 11][random.below(4) as usize];
    6 + random.below(spread) as usize
}

/// A request: now and then an earlier one again, or a broken one.
fn next(history: &mut History, first: usize) -> Request {
    let made = (history.appends.len() - first) as u64;
    if made > 0 && history.random.percent(15) {
        let again = first + history.random.below(made) as usize;
        return history.appends[again].0.clone();
    }
    let mut request = history.request();
    if history.random.percent(history.mix.broken) {
        let tail = history.writer.tail;
        broken(
            &history.writer.directory,
            &mut history.random,
            &mut request,
            tail,
        );
    }
    request
}
