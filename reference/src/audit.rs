//! The audit (§11).

use crate::answer::{refuse, refuse_at, Answer, Refusal, FALSE_RECORD, NO_ROOM, WAITING};
use crate::log::pass;
use crate::replica::{Player, Record, Step, Whole};
use crate::slot::{slot_at, Kind, Slot, COMMIT};

/// What an audit found and left.
pub struct Audited {
    pub answer: Answer<()>,
    /// As played; 0, 0, 0 where directory or log is refused.
    pub record: Record,
    /// By offset: a commit record there committed.
    pub committed: Vec<bool>,
}

pub fn audit(dir: &[u8], log: &[u8], tail: usize, scratch: &mut [u8]) -> (Answer<()>, Record) {
    let audited = audit_whole(dir, log, tail, scratch);
    (audited.answer, audited.record)
}

/// Order: 15, 1, 2, 13, 11 (13.5).
pub fn audit_whole(dir: &[u8], log: &[u8], tail: usize, scratch: &mut [u8]) -> Audited {
    let mut audited = Audited {
        answer: Answer::Done(()),
        record: Record {
            hosted: 0,
            position: 0,
            count: 0,
        },
        committed: Vec::new(),
    };
    audited.answer = play_all(dir, log, tail, scratch, &mut audited).into();
    audited
}

fn play_all(
    dir: &[u8],
    log: &[u8],
    tail: usize,
    scratch: &mut [u8],
    audited: &mut Audited,
) -> Result<(), Refusal> {
    let (directory, earlier) = pass(dir, log, tail)?;
    audited.record.hosted = directory.everything();
    let mut player = Player::new(&directory, log, &earlier, &audited.record, scratch, tail);
    player.whole = Whole::noted(tail);
    let answer = play_entries(log, tail, &mut player, &mut audited.record);
    audited.record.count = player.count as u64;
    audited.committed = (0..tail).map(|at| player.whole.commits(at)).collect();
    player.settle();
    answer
}

fn play_entries(
    log: &[u8],
    tail: usize,
    player: &mut Player,
    record: &mut Record,
) -> Result<(), Refusal> {
    let mut lowest_false = None;
    for at in 0..tail {
        if lowest_false.is_none() && !as_played(log, at, player) {
            lowest_false = Some(at);
        }
        match player.step(at) {
            Step::Passed | Step::Commits | Step::Aborts => {}
            // 13 tells the entry's offset (11.2)
            Step::LacksRoom => return refuse_at(NO_ROOM, at),
            // It hosts every object, so it decides every commit record alone and never waits.
            Step::Waits => return refuse(WAITING),
        }
        record.position = at as u64 + 1;
    }
    lowest_false.map_or(Ok(()), |at| refuse_at(FALSE_RECORD, at))
}

/// Whether the entry is a false record (11.3, 11.4). The player is just below it.
fn as_played(log: &[u8], at: usize, player: &Player) -> bool {
    let slot = slot_at(log, at);
    match slot.kind() {
        Some(Kind::Decision) => {
            let verdict = slot.verdict();
            (verdict.outcome == COMMIT) == player.whole.commits(verdict.commit as usize)
        }
        Some(Kind::Checkpoint) => checkpoint_as_played(slot, player),
        _ => true,
    }
}

/// The cells that a true checkpoint has (11.4).
fn checkpoint_as_played(slot: Slot, player: &Player) -> bool {
    let object = slot.header(0).object;
    slot.item_count() == player.added_of(object)
        && slot.saved().all(|saved| {
            player.row(object, saved.key).is_some_and(|row| {
                let value = (!saved.removed()).then_some(saved.value);
                row.held() == value && row.version == saved.version()
            })
        })
}
