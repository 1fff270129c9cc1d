//! What *playlog* prints of its standard input.

use std::fmt::Write;

use crate::answer::{Answer, FRAME};
use crate::audit::{audit_whole, Audited};
use crate::directory::eight;
use crate::slot::{slot_at, Kind, SLOT};
use crate::table::{rows, CELL};

pub const LONGEST_INPUT: usize = 65_536;
pub const TABLE_CELLS: usize = 2_730;

/// What `playlog` prints (15.1). The audit's scratch is left as played to the tail, which is the play of all.
pub fn playlog(input: &[u8]) -> String {
    // too long (15.2)
    if input.len() > LONGEST_INPUT {
        return refusal(FRAME, None);
    }
    let tail = input.len() / SLOT;
    let mut table = vec![0; TABLE_CELLS * CELL];
    let audited = audit_whole(eight(), input, tail, &mut table);
    match audited.answer {
        Answer::Refused { number, told } => refusal(number, told),
        Answer::Done(()) => outcomes(input, tail, &audited) + &cells(&table, &audited),
    }
}

/// The line of a refusal (15.3).
fn refusal(number: u32, told: Option<u64>) -> String {
    let place = told.map_or("-".to_string(), |told| told.to_string());
    format!("refused {number} at {place}\n")
}

/// The lines of commit records (15.4).
fn outcomes(log: &[u8], tail: usize, audited: &Audited) -> String {
    let mut text = String::from("offset number outcome\n");
    for at in 0..tail {
        let slot = slot_at(log, at);
        if slot.kind() == Some(Kind::Commit) {
            let outcome = if audited.committed[at] {
                "commit"
            } else {
                "abort"
            };
            let _ = writeln!(text, "{at} {} {outcome}", slot.number());
        }
    }
    text
}

/// The lines of cells (15.4), which the table has in order.
fn cells(table: &[u8], audited: &Audited) -> String {
    let mut text = String::from("object key value version\n");
    for row in rows(table, audited.record.count as usize) {
        let value = row
            .held()
            .map_or("-".to_string(), |value| value.to_string());
        let _ = writeln!(text, "{} {} {value} {}", row.object, row.key, row.version);
    }
    text
}
