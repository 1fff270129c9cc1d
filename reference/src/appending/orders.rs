//! Each set of refusals that one append can meet at once, from none to all: the first in its order (13.5) is

use crate::answer::{Answer, ASTRAY};
use crate::append::Request;
use crate::replica::Record;
use crate::sample::*;
use crate::slot::{ABORT, COMMIT};
use crate::table::Row;

use super::{astray, bad_entry, refused, with_junk, Asking, Case};

/// An append's order (13.5), and how to meet any of it.
struct Order {
    name: &'static str,
    /// The numbers as document 01 lists them; the first two and the last are met by the log, the others by the
    /// request.
    line: &'static [u32],
    /// A log of these entries.
    base: Vec<Request>,
    /// Of the line's places met, the request that meets them; none where they exclude each other.
    request: fn(&[bool]) -> Option<Request>,
}

pub fn cases() -> Vec<Case> {
    [
        update_order(),
        commit_order(),
        decision_order(),
        checkpoint_order(),
    ]
    .iter()
    .flat_map(order_cases)
    .collect()
}

/// A case for each log, with a request for each set of what it can meet itself, the sets with less later.
fn order_cases(order: &Order) -> Vec<Case> {
    let places = order.line.len();
    let mut cases = Vec::new();
    for by_log in (0..8).rev() {
        let (frame, bad, full) = (by_log & 1 != 0, by_log & 2 != 0, by_log & 4 != 0);
        let mut log = with_junk(&order.base, if full { 0 } else { 1 });
        if bad {
            slot_mut(&mut log, 1)[255] = 1;
        }
        if frame {
            log.push(0);
        }
        let name = format!(
            "order of {}: frame {frame}, bad {bad}, full {full}",
            order.name
        );
        let mut asking = Asking::on(&name, log, order.base.len() as u32);
        for by_request in (0..1 << (places - 3)).rev() {
            let mut met = vec![frame, bad];
            met.extend((0..places - 3).map(|place| by_request >> place & 1 != 0));
            met.push(full);
            if let Some(request) = (order.request)(&met) {
                asking.ask(request, answer(order, &met));
            }
        }
        cases.push(asking.case());
    }
    cases
}

/// The first number of the line that is met.
fn answer(order: &Order, met: &[bool]) -> Answer<usize> {
    match met.iter().position(|met| *met) {
        None => Answer::Done(order.base.len() + 1),
        Some(1) => bad_entry(1),
        Some(place) if order.line[place] == ASTRAY => astray(0),
        Some(place) => refused(order.line[place]),
    }
}

fn update_order() -> Order {
    Order {
        name: "update",
        line: &[1, 2, 3, 5, 4, 5, 9],
        base: vec![
            update(7, &[put(2, 0, 0), put(3, 0, 0), put(4, 0, 0)]),
            commit(7, &[]),
            update(8, &[put(2, 0, 0), put(3, 0, 0), put(4, 0, 0)]),
        ],
        request: |met| {
            let [_, _, field, own, closed, together, _] = met else {
                return None;
            };
            let mut writes = match (own, together) {
                (true, _) => vec![
                    put(1, 0, 1),
                    put(2, 0, 1),
                    put(3, 0, 1),
                    put(4, 0, 1),
                    put(5, 0, 1),
                ],
                (false, true) => vec![put(5, 0, 1), put(6, 0, 1)],
                (false, false) => vec![put(2, 0, 1)],
            };
            if *field {
                writes.last_mut()?.operation = 3;
            }
            let number = match (closed, together) {
                (true, _) => 7,
                (false, true) => 8,
                (false, false) => 0,
            };
            Some(update(number, &writes))
        },
    }
}

/// 4 and 6 exclude each other: a number with a commit record has an update.
fn commit_order() -> Order {
    Order {
        name: "commit",
        line: &[1, 2, 3, 4, 6, 16, 9],
        base: vec![
            update(7, &[put(2, 0, 0)]),
            commit(7, &[]),
            update(8, &[put(4, 0, 0), put(2, 0, 0)]),
        ],
        request: |met| {
            let [_, _, field, closed, empty, astray, _] = met else {
                return None;
            };
            let number = match (closed, empty) {
                (true, true) => return None,
                (true, false) => 7,
                (false, true) => 9,
                (false, false) => 8,
            };
            // to the commit record, or to an update of number 8
            let mut reads = vec![read(2, 0, if *astray { 3 } else { 2 })];
            if *field {
                reads.push(read(4, 0, 4));
            }
            Some(commit(number, &reads))
        },
    }
}

/// 7 and 8 exclude each other: what has a decision record is a commit record.
fn decision_order() -> Order {
    Order {
        name: "decision",
        line: &[1, 2, 3, 7, 8, 9],
        base: vec![
            update(7, &[put(2, 0, 0)]),
            commit(7, &[]),
            decision(1, COMMIT),
            update(8, &[put(4, 0, 0), put(2, 0, 0)]),
            commit(8, &[]),
        ],
        request: |met| {
            let [_, _, field, no_commit, decided, _] = met else {
                return None;
            };
            let offset = match (no_commit, decided) {
                (true, true) => return None,
                (true, false) => 3,
                (false, true) => 1,
                (false, false) => 4,
            };
            Some(decision(offset, if *field { 3 } else { ABORT }))
        },
    }
}

/// 10 is met by the count or, of many rows, by their order; neither excludes anything else.
fn checkpoint_order() -> Order {
    Order {
        name: "checkpoint",
        line: &[1, 2, 10, 3, 14, 13, 9],
        base: vec![
            update(7, &[put(5, 0, 0)]),
            commit(7, &[]),
            update(0, &[put(2, 0, 0)]),
        ],
        request: |met| {
            let [_, _, replica, field, behind, many, _] = met else {
                return None;
            };
            let cells = if *many { 13 } else { 1 };
            let mut rows: Vec<Row> = (0..cells).map(|key| Row::of(5, key, Some(1), 2)).collect();
            if *field {
                rows.last_mut()?.version = 4;
            }
            let disorder = *replica && *many;
            if disorder {
                rows.swap(5, 6);
            }
            Some(Request::Checkpoint {
                record: Record {
                    hosted: 0x10,
                    position: if *behind { 2 } else { 3 },
                    count: rows.len() as u64 + u64::from(*replica && !disorder),
                },
                table: table_of(&rows),
                object: 5,
            })
        },
    }
}
