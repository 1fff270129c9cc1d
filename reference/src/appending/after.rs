//! Commits that name other numbers (3.12, 6.5): what may be named and what not, and where 3 comes in the order.

use crate::append::Request;
use crate::sample::*;
use crate::slot::{Names, SLOT};

use super::{astray, junk, with_junk, Asking, Case};

pub fn cases() -> Vec<Case> {
    vec![
        delivered(),
        named_and_not(),
        of_the_edges(),
        order(),
        full(),
    ]
}

/// The delivery log, append by append (16.7).
fn delivered() -> Case {
    let mut asking = Asking::on("a delivery after its order", junk(5 * SLOT), 0);
    for request in delivery() {
        asking.done(request);
    }
    asking.done(decision(3, 1));
    asking.refused(9, update(0, &[put(4, 2, 2)]));
    asking.case()
}

/// What a commit of 10 may not name: one after the other, and then what it may.
fn named_and_not() -> Case {
    let mut base = delivery()[..3].to_vec();
    for number in 11..=14 {
        base.push(update(number, &[put(4, number, 1)]));
    }
    let mut asking = Asking::on("numbers named", with_junk(&base, 6), 7);
    for (first, second) in [
        (0, 9),
        (9, 9),
        (11, 9),
        (10, 0),
        (9, 10),
        (10, 11),
        (0, 10),
        (10, 10),
        (0, u32::MAX),
        (u32::MAX, 1),
        (u32::MAX, u32::MAX),
        (1 << 31, 1 << 30),
    ] {
        asking.refused(3, commit_after(10, &[], first, second));
    }
    // One that has committed; two; one that nobody uses; one that comes later, and its own turn.
    asking.done(commit_after(10, &[], 9, 0));
    asking.done(commit_after(11, &[read(4, 2, 8)], 9, 10));
    asking.done(commit_after(12, &[], 77, u32::MAX));
    asking.done(commit_after(13, &[], 14, 0));
    asking.done(commit_after(14, &[], 12, 13));
    asking.refused(4, commit_after(14, &[], 9, 0));
    asking.refused(3, commit_after(14, &[], 14, 0));
    asking.case()
}

/// The smallest and the largest numbers, each byte of a name.
fn of_the_edges() -> Case {
    let numbers = [1, 2, 256, 1 << 31, u32::MAX - 1, u32::MAX];
    let base: Vec<Request> = numbers
        .map(|number| update(number, &[put(2, 7, 1)]))
        .to_vec();
    let mut asking = Asking::on("the edges of numbers named", with_junk(&base, 6), 6);
    asking.refused(3, commit_after(1, &[], 1, 2));
    asking.refused(3, commit_after(u32::MAX, &[], 1, u32::MAX));
    asking.refused(3, commit_after(256, &[], 256, 0));
    asking.done(commit_after(1, &[], 2, u32::MAX));
    asking.done(commit_after(2, &[], 1, 0));
    asking.done(commit_after(256, &[], 0x0102_0304, 0x0506_0708));
    asking.done(commit_after(1 << 31, &[], 255, 256));
    asking.done(commit_after(u32::MAX - 1, &[], u32::MAX, 0));
    asking.done(commit_after(u32::MAX, &[], (1 << 31) - 1, 1 << 31));
    asking.case()
}

/// 3 is ahead of 4, 6 and 16, and stays one number with other faults.
fn order() -> Case {
    let base = delivery();
    let mut asking = Asking::on("numbers named, the order", with_junk(&base, 2), 4);
    let stray = [read(4, 2, 3)];
    for (number, due) in [(9, 4), (77, 6)] {
        asking.refused(3, commit_after(number, &[], 0, 5));
        asking.refused(3, commit_after(number, &stray, number, 0));
        asking.refused(due, commit_after(number, &stray, 5, 0));
    }
    asking.refused(3, commit_after(0, &[], 0, 5));
    asking.refused(3, commit_after(0, &[], 5, 0));
    asking.done(update(11, &[put(4, 2, 2)]));
    asking.refused(3, commit_after(11, &stray, 9, 9));
    asking.ask(commit_after(11, &stray, 9, 10), astray(0));
    asking.refused(3, commit_after(11, &[read(4, 2, 6)], 9, 10));
    let cut = Request::Commit {
        number: 11,
        reads: vec![0; 15],
        names: Names::of(9, 10),
    };
    asking.refused(3, cut);
    asking.done(commit_after(11, &[read(4, 2, 4)], 9, 10));
    asking.case()
}

/// 9 is last.
fn full() -> Case {
    let mut asking = Asking::on("numbers named, no slot free", log_of(&delivery()[..3]), 3);
    asking.refused(3, commit_after(10, &[], 0, 9));
    asking.ask(commit_after(10, &[read(4, 2, 3)], 9, 0), astray(0));
    asking.refused(9, commit_after(10, &[], 9, 0));
    asking.case()
}
