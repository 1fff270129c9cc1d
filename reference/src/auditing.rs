//! Stored vectors of openings at a checkpoint and of audits, with plays and cell readings after them. The cases are those
//! of `playing`, with two kinds of request more.

pub mod audits;
pub mod falsehoods;
pub mod histories;
pub mod openings;
pub mod refusals;

use crate::playing::Case;

/// All cases of auditing.
pub fn auditing() -> Vec<Case> {
    let mut cases = named();
    cases.extend(histories::cases());
    cases.extend(histories::naming());
    cases
}

/// Those with stated answers.
pub fn named() -> Vec<Case> {
    let mut cases = openings::cases();
    cases.extend(refusals::cases());
    cases.extend(audits::cases());
    cases.extend(falsehoods::cases());
    cases
}
