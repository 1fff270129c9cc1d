//! Answers: done, or refused with a number and what is told (§13).

pub const FRAME: u32 = 1;
pub const BAD_ENTRY: u32 = 2;
pub const BAD_REQUEST: u32 = 3;
pub const CLOSED: u32 = 4;
pub const WIDE: u32 = 5;
pub const EMPTY: u32 = 6;
pub const NO_COMMIT: u32 = 7;
pub const DECIDED: u32 = 8;
pub const FULL: u32 = 9;
pub const BAD_REPLICA: u32 = 10;
pub const FALSE_RECORD: u32 = 11;
pub const WAITING: u32 = 12;
pub const NO_ROOM: u32 = 13;
pub const BEHIND: u32 = 14;
pub const DIRECTORY: u32 = 15;
pub const ASTRAY: u32 = 16;
pub const NO_PRICE: u32 = 19;

/// What a call answers.
#[derive(Clone, Copy, Debug, PartialEq, Eq)]
pub enum Answer<T> {
    Done(T),
    /// An offset is told by 2, by 11 and by the audit's 13, a place in the directory by 15, one in the read set by 16, a key by 19;
    /// nothing by the others (13.1).
    Refused {
        number: u32,
        told: Option<u64>,
    },
}

/// A refusal on its way out of a call.
#[derive(Clone, Copy, Debug, PartialEq, Eq)]
pub struct Refusal {
    pub number: u32,
    pub told: Option<u64>,
}

/// Refuses with a number alone.
pub fn refuse<T>(number: u32) -> Result<T, Refusal> {
    Err(Refusal { number, told: None })
}

/// Refuses with a number and what it tells.
pub fn refuse_at<T>(number: u32, at: usize) -> Result<T, Refusal> {
    Err(Refusal {
        number,
        told: Some(at as u64),
    })
}

/// Refuses with a number where the condition holds.
pub fn refuse_if(condition: bool, number: u32) -> Result<(), Refusal> {
    if condition {
        refuse(number)
    } else {
        Ok(())
    }
}

impl<T> From<Result<T, Refusal>> for Answer<T> {
    fn from(result: Result<T, Refusal>) -> Answer<T> {
        match result {
            Ok(value) => Answer::Done(value),
            Err(Refusal { number, told }) => Answer::Refused { number, told },
        }
    }
}

impl<T> Answer<T> {
    pub fn is_done(&self) -> bool {
        matches!(self, Answer::Done(_))
    }

    /// 0 where done, else document 01's number.
    pub fn number(&self) -> u32 {
        match self {
            Answer::Done(_) => 0,
            Answer::Refused { number, .. } => *number,
        }
    }

    pub fn done(self) -> Option<T> {
        match self {
            Answer::Done(value) => Some(value),
            Answer::Refused { .. } => None,
        }
    }

    /// What is done, or `refused N at K`, with K what is told or "-".
    pub fn shown(self, done: impl FnOnce(T) -> String) -> String {
        match self {
            Answer::Done(value) => done(value),
            Answer::Refused { number, told } => {
                let place = told.map_or("-".to_string(), |told| told.to_string());
                format!("refused {number} at {place}")
            }
        }
    }
}
