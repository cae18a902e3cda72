//! What a look shows.

use std::fmt;

use crate::limits::{DEPTH, PAIRS_BYTES, PAIR_BYTES};

/// The state of a server.
#[derive(Clone, Copy, Debug, PartialEq, Eq, Hash)]
pub enum Condition {
    /// Taken over: its contents are whatever the fault likes, and it shows none.
    Faulty,
    /// Reset after a fault, and learning again.
    Cured,
    /// As the protocol has it.
    Correct,
}

impl fmt::Display for Condition {
    fn fmt(&self, f: &mut fmt::Formatter) -> fmt::Result {
        f.pad(match self {
            Condition::Faulty => "faulty",
            Condition::Cured => "cured",
            Condition::Correct => "correct",
        })
    }
}

/// A value with its sequence number: 0 for the initial value, 1 for the first one written.
#[derive(Clone, Copy, Debug, Default, PartialEq, Eq, Hash)]
pub struct Stamped {
    /// The value.
    pub value: u32,
    /// Its number.
    pub number: u8,
}

/// A server after a tick.
#[derive(Clone, Copy, Debug, PartialEq, Eq, Hash)]
pub struct Seen {
    /// Its state.
    pub condition: Condition,
    count: usize,
    kept: [Stamped; DEPTH],
}

impl Seen {
    pub(crate) fn of(condition: Condition, count: usize, pairs: [u8; PAIRS_BYTES]) -> Self {
        let mut kept = [Stamped::default(); DEPTH];
        for (kept, pair) in kept.iter_mut().zip(pairs.chunks_exact(PAIR_BYTES)) {
            let value = u32::from_be_bytes([0, pair[0], pair[1], pair[2]]);
            *kept = Stamped { value, number: pair[3] };
        }
        Seen { condition, count, kept }
    }

    /// The stamped values that the server keeps, highest first, at most [`DEPTH`]; a faulty server
    /// shows none.
    pub fn kept(&self) -> &[Stamped] {
        &self.kept[..self.count]
    }
}

/// A look's result taken apart: the condition in the low two bits, above them the count.
pub(crate) fn condition_and_count(result: usize) -> (Condition, usize) {
    let condition = match result % 4 {
        0 => Condition::Faulty,
        1 => Condition::Cured,
        2 => Condition::Correct,
        other => unreachable!("the library has no condition {other}"),
    };
    (condition, result / 4)
}
