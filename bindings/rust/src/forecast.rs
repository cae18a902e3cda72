//! What playing a plan takes.

use crate::limits::FORECAST_NUMBERS;

/// What playing an accepted plan takes. Each number is exactly what playing the plan counts; only ticks
/// below H count (docs/RULES.md, 'What a play counts').
#[derive(Clone, Copy, Debug, PartialEq, Eq, Hash)]
pub struct Forecast {
    /// Bytes of the answers that [`play`](crate::play) writes.
    pub answer_bytes: u32,
    /// Movements of the faults, the one in tick 0 among them.
    pub moves: u32,
    /// WRITE messages sent: for each write one to each server.
    pub write_messages: u32,
    /// READ messages sent: for each read one to each server.
    pub read_messages: u32,
    /// Votes sent on receipt of a WRITE: to each other server, by every server that isn't faulty when
    /// the WRITE arrives. A cured one votes. A tick's deliveries come before its movement.
    pub votes: u32,
    /// The most forged messages, votes and replies, that arrive in one tick, also at a faulty server or
    /// after the read's end.
    pub most_forgeries: u32,
}

impl Forecast {
    pub(crate) fn of(numbers: [u32; FORECAST_NUMBERS]) -> Self {
        let [answer_bytes, moves, write_messages, read_messages, votes, most_forgeries] = numbers;
        Forecast { answer_bytes, moves, write_messages, read_messages, votes, most_forgeries }
    }
}
