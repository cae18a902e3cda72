//! The lists that a plan is packed from.

/// Five lists of numbers, one number for each field of a plan in packed order. Nothing is checked
/// before [`pack`](crate::pack) does.
#[derive(Clone, Debug, Default, PartialEq, Eq, Hash)]
pub struct Lists {
    /// Ten numbers: servers, the most that are faulty, δ, Δ, readers, ticks, the initial value, the
    /// number of operations, the number of forged messages, 0.
    pub header: Vec<u32>,
    /// One for each movement: the faulty servers in 16 bits, server 0 the top one.
    pub placements: Vec<u32>,
    /// Three for each operation: tick, party (0 the writer, else the reader), value (0 for a read).
    pub operations: Vec<u32>,
    /// Five for each forged message: tick, sender, receiver, value, number. With n servers they are
    /// parties 0 to n−1, the writer is party n, reader r party n + r.
    pub forgeries: Vec<u32>,
    /// One for each tick, sender and receiver, in that order: 1 to δ, or 0 where no messages go from
    /// the one to the other.
    pub delays: Vec<u32>,
}
