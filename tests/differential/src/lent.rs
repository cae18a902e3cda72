//! Lent bytes: what they held before a call, and what they must hold after it.

use plans::Random;

/// By less than this a buffer is longer than what is asked for.
pub const MORE: usize = 100;
/// How far behind lent bytes a slip is looked for.
const SLIP: usize = 64;

/// The length of a buffer: most often exactly what is asked for.
pub fn length(random: &mut Random, exact: usize) -> usize {
    match random.below(8) {
        0 => exact.saturating_sub(1),
        1 => random.below(exact + 1),
        2 => 0,
        3 | 4 => exact + random.below(MORE),
        _ => exact,
    }
}

/// Bytes to lend, long enough for every call, and a copy of what they hold at first.
pub struct Lent {
    before: Vec<u8>,
    bytes: Vec<u8>,
}

impl Lent {
    /// For lengths of at most so many and some more; behind them is room to see a slip.
    pub fn new(random: &mut Random, longest: usize) -> Self {
        let all = longest + MORE + SLIP;
        let before: Vec<u8> = (0..all).map(|_| random.number() as u8 | 1).collect();
        Lent { bytes: before.clone(), before }
    }

    /// The first bytes; they and the ones after them get their first contents again.
    pub fn lend(&mut self, length: usize) -> &mut [u8] {
        let near = self.near(length);
        self.bytes[..near].copy_from_slice(&self.before[..near]);
        &mut self.bytes[..length]
    }

    pub fn before(&self, length: usize) -> &[u8] {
        &self.before[..length]
    }

    /// Whether every byte lent and every byte after them is still as it was.
    pub fn is_unchanged(&self, length: usize) -> bool {
        self.bytes[..length] == self.before[..length] && self.is_unchanged_after(length)
    }

    /// Whether the first bytes are now those given, and all later ones, lent or not, as they were.
    pub fn now_begins(&self, given: &[u8]) -> bool {
        self.bytes[..given.len()] == *given && self.is_unchanged_after(given.len())
    }

    fn is_unchanged_after(&self, length: usize) -> bool {
        let near = self.near(length);
        self.bytes[length..near] == self.before[length..near]
    }

    /// Bytes far past the lent ones aren't reached by a slip; the next ones are.
    fn near(&self, length: usize) -> usize {
        self.before.len().min(length + SLIP)
    }
}
