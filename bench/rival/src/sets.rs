//! Sets of servers, server 0 as the top bit, and sets of sequence numbers, 0 as the lowest bit.

use plain::plan::{MOST_SERVERS, MOST_TICKS};

/// The initial value's number and those of all writes: from one begin to the next it is two ticks
/// at least.
pub const NUMBERS: usize = 1 + MOST_TICKS / 2;

/// A set of servers.
pub type Servers = u16;

/// For each server a set of servers.
pub type ByServer = [Servers; MOST_SERVERS];

/// A set of sequence numbers.
pub type Numbers = u128;

#[inline]
pub fn one(server: usize) -> Servers {
    0x8000 >> server
}

/// The first so many servers.
pub fn first(count: usize) -> Servers {
    !(0xffff_u32 >> count) as Servers
}

#[inline]
pub fn each(mut set: Servers) -> impl Iterator<Item = usize> {
    std::iter::from_fn(move || {
        let server = set.leading_zeros() as usize;
        (set != 0).then(|| {
            set &= !one(server);
            server
        })
    })
}

#[inline]
pub fn each_number(mut set: Numbers) -> impl Iterator<Item = usize> {
    std::iter::from_fn(move || {
        let number = set.trailing_zeros() as usize;
        (set != 0).then(|| {
            set &= set - 1;
            number
        })
    })
}

/// How many: in steps that can be taken for sixteen sets at once.
#[inline]
pub fn size(set: Servers) -> u16 {
    let twos = set - ((set >> 1) & 0x5555);
    let fours = (twos & 0x3333) + ((twos >> 2) & 0x3333);
    let eights = (fours + (fours >> 4)) & 0x0f0f;
    (eights + (eights >> 8)) & 0x1f
}
