//! What the servers keep, by server and by sequence number.

use plain::plan::MOST_SERVERS;
use plain::DEPTH;

use crate::sets::{each, one, Servers, NUMBERS};

pub struct Stores {
    /// One more than each number that a server keeps, falling; 0 for none.
    kept: [[u8; DEPTH]; MOST_SERVERS],
    pub keepers: [Servers; NUMBERS],
    /// Who keeps it, or has a full store of higher ones.
    settled: [Servers; NUMBERS],
    /// Nothing below the first or from the second on is kept.
    low: usize,
    high: usize,
}

impl Stores {
    pub fn new(servers: Servers) -> Self {
        let mut keepers = [0; NUMBERS];
        keepers[0] = servers;
        let mut kept = [[0; DEPTH]; MOST_SERVERS];
        for store in &mut kept {
            store[0] = 1;
        }
        Stores { kept, keepers, settled: keepers, low: 0, high: 1 }
    }

    pub fn range(&self) -> std::ops::Range<usize> {
        self.low..self.high
    }

    /// The numbers that a server keeps, highest first.
    pub fn kept(&self, server: usize) -> impl Iterator<Item = usize> {
        let kept = self.kept[server].into_iter().take_while(|&kept| kept > 0);
        kept.map(|kept| usize::from(kept) - 1)
    }

    /// Those of the servers whose store would change if they took the number in.
    #[inline]
    pub fn without(&self, number: usize, servers: Servers) -> Servers {
        servers & !self.settled[number]
    }

    /// Servers take in a number that would change their stores.
    #[inline]
    pub fn take_in(&mut self, number: usize, servers: Servers) {
        for server in each(servers) {
            self.take_in_one(number, server);
        }
    }

    fn take_in_one(&mut self, number: usize, server: usize) {
        let kept = &mut self.kept[server];
        let (new, dropped) = (number as u8 + 1, kept[DEPTH - 1]);
        let mut place = DEPTH - 1;
        while place > 0 && kept[place - 1] < new {
            kept[place] = kept[place - 1];
            place -= 1;
        }
        kept[place] = new;
        let lowest = kept[DEPTH - 1];
        self.keepers[number] |= one(server);
        self.settled[number] |= one(server);
        self.low = self.low.min(number);
        self.high = self.high.max(number + 1);
        if dropped > 0 {
            self.keepers[usize::from(dropped) - 1] &= !one(server);
        }
        for lower in usize::from(dropped)..usize::from(lowest) {
            self.settled[lower] |= one(server);
        }
    }

    /// These servers keep nothing.
    pub fn reset(&mut self, servers: Servers) {
        for number in 0..self.high {
            self.keepers[number] &= !servers;
            self.settled[number] &= !servers;
        }
        while self.low + 1 < self.high && self.keepers[self.low] == 0 {
            self.low += 1;
        }
        for server in each(servers) {
            self.kept[server] = [0; DEPTH];
        }
    }
}
