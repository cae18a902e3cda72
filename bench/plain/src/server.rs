//! One server: what it keeps, and the votes that it counts.

use crate::plan::Stamped;
use crate::{Condition, DEPTH};

/// The stamped values that a server keeps, falling.
#[derive(Clone, Copy, Default)]
pub struct Store {
    length: u8,
    stamped: [Stamped; DEPTH],
}

impl Store {
    pub fn of(stamped: Stamped) -> Self {
        let mut store = Store { length: 1, ..Store::default() };
        store.stamped[0] = stamped;
        store
    }

    pub fn kept(&self) -> &[Stamped] {
        &self.stamped[..usize::from(self.length)]
    }

    /// Takes in one more and drops the lowest past the depth; whether anything changed.
    fn take_in(&mut self, new: Stamped) -> bool {
        let place = self.kept().iter().take_while(|&&kept| kept > new).count();
        if place == self.stamped.len() || self.kept().get(place) == Some(&new) {
            return false;
        }
        self.stamped[place..].rotate_right(1);
        self.stamped[place] = new;
        self.length = (self.length + 1).min(self.stamped.len() as u8);
        true
    }
}

/// The servers that voted for a stamped value in the present period and in the one before.
struct Votes {
    stamped: Stamped,
    present: u16,
    previous: u16,
}

pub struct Server {
    pub condition: Condition,
    pub cured_at: usize,
    pub store: Store,
    /// Reads heard of that haven't ended.
    pub pending: Vec<u8>,
    /// Rising by stamped value.
    votes: Vec<Votes>,
    /// What this tick's deliveries brought.
    pub store_changed: bool,
    pub new_reads: Vec<u8>,
}

impl Server {
    pub fn new(initial: Stamped) -> Self {
        Server {
            condition: Condition::Correct,
            cured_at: 0,
            store: Store::of(initial),
            pending: Vec::new(),
            votes: Vec::new(),
            store_changed: false,
            new_reads: Vec::new(),
        }
    }

    pub fn take_in(&mut self, stamped: Stamped) {
        self.store_changed |= self.store.take_in(stamped);
    }

    pub fn hear_vote(&mut self, sender: u8, stamped: Stamped, echo_quorum: u32, reply_quorum: u32) {
        let place = match self.votes.binary_search_by_key(&stamped, |votes| votes.stamped) {
            Ok(place) => place,
            Err(place) => {
                self.votes.insert(place, Votes { stamped, present: 0, previous: 0 });
                place
            }
        };
        let votes = &mut self.votes[place];
        votes.present |= 1 << sender;
        let together = votes.present | votes.previous;
        if votes.present.count_ones() >= echo_quorum || together.count_ones() >= reply_quorum {
            self.take_in(stamped);
        }
    }

    pub fn reset(&mut self, tick: usize) {
        self.condition = Condition::Cured;
        self.cured_at = tick;
        self.store = Store::default();
        self.pending.clear();
        self.votes.clear();
    }

    pub fn begin_period(&mut self, k: usize) {
        if k == 1 {
            self.votes.clear();
            return;
        }
        self.votes.retain_mut(|votes| {
            votes.previous = votes.present;
            votes.present = 0;
            votes.previous != 0
        });
    }
}
