//! Who voted: for each sequence number and each receiver a set of servers.

use crate::sets::{each_number, one, size, ByServer, Numbers, Servers, NUMBERS};

pub struct Votes {
    present: [ByServer; NUMBERS],
    previous: [ByServer; NUMBERS],
    in_present: Numbers,
    in_previous: Numbers,
}

impl Votes {
    pub fn new() -> Self {
        let none = [ByServer::default(); NUMBERS];
        Votes { present: none, previous: none, in_present: 0, in_previous: 0 }
    }

    /// Each receiver hears from those of its senders that vote.
    #[inline]
    pub fn hear(&mut self, number: usize, senders: &ByServer, voters: Servers) {
        self.in_present |= 1 << number;
        for (present, senders) in self.present[number].iter_mut().zip(senders) {
            *present |= senders & voters;
        }
    }

    #[inline]
    pub fn hear_one(&mut self, number: usize, receiver: usize, sender: usize) {
        self.in_present |= 1 << number;
        self.present[number][receiver] |= one(sender);
    }

    /// The receivers that heard enough: in the present period, or in both together.
    #[inline]
    pub fn enough(&self, number: usize, echo_quorum: u16, reply_quorum: u16) -> Servers {
        let both = self.present[number].iter().zip(&self.previous[number]);
        both.enumerate().fold(0, |receivers, (receiver, (present, previous))| {
            let enough =
                (size(*present) >= echo_quorum) | (size(present | previous) >= reply_quorum);
            receivers | Servers::from(enough) << (15 - receiver)
        })
    }

    /// Votes of the present period become those of the previous one, if it counts, except for
    /// servers that are reset.
    pub fn begin_period(&mut self, k: usize, reset: Servers) {
        let stays: ByServer =
            std::array::from_fn(|server| if reset & one(server) == 0 { Servers::MAX } else { 0 });
        for number in each_number(self.in_present | self.in_previous) {
            let ended = std::mem::take(&mut self.present[number]);
            if k == 2 {
                self.previous[number] = std::array::from_fn(|server| ended[server] & stays[server]);
            }
        }
        self.in_previous = if k == 2 { self.in_present } else { 0 };
        self.in_present = 0;
    }
}
