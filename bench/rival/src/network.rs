//! Votes under way. What a tick sends is one row, and for each tick to come stands who of its
//! senders then reaches whom.

use crate::delays::Delays;
use crate::sets::{each, each_number, one, ByServer, Numbers, Servers, NUMBERS};
use crate::votes::Votes;

/// A message arrives at most 15 ticks after the one that sends it.
const TICKS: usize = 16;

/// What one tick sends: the numbers voted for, and by whom.
#[derive(Clone, Copy)]
struct Sent {
    numbers: Numbers,
    voters: [Servers; NUMBERS],
}

struct ForgedVote {
    sender: u8,
    receiver: u8,
    number: u8,
}

pub struct Network {
    sent: [Sent; TICKS],
    /// By tick of arrival and of sending, for each receiver the senders.
    senders: Box<[[ByServer; TICKS]; TICKS]>,
    /// By tick of arrival.
    forged: [Vec<ForgedVote>; TICKS],
}

impl Network {
    pub fn new() -> Self {
        Network {
            sent: [Sent { numbers: 0, voters: [0; NUMBERS] }; TICKS],
            senders: Box::new([[ByServer::default(); TICKS]; TICKS]),
            forged: Default::default(),
        }
    }

    /// The votes that arrive are heard; for which numbers.
    pub fn deliver(&mut self, tick: usize, delta: usize, votes: &mut Votes) -> Numbers {
        let mut heard = 0;
        let arriving = &mut self.senders[tick % TICKS];
        for sent_at in tick.saturating_sub(delta)..tick {
            let sent = &self.sent[sent_at % TICKS];
            if sent.numbers != 0 {
                let senders = std::mem::take(&mut arriving[sent_at % TICKS]);
                for number in each_number(sent.numbers) {
                    votes.hear(number, &senders, sent.voters[number]);
                }
                heard |= sent.numbers;
            }
        }
        for forged in self.forged[tick % TICKS].drain(..) {
            let number = usize::from(forged.number);
            votes.hear_one(number, usize::from(forged.receiver), usize::from(forged.sender));
            heard |= 1 << number;
        }
        heard
    }

    /// Empties the row of the tick, whose messages of 16 ticks ago have all arrived.
    #[inline]
    pub fn begin(&mut self, tick: usize) {
        let sent = &mut self.sent[tick % TICKS];
        for number in each_number(std::mem::take(&mut sent.numbers)) {
            sent.voters[number] = 0;
        }
    }

    #[inline]
    pub fn vote(&mut self, tick: usize, number: usize, voters: Servers) {
        if voters != 0 {
            let sent = &mut self.sent[tick % TICKS];
            sent.numbers |= 1 << number;
            sent.voters[number] |= voters;
        }
    }

    /// What the senders of the tick voted for goes out to `servers` servers. A server's delay to
    /// itself is 0, and no tick delivers what it sends.
    pub fn send(&mut self, tick: usize, senders: Servers, servers: usize, delays: &Delays) {
        for sender in each(senders) {
            let mut row = delays.sixteen(tick, sender);
            for receiver in 0..servers {
                row = row.rotate_left(4);
                let arrival = (tick + (row & 15) as usize) % TICKS;
                self.senders[arrival][tick % TICKS][receiver] |= one(sender);
            }
        }
    }

    /// The same where every delay is 1.
    pub fn send_to_next(&mut self, tick: usize, senders: Servers) {
        self.senders[(tick + 1) % TICKS][tick % TICKS] =
            std::array::from_fn(|receiver| senders & !one(receiver));
    }

    #[inline]
    pub fn forge(&mut self, arrival: usize, sender: usize, receiver: usize, number: usize) {
        let (sender, receiver, number) = (sender as u8, receiver as u8, number as u8);
        self.forged[arrival % TICKS].push(ForgedVote { sender, receiver, number });
    }
}
