//! What playing a plan takes, found from the plan alone. The cluster counts the same while it plays.

use crate::plan::{Plan, Write};

#[derive(Clone, Copy, Debug, Default, PartialEq, Eq)]
pub struct Forecast {
    pub answer_bytes: usize,
    pub moves: usize,
    pub write_messages: usize,
    pub read_messages: usize,
    /// Votes that are sent on receipt of a WRITE, each to one server.
    pub votes: usize,
    /// The most forged messages, votes and replies together, that arrive in one tick.
    pub most_forgeries: usize,
}

impl Forecast {
    /// The numbers in their order.
    pub fn numbers(self) -> [u32; 6] {
        let Forecast { answer_bytes, moves, write_messages, read_messages, votes, most_forgeries } =
            self;
        [answer_bytes, moves, write_messages, read_messages, votes, most_forgeries]
            .map(|number| number as u32)
    }
}

pub fn of(plan: &Plan) -> Forecast {
    let (header, writes, reads) = (&plan.header, plan.writes.len(), plan.reads.len());
    Forecast {
        answer_bytes: header.form.answer_bytes() * reads,
        moves: header.movements(),
        write_messages: header.servers * writes,
        read_messages: header.servers * reads,
        votes: (header.servers - 1) * receipts(plan),
        most_forgeries: most_forgeries(plan),
    }
}

/// How often a WRITE arrives at a server that is not faulty.
fn receipts(plan: &Plan) -> usize {
    let header = &plan.header;
    let is_received = |write: &Write, server: usize| {
        let arrival = write.begin + plan.delay(write.begin, header.writer(), server);
        // Deliveries come before the movement of their tick.
        plan.placements[(arrival - 1) / header.period] >> server & 1 == 0
    };
    let receipts_of =
        |write| (0..header.servers).filter(|&server| is_received(write, server)).count();
    plan.writes.iter().map(receipts_of).sum()
}

fn most_forgeries(plan: &Plan) -> usize {
    let header = &plan.header;
    let mut arriving = vec![0; header.ticks + header.delta];
    for forgery in &plan.forgeries {
        let delay = plan.delay(forgery.tick, forgery.sender, forgery.receiver);
        arriving[forgery.tick + delay] += 1;
    }
    arriving[..header.ticks].iter().copied().max().unwrap_or(0)
}
