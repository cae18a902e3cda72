//! The cluster carried through its ticks.

use plain::judge::{answer, put};
use plain::plan::{Header, Read, MOST_READERS, MOST_SERVERS};
use plain::{Condition, Seen, Stamped};

use crate::check::{forgery, operation, placement, Operation};
use crate::delays::Delays;
use crate::network::Network;
use crate::sets::{each, each_number, first, one, Servers, NUMBERS};
use crate::stores::Stores;
use crate::votes::Votes;
use crate::{ANSWER_BYTES, FORM};

/// A read that has begun and not ended.
struct OpenRead {
    read: Read,
    /// Its place among all reads.
    index: usize,
    /// The servers that heard of it. One that then is faulty is correct again after the end.
    pending: Servers,
    /// By number, the servers whose replies with it arrive in time.
    named: [Servers; NUMBERS],
    /// Numbers from here on have no such servers.
    top: usize,
}

impl OpenRead {
    fn note(&mut self, replying: Servers, stores: &Stores) {
        for number in stores.range() {
            self.named[number] |= replying & stores.keepers[number];
        }
        self.top = self.top.max(stores.range().end);
    }

    /// The highest number that enough servers named, and how many.
    fn answer(&self, quorum: u32) -> Option<(usize, u32)> {
        let counts = (0..self.top).rev().map(|number| (number, self.named[number].count_ones()));
        counts.into_iter().find(|&(_, count)| count >= quorum)
    }
}

/// The last write that has begun; number 0 if none has.
#[derive(Clone, Copy)]
struct LastWrite {
    number: usize,
    begin: usize,
}

pub struct Cluster<'a> {
    plan: &'a [u8],
    header: Header,
    operations_at: usize,
    forgeries_at: usize,
    delays: Delays<'a>,
    /// By number: the initial value and all that the plan writes.
    values: [u16; NUMBERS],
    known: usize,
    correct: Servers,
    cured: Servers,
    faulty: Servers,
    cured_at: [usize; MOST_SERVERS],
    stores: Stores,
    votes: Votes,
    network: Network,
    reads: [Option<OpenRead>; MOST_READERS + 1],
    last_write: LastWrite,
    next_movement: usize,
    next_operation: usize,
    next_read: usize,
    next_forgery: usize,
}

impl<'a> Cluster<'a> {
    pub fn new(plan: &'a [u8], header: Header) -> Self {
        let servers = first(header.servers);
        let mut cluster = Cluster {
            plan,
            header,
            operations_at: header.operations_at(),
            forgeries_at: header.forgeries_at(),
            delays: Delays::new(plan, &header),
            values: [0; NUMBERS],
            known: 1,
            correct: servers,
            cured: 0,
            faulty: 0,
            cured_at: [0; MOST_SERVERS],
            stores: Stores::new(servers),
            votes: Votes::new(),
            network: Network::new(),
            reads: Default::default(),
            last_write: LastWrite { number: 0, begin: 0 },
            next_movement: 0,
            next_operation: 0,
            next_read: 0,
            next_forgery: 0,
        };
        cluster.values[0] = header.initial as u16;
        for place in 0..header.operations {
            let operation = operation(plan, cluster.operations_at, place);
            if operation.party == 0 {
                cluster.values[cluster.known] = operation.value;
                cluster.known += 1;
            }
        }
        cluster
    }

    /// The first so many ticks; answers of reads that end are put at their places.
    pub fn run(&mut self, ticks: usize, answers: &mut [u8]) {
        for tick in 0..ticks {
            let writing = self.deliver_write(tick);
            let changed = self.stores.without(self.last_write.number, writing);
            self.stores.take_in(self.last_write.number, changed);
            let changed = changed | self.deliver_votes(tick);
            let healed = self.healed(tick);
            self.reply(tick, changed, healed);
            self.cured &= !healed;
            self.correct |= healed;
            let moves = tick == self.next_movement * self.header.period;
            if moves {
                self.move_agents(tick);
            }
            self.send_votes(tick, writing, moves);
            self.end_reads(tick, answers);
            self.begin_operations(tick);
            self.forge(tick);
        }
    }

    pub fn look(&self, server: usize) -> Seen {
        let is_in = |set| set & one(server) != 0;
        let condition = if is_in(self.faulty) {
            Condition::Faulty
        } else if is_in(self.cured) {
            Condition::Cured
        } else {
            Condition::Correct
        };
        let mut seen = Seen { condition, count: 0, kept: Default::default() };
        if condition != Condition::Faulty {
            for number in self.stores.kept(server) {
                seen.kept[seen.count] = self.stamped(number);
                seen.count += 1;
            }
        }
        seen
    }

    fn stamped(&self, number: usize) -> Stamped {
        Stamped::new(self.values[number].into(), number as u8)
    }

    /// The servers that hear of the last write.
    fn deliver_write(&self, tick: usize) -> Servers {
        let LastWrite { number, begin } = self.last_write;
        if number == 0 || tick - begin > self.header.delta {
            return 0;
        }
        self.delays.reached(begin, self.header.writer(), tick - begin) & !self.faulty
    }

    /// The servers whose stores change.
    fn deliver_votes(&mut self, tick: usize) -> Servers {
        let echo_quorum = self.header.echo_quorum() as u16;
        let reply_quorum = self.header.reply_quorum() as u16;
        let mut changed = 0;
        for number in each_number(self.network.deliver(tick, self.header.delta, &mut self.votes)) {
            let without = self.stores.without(number, self.correct | self.cured);
            if without != 0 {
                let enough = self.votes.enough(number, echo_quorum, reply_quorum) & without;
                self.stores.take_in(number, enough);
                changed |= enough;
            }
        }
        changed
    }

    /// The servers whose cure ends.
    fn healed(&self, tick: usize) -> Servers {
        let healed =
            each(self.cured).filter(|&server| self.cured_at[server] + self.header.delta == tick);
        healed.fold(0, |set, server| set | one(server))
    }

    /// Requests arrive, and replies that will arrive in time are noted with their readers.
    fn reply(&mut self, tick: usize, changed: Servers, healed: Servers) {
        for open in self.reads.iter_mut().flatten().filter(|open| tick < open.read.end) {
            let Read { begin, end, reader } = open.read;
            let party = self.header.writer() + reader;
            let mut asked = 0;
            if tick - begin <= self.header.delta {
                asked = self.delays.reached(begin, party, tick - begin) & !self.faulty;
            }
            open.pending |= asked;
            let mut replying =
                self.correct & (changed & open.pending | asked) | healed & open.pending;
            if tick + self.header.delta > end {
                replying = self.delays.in_time(replying, tick, party, end);
            }
            if replying != 0 {
                open.note(replying, &self.stores);
            }
        }
    }

    fn move_agents(&mut self, tick: usize) {
        let faulty = placement(self.plan, self.next_movement);
        self.next_movement += 1;
        let reset = faulty | self.faulty;
        self.votes.begin_period(self.header.k(), reset);
        self.stores.reset(reset);
        for server in each(reset) {
            self.cured_at[server] = tick;
        }
        self.cured = (self.cured | self.faulty) & !faulty;
        self.correct &= !faulty;
        self.faulty = faulty;
    }

    /// Votes of those that heard of the write, and at a movement the echo.
    fn send_votes(&mut self, tick: usize, writing: Servers, moved: bool) {
        self.network.begin(tick);
        self.network.vote(tick, self.last_write.number, writing);
        let mut senders = writing;
        if moved {
            for number in self.stores.range() {
                self.network.vote(tick, number, self.stores.keepers[number] & self.correct);
            }
            senders |= self.correct;
        }
        if senders == 0 {
            return;
        }
        if self.header.delta == 1 {
            self.network.send_to_next(tick, senders);
        } else {
            self.network.send(tick, senders, self.header.servers, &self.delays);
        }
    }

    fn end_reads(&mut self, tick: usize, answers: &mut [u8]) {
        let quorum = self.header.reply_quorum();
        for reader in 1..=self.header.readers {
            let ended = self.reads[reader].take_if(|open| open.read.end == tick);
            let Some(ended) = ended else { continue };
            let (stamped, count) = match ended.answer(quorum) {
                Some((number, count)) => (self.stamped(number), count),
                None => Default::default(),
            };
            let place = &mut answers[ANSWER_BYTES * ended.index..][..ANSWER_BYTES];
            put(FORM, answer(&ended.read, stamped, count), place);
        }
    }

    fn begin_operations(&mut self, tick: usize) {
        while self.next_operation < self.header.operations {
            let Operation { begin, party, .. } =
                operation(self.plan, self.operations_at, self.next_operation);
            if begin != tick {
                return;
            }
            self.next_operation += 1;
            if party == 0 {
                self.last_write = LastWrite { number: self.last_write.number + 1, begin };
            } else {
                let read = Read { begin, end: begin + 2 * self.header.delta, reader: party };
                let index = self.next_read;
                self.next_read += 1;
                let named = [0; NUMBERS];
                self.reads[party] = Some(OpenRead { read, index, pending: 0, named, top: 0 });
            }
        }
    }

    fn forge(&mut self, tick: usize) {
        while self.next_forgery < self.header.forgeries {
            let forgery = forgery(self.plan, self.forgeries_at, self.next_forgery);
            if forgery.tick != tick {
                return;
            }
            self.next_forgery += 1;
            let (sender, receiver, number) = (forgery.sender, forgery.receiver, forgery.number);
            if number >= self.known || self.values[number] != forgery.value {
                continue;
            }
            let arrival = tick + self.delays.one(tick, sender, receiver);
            if receiver < self.header.servers {
                self.network.forge(arrival, sender, receiver, number);
            } else if let Some(open) = &mut self.reads[receiver - self.header.writer()] {
                if arrival <= open.read.end {
                    open.named[number] |= one(sender);
                    open.top = open.top.max(number + 1);
                }
            }
        }
    }
}
