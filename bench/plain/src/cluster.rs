//! The cluster carried through its ticks, in the five stages of docs/RULES.md.

use crate::forecast::Forecast;
use crate::plan::{Plan, Stamped, MOST_READERS};
use crate::server::{Server, Store};
use crate::Condition;

/// A message sent at one tick arrives at most 15 ticks later.
const ARRIVAL_TICKS: usize = 16;

struct Message {
    sender: u8,
    receiver: u8,
    content: Content,
    forged: bool,
}

impl Message {
    fn new(sender: usize, receiver: usize, content: Content) -> Self {
        Message { sender: sender as u8, receiver: receiver as u8, content, forged: false }
    }
}

#[derive(Clone, Copy)]
enum Content {
    Write(Stamped),
    Read(u8),
    Votes(Store),
    Reply { read: u8, store: Store },
}

/// A read that has begun and not ended, with the servers that named each stamped value (rising).
struct OpenRead {
    read: u8,
    named: Vec<(Stamped, u16)>,
}

impl OpenRead {
    fn hear_reply(&mut self, sender: u8, stamped: Stamped) {
        match self.named.binary_search_by_key(&stamped, |named| named.0) {
            Ok(place) => self.named[place].1 |= 1 << sender,
            Err(place) => self.named.insert(place, (stamped, 1 << sender)),
        }
    }

    /// The highest that enough servers named, and by how many.
    fn answer(&self, quorum: u32) -> (Stamped, u32) {
        let counts =
            self.named.iter().rev().map(|&(stamped, servers)| (stamped, servers.count_ones()));
        counts.into_iter().find(|&(_, count)| count >= quorum).unwrap_or_default()
    }
}

/// The messages under way, by the tick of their arrival.
struct Network<'a> {
    plan: &'a Plan<'a>,
    under_way: [Vec<Message>; ARRIVAL_TICKS],
}

impl Network<'_> {
    fn send(&mut self, tick: usize, message: Message) {
        let (sender, receiver) = (message.sender.into(), message.receiver.into());
        let arrival = tick + self.plan.delay(tick, sender, receiver);
        self.under_way[arrival % ARRIVAL_TICKS].push(message);
    }

    /// Sends to every server but the sender; how many messages these are.
    fn send_to_servers(&mut self, tick: usize, sender: usize, content: Content) -> usize {
        let mut messages = 0;
        for receiver in (0..self.plan.header.servers).filter(|&receiver| receiver != sender) {
            self.send(tick, Message::new(sender, receiver, content));
            messages += 1;
        }
        messages
    }

    fn send_replies(&mut self, tick: usize, sender: usize, store: Store, reads: &[u8]) {
        for &read in reads {
            let receiver = self.plan.header.writer() + self.plan.reads[usize::from(read)].reader;
            self.send(tick, Message::new(sender, receiver, Content::Reply { read, store }));
        }
    }
}

pub struct Cluster<'a> {
    plan: &'a Plan<'a>,
    servers: Vec<Server>,
    network: Network<'a>,
    open: [Option<OpenRead>; MOST_READERS + 1],
    /// For each read that ended its stamped value and count.
    pub answers: Vec<(Stamped, u32)>,
    /// What was sent and has arrived so far.
    pub counted: Forecast,
    next_write: usize,
    next_read: usize,
    next_forgery: usize,
}

impl<'a> Cluster<'a> {
    /// The cluster after the first so many ticks.
    pub fn after(plan: &'a Plan<'a>, ticks: usize) -> Self {
        let mut cluster = Cluster::new(plan);
        for tick in 0..ticks {
            cluster.tick(tick);
        }
        cluster
    }

    fn new(plan: &'a Plan<'a>) -> Self {
        let initial = Stamped::new(plan.header.initial, 0);
        Cluster {
            plan,
            servers: (0..plan.header.servers).map(|_| Server::new(initial)).collect(),
            network: Network { plan, under_way: Default::default() },
            open: Default::default(),
            answers: vec![Default::default(); plan.reads.len()],
            counted: Forecast::default(),
            next_write: 0,
            next_read: 0,
            next_forgery: 0,
        }
    }

    fn tick(&mut self, tick: usize) {
        self.deliver(tick);
        self.end_cures(tick);
        if tick % self.plan.header.period == 0 {
            self.move_agents(tick);
            self.echo(tick);
        }
        self.end_reads(tick);
        self.begin_operations(tick);
        self.forge(tick);
    }

    /// What a look shows.
    pub fn look(&self, server: usize) -> (Condition, Store) {
        let server = &self.servers[server];
        match server.condition {
            Condition::Faulty => (Condition::Faulty, Store::default()),
            condition => (condition, server.store),
        }
    }

    fn deliver(&mut self, tick: usize) {
        let slot = tick % ARRIVAL_TICKS;
        let mut arriving = std::mem::take(&mut self.network.under_way[slot]);
        let mut forged = 0;
        for message in arriving.drain(..) {
            forged += usize::from(message.forged);
            if usize::from(message.receiver) < self.servers.len() {
                self.deliver_to_server(tick, message);
            } else {
                self.deliver_to_reader(message);
            }
        }
        // Nothing sent in a tick arrives in it, so the emptied list can be used again.
        self.network.under_way[slot] = arriving;
        self.counted.most_forgeries = self.counted.most_forgeries.max(forged);
        for (i, server) in self.servers.iter_mut().enumerate() {
            if server.condition == Condition::Correct {
                let reads = if server.store_changed { &server.pending } else { &server.new_reads };
                self.network.send_replies(tick, i, server.store, reads);
            }
            server.store_changed = false;
            server.new_reads.clear();
        }
    }

    fn deliver_to_server(&mut self, tick: usize, message: Message) {
        let header = &self.plan.header;
        let receiver = usize::from(message.receiver);
        let server = &mut self.servers[receiver];
        if server.condition == Condition::Faulty {
            return;
        }
        match message.content {
            Content::Write(stamped) => {
                server.take_in(stamped);
                let vote = Content::Votes(Store::of(stamped));
                self.counted.votes += self.network.send_to_servers(tick, receiver, vote);
            }
            Content::Read(read) => {
                server.pending.push(read);
                server.new_reads.push(read);
            }
            Content::Votes(store) => {
                let (echo_quorum, reply_quorum) = (header.echo_quorum(), header.reply_quorum());
                for &stamped in store.kept() {
                    server.hear_vote(message.sender, stamped, echo_quorum, reply_quorum);
                }
            }
            Content::Reply { .. } => unreachable!("replies go to readers"),
        }
    }

    fn deliver_to_reader(&mut self, message: Message) {
        let Content::Reply { read, store } = message.content else {
            unreachable!("readers get replies");
        };
        let open = self.open[self.plan.reads[usize::from(read)].reader].as_mut();
        if let Some(open) = open.filter(|open| open.read == read) {
            for &stamped in store.kept() {
                open.hear_reply(message.sender, stamped);
            }
        }
    }

    fn end_cures(&mut self, tick: usize) {
        for (i, server) in self.servers.iter_mut().enumerate() {
            let cured = server.condition == Condition::Cured;
            if cured && server.cured_at + self.plan.header.delta == tick {
                server.condition = Condition::Correct;
                self.network.send_replies(tick, i, server.store, &server.pending);
            }
        }
    }

    fn move_agents(&mut self, tick: usize) {
        let faulty = self.plan.placements[tick / self.plan.header.period];
        let k = self.plan.header.k();
        self.counted.moves += 1;
        for (i, server) in self.servers.iter_mut().enumerate() {
            if faulty >> i & 1 == 1 {
                server.condition = Condition::Faulty;
            } else if server.condition == Condition::Faulty {
                server.reset(tick);
            } else {
                server.begin_period(k);
            }
        }
    }

    fn echo(&mut self, tick: usize) {
        for (i, server) in self.servers.iter().enumerate() {
            if server.condition == Condition::Correct {
                self.network.send_to_servers(tick, i, Content::Votes(server.store));
            }
        }
    }

    fn end_reads(&mut self, tick: usize) {
        for open in &mut self.open {
            let ended = open.take_if(|open| self.plan.reads[usize::from(open.read)].end == tick);
            if let Some(ended) = ended {
                self.answers[usize::from(ended.read)] =
                    ended.answer(self.plan.header.reply_quorum());
                self.counted.answer_bytes += self.plan.header.form.answer_bytes();
                for server in &mut self.servers {
                    server.pending.retain(|&read| read != ended.read);
                }
            }
        }
    }

    fn begin_operations(&mut self, tick: usize) {
        let plan = self.plan;
        let writer = plan.header.writer();
        if let Some(write) = plan.writes.get(self.next_write).filter(|write| write.begin == tick) {
            let content = Content::Write(write.stamped);
            self.counted.write_messages += self.network.send_to_servers(tick, writer, content);
            self.next_write += 1;
        }
        while let Some(read) = plan.reads.get(self.next_read).filter(|read| read.begin == tick) {
            // A plan has at most 255 operations.
            let index = self.next_read as u8;
            self.open[read.reader] = Some(OpenRead { read: index, named: Vec::new() });
            let (reader, content) = (writer + read.reader, Content::Read(index));
            self.counted.read_messages += self.network.send_to_servers(tick, reader, content);
            self.next_read += 1;
        }
    }

    fn forge(&mut self, tick: usize) {
        let plan = self.plan;
        let writer = plan.header.writer();
        while let Some(forgery) = plan.forgeries.get(self.next_forgery) {
            if forgery.tick != tick {
                return;
            }
            self.next_forgery += 1;
            let store = Store::of(forgery.stamped);
            let content = if forgery.receiver < writer {
                Content::Votes(store)
            } else {
                let open = &self.open[forgery.receiver - writer];
                let read = open.as_ref().expect("the read forged for is open").read;
                Content::Reply { read, store }
            };
            let message = Message::new(forgery.sender, forgery.receiver, content);
            self.network.send(tick, Message { forged: true, ..message });
        }
    }
}
