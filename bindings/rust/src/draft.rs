//! A plan in typed parts, and its lists.

use std::collections::BTreeMap;

use crate::limits::{MOST_READERS, MOST_SERVERS, MOST_TICKS};
use crate::{pack, Form, Lists, Refusal};

/// Too wide for every field. It stands for what has no number in the plan, so that this is refused
/// and not taken for something else.
const NO_NUMBER: u32 = u32::MAX;

/// Who sends or receives messages.
#[derive(Clone, Copy, Debug, PartialEq, Eq, PartialOrd, Ord, Hash)]
pub enum Party {
    /// A server, counted from 0.
    Server(usize),
    /// The writer.
    Writer,
    /// A reader, counted from 1.
    Reader(usize),
}

/// A write or a read.
#[derive(Clone, Copy, Debug, PartialEq, Eq, Hash)]
pub enum Operation {
    /// The writer begins to write a value.
    Write {
        /// The tick in which it begins; it ends δ ticks later.
        tick: usize,
        /// The value.
        value: u32,
    },
    /// A reader begins to read.
    Read {
        /// The tick in which it begins; it ends 2δ ticks later.
        tick: usize,
        /// The reader, counted from 1.
        reader: usize,
    },
}

/// A message that a faulty server sends.
#[derive(Clone, Copy, Debug, PartialEq, Eq, Hash)]
pub struct Forgery {
    /// The tick in which it is sent.
    pub tick: usize,
    /// The server that sends it; it is faulty in that tick.
    pub sender: usize,
    /// Another server, or a reader with an open read.
    pub receiver: Party,
    /// The value that it names.
    pub value: u32,
    /// The number that it gives the value.
    pub number: u8,
}

/// A plan in typed parts, which are the same in either form. The counts and the order of operations and
/// forged messages come by themselves; nothing is checked before [`build`](Draft::build) does.
///
/// ```
/// use register::{check, Draft, Form, Operation, Party};
///
/// let mut draft = Draft {
///     servers: 5,
///     faulty: 1,
///     delta: 2,
///     period: 4,
///     readers: 1,
///     ticks: 8,
///     initial: 7,
///     placements: vec![vec![0], vec![1]],
///     operations: vec![
///         Operation::Write { tick: 0, value: 100 },
///         Operation::Read { tick: 3, reader: 1 },
///     ],
///     delay: 1,
///     ..Draft::default()
/// };
/// // What server 2 sends to the reader in tick 4 takes as long as it may.
/// draft.delays.insert((4, Party::Server(2), Party::Reader(1)), 2);
/// let plan = draft.build(Form::One)?;
/// assert_eq!(check(Form::One, &plan), Ok(1));
/// # Ok::<(), register::Refusal>(())
/// ```
#[derive(Clone, Debug, Default, PartialEq, Eq, Hash)]
pub struct Draft {
    /// n, the number of servers, 1 to 16.
    pub servers: usize,
    /// f, the most servers that are faulty at a time, 0 to 3.
    pub faulty: usize,
    /// δ, the longest delay of a message, in ticks, 1 to 15.
    pub delta: usize,
    /// Δ, the ticks from one movement of the faults to the next, δ to 63.
    pub period: usize,
    /// s, the number of readers, 1 to 4.
    pub readers: usize,
    /// H, the number of ticks, 1 to 128.
    pub ticks: usize,
    /// The initial value, which has number 0.
    pub initial: u32,
    /// The faulty servers from each movement on, in ticks 0, Δ, 2Δ .. below H; also where there are
    /// none.
    pub placements: Vec<Vec<usize>>,
    /// The writes and reads, in any order.
    pub operations: Vec<Operation>,
    /// The forged messages, in any order.
    pub forgeries: Vec<Forgery>,
    /// The delay of all messages, 1 to δ, but for those of `delays`.
    pub delay: usize,
    /// The delay of the messages that are sent in a tick from one party to another. One for a tick or
    /// a party that isn't there makes the list of delays too long, and is refused so.
    pub delays: BTreeMap<(usize, Party, Party), usize>,
}

impl Draft {
    /// The plan packed in a form. A value that is too wide for it is refused.
    pub fn build(&self, form: Form) -> Result<Vec<u8>, Refusal> {
        let mut plan = vec![0; form.longest_plan()];
        let length = pack(form, &self.lists(), &mut plan)?;
        plan.truncate(length);
        Ok(plan)
    }

    /// The lists that the plan is packed from. Where the draft has more servers, readers or ticks
    /// than a plan may have there are no delays; these lists are refused for their header.
    pub fn lists(&self) -> Lists {
        Lists {
            header: self.header().to_vec(),
            placements: self.placements.iter().map(|faulty| set(faulty)).collect(),
            operations: in_order(self.operations.iter().map(numbers_of_operation)),
            forgeries: in_order(self.forgeries.iter().map(|forgery| self.numbers_of(forgery))),
            delays: self.listed_delays(),
        }
    }

    /// Sets the delay of every link in every tick to what the function gives for tick, sender and
    /// receiver.
    pub fn set_delays(&mut self, mut delay: impl FnMut(usize, Party, Party) -> usize) {
        for (tick, sender, receiver) in self.places() {
            if is_link(sender, receiver) {
                self.delays.insert((tick, sender, receiver), delay(tick, sender, receiver));
            }
        }
    }

    fn header(&self) -> [u32; 10] {
        [
            self.servers,
            self.faulty,
            self.delta,
            self.period,
            self.readers,
            self.ticks,
            self.initial as usize,
            self.operations.len(),
            self.forgeries.len(),
            0,
        ]
        .map(number)
    }

    fn numbers_of(&self, forgery: &Forgery) -> [u32; 5] {
        let receiver = match forgery.receiver {
            Party::Server(server) if server < self.servers => number(server),
            Party::Writer => number(self.servers),
            Party::Reader(reader @ 1..) if reader <= self.readers => {
                number(self.servers.saturating_add(reader))
            }
            _ => NO_NUMBER,
        };
        let (tick, sender) = (number(forgery.tick), number(forgery.sender));
        [tick, sender, receiver, forgery.value, forgery.number.into()]
    }

    /// A number for each place in the plan; behind them what is set and has none.
    fn listed_delays(&self) -> Vec<u32> {
        let mut left = self.delays.clone();
        let delay = |(tick, sender, receiver)| match left.remove(&(tick, sender, receiver)) {
            Some(delay) => number(delay),
            None if is_link(sender, receiver) => number(self.delay),
            None => 0,
        };
        let mut listed: Vec<u32> = self.places().into_iter().map(delay).collect();
        listed.extend(left.into_values().map(number));
        listed
    }

    /// Tick, sender and receiver of every delay, in packed order; none where there would be too many.
    fn places(&self) -> Vec<(usize, Party, Party)> {
        if self.servers > MOST_SERVERS || self.readers > MOST_READERS || self.ticks > MOST_TICKS {
            return Vec::new();
        }
        let servers = (0..self.servers).map(Party::Server);
        let readers = (1..=self.readers).map(Party::Reader);
        let parties: Vec<Party> = servers.chain([Party::Writer]).chain(readers).collect();
        let mut places = Vec::with_capacity(self.ticks * parties.len() * parties.len());
        for tick in 0..self.ticks {
            for &sender in &parties {
                places.extend(parties.iter().map(|&receiver| (tick, sender, receiver)));
            }
        }
        places
    }
}

/// Whether messages go from one party to the other.
fn is_link(sender: Party, receiver: Party) -> bool {
    match (sender, receiver) {
        (Party::Server(sender), Party::Server(receiver)) => sender != receiver,
        (Party::Server(_), Party::Reader(_)) | (_, Party::Server(_)) => true,
        _ => false,
    }
}

/// As a number of a list, where one that is too large stays so.
fn number(number: usize) -> u32 {
    u32::try_from(number).unwrap_or(NO_NUMBER)
}

/// Servers as a placement.
fn set(servers: &[usize]) -> u32 {
    servers.iter().fold(0, |set, &server| {
        let bit = 0x8000u32.checked_shr(number(server)).unwrap_or(0);
        set | if bit == 0 { NO_NUMBER } else { bit }
    })
}

fn numbers_of_operation(operation: &Operation) -> [u32; 3] {
    match *operation {
        Operation::Write { tick, value } => [number(tick), 0, value],
        Operation::Read { tick, reader: 0 } => [number(tick), NO_NUMBER, 0],
        Operation::Read { tick, reader } => [number(tick), number(reader), 0],
    }
}

/// Records in rising order, one after another.
fn in_order<const N: usize>(records: impl Iterator<Item = [u32; N]>) -> Vec<u32> {
    let mut records: Vec<_> = records.collect();
    records.sort_unstable();
    records.concat()
}
