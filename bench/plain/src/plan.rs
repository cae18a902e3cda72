//! The packed plan: taken apart and checked.

use crate::bits::{field, split, Fields};
use crate::form::{Form, DELAY_BITS, PLACEMENT_BITS};
use crate::Refused;

pub const MOST_SERVERS: usize = 16;
pub const MOST_READERS: usize = 4;
pub const MOST_TICKS: usize = 128;
pub const MOST_OPERATIONS: usize = 255;
const MOST_FORGERIES: usize = 1024;

/// Where the sequence number stands in a stamped value: above values of any form.
const NUMBER_AT: usize = 24;

/// A value and its sequence number, as one number: in the order of the numbers, then the values.
#[derive(Clone, Copy, Debug, Default, PartialEq, Eq, PartialOrd, Ord)]
pub struct Stamped(u32);

impl Stamped {
    pub fn new(value: u32, number: u8) -> Self {
        Stamped(u32::from(number) << NUMBER_AT | value)
    }

    pub fn value(self) -> u32 {
        self.0 & ((1 << NUMBER_AT) - 1)
    }

    pub fn number(self) -> u8 {
        (self.0 >> NUMBER_AT) as u8
    }
}

#[derive(Clone, Copy)]
pub struct Header {
    pub form: &'static Form,
    pub servers: usize,
    pub faulty: usize,
    pub delta: usize,
    pub period: usize,
    pub readers: usize,
    pub ticks: usize,
    pub initial: u32,
    pub operations: usize,
    pub forgeries: usize,
}

impl Header {
    /// The header, or the first of the refusals that it and the plan's length can give.
    pub fn of(form: &'static Form, bytes: &[u8]) -> Result<Self, Refused> {
        if 8 * bytes.len() < form.header_bits() {
            return Err(Refused(1));
        }
        let fields = Fields::new(bytes, 0).take_record(&form.header);
        let header = Header::from_fields(form, fields)?.with_enough_servers()?;
        if bytes.len() != header.final_bits_at().div_ceil(8) {
            return Err(Refused(4));
        }
        Ok(header)
    }

    pub fn with_enough_servers(self) -> Result<Self, Refused> {
        if self.servers < (self.k() + 3) * self.faulty + 1 {
            Err(Refused(3))
        } else {
            Ok(self)
        }
    }

    /// The header that the fields say, the zero bit last, if all are in their ranges.
    pub fn from_fields(form: &'static Form, fields: [u64; 10]) -> Result<Self, Refused> {
        let [servers, faulty, delta, period, readers, ticks, initial, operations, forgeries, zero] =
            fields.map(|field| field as usize);
        let header = Header {
            form,
            servers,
            faulty,
            delta,
            period,
            readers,
            ticks,
            initial: initial as u32,
            operations,
            forgeries,
        };
        let in_range = (1..=MOST_SERVERS).contains(&header.servers)
            && header.delta >= 1
            && header.period >= header.delta
            && (1..=MOST_READERS).contains(&header.readers)
            && (1..=MOST_TICKS).contains(&header.ticks)
            && header.forgeries <= MOST_FORGERIES
            && zero == 0;
        if in_range {
            Ok(header)
        } else {
            Err(Refused(2))
        }
    }

    pub fn k(&self) -> usize {
        if self.period >= 2 * self.delta {
            1
        } else {
            2
        }
    }

    /// Votes of so many servers in the present period are enough.
    pub fn echo_quorum(&self) -> u32 {
        (2 * self.faulty + 1) as u32
    }

    /// Votes of so many servers in the last k periods are enough, and replies of so many to a read.
    pub fn reply_quorum(&self) -> u32 {
        ((self.k() + 1) * self.faulty + 1) as u32
    }

    pub fn movements(&self) -> usize {
        self.ticks.div_ceil(self.period)
    }

    pub fn parties(&self) -> usize {
        self.servers + 1 + self.readers
    }

    pub fn writer(&self) -> usize {
        self.servers
    }

    /// Whether messages go from one party to the other.
    fn has_link(&self, sender: usize, receiver: usize) -> bool {
        let (from_server, to_server) = (sender < self.servers, receiver < self.servers);
        if from_server && to_server {
            sender != receiver
        } else {
            to_server || (from_server && receiver > self.writer())
        }
    }

    /// How many records each part of the plan has, the header among them.
    pub fn records(&self) -> [usize; 5] {
        let delays = self.ticks * self.parties() * self.parties();
        [1, self.movements(), self.operations, self.forgeries, delays]
    }

    pub fn operations_at(&self) -> usize {
        self.form.header_bits() + PLACEMENT_BITS * self.movements()
    }

    pub fn forgeries_at(&self) -> usize {
        self.operations_at() + self.form.operation_bits() * self.operations
    }

    pub fn delays_at(&self) -> usize {
        self.forgeries_at() + self.form.forgery_bits() * self.forgeries
    }

    fn final_bits_at(&self) -> usize {
        self.delays_at() + DELAY_BITS * self.ticks * self.parties() * self.parties()
    }
}

#[derive(Clone, Copy)]
pub struct Write {
    pub begin: usize,
    pub end: usize,
    pub stamped: Stamped,
}

#[derive(Clone, Copy)]
pub struct Read {
    pub begin: usize,
    pub end: usize,
    /// 1 to the number of readers.
    pub reader: usize,
}

#[derive(Clone, Copy)]
pub struct Forgery {
    pub tick: usize,
    pub sender: usize,
    pub receiver: usize,
    pub stamped: Stamped,
}

/// An accepted plan.
pub struct Plan<'a> {
    pub header: Header,
    /// For each movement the set of faulty servers; server i is bit i.
    pub placements: Vec<u16>,
    pub writes: Vec<Write>,
    pub reads: Vec<Read>,
    pub forgeries: Vec<Forgery>,
    bytes: &'a [u8],
    delays_at: usize,
}

impl<'a> Plan<'a> {
    /// Takes the plan apart, or gives the first refusal that applies.
    pub fn unpack(form: &'static Form, bytes: &'a [u8]) -> Result<Self, Refused> {
        let header = Header::of(form, bytes)?;
        let placements = unpack_placements(bytes, &header).ok_or(Refused(5))?;
        let (writes, reads) = unpack_operations(bytes, &header).ok_or(Refused(6))?;
        let forgeries = unpack_forgeries(bytes, &header, &placements, &reads).ok_or(Refused(7))?;
        if !delays_stand(bytes, &header) {
            return Err(Refused(8));
        }
        let delays_at = header.delays_at();
        Ok(Plan { header, placements, writes, reads, forgeries, bytes, delays_at })
    }

    pub fn delay(&self, tick: usize, sender: usize, receiver: usize) -> usize {
        let parties = self.header.parties();
        let link = (tick * parties + sender) * parties + receiver;
        field(self.bytes, self.delays_at + DELAY_BITS * link, DELAY_BITS) as usize
    }
}

fn unpack_placements(bytes: &[u8], header: &Header) -> Option<Vec<u16>> {
    let mut fields = Fields::new(bytes, header.form.header_bits());
    let existing = ((1u32 << header.servers) - 1) as u16;
    (0..header.movements())
        .map(|_| {
            let faulty = (fields.take(PLACEMENT_BITS) as u16).reverse_bits();
            let stands = faulty.count_ones() as usize <= header.faulty && faulty & !existing == 0;
            stands.then_some(faulty)
        })
        .collect()
}

fn unpack_operations(bytes: &[u8], header: &Header) -> Option<(Vec<Write>, Vec<Read>)> {
    let mut fields = Fields::new(bytes, header.operations_at());
    let (mut writes, mut reads) = (Vec::new(), Vec::new());
    let mut last = None;
    let mut ends = [None; MOST_READERS + 1];
    for _ in 0..header.operations {
        let [begin, party, value] =
            fields.take_record(&header.form.operation).map(|field| field as usize);
        let rises = last < Some((begin, party));
        last = Some((begin, party));
        if !rises || party > header.readers || ends[party] >= Some(begin) {
            return None;
        }
        let end = begin + if party == 0 { header.delta } else { 2 * header.delta };
        ends[party] = Some(end);
        if end >= header.ticks || (party != 0 && value != 0) {
            return None;
        }
        if party == 0 {
            let number = writes.len() as u8 + 1;
            writes.push(Write { begin, end, stamped: Stamped::new(value as u32, number) });
        } else {
            reads.push(Read { begin, end, reader: party });
        }
    }
    Some((writes, reads))
}

fn unpack_forgeries(
    bytes: &[u8],
    header: &Header,
    placements: &[u16],
    reads: &[Read],
) -> Option<Vec<Forgery>> {
    let mut forgeries = Vec::with_capacity(header.forgeries);
    let mut fields = Fields::new(bytes, header.forgeries_at());
    let mut last = None;
    // The end of the last read of each reader that has begun by the forgery's tick.
    let mut ends = [0; MOST_READERS + 1];
    let mut begun = reads.iter().peekable();
    for _ in 0..header.forgeries {
        let packed = fields.take(header.form.forgery_bits());
        let rises = last < Some(packed);
        last = Some(packed);
        let [tick, sender, receiver, value, number] =
            split(packed, &header.form.forgery).map(|field| field as usize);
        let stamped = Stamped::new(value as u32, number as u8);
        let forgery = Forgery { tick, sender, receiver, stamped };
        if !rises || forgery.tick >= header.ticks {
            return None;
        }
        while let Some(read) = begun.next_if(|read| read.begin <= forgery.tick) {
            ends[read.reader] = read.end;
        }
        let faulty = placements[forgery.tick / header.period];
        let to_server = forgery.receiver < header.servers && forgery.receiver != forgery.sender;
        let to_reader = forgery.receiver > header.writer()
            && forgery.receiver < header.parties()
            && ends[forgery.receiver - header.writer()] > forgery.tick;
        if faulty >> forgery.sender & 1 == 0 || !(to_server || to_reader) {
            return None;
        }
        forgeries.push(forgery);
    }
    Some(forgeries)
}

fn delays_stand(bytes: &[u8], header: &Header) -> bool {
    let mut fields = Fields::new(bytes, header.delays_at());
    for _tick in 0..header.ticks {
        for sender in 0..header.parties() {
            for receiver in 0..header.parties() {
                let delay = fields.take(DELAY_BITS) as usize;
                let stands = if header.has_link(sender, receiver) {
                    1 <= delay && delay <= header.delta
                } else {
                    delay == 0
                };
                if !stands {
                    return false;
                }
            }
        }
    }
    let final_bits = 8 * bytes.len() - fields.at;
    final_bits == 0 || fields.take(final_bits) == 0
}
