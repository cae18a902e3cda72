//! Check: every part is gone over once, without taking the plan apart.

use plain::bits::field;
use plain::form::PLACEMENT_BITS;
use plain::plan::{Header, MOST_READERS};
use plain::{Outcome, Refused};

use crate::sets::{first, one, Servers};
use crate::{delays, FORM};

const HEADER_BITS: usize = FORM.header_bits();
const OPERATION_BITS: usize = FORM.operation_bits();
const FORGERY_BITS: usize = FORM.forgery_bits();

/// What a receiver's field can say.
const RECEIVERS: usize = 32;

/// The header and the number of reads, or the first refusal that applies.
pub fn accepted(plan: &[u8]) -> Outcome<(Header, usize)> {
    let header = Header::of(FORM, plan)?;
    if !placements_stand(plan, &header) {
        return Err(Refused(5));
    }
    let reads = reads(plan, &header).ok_or(Refused(6))?;
    if !forgeries_stand(plan, &header) {
        return Err(Refused(7));
    }
    if !delays::stand(plan, &header) {
        return Err(Refused(8));
    }
    Ok((header, reads))
}

/// The faulty servers from a movement on.
#[inline]
pub fn placement(plan: &[u8], movement: usize) -> Servers {
    field(plan, HEADER_BITS + PLACEMENT_BITS * movement, PLACEMENT_BITS) as Servers
}

fn placements_stand(plan: &[u8], header: &Header) -> bool {
    let past = !first(header.servers);
    let mut placements = (0..header.movements()).map(|movement| placement(plan, movement));
    placements.all(|faulty| faulty & past == 0 && faulty.count_ones() as usize <= header.faulty)
}

pub struct Operation {
    pub begin: usize,
    /// 0 the writer, else a reader.
    pub party: usize,
    pub value: u16,
}

/// The operation at a place in the row of them that begins at a bit.
#[inline]
pub fn operation(plan: &[u8], row: usize, place: usize) -> Operation {
    let packed = field(plan, row + OPERATION_BITS * place, OPERATION_BITS);
    let (begin, party) = ((packed >> 19) as usize, (packed >> 16 & 7) as usize);
    Operation { begin, party, value: packed as u16 }
}

/// The number of reads if every operation stands.
fn reads(plan: &[u8], header: &Header) -> Option<usize> {
    let row = header.operations_at();
    let mut reads = 0;
    let mut lowest = (0, 0);
    // The first tick in which a party may begin.
    let mut free = [0; MOST_READERS + 1];
    for place in 0..header.operations {
        let Operation { begin, party, value } = operation(plan, row, place);
        let is_read = party != 0;
        let end = begin + if is_read { 2 * header.delta } else { header.delta };
        if party > header.readers || end >= header.ticks || (begin, party) < lowest {
            return None;
        }
        if begin < free[party] || is_read && value != 0 {
            return None;
        }
        reads += usize::from(is_read);
        lowest = (begin, party + 1);
        free[party] = end + 1;
    }
    Some(reads)
}

pub struct Forgery {
    packed: u64,
    pub tick: usize,
    pub sender: usize,
    pub receiver: usize,
    pub value: u16,
    pub number: usize,
}

/// The forgery at a place in the row of them that begins at a bit.
#[inline]
pub fn forgery(plan: &[u8], row: usize, place: usize) -> Forgery {
    let packed = field(plan, row + FORGERY_BITS * place, FORGERY_BITS);
    Forgery {
        packed,
        tick: (packed >> 33) as usize,
        sender: (packed >> 29 & 15) as usize,
        receiver: (packed >> 24 & 31) as usize,
        value: (packed >> 8) as u16,
        number: (packed & 255) as usize,
    }
}

fn forgeries_stand(plan: &[u8], header: &Header) -> bool {
    let row = header.forgeries_at();
    let mut lowest = 0;
    let mut now = Now::first(plan, header);
    for place in 0..header.forgeries {
        let forgery = forgery(plan, row, place);
        if forgery.packed < lowest || forgery.tick >= header.ticks {
            return false;
        }
        lowest = forgery.packed + 1;
        if forgery.tick > now.tick {
            now.advance(plan, header, forgery.tick);
        }
        if !now.allows(header, &forgery) {
            return false;
        }
    }
    true
}

/// What a forgery's tick asks of it.
struct Now {
    operations_at: usize,
    tick: usize,
    faulty: Servers,
    /// The first operation that has not begun.
    next: usize,
    /// By party, the end of its last read that has begun.
    ends: [usize; RECEIVERS],
}

impl Now {
    fn first(plan: &[u8], header: &Header) -> Self {
        let operations_at = header.operations_at();
        let mut now = Now { operations_at, tick: 0, faulty: 0, next: 0, ends: [0; RECEIVERS] };
        now.advance(plan, header, 0);
        now
    }

    fn advance(&mut self, plan: &[u8], header: &Header, tick: usize) {
        self.tick = tick;
        self.faulty = placement(plan, tick / header.period);
        while self.next < header.operations {
            let Operation { begin, party, .. } = operation(plan, self.operations_at, self.next);
            if begin > tick {
                return;
            }
            if party != 0 {
                self.ends[header.writer() + party] = begin + 2 * header.delta;
            }
            self.next += 1;
        }
    }

    #[inline]
    fn allows(&self, header: &Header, forgery: &Forgery) -> bool {
        let reaches = if forgery.receiver < header.servers {
            forgery.receiver != forgery.sender
        } else {
            self.tick < self.ends[forgery.receiver]
        };
        self.faulty & one(forgery.sender) != 0 && reaches
    }
}
