//! The delays of a plan, by bytes and words: whether they stand, and whom they reach when.

use plain::bits::field;
use plain::form::DELAY_BITS;
use plain::plan::{Header, MOST_READERS, MOST_SERVERS};

use crate::sets::{each, first, one, Servers};

const MOST_PARTIES: usize = MOST_SERVERS + 1 + MOST_READERS;
const MOST_LINKS: usize = MOST_PARTIES * MOST_PARTIES;

/// The lowest bit of each delay in a word of sixteen.
const LOWEST: u64 = 0x1111_1111_1111_1111;

/// Whether links have 1 to δ, and all else, final bits too, is zero.
pub fn stand(plan: &[u8], header: &Header) -> bool {
    let cells = header.parties() * header.parties();
    let links = links(header);
    let at = header.delays_at();
    // Two ticks have as many bytes as one has delays. The last delay of all, if it is a half byte,
    // is a reader's to itself, which is zero as the final bits are.
    let (begin, whole) = (at / 8, header.ticks * cells / 2);
    let mut faults = 0;
    for from in (0..whole).step_by(cells) {
        let bytes = &plan[begin + from..];
        let (links, most) = (&links[..cells.min(whole - from)], header.delta as u8);
        faults |= match at % 8 {
            0 => faults_among(bytes.iter().copied(), links, most),
            2 => faults_among(shifted::<2>(bytes), links, most),
            4 => faults_among(shifted::<4>(bytes), links, most),
            _ => faults_among(shifted::<6>(bytes), links, most),
        };
    }
    let rest = at + 8 * whole;
    faults == 0 && (rest == 8 * plan.len() || field(plan, rest, 8 * plan.len() - rest) == 0)
}

/// Of two ticks, two delays to a byte: 1 in its half where there is a link.
fn links(header: &Header) -> [u8; MOST_LINKS] {
    let (parties, servers) = (header.parties(), header.servers);
    let mut cells = [0; 2 * MOST_LINKS];
    for (i, row) in cells.chunks_exact_mut(parties).take(2 * parties).enumerate() {
        let sender = i % parties;
        row[..servers].fill(1);
        if sender < servers {
            row[servers + 1..].fill(1);
            row[sender] = 0;
        }
    }
    let mut links = [0; MOST_LINKS];
    for (link, two) in links[..parties * parties].iter_mut().zip(cells.chunks_exact(2)) {
        *link = two[0] << 4 | two[1];
    }
    links
}

/// The bytes that begin so many bits later.
fn shifted<const BITS: u32>(bytes: &[u8]) -> impl Iterator<Item = u8> + '_ {
    bytes.iter().zip(&bytes[1..]).map(|(byte, next)| byte << BITS | next >> (8 - BITS))
}

/// Not 0 if one of the delays, two to a byte, doesn't stand. Alone, so that it is made for many
/// bytes at once.
#[inline(never)]
fn faults_among(twos: impl Iterator<Item = u8>, links: &[u8], most: u8) -> u8 {
    twos.zip(links).fold(0, |faults, (two, link)| {
        let pairs = two | two >> 1;
        let not_zero = (pairs | pairs >> 2) & 0x11;
        let too_high = (two & 15).max(two >> 4) > most;
        faults | not_zero ^ link | u8::from(too_high)
    })
}

/// The delays of an accepted plan.
#[derive(Clone, Copy)]
pub struct Delays<'a> {
    plan: &'a [u8],
    at: usize,
    parties: usize,
    servers: Servers,
}

impl<'a> Delays<'a> {
    pub fn new(plan: &'a [u8], header: &Header) -> Self {
        let servers = first(header.servers);
        Delays { plan, at: header.delays_at(), parties: header.parties(), servers }
    }

    #[inline]
    fn row_at(&self, tick: usize, sender: usize) -> usize {
        self.at + DELAY_BITS * (tick * self.parties + sender) * self.parties
    }

    #[inline]
    pub fn one(&self, tick: usize, sender: usize, receiver: usize) -> usize {
        let at = self.row_at(tick, sender) + DELAY_BITS * receiver;
        field(self.plan, at, DELAY_BITS) as usize
    }

    /// Those of the senders that a party hears by the end.
    pub fn in_time(&self, senders: Servers, tick: usize, party: usize, end: usize) -> Servers {
        each(senders)
            .filter(|&sender| tick + self.one(tick, sender, party) <= end)
            .fold(0, |set, sender| set | one(sender))
    }

    /// Sixteen delays from the one to server 0 on, that one at the top.
    #[inline]
    pub fn sixteen(&self, tick: usize, sender: usize) -> u64 {
        let at = self.row_at(tick, sender);
        match self.plan.get(at / 8..at / 8 + 9) {
            Some(&[a, b, c, d, e, f, g, h, last]) => {
                let word = u64::from_be_bytes([a, b, c, d, e, f, g, h]);
                word << (at % 8) | u64::from(last) >> (8 - at % 8)
            }
            _ => field(self.plan, at, 32) << 32 | field(self.plan, at + 32, 32),
        }
    }

    /// The servers that hear after so long what a party sent to all.
    #[inline]
    pub fn reached(&self, tick: usize, sender: usize, after: usize) -> Servers {
        let other = self.sixteen(tick, sender) ^ (after as u64 * LOWEST);
        let other = other | other >> 1;
        let other = other | other >> 2;
        gathered(!other & LOWEST) & self.servers
    }
}

/// The lowest bits of sixteen halves of bytes as one set.
#[inline]
fn gathered(lowest: u64) -> Servers {
    let twos = (lowest | lowest >> 3) & 0x0303_0303_0303_0303;
    let fours = (twos | twos >> 6) & 0x000f_000f_000f_000f;
    let eights = (fours | fours >> 12) & 0x0000_00ff_0000_00ff;
    (eights | eights >> 24) as Servers
}
