//! Plans with a fault somewhere: of each part, each field and each bit.

use crate::accepted::{accepted, Size};
use crate::form::Form;
use crate::parts::Parts;
use crate::random::Random;

/// The bytes of a plan that has most likely a fault.
pub fn damaged(random: &mut Random, form: Form, size: Size) -> Vec<u8> {
    let mut parts = accepted(random, form, size);
    match random.below(12) {
        0 => return cut_or_lengthened(random, form, parts.pack()),
        10 => return flipped(random, parts.pack()),
        11 => return noise(random),
        kind => change(random, &mut parts, kind),
    }
    parts.pack()
}

/// The parts of a plan that has most likely a fault.
pub fn spoilt(random: &mut Random, form: Form, size: Size) -> Parts {
    let mut parts = accepted(random, form, size);
    let kind = random.between(1, 9);
    change(random, &mut parts, kind);
    parts
}

/// A change by its kind, 1 to 9.
fn change(random: &mut Random, parts: &mut Parts, kind: usize) {
    match kind {
        1 => change_header(random, parts),
        2 => change_counts(random, parts),
        3 | 4 => change_placement(random, parts),
        5 | 6 => change_operation(random, parts),
        7 | 8 => change_forgery(random, parts),
        _ => change_delay(random, parts),
    }
}

fn cut_or_lengthened(random: &mut Random, form: Form, mut bytes: Vec<u8>) -> Vec<u8> {
    let (header, longest) = (form.header_bytes(), form.longest_plan());
    match random.below(6) {
        0 => bytes.truncate(random.pick(&[0, header / 2, header - 2, header - 1, header])),
        1 => bytes.truncate(bytes.len() - 1),
        2 => bytes.truncate(random.below(bytes.len())),
        3 => bytes.push(0),
        4 => bytes.resize(bytes.len() + random.between(1, 99), 0),
        _ => bytes.resize(random.pick(&[longest, longest + 1, 60_000, 100_000]), 0),
    }
    bytes
}

fn change_header(random: &mut Random, parts: &mut Parts) {
    match random.below(9) {
        0 => parts.servers = random.pick(&[0, 17, 31]),
        1 => parts.delta = 0,
        2 => parts.period = parts.delta - 1,
        3 => parts.readers = random.pick(&[0, 5, 6, 7]),
        4 => parts.ticks = random.pick(&[0, 129, 255]),
        5 => parts.zero = 1,
        6 => {
            parts.forgeries =
                vec![crate::Forgery { tick: 0, sender: 0, receiver: 0, value: 0, number: 0 }; 1025]
        }
        7 => parts.servers = random.below(32),
        _ => parts.faulty = random.below(4),
    }
}

/// Header fields that no longer fit each other or the length.
fn change_counts(random: &mut Random, parts: &mut Parts) {
    match random.below(5) {
        0 => parts.faulty = (parts.faulty + 1).min(3),
        1 => parts.servers = (parts.servers - 1).max(1),
        2 => parts.ticks = (parts.ticks + 1).min(128),
        3 => parts.period = random.between(parts.delta, 63),
        _ => parts.readers = random.between(1, 4),
    }
}

fn change_placement(random: &mut Random, parts: &mut Parts) {
    let at = random.below(parts.placements.len());
    parts.placements[at] = match random.below(4) {
        0 => (1u32 << (parts.faulty + 1)).wrapping_sub(1) as u16,
        1 => 1u16.checked_shl(parts.servers as u32).unwrap_or(0x8000),
        2 => parts.placements[at] | 1 << random.below(16),
        _ => random.number() as u16,
    };
}

fn change_operation(random: &mut Random, parts: &mut Parts) {
    if parts.operations.is_empty() {
        return change_placement(random, parts);
    }
    let at = random.below(parts.operations.len());
    let before = parts.operations[at.saturating_sub(1)].clone();
    let (ticks, readers, delta) = (parts.ticks, parts.readers, parts.delta);
    let value_bits = parts.form.value_bits();
    let operation = &mut parts.operations[at];
    match random.below(8) {
        0 => operation.tick += 1,
        1 => operation.tick = operation.tick.saturating_sub(1),
        2 => operation.party = random.pick(&[readers + 1, 7, 5]),
        3 => operation.party = random.below(readers + 1),
        4 => operation.value ^= 1 << random.below(value_bits),
        5 => operation.tick = ticks.saturating_sub(random.pick(&[delta, 2 * delta])),
        6 => operation.tick = 127,
        _ => *operation = before,
    }
}

fn change_forgery(random: &mut Random, parts: &mut Parts) {
    if random.once_in(3) && reply_out_of_time(random, parts) {
        return;
    }
    if parts.forgeries.is_empty() {
        return change_operation(random, parts);
    }
    let at = random.below(parts.forgeries.len());
    let before = parts.forgeries[at.saturating_sub(1)].clone();
    let (ticks, servers, parties) = (parts.ticks, parts.servers, parts.parties());
    let highest_value = parts.form.highest_value();
    let forgery = &mut parts.forgeries[at];
    match random.below(9) {
        0 => forgery.tick = random.pick(&[ticks, 127, forgery.tick + 1]),
        1 => forgery.tick = forgery.tick.saturating_sub(1),
        2 => forgery.sender = random.below(16),
        3 => forgery.receiver = forgery.sender,
        4 => forgery.receiver = servers,
        5 => forgery.receiver = random.pick(&[parties, 31]),
        6 => forgery.receiver = random.between(servers, parties - 1),
        7 => forgery.value = forgery.value.wrapping_sub(1) & highest_value,
        _ => *forgery = before,
    }
}

/// Puts in a reply that is forged one tick before its read begins or in the tick of its end;
/// whether there was a place for it.
fn reply_out_of_time(random: &mut Random, parts: &mut Parts) -> bool {
    let reads: Vec<_> = parts.operations.iter().filter(|operation| operation.party != 0).collect();
    if reads.is_empty() || parts.forgeries.len() == 1024 {
        return false;
    }
    let read = reads[random.below(reads.len())];
    let tick = random.pick(&[read.tick.saturating_sub(1), read.tick + 2 * parts.delta]);
    let receiver = parts.servers + read.party;
    let faulty = parts.faulty_at(tick);
    let Some(sender) = (0..16).find(|server| faulty >> server & 1 == 1) else {
        return false;
    };
    parts.forgeries.push(crate::Forgery { tick, sender, receiver, value: 9, number: 9 });
    parts.forgeries.sort();
    true
}

fn change_delay(random: &mut Random, parts: &mut Parts) {
    let last = parts.delays.len() - 1;
    let at = random.edgy(0, last);
    parts.delays[at] = random.pick(&[0, 1, parts.delta as u8 + 1, 15]);
}

fn flipped(random: &mut Random, mut bytes: Vec<u8>) -> Vec<u8> {
    // The last bits often, as they may be final ones.
    let bits = 8 * bytes.len();
    for _ in 0..random.pick(&[1, 1, 1, 2, 5]) {
        let bit = match random.below(3) {
            0 => bits - 1 - random.below(12),
            1 => random.below(bits.min(400)),
            _ => random.below(bits),
        };
        bytes[bit / 8] ^= 0x80 >> (bit % 8);
    }
    bytes
}

fn noise(random: &mut Random) -> Vec<u8> {
    let length = random.below(200);
    (0..length).map(|_| random.number() as u8).collect()
}
