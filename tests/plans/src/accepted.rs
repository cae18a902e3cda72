//! Random plans that Check accepts, with faults and delays that try hard to do harm.

use crate::form::Form;
use crate::parts::{Forgery, Operation, Parts};
use crate::random::Random;

#[derive(Clone, Copy, PartialEq, Eq)]
pub enum Size {
    Small,
    Any,
}

/// The values that border on something in one of the forms.
const BORDERS: [u32; 12] =
    [0, 1, 7, 0xff, 0x100, 0x8000, 0xfffe, 0xffff, 0x1_0000, 0x80_0000, 0xff_fffe, 0xff_ffff];

/// A plan of a form. Half of those of form two have only values that form one has room for, or at times
/// one single value that it has no room for.
pub fn accepted(random: &mut Random, form: Form, size: Size) -> Parts {
    let values = if random.once_in(2) { Form::One } else { form };
    let mut parts = header(random, form, values, size);
    parts.placements = placements(random, &parts);
    parts.operations = operations(random, &parts, values);
    parts.forgeries = forgeries(random, &parts, values, size);
    parts.delays = delays(random, &parts);
    if values != form && random.once_in(4) {
        widen_one(random, &mut parts);
    }
    parts
}

/// A value of a form; some are alike but for their highest bits, some but for their lowest.
fn value(random: &mut Random, form: Form) -> u32 {
    match random.below(8) {
        0 | 1 => random.pick(&BORDERS) & form.highest_value(),
        2 => random.below(8) as u32,
        3 => (random.below(8) as u32) << (form.value_bits() - 3),
        _ => random.number() as u32 & form.highest_value(),
    }
}

/// Makes one of the values too wide for form one: the initial one, one that is written or a forged one.
fn widen_one(random: &mut Random, parts: &mut Parts) {
    let writes = parts.operations.iter_mut().filter(|operation| operation.party == 0);
    let written = writes.map(|write| &mut write.value);
    let forged = parts.forgeries.iter_mut().map(|forgery| &mut forgery.value);
    let mut values: Vec<&mut u32> =
        [&mut parts.initial].into_iter().chain(written).chain(forged).collect();
    let at = random.edgy(0, values.len() - 1);
    *values[at] |= 1 << random.between(Form::One.value_bits(), parts.form.value_bits() - 1);
    parts.forgeries.sort();
}

fn header(random: &mut Random, form: Form, values: Form, size: Size) -> Parts {
    let small = size == Size::Small;
    let delta = if small { random.between(1, 4) } else { random.edgy(1, 15) };
    let k = random.between(1, 2);
    let period = match k {
        1 if small => random.between(2 * delta, 3 * delta + 1),
        1 => random.edgy(2 * delta, 63),
        _ => random.edgy(delta, 2 * delta - 1),
    };
    let faulty = random.pick(&[0, 1, 1, 1, 2, 2, 3]);
    let fewest = (k + 3) * faulty + 1;
    let servers =
        if small { (fewest + random.pick(&[0, 0, 1])).min(16) } else { random.edgy(fewest, 16) };
    let most_ticks = if small { 24 } else { 128 };
    let ticks = match random.below(8) {
        0 => random.between(1, most_ticks),
        1 => (2 * delta + 1).min(most_ticks),
        2 => most_ticks,
        _ => random.between(most_ticks / 2, most_ticks),
    };
    let readers = if small { random.pick(&[1, 1, 2, 3, 4]) } else { random.between(1, 4) };
    Parts {
        form,
        servers,
        faulty,
        delta,
        period,
        readers,
        ticks,
        initial: value(random, values),
        zero: 0,
        placements: Vec::new(),
        operations: Vec::new(),
        forgeries: Vec::new(),
        delays: Vec::new(),
    }
}

fn some_servers(random: &mut Random, parts: &Parts, count: usize) -> u16 {
    let mut set = 0u16;
    while (set.count_ones() as usize) < count.min(parts.servers) {
        set |= 1 << random.below(parts.servers);
    }
    set
}

fn placements(random: &mut Random, parts: &Parts) -> Vec<u16> {
    let style = random.below(8);
    let first = random.below(parts.servers);
    let step = random.pick(&[1, parts.faulty.max(1)]);
    let two =
        [some_servers(random, parts, parts.faulty), some_servers(random, parts, parts.faulty)];
    let in_turn = |movement: usize| {
        (0..parts.faulty)
            .fold(0, |set, i| set | 1 << ((first + movement * step + i) % parts.servers))
    };
    let one = |movement: usize| match style {
        0 => 0,
        1 => two[0],
        2 => two[movement % 2],
        3..=5 => in_turn(movement),
        6 => some_servers(random, parts, parts.faulty),
        _ => {
            let count = random.between(0, parts.faulty);
            some_servers(random, parts, count)
        }
    };
    (0..parts.movements()).map(one).collect()
}

fn operations(random: &mut Random, parts: &Parts, values: Form) -> Vec<Operation> {
    let mut operations = Vec::new();
    for party in 0..=parts.readers {
        let duration = parts.duration(party);
        let style = random.below(7);
        let mut tick = if random.once_in(3) { random.below(parts.ticks) } else { 0 };
        if style == 0 && parts.ticks > duration {
            // Ends in the last tick.
            tick = parts.ticks - 1 - duration;
        }
        while style != 1 && tick + duration < parts.ticks {
            let value = if party == 0 { value(random, values) } else { 0 };
            operations.push(Operation { tick, party, value });
            tick += duration + 1;
            if style >= 4 {
                tick += random.below(2 * parts.delta + 2);
            }
        }
    }
    operations.sort_by_key(|operation| (operation.tick, operation.party));
    operations
}

/// Whether the reader has an open read in stage 5 of the tick.
fn has_open_read(parts: &Parts, reader: usize, tick: usize) -> bool {
    let mut reads = parts.operations.iter().filter(|operation| operation.party == reader);
    reads.any(|read| read.tick <= tick && tick < read.tick + 2 * parts.delta)
}

fn forgeries(random: &mut Random, parts: &Parts, values: Form, size: Size) -> Vec<Forgery> {
    let lots = if size == Size::Small { 120 } else { 1024 };
    let wanted = match random.below(5) {
        0 => 0,
        1 => random.between(1, 20),
        2 => lots,
        3 if random.once_in(4) => 1024,
        _ => random.between(1, lots),
    };
    let worth = worth_forging(random, parts, values);
    let mut forgeries = Vec::with_capacity(wanted);
    let (mut low, mut span) = (0, parts.ticks);
    if random.once_in(3) {
        low = random.below(parts.ticks);
        span = (3 * parts.delta).min(parts.ticks - low);
    }
    for _ in 0..wanted {
        let tick = low + random.below(span);
        let faulty = parts.faulty_at(tick);
        // A faulty sender, counted from a random one.
        let first = random.below(16);
        let Some(sender) = (0..16).map(|i| (first + i) % 16).find(|i| faulty >> i & 1 == 1) else {
            continue;
        };
        let receiver = random.below(parts.parties());
        let stands = if receiver < parts.servers {
            receiver != sender
        } else {
            receiver > parts.servers && has_open_read(parts, receiver - parts.servers, tick)
        };
        if stands {
            let (value, number) = random.pick(&worth);
            forgeries.push(Forgery { tick, sender, receiver, value, number });
        }
    }
    forgeries.sort();
    forgeries.dedup();
    forgeries
}

/// Stamped values near the true ones, and far above them.
fn worth_forging(random: &mut Random, parts: &Parts, values: Form) -> Vec<(u32, u8)> {
    let highest = values.highest_value();
    let mut worth = vec![(highest, 255), (parts.initial, 0), (highest, 0)];
    worth.push((value(random, values), random.number() as u8));
    let writes = parts.operations.iter().filter(|operation| operation.party == 0);
    for (i, write) in writes.enumerate() {
        let number = i as u8 + 1;
        let near = write.value ^ 1 << random.below(values.value_bits());
        worth.extend([(write.value, number), (highest, number), (near, number)]);
        worth.push((write.value, number + 1));
    }
    if random.once_in(2) {
        let count = random.between(1, 3);
        worth = (0..count).map(|_| random.pick(&worth)).collect();
    }
    if random.once_in(6) {
        worth = (0..1000).map(|_| (value(random, values), random.number() as u8)).collect();
    }
    worth
}

fn delays(random: &mut Random, parts: &Parts) -> Vec<u8> {
    let parties = parts.parties();
    let style = random.below(8);
    let mut delays = Vec::with_capacity(parts.ticks * parties * parties);
    for tick in 0..parts.ticks {
        for sender in 0..parties {
            for receiver in 0..parties {
                let delay = match style {
                    _ if !parts.has_link(sender, receiver) => 0,
                    0 => 1,
                    1 => parts.delta,
                    2 => random.pick(&[1, parts.delta]),
                    3 => 1 + (sender * 7 + receiver * 3) % parts.delta,
                    // Faulty servers fast, all others slow.
                    4 if parts.faulty_at(tick) & 1u16.checked_shl(sender as u32).unwrap_or(0)
                        != 0 =>
                    {
                        1
                    }
                    4 => parts.delta,
                    5 => lost_if_possible(random, parts, tick, receiver),
                    _ => random.between(1, parts.delta),
                };
                delays.push(delay as u8);
            }
        }
    }
    delays
}

/// A delay after which the receiver is faulty, if there is one.
fn lost_if_possible(random: &mut Random, parts: &Parts, tick: usize, receiver: usize) -> usize {
    let first = random.between(1, parts.delta);
    let arrives_faulty = |delay: usize| {
        let before = (tick + delay - 1).min(parts.ticks - 1);
        receiver < parts.servers && parts.faulty_at(before) >> receiver & 1 == 1
    };
    let mut delays = (0..parts.delta).map(|i| 1 + (first + i) % parts.delta);
    delays.find(|&delay| arrives_faulty(delay)).unwrap_or(parts.delta)
}
