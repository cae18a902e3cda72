//! Lists with a fault somewhere: of each list, each field and each length.

use crate::accepted::{accepted, Size};
use crate::damaged::spoilt;
use crate::form::Form;
use crate::lists::Lists;
use crate::random::Random;

/// Lists for a packer: those of an accepted plan, of one with a fault, or bent.
pub fn some_lists(random: &mut Random, form: Form, size: Size) -> Lists {
    if random.once_in(4) {
        return spoilt(random, form, size).lists();
    }
    let mut lists = accepted(random, form, size).lists();
    for _ in 0..random.pick(&[0, 1, 1, 1, 1, 2]) {
        bend(random, form, &mut lists);
    }
    lists
}

fn bend(random: &mut Random, form: Form, lists: &mut Lists) {
    let all_widths = form.widths();
    let list = random.below(all_widths.len());
    let widths = &all_widths[list];
    let numbers = &mut *lists.all_mut()[list];
    match random.below(8) {
        0..=2 => widen(random, numbers, widths),
        3 | 4 => change_length(random, numbers, widths.len()),
        5 => swap_records(random, numbers, widths.len()),
        6 => step(random, numbers),
        // A header that fits, but says other lengths.
        _ => step(random, &mut lists.header),
    }
}

/// A number too wide for its field, often one whose low bits are right.
fn widen(random: &mut Random, numbers: &mut [u32], widths: &[usize]) {
    if numbers.is_empty() {
        return;
    }
    let at = random.edgy(0, numbers.len() - 1);
    let width = widths[at % widths.len()];
    numbers[at] = match random.below(4) {
        0 => 1 << width,
        1 => u32::MAX,
        2 => numbers[at] | 1 << width,
        _ => numbers[at] | 1 << random.between(width, 31),
    };
}

/// A number or a record more or less, or another length altogether.
fn change_length(random: &mut Random, numbers: &mut Vec<u32>, record: usize) {
    let length = numbers.len();
    let changed = match random.below(6) {
        0 => length.saturating_sub(1),
        1 => length.saturating_sub(record),
        2 => length + 1,
        3 => length + record,
        4 => 0,
        _ => random.below(2 * length + 2),
    };
    numbers.resize(changed, 0);
}

/// Two neighbours, so that the order is wrong; of header and delays two numbers.
fn swap_records(random: &mut Random, numbers: &mut [u32], record: usize) {
    let records = numbers.len() / record;
    if records < 2 {
        return numbers.reverse();
    }
    let first = record * random.below(records - 1);
    numbers[first..first + 2 * record].rotate_left(record);
}

/// One more or less.
fn step(random: &mut Random, numbers: &mut [u32]) {
    if !numbers.is_empty() {
        let at = random.below(numbers.len());
        let change = random.pick(&[1, u32::MAX]);
        numbers[at] = numbers[at].wrapping_add(change);
    }
}
