//! Answers to judge and to make sheets of: true ones with something changed.

use plain::judge::{get, put};
use plain::plan::Plan;
use plain::Stamped;
use plans::Random;

use crate::asked::{for_plain, Asked};

/// Answers with something changed: a whole field of one of them, a bit, or the length.
pub fn changed(random: &mut Random, asked: Asked, answers: &[u8]) -> Vec<u8> {
    let size = asked.form.answer_bytes();
    if answers.is_empty() || random.once_in(12) {
        return of_another_length(random, size, answers);
    }
    let mut changed = answers.to_vec();
    for _ in 0..random.pick(&[1, 1, 2]) {
        let place = random.below(answers.len() / size);
        let other = random.below(answers.len() / size);
        let other = &answers[size * other..][..size];
        change(random, asked, &mut changed[size * place..][..size], other);
    }
    changed
}

fn of_another_length(random: &mut Random, size: usize, answers: &[u8]) -> Vec<u8> {
    let length = match random.below(4) {
        0 => answers.len().saturating_sub(1),
        1 => answers.len() + 1,
        2 => random.below(answers.len() + 1),
        _ => answers.len() + size,
    };
    let mut changed = answers.to_vec();
    changed.resize(length, 0);
    changed
}

/// Changes something in one answer, perhaps to what another one says.
fn change(random: &mut Random, asked: Asked, answer: &mut [u8], other: &[u8]) {
    let form = for_plain(asked.form);
    let last = answer.len() - 1;
    match random.below(8) {
        // One bit: begin, reader and zero bit among them.
        0 => {
            let bit = random.below(8 * answer.len());
            answer[bit / 8] ^= 0x80 >> (bit % 8);
        }
        // The count, which Judge does not look at.
        1 => answer[last] ^= 2 << random.below(5),
        2 | 3 => {
            let [_, _, value, number, ..] = get(form, other);
            put_stamped(form, answer, Stamped::new(value as u32, number as u8));
        }
        // One that was written, early or late.
        4..=6 => put_stamped(form, answer, random.pick(&written(asked))),
        _ => {
            let value = random.number() as u32 & asked.form.highest_value();
            put_stamped(form, answer, Stamped::new(value, random.number() as u8));
        }
    }
}

fn put_stamped(form: &plain::Form, answer: &mut [u8], stamped: Stamped) {
    let [begin, reader, _, _, count, zero] = get(form, answer);
    let (value, number) = (stamped.value().into(), stamped.number().into());
    put(form, [begin, reader, value, number, count, zero], answer);
}

/// The initial value and what the plan's operations write; of a refused plan something.
fn written(asked: Asked) -> Vec<Stamped> {
    let Ok(plan) = Plan::unpack(for_plain(asked.form), asked.plan) else {
        return vec![Stamped::default()];
    };
    let initial = Stamped::new(plan.header.initial, 0);
    let writes = plan.writes.iter().map(|write| write.stamped);
    std::iter::once(initial).chain(writes).collect()
}
