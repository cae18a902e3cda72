//! Answers: packed, and judged against the regular register.

use crate::bits::{field, join, split};
use crate::form::Form;
use crate::plan::{Plan, Read, Stamped, Write};

/// The fields of an answer: begin, reader, value, number, count, zero.
pub type Answer = [u64; 6];

pub fn answer(read: &Read, stamped: Stamped, count: u32) -> Answer {
    let (begin, reader) = (read.begin as u64, read.reader as u64);
    [begin, reader, stamped.value().into(), stamped.number().into(), count.into(), 0]
}

/// Puts an answer in its place, which has just its bytes.
pub fn put(form: &Form, answer: Answer, place: &mut [u8]) {
    let packed = join(answer, &form.answer).to_be_bytes();
    place.copy_from_slice(&packed[packed.len() - place.len()..]);
}

/// The answer in these bytes.
pub fn get(form: &Form, bytes: &[u8]) -> Answer {
    split(field(bytes, 0, form.answer_bits()), &form.answer)
}

/// Whether begin, reader and zero bit are those of the read.
pub fn belongs(read: &Read, answer: Answer) -> bool {
    let [begin, reader, .., zero] = answer;
    begin as usize == read.begin && reader as usize == read.reader && zero == 0
}

/// Whether the write neither finished before the read nor began after its end.
pub fn is_concurrent(write: &Write, read: &Read) -> bool {
    write.end > read.begin && write.begin <= read.end
}

pub fn is_regular(plan: &Plan, read: &Read, answer: Answer) -> bool {
    let [_, _, value, number, ..] = answer;
    let given = Stamped::new(value as u32, number as u8);
    let initial = Stamped::new(plan.header.initial, 0);
    let finished = plan.writes.iter().rev().find(|write| write.end <= read.begin);
    let last_finished = finished.map_or(initial, |write| write.stamped);
    let mut concurrent = plan.writes.iter().filter(|write| is_concurrent(write, read));
    given == last_finished || concurrent.any(|write| write.stamped == given)
}
