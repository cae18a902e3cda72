//! Answers, read from their bytes by the library.

use crate::raw::{self, AnswerField};
use crate::Form;

/// The answer to one read.
#[derive(Clone, Copy, Debug, PartialEq, Eq, Hash)]
pub struct Answer {
    /// The tick in which the read begins; it ends 2δ ticks later.
    pub begin: usize,
    /// The reader, counted from 1.
    pub reader: usize,
    /// The value read.
    pub value: u32,
    /// The value's number: 0 for the initial value, 1 for the first one written.
    pub number: u8,
    /// How many servers named this value with this number to the reader.
    pub count: usize,
}

impl Answer {
    fn at(form: Form, answers: &[u8], index: usize) -> Self {
        let field = |field| raw::answer(form.number(), answers, index, field);
        Answer {
            begin: field(AnswerField::Begin),
            reader: field(AnswerField::Reader),
            value: field(AnswerField::Value) as u32,
            number: field(AnswerField::Number) as u8,
            count: field(AnswerField::Count),
        }
    }
}

/// The answers in a form that stand in bytes, one after another; a part of an answer at the end is
/// left out. Nothing is checked: the fields are what the bytes say.
pub fn answers(form: Form, bytes: &[u8]) -> impl ExactSizeIterator<Item = Answer> + '_ {
    (0..bytes.len() / form.answer_bytes()).map(move |index| Answer::at(form, bytes, index))
}
