//! An accepted plan, and the numbers in its header.

use crate::limits::OTHER_LINES;
use crate::raw::{self, HeaderField};
use crate::{check, sheet, Forecast, Form, Refusal, FORECAST_NUMBERS, LINE_BYTES};

/// A view of an accepted plan's bytes: the numbers of its header, read by the library.
#[derive(Clone, Copy, Debug, PartialEq, Eq, Hash)]
pub struct Plan<'a> {
    form: Form,
    bytes: &'a [u8],
    reads: usize,
}

impl<'a> Plan<'a> {
    /// The plan that these bytes are in a form, if [`check`] accepts them.
    pub fn of(form: Form, bytes: &'a [u8]) -> Result<Self, Refusal> {
        Ok(Plan { form, bytes, reads: check(form, bytes)? })
    }

    /// The plan's form.
    pub fn form(&self) -> Form {
        self.form
    }

    /// The plan's bytes.
    pub fn bytes(&self) -> &'a [u8] {
        self.bytes
    }

    /// The number of reads, and so of answers.
    pub fn reads(&self) -> usize {
        self.reads
    }

    /// n, the number of servers, 1 to 16.
    pub fn servers(&self) -> usize {
        self.field(HeaderField::Servers)
    }

    /// f, the most servers that are faulty at a time, 0 to 3.
    pub fn faulty(&self) -> usize {
        self.field(HeaderField::Faulty)
    }

    /// δ, the longest delay of a message, in ticks: a write lasts δ, a read 2δ.
    pub fn delta(&self) -> usize {
        self.field(HeaderField::Delta)
    }

    /// Δ, the ticks from one movement of the faults to the next.
    pub fn period(&self) -> usize {
        self.field(HeaderField::Period)
    }

    /// s, the number of readers, 1 to 4.
    pub fn readers(&self) -> usize {
        self.field(HeaderField::Readers)
    }

    /// H, the number of ticks, 1 to 128.
    pub fn ticks(&self) -> usize {
        self.field(HeaderField::Ticks)
    }

    /// The initial value, which has number 0.
    pub fn initial(&self) -> u32 {
        self.field(HeaderField::Initial) as u32
    }

    /// The number of operations, writes and reads together.
    pub fn operations(&self) -> usize {
        self.field(HeaderField::Operations)
    }

    /// The number of forged messages.
    pub fn forgeries(&self) -> usize {
        self.field(HeaderField::Forgeries)
    }

    /// What playing this plan takes, without playing it.
    pub fn forecast(&self) -> Forecast {
        let mut numbers = [0; FORECAST_NUMBERS];
        // It refuses only what check refuses, and this plan is accepted.
        raw::forecast(self.form.number(), self.bytes, &mut numbers);
        Forecast::of(numbers)
    }

    /// Bytes of a sheet of this plan's answers.
    pub fn sheet_bytes(&self) -> usize {
        LINE_BYTES * (self.reads + OTHER_LINES)
    }

    /// Writes answers to this plan's reads as a [`sheet`].
    pub fn sheet(&self, answers: &[u8], page: &mut [u8]) -> Result<usize, Refusal> {
        sheet(self.form, self.bytes, answers, page)
    }

    fn field(&self, field: HeaderField) -> usize {
        raw::header(self.form.number(), self.bytes, field)
    }
}
