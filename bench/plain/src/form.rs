//! The forms of a plan: the same records, with values of one width or another.

use crate::{Outcome, Refused};

pub const PLACEMENT_BITS: usize = 16;
pub const DELAY_BITS: usize = 4;

/// The widths of a record's fields in packed order, for each part of a plan and for an answer.
#[derive(Debug, PartialEq, Eq)]
pub struct Form {
    pub header: [usize; 10],
    pub placement: [usize; 1],
    pub operation: [usize; 3],
    pub forgery: [usize; 5],
    pub delay: [usize; 1],
    pub answer: [usize; 6],
}

impl Form {
    pub const ONE: &'static Form = &Form::with_values_of(16);
    pub const TWO: &'static Form = &Form::with_values_of(24);

    const fn with_values_of(bits: usize) -> Self {
        Form {
            header: [5, 2, 4, 6, 3, 8, bits, 8, 11, 1],
            placement: [PLACEMENT_BITS],
            operation: [7, 3, bits],
            forgery: [7, 4, 5, bits, 8],
            delay: [DELAY_BITS],
            answer: [7, 3, bits, 8, 5, 1],
        }
    }

    /// The form of a number; there are two.
    pub fn of(number: usize) -> Outcome<&'static Form> {
        match number {
            1 => Ok(Form::ONE),
            2 => Ok(Form::TWO),
            _ => Err(Refused(1)),
        }
    }

    /// The widths of the parts of a plan, in their order.
    pub fn parts(&self) -> [&[usize]; 5] {
        [&self.header, &self.placement, &self.operation, &self.forgery, &self.delay]
    }

    pub const fn header_bits(&self) -> usize {
        sum(&self.header)
    }

    pub const fn operation_bits(&self) -> usize {
        sum(&self.operation)
    }

    pub const fn forgery_bits(&self) -> usize {
        sum(&self.forgery)
    }

    pub const fn answer_bits(&self) -> usize {
        sum(&self.answer)
    }

    pub const fn answer_bytes(&self) -> usize {
        self.answer_bits() / 8
    }
}

const fn sum(widths: &[usize]) -> usize {
    let (mut sum, mut next) = (0, 0);
    while next < widths.len() {
        sum += widths[next];
        next += 1;
    }
    sum
}

#[cfg(test)]
mod tests {
    use super::*;

    #[test]
    fn the_widths_of_both() {
        let bits = |form: &Form| {
            [form.header_bits(), form.operation_bits(), form.forgery_bits(), form.answer_bits()]
        };
        assert_eq!(bits(Form::ONE), [64, 26, 40, 40]);
        assert_eq!(bits(Form::TWO), [72, 34, 48, 48]);
        assert_eq!([Form::ONE.answer_bytes(), Form::TWO.answer_bytes()], [5, 6]);
    }

    #[test]
    fn there_are_two() {
        assert_eq!([1, 2].map(Form::of), [Ok(Form::ONE), Ok(Form::TWO)]);
        for unknown in [0, 3, 257, usize::MAX] {
            assert_eq!(Form::of(unknown), Err(Refused(1)));
        }
    }
}
