//! The forms of a plan: how wide a value is, and what follows from it.

use std::fmt;

#[derive(Clone, Copy, Debug, PartialEq, Eq, PartialOrd, Ord)]
pub enum Form {
    One = 1,
    Two = 2,
}

impl Form {
    pub const ALL: [Form; 2] = [Form::One, Form::Two];

    pub fn number(self) -> usize {
        self as usize
    }

    pub fn other(self) -> Self {
        match self {
            Form::One => Form::Two,
            Form::Two => Form::One,
        }
    }

    pub fn value_bits(self) -> usize {
        match self {
            Form::One => 16,
            Form::Two => 24,
        }
    }

    pub fn highest_value(self) -> u32 {
        (1 << self.value_bits()) - 1
    }

    /// The widths of a record's fields, by list.
    pub fn widths(self) -> [Vec<usize>; 5] {
        let value = self.value_bits();
        [
            vec![5, 2, 4, 6, 3, 8, value, 8, 11, 1],
            vec![16],
            vec![7, 3, value],
            vec![7, 4, 5, value, 8],
            vec![4],
        ]
    }

    pub fn header_bytes(self) -> usize {
        let [header, ..] = self.widths();
        header.iter().sum::<usize>() / 8
    }

    pub fn answer_bytes(self) -> usize {
        [7, 3, self.value_bits(), 8, 5, 1].iter().sum::<usize>() / 8
    }

    /// The bytes of the longest plan that is accepted.
    pub fn longest_plan(self) -> usize {
        match self {
            Form::One => 34_362,
            Form::Two => 35_619,
        }
    }
}

impl fmt::Display for Form {
    fn fmt(&self, f: &mut fmt::Formatter) -> fmt::Result {
        f.write_str(match self {
            Form::One => "form one",
            Form::Two => "form two",
        })
    }
}
