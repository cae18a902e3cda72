//! The forms of a plan.

/// The form of a plan and of its answers. The forms differ in the bits of a value alone. The bytes of
/// a plan do not say which form they are in: the caller names it.
#[derive(Clone, Copy, Debug, PartialEq, Eq, Hash)]
pub enum Form {
    /// A value has 16 bits, the header of a plan 8 bytes, an answer 5.
    One = 1,
    /// A value has 24 bits, the header of a plan 9 bytes, an answer 6.
    Two = 2,
}

impl Form {
    /// Both forms.
    pub const ALL: [Form; 2] = [Form::One, Form::Two];

    /// The published number, 1 or 2.
    pub const fn number(self) -> usize {
        self as usize
    }

    /// The highest value: 65,535 or 16,777,215.
    pub const fn highest_value(self) -> u32 {
        match self {
            Form::One => 0xffff,
            Form::Two => 0xff_ffff,
        }
    }

    /// Bytes of one answer: 5 or 6.
    pub const fn answer_bytes(self) -> usize {
        match self {
            Form::One => 5,
            Form::Two => 6,
        }
    }

    /// Bytes of the longest plan that is accepted: 34,362 or 35,619.
    pub const fn longest_plan(self) -> usize {
        match self {
            Form::One => 34_362,
            Form::Two => 35_619,
        }
    }
}
