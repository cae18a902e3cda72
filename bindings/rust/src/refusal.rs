//! Refusals and their numbers.

use std::error::Error;
use std::fmt;

/// Why a call was refused; where several apply it is the one of the lowest number. A refusal changes
/// no lent byte. To [`pack`](crate::pack), a number too wide for its field is the refusal of its
/// part.
#[derive(Clone, Copy, Debug, PartialEq, Eq, Hash)]
pub enum Refusal {
    /// The plan is shorter than its form's header: under 8 bytes in form one, under 9 in form two. (The
    /// library says so of a form that isn't there too; a [`Form`](crate::Form) always is.)
    PlanShort = 1,
    /// A header field is outside its range, or a list of them hasn't ten.
    Header = 2,
    /// There are fewer servers than the faults ask for.
    TooFewServers = 3,
    /// The length of the plan, or of a list, is other than the header implies.
    PlanLength = 4,
    /// A placement has too many servers, or one that isn't there.
    Placement = 5,
    /// An operation is out of order, has a wrong party or value, overlaps another of its party or
    /// ends too late.
    Operation = 6,
    /// A forged message is out of order or has a wrong tick, sender, receiver, value or number.
    Forgery = 7,
    /// A delay is out of range, or a final bit is set.
    Delay = 8,
    /// The buffer for answers has under 5 bytes for each read, in form two under 6.
    AnswersShort = 9,
    /// The workspace has under 60,000 bytes.
    WorkspaceShort = 10,
    /// The plan has no such server or tick.
    OutOfRange = 11,
    /// The answers' length is other than 5 bytes for each read, in form two other than 6.
    AnswersLength = 12,
    /// An answer's begin, reader or zero bit isn't that of its read.
    OtherRead = 13,
    /// The buffer is shorter than the packed plan.
    BufferShort = 14,
    /// The page is shorter than the sheet.
    PageShort = 15,
    /// A value is above 65,535: the initial one, one that is written, or a forged one.
    ValueTooWide = 19,
    /// The buffer is shorter than the carried plan.
    CarriedShort = 20,
}

impl Refusal {
    /// Every refusal, in the order of their numbers.
    pub const ALL: [Refusal; 17] = [
        Refusal::PlanShort,
        Refusal::Header,
        Refusal::TooFewServers,
        Refusal::PlanLength,
        Refusal::Placement,
        Refusal::Operation,
        Refusal::Forgery,
        Refusal::Delay,
        Refusal::AnswersShort,
        Refusal::WorkspaceShort,
        Refusal::OutOfRange,
        Refusal::AnswersLength,
        Refusal::OtherRead,
        Refusal::BufferShort,
        Refusal::PageShort,
        Refusal::ValueTooWide,
        Refusal::CarriedShort,
    ];

    /// The published number: 1 to 15, 19 or 20.
    pub fn number(self) -> usize {
        self as usize
    }

    /// What was wrong, in words.
    pub fn meaning(self) -> &'static str {
        match self {
            Refusal::PlanShort => "the plan is shorter than its form's header",
            Refusal::Header => "a header field is outside its range, or a list of them hasn't ten",
            Refusal::TooFewServers => "there are fewer servers than the faults ask for",
            Refusal::PlanLength => {
                "the length of the plan, or of a list, is other than the header implies"
            }
            Refusal::Placement => "a placement has too many servers, or one that isn't there",
            Refusal::Operation => {
                "an operation is out of order, has a wrong party or value, overlaps another of its party or ends too late"
            }
            Refusal::Forgery => {
                "a forged message is out of order or has a wrong tick, sender, receiver, value or number"
            }
            Refusal::Delay => "a delay is out of range, or a final bit is set",
            Refusal::AnswersShort => {
                "the buffer for answers has under 5 bytes for each read, in form two under 6"
            }
            Refusal::WorkspaceShort => "the workspace has under 60,000 bytes",
            Refusal::OutOfRange => "the plan has no such server or tick",
            Refusal::AnswersLength => {
                "the answers' length is other than 5 bytes for each read, in form two other than 6"
            }
            Refusal::OtherRead => "an answer's begin, reader or zero bit isn't that of its read",
            Refusal::BufferShort => "the buffer is shorter than the packed plan",
            Refusal::PageShort => "the page is shorter than the sheet",
            Refusal::ValueTooWide => "a value is above 65,535, the highest of form one",
            Refusal::CarriedShort => "the buffer is shorter than the carried plan",
        }
    }

    fn of(number: usize) -> Self {
        let known = Self::ALL.into_iter().find(|refusal| refusal.number() == number);
        known.unwrap_or_else(|| unreachable!("the library has no refusal {number}"))
    }
}

impl fmt::Display for Refusal {
    fn fmt(&self, f: &mut fmt::Formatter) -> fmt::Result {
        write!(f, "refused {}: {}", self.number(), self.meaning())
    }
}

impl Error for Refusal {}

/// What a refusal's number is added to: no other result is as large.
pub(crate) const REFUSED: usize = 16_777_216;

pub(crate) fn number_or_refusal(result: usize) -> Result<usize, Refusal> {
    if result < REFUSED {
        Ok(result)
    } else {
        Err(Refusal::of(result - REFUSED))
    }
}
