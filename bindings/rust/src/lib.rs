//! A replicated register under mobile Byzantine faults, rehearsed from a packed plan: a safe
//! wrapper of the proved library. `docs/FORMATS.md` has the bytes of plans and answers, and the
//! lists that [`pack`] takes; a [`Draft`] makes a plan from typed parts. A [`Forecast`] says what
//! playing a plan takes. `docs/SHEET.md` has the columns of a [`sheet`].
//!
//! ```
//! use register::{answers, check, judge, play, Form, Plan, WORKSPACE_BYTES};
//!
//! let bytes = include_bytes!("../../../examples/takeover.plan");
//! let plan = Plan::of(Form::One, bytes)?;
//! let mut lent = vec![0; Form::One.answer_bytes() * plan.reads()];
//! let mut workspace = vec![0; WORKSPACE_BYTES];
//! play(Form::One, bytes, &mut lent, &mut workspace)?;
//! for answer in answers(Form::One, &lent) {
//!     println!("reader {} gets {}", answer.reader, answer.value);
//! }
//! assert!(judge(Form::One, bytes, &lent)?);
//! let refusal = check(Form::One, &bytes[..7]).unwrap_err();
//! assert_eq!(refusal.to_string(), "refused 1: the plan is shorter than its form's header");
//! # Ok::<(), register::Refusal>(())
//! ```
//!
//! A plan is in one of two forms: a value has 16 bits in [`Form::One`] and 24 in [`Form::Two`]. The
//! bytes do not say which; every operation is told. [`carry`] and [`carry_back`] take a plan from the
//! one to the other.
//!
//! Every function takes any bytes and numbers of any length and never panics. A refused call changes
//! no lent byte. The library keeps nothing between calls and allocates nothing; calls may run at once
//! on several threads. [`play`] and [`look`] take under 20 KB of stack, [`pack`] under 38 KB, the
//! other functions under 4 KB; the very first call may take up to some 6 KB more.

#![warn(missing_docs)]

mod answer;
mod draft;
mod forecast;
mod form;
mod limits;
mod lists;
mod plan;
mod raw;
mod refusal;
mod seen;

pub use answer::{answers, Answer};
pub use draft::{Draft, Forgery, Operation, Party};
pub use forecast::Forecast;
pub use form::Form;
pub use limits::{
    DEPTH, FORECAST_NUMBERS, LINE_BYTES, LONGEST_INPUT, MOST_READS, MOST_SHEET_BYTES, PAIRS_BYTES,
    PAIR_BYTES, WORKSPACE_BYTES,
};
pub use lists::Lists;
pub use plan::Plan;
pub use refusal::Refusal;
pub use seen::{Condition, Seen, Stamped};

/// Checks a plan: the number of its reads.
pub fn check(form: Form, plan: &[u8]) -> Result<usize, Refusal> {
    refusal::number_or_refusal(raw::check(form.number(), plan))
}

/// Forecasts what playing a plan takes, without playing it. It refuses what [`check`] refuses and
/// nothing else.
///
/// ```
/// use register::{forecast, play, Forecast, Form, WORKSPACE_BYTES};
///
/// let plan = include_bytes!("../../../examples/takeover.plan");
/// let wanted = Forecast {
///     answer_bytes: 5,
///     moves: 5,
///     write_messages: 10,
///     read_messages: 5,
///     votes: 32,
///     most_forgeries: 5,
/// };
/// assert_eq!(forecast(Form::One, plan), Ok(wanted));
///
/// // So many bytes have room for the answers.
/// let mut answers = vec![0; wanted.answer_bytes as usize];
/// assert_eq!(play(Form::One, plan, &mut answers, &mut vec![0; WORKSPACE_BYTES]), Ok(1));
/// ```
pub fn forecast(form: Form, plan: &[u8]) -> Result<Forecast, Refusal> {
    let mut numbers = [0; FORECAST_NUMBERS];
    forecast_into(form, plan, &mut numbers)?;
    Ok(Forecast::of(numbers))
}

/// Forecasts what playing a plan takes, with a buffer of the caller's for the numbers: how many there
/// are, which is always [`FORECAST_NUMBERS`]. As many of them as fit stand at the start of `numbers`, in
/// the order of the fields of a [`Forecast`]. Later numbers are unchanged.
pub fn forecast_into(form: Form, plan: &[u8], numbers: &mut [u32]) -> Result<usize, Refusal> {
    refusal::number_or_refusal(raw::forecast(form.number(), plan, numbers))
}

/// Plays a plan: the number of its reads. With `size` for [`Form::answer_bytes`], the answer to read
/// `i` stands in the `size` bytes from `size * i` on, and later bytes of `answers` are unchanged
/// ([`answers`] reads them). The first [`WORKSPACE_BYTES`] bytes of the workspace are zero, the rest
/// unchanged.
pub fn play(
    form: Form,
    plan: &[u8],
    answers: &mut [u8],
    workspace: &mut [u8],
) -> Result<usize, Refusal> {
    refusal::number_or_refusal(raw::play(form.number(), plan, answers, workspace))
}

/// Looks at a server after a tick. The workspace is as after [`play`].
pub fn look(
    form: Form,
    plan: &[u8],
    workspace: &mut [u8],
    server: usize,
    tick: usize,
) -> Result<Seen, Refusal> {
    let mut pairs = [0; PAIRS_BYTES];
    let (condition, count) = look_into(form, plan, workspace, server, tick, &mut pairs)?;
    Ok(Seen::of(condition, count, pairs))
}

/// Looks at a server after a tick, with a buffer of the caller's for what it keeps: the condition,
/// and how many stamped values there are. As many of them as fit whole stand at the start of
/// `pairs`, highest first, in [`PAIR_BYTES`] bytes each: three of the value, the highest first, then
/// the number. Later bytes of `pairs` are unchanged.
pub fn look_into(
    form: Form,
    plan: &[u8],
    workspace: &mut [u8],
    server: usize,
    tick: usize,
    pairs: &mut [u8],
) -> Result<(Condition, usize), Refusal> {
    let result = raw::look(form.number(), plan, workspace, server, tick, pairs);
    refusal::number_or_refusal(result).map(seen::condition_and_count)
}

/// Judges answers to a plan's reads: whether each is one that a regular register may give. It may
/// give the value of the last write that ended at or below the read's begin (the initial value if
/// none did), and that of a write that ended after it and began by the read's end.
pub fn judge(form: Form, plan: &[u8], answers: &[u8]) -> Result<bool, Refusal> {
    refusal::number_or_refusal(raw::judge(form.number(), plan, answers)).map(|yes| yes == 1)
}

/// Writes answers to a plan's reads as a sheet to pin up: the number of its bytes. They stand at the start
/// of `page`, and later bytes are unchanged; [`MOST_SHEET_BYTES`] have room for any sheet. A sheet has
/// lines of 80 characters and a line feed, all ASCII: a heading, a rule, a line for each read in the
/// answers' order, an empty line. The last column of a read's line has a `*` exactly where some write of
/// the plan was concurrent with the read.
///
/// The answers need not be those of [`play`]; nothing is judged. They can be read back from the page.
///
/// ```
/// use register::{play, Form, Plan, Refusal, WORKSPACE_BYTES};
///
/// let plan = Plan::of(Form::One, include_bytes!("../../../examples/concurrent.plan"))?;
/// let mut answers = vec![0; Form::One.answer_bytes() * plan.reads()];
/// play(Form::One, plan.bytes(), &mut answers, &mut vec![0; WORKSPACE_BYTES])?;
///
/// let mut page = vec![0; plan.sheet_bytes()];
/// assert_eq!(plan.sheet(&answers, &mut page), Ok(page.len()));
/// let lines: Vec<&str> = std::str::from_utf8(&page).unwrap().lines().collect();
/// let words: Vec<&str> = lines[2].split_whitespace().collect();
/// assert_eq!(words, ["5", "1", "9", "101", "2", "4", "*"]);
///
/// // One byte less is too short.
/// page.pop();
/// assert_eq!(plan.sheet(&answers, &mut page), Err(Refusal::PageShort));
/// # Ok::<(), Refusal>(())
/// ```
pub fn sheet(form: Form, plan: &[u8], answers: &[u8], page: &mut [u8]) -> Result<usize, Refusal> {
    refusal::number_or_refusal(raw::sheet(form.number(), plan, answers, page))
}

/// Packs a plan from lists of numbers: the number of its bytes. They stand at the start of `out`, and
/// later bytes are unchanged; [`Form::longest_plan`] bytes have room for any plan. [`check`] accepts
/// what is packed.
///
/// ```
/// use register::{check, pack, Form, Lists, Refusal};
///
/// // One server and one read; examples/first.plan.
/// let mut lists = Lists {
///     header: vec![1, 0, 1, 1, 1, 3, 7, 1, 0, 0],
///     placements: vec![0, 0, 0],
///     operations: vec![0, 1, 0],
///     forgeries: vec![],
///     delays: [0, 0, 1, 1, 0, 0, 1, 0, 0].repeat(3),
/// };
/// let mut out = [0; 100];
/// let length = pack(Form::One, &lists, &mut out)?;
/// assert_eq!(out[..length], *include_bytes!("../../../examples/first.plan"));
/// assert_eq!(check(Form::One, &out[..length]), Ok(1));
///
/// // Reader 1 would read beyond the last tick.
/// lists.operations[0] = 1;
/// assert_eq!(pack(Form::One, &lists, &mut out), Err(Refusal::Operation));
/// # Ok::<(), Refusal>(())
/// ```
pub fn pack(form: Form, lists: &Lists, out: &mut [u8]) -> Result<usize, Refusal> {
    let Lists { header, placements, operations, forgeries, delays } = lists;
    let form = form.number();
    let result = raw::pack(form, header, placements, operations, forgeries, delays, out);
    refusal::number_or_refusal(result)
}

/// Carries a plan from form one to form two, where every field has the number that it had: the number
/// of bytes of the carried plan. They stand at the start of `out`, and later bytes are unchanged. They
/// are a byte more than the plan's, and one for each operation and forged message.
///
/// The carried plan is accepted, and played it gets the same answers. [`carry_back`] gives the plan
/// again, byte for byte.
///
/// ```
/// use register::{carry, carry_back, check, Form};
///
/// let plan = include_bytes!("../../../examples/takeover.plan");
/// let mut carried = [0; Form::Two.longest_plan()];
/// let length = carry(plan, &mut carried)?;
/// assert_eq!(check(Form::Two, &carried[..length]), check(Form::One, plan));
///
/// let mut back = [0; Form::One.longest_plan()];
/// let length = carry_back(&carried[..length], &mut back)?;
/// assert_eq!(back[..length], *plan);
/// # Ok::<(), register::Refusal>(())
/// ```
pub fn carry(plan: &[u8], out: &mut [u8]) -> Result<usize, Refusal> {
    refusal::number_or_refusal(raw::carry(plan, out))
}

/// Carries a plan from form two to form one, as [`carry`] does the other way. A plan with a value that
/// form one has no room for is refused ([`Refusal::ValueTooWide`]).
pub fn carry_back(plan: &[u8], out: &mut [u8]) -> Result<usize, Refusal> {
    refusal::number_or_refusal(raw::carry_back(plan, out))
}
