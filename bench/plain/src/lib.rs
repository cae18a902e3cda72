//! Check, Forecast, Play, Look and Judge of docs/RULES.md, Pack and carrying of docs/FORMATS.md, and the
//! sheet of docs/SHEET.md, as an ordinary program: the yardstick for the proved library's speed, and the
//! other side of its differential tests. It shares no code with the library and makes no use of facts
//! proved there.
//!
//! A form is named by its number, 1 or 2; another one is refused.

#![forbid(unsafe_code)]

pub mod bits;
mod carry;
mod cluster;
mod forecast;
pub mod form;
pub mod judge;
mod pack;
pub mod plan;
mod server;
mod sheet;

pub use forecast::Forecast;
pub use form::Form;
pub use pack::Lists;
pub use plan::Stamped;

use cluster::Cluster;
use judge::Answer;
use plan::{Plan, Read};

pub const WORKSPACE_BYTES: usize = 60_000;

/// The stamped values that a server keeps, at most.
pub const DEPTH: usize = 5;

/// A refusal by its published number.
#[derive(Clone, Copy, Debug, PartialEq, Eq, PartialOrd, Ord)]
pub struct Refused(pub u8);

pub type Outcome<T> = Result<T, Refused>;

#[derive(Clone, Copy, Debug, PartialEq, Eq)]
pub enum Condition {
    Faulty,
    Cured,
    Correct,
}

/// What a look shows: the stamped values highest first, as many as `count` says.
#[derive(Clone, Copy, Debug, PartialEq, Eq)]
pub struct Seen {
    pub condition: Condition,
    pub count: usize,
    pub kept: [Stamped; DEPTH],
}

/// The number of reads.
pub fn check(form: usize, plan: &[u8]) -> Outcome<usize> {
    Ok(Plan::unpack(Form::of(form)?, plan)?.reads.len())
}

/// What playing the plan takes, without playing it.
pub fn forecast(form: usize, plan: &[u8]) -> Outcome<Forecast> {
    Ok(forecast::of(&Plan::unpack(Form::of(form)?, plan)?))
}

/// The same, counted while playing it.
pub fn forecast_by_playing(form: usize, plan: &[u8]) -> Outcome<Forecast> {
    let plan = Plan::unpack(Form::of(form)?, plan)?;
    Ok(Cluster::after(&plan, plan.header.ticks).counted)
}

/// The number of reads; the answers stand at the start of the buffer.
pub fn play(form: usize, plan: &[u8], answers: &mut [u8], workspace: &mut [u8]) -> Outcome<usize> {
    let form = Form::of(form)?;
    let plan = Plan::unpack(form, plan)?;
    if answers.len() < form.answer_bytes() * plan.reads.len() {
        return Err(Refused(9));
    }
    let workspace = workspace.get_mut(..WORKSPACE_BYTES).ok_or(Refused(10))?;
    let cluster = Cluster::after(&plan, plan.header.ticks);
    let places = answers.chunks_exact_mut(form.answer_bytes());
    for ((read, place), &(stamped, count)) in plan.reads.iter().zip(places).zip(&cluster.answers) {
        judge::put(form, judge::answer(read, stamped, count), place);
    }
    workspace.fill(0);
    Ok(plan.reads.len())
}

/// A server after a tick.
pub fn look(
    form: usize,
    plan: &[u8],
    workspace: &mut [u8],
    server: usize,
    tick: usize,
) -> Outcome<Seen> {
    let plan = Plan::unpack(Form::of(form)?, plan)?;
    let workspace = workspace.get_mut(..WORKSPACE_BYTES).ok_or(Refused(10))?;
    if server >= plan.header.servers || tick >= plan.header.ticks {
        return Err(Refused(11));
    }
    let (condition, store) = Cluster::after(&plan, tick + 1).look(server);
    let mut seen = Seen { condition, count: store.kept().len(), kept: Default::default() };
    seen.kept[..seen.count].copy_from_slice(store.kept());
    workspace.fill(0);
    Ok(seen)
}

/// Whether every answer is one that a regular register may give.
pub fn judge(form: usize, plan: &[u8], answers: &[u8]) -> Outcome<bool> {
    let plan = Plan::unpack(Form::of(form)?, plan)?;
    let mut answered = answered(&plan, answers)?;
    Ok(answered.all(|(read, answer)| judge::is_regular(&plan, read, answer)))
}

/// The number of bytes of the sheet, which stands at the start of the page.
pub fn sheet(form: usize, plan: &[u8], answers: &[u8], page: &mut [u8]) -> Outcome<usize> {
    let plan = Plan::unpack(Form::of(form)?, plan)?;
    let text = sheet::text(&plan, answered(&plan, answers)?);
    put(text.as_bytes(), page, Refused(15))
}

/// Each read with the answer to it, if there are as many and every one belongs to its read.
fn answered<'a>(
    plan: &'a Plan,
    answers: &'a [u8],
) -> Outcome<impl Iterator<Item = (&'a Read, Answer)> + Clone> {
    let form = plan.header.form;
    if answers.len() != form.answer_bytes() * plan.reads.len() {
        return Err(Refused(12));
    }
    let answers = answers.chunks_exact(form.answer_bytes()).map(|bytes| judge::get(form, bytes));
    let answered = plan.reads.iter().zip(answers);
    if !answered.clone().all(|(read, answer)| judge::belongs(read, answer)) {
        return Err(Refused(13));
    }
    Ok(answered)
}

/// The number of bytes of the packed plan, which stands at the start of the buffer.
pub fn pack(form: usize, lists: &Lists, out: &mut [u8]) -> Outcome<usize> {
    put(&pack::packed(Form::of(form)?, lists)?, out, Refused(14))
}

/// A plan of form one in form two: the number of its bytes, which stand at the start of the buffer.
pub fn carry(plan: &[u8], out: &mut [u8]) -> Outcome<usize> {
    put(&carry::carried(plan, Form::ONE, Form::TWO)?, out, Refused(20))
}

/// A plan of form two in form one, likewise.
pub fn carry_back(plan: &[u8], out: &mut [u8]) -> Outcome<usize> {
    put(&carry::carried(plan, Form::TWO, Form::ONE)?, out, Refused(20))
}

/// Puts bytes at the start of a buffer, which is refused if it is too short.
fn put(bytes: &[u8], out: &mut [u8], too_short: Refused) -> Outcome<usize> {
    let place = out.get_mut(..bytes.len()).ok_or(too_short)?;
    place.copy_from_slice(bytes);
    Ok(bytes.len())
}
