//! Reads a plan of form one on standard input, carries it to form two, plays it there, and carries it
//! back. Then it builds a plan of form two with a value that form one has no room for, plays it, and
//! prints why the way back is refused.
//!
//! The exit status is 0 for an accepted plan, 1 for a refused one, 2 if reading or writing failed.

mod given;

use std::process::ExitCode;

use register::{
    answers, carry, carry_back, judge, play, Draft, Form, Operation, Plan, Refusal, WORKSPACE_BYTES,
};

/// Above 65,535.
const WIDE: u32 = 70_000;

/// What there is to say of a plan in form two.
fn rehearse(bytes: &[u8]) -> Result<String, Refusal> {
    let plan = Plan::of(Form::Two, bytes)?;
    let mut lent = vec![0; Form::Two.answer_bytes() * plan.reads()];
    play(Form::Two, bytes, &mut lent, &mut vec![0; WORKSPACE_BYTES])?;
    let mut text = format!("reads {}\n", plan.reads());
    for answer in answers(Form::Two, &lent) {
        text += &format!(
            "begin {} reader {} value {} number {} count {}\n",
            answer.begin, answer.reader, answer.value, answer.number, answer.count
        );
    }
    let regular = if judge(Form::Two, bytes, &lent)? { "yes" } else { "no" };
    Ok(text + "regular: " + regular + "\n")
}

/// A plan of form one in form two and back again.
fn there_and_back(plan: &[u8]) -> Result<String, Refusal> {
    let mut two = vec![0; Form::Two.longest_plan()];
    let length = carry(plan, &mut two)?;
    two.truncate(length);
    let mut one = vec![0; Form::One.longest_plan()];
    let back = carry_back(&two, &mut one)?;
    let same = if one[..back] == *plan { "the same" } else { "not the same" };
    Ok(format!("form one: bytes {}\nform two: bytes {length}\n", plan.len())
        + &rehearse(&two)?
        + &format!("form one again: bytes {back}, {same}\n"))
}

/// One server that is never faulty, and one reader, which reads the wide value.
fn wide() -> Draft {
    Draft {
        servers: 1,
        faulty: 0,
        delta: 1,
        period: 1,
        readers: 1,
        ticks: 4,
        initial: 7,
        placements: vec![vec![]; 4],
        operations: vec![
            Operation::Write { tick: 0, value: WIDE },
            Operation::Read { tick: 1, reader: 1 },
        ],
        delay: 1,
        ..Draft::default()
    }
}

/// The plan with the wide value, and what becomes of it on the way to form one.
fn rehearse_wide() -> Result<String, Refusal> {
    let plan = wide().build(Form::Two)?;
    let text = format!("value {WIDE} in form two: bytes {}\n", plan.len()) + &rehearse(&plan)?;
    Ok(match carry_back(&plan, &mut vec![0; Form::One.longest_plan()]) {
        Ok(length) => text + &format!("form one: bytes {length}\n"),
        Err(refusal) => text + &format!("{refusal}\n"),
    })
}

/// All that there is to say: of the plan, and of the one with the wide value.
fn all_of_it(plan: &[u8]) -> Result<String, Refusal> {
    Ok(there_and_back(plan)? + &rehearse_wide()?)
}

fn main() -> ExitCode {
    given::answer("carry", all_of_it)
}
