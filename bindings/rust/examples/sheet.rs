//! Reads a plan of form one on standard input, plays it, and prints the answers as a sheet to pin up.
//!
//! The exit status is 0 for an accepted plan, 1 for a refused one, 2 if reading or writing failed.

mod given;

use std::process::ExitCode;

use register::{play, Form, Plan, Refusal, WORKSPACE_BYTES};

const FORM: Form = Form::One;

/// The sheet of the plan's answers.
fn sheet_of(bytes: &[u8]) -> Result<Vec<u8>, Refusal> {
    let plan = Plan::of(FORM, bytes)?;
    let mut answers = vec![0; FORM.answer_bytes() * plan.reads()];
    play(FORM, bytes, &mut answers, &mut vec![0; WORKSPACE_BYTES])?;
    let mut page = vec![0; plan.sheet_bytes()];
    plan.sheet(&answers, &mut page)?;
    Ok(page)
}

fn main() -> ExitCode {
    given::answer("sheet", sheet_of)
}
