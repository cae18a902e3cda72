//! Reads a plan of form one on standard input and prints what playing it takes, a line for each number.
//! The plan is not played.
//!
//! The exit status is 0 for an accepted plan, 1 for a refused one, 2 if reading or writing failed.

mod given;

use std::process::ExitCode;

use register::{forecast, Form, Refusal};

/// The forecast of the plan in words.
fn text_of(plan: &[u8]) -> Result<String, Refusal> {
    let forecast = forecast(Form::One, plan)?;
    Ok(format!("bytes of answers: {}\n", forecast.answer_bytes)
        + &format!("moves: {}\n", forecast.moves)
        + &format!("WRITE messages: {}\n", forecast.write_messages)
        + &format!("READ messages: {}\n", forecast.read_messages)
        + &format!("votes on receipt of a WRITE: {}\n", forecast.votes)
        + &format!("most forgeries arriving in one tick: {}\n", forecast.most_forgeries))
}

fn main() -> ExitCode {
    given::answer("forecast", text_of)
}
