//! Reads a plan of form one on standard input and prints each read's answer, the servers after the
//! plan's last tick, and whether the answers are those of a regular register.
//!
//! The exit status is 0 for an accepted plan, 1 for a refused one, 2 if reading or writing failed.

mod given;

use std::process::ExitCode;

use register::{answers, judge, look, play, Form, Plan, Refusal, WORKSPACE_BYTES};

const FORM: Form = Form::One;

/// What there is to say of the plan.
fn rehearse(bytes: &[u8]) -> Result<String, Refusal> {
    let plan = Plan::of(FORM, bytes)?;
    let mut lent = vec![0; FORM.answer_bytes() * plan.reads()];
    let mut workspace = vec![0; WORKSPACE_BYTES];
    let mut text = format!("reads {}\n", play(FORM, bytes, &mut lent, &mut workspace)?);
    for answer in answers(FORM, &lent) {
        text += &format!(
            "begin {} reader {} value {} number {} count {}\n",
            answer.begin, answer.reader, answer.value, answer.number, answer.count
        );
    }
    for server in 0..plan.servers() {
        let seen = look(FORM, bytes, &mut workspace, server, plan.ticks() - 1)?;
        text += &format!("server {server} {}", seen.condition);
        for kept in seen.kept() {
            text += &format!(" ({}, {})", kept.value, kept.number);
        }
        text += "\n";
    }
    let regular = if judge(FORM, bytes, &lent)? { "yes" } else { "no" };
    Ok(text + "regular: " + regular + "\n")
}

fn main() -> ExitCode {
    given::answer("rehearse", rehearse)
}
