//! The operations on the plans of examples/, in both forms: what they give, each refusal, and every
//! lent byte.

mod carry;
mod examples;
mod forecast;
mod pack;
mod plans;
mod sheet;

use register::{check, play, Form, WORKSPACE_BYTES};

fn workspace() -> Vec<u8> {
    vec![plans::BEFORE; WORKSPACE_BYTES]
}

/// The answers' bytes of an accepted plan.
fn played(form: Form, plan: &[u8]) -> Vec<u8> {
    let mut lent = vec![plans::BEFORE; form.answer_bytes() * check(form, plan).unwrap()];
    play(form, plan, &mut lent, &mut workspace()).unwrap();
    lent
}
