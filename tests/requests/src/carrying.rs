//! Plans carried from one form to the other, either way.

use register::{carry, carry_back, Form, Refusal};

use crate::lent::lent;

/// The form that a plan of this form is carried to.
pub fn other(form: Form) -> Form {
    match form {
        Form::One => Form::Two,
        Form::Two => Form::One,
    }
}

/// The plan of a form carried to the other one, into lent bytes.
pub fn carry_into(form: Form, plan: &[u8], out: &mut [u8]) -> Result<usize, Refusal> {
    match form {
        Form::One => carry(plan, out),
        Form::Two => carry_back(plan, out),
    }
}

/// The bytes of the plan of a form carried to the other one.
pub fn carried(form: Form, plan: &[u8]) -> Result<Vec<u8>, Refusal> {
    let mut out = lent(other(form).longest_plan());
    let length = carry_into(form, plan, &mut out)?;
    out.truncate(length);
    Ok(out)
}
