//! What both libraries are asked about.

use plans::Form;

/// A plan, and the form that it is said to be in.
#[derive(Clone, Copy)]
pub struct Asked<'a> {
    pub form: Form,
    pub plan: &'a [u8],
}

/// A form as the wrapper names it.
pub fn for_library(form: Form) -> register::Form {
    match form {
        Form::One => register::Form::One,
        Form::Two => register::Form::Two,
    }
}

/// A form as the plain program has it.
pub fn for_plain(form: Form) -> &'static plain::Form {
    plain::Form::of(form.number()).expect("both forms have a number")
}
