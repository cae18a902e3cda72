//! A plan carried to the other form: by both libraries, with buffers of all sorts, and there and back.

use plain::judge::{get, Answer};
use plans::{Form, Random};

use crate::asked::{for_library, for_plain, Asked};
use crate::lent::{self, Lent};
use crate::results::written;
use crate::tally::Tally;
use crate::trial::{holds, same};

/// A buffer that is lent again and again.
pub struct Carrying {
    out: Lent,
    workspace: Vec<u8>,
}

impl Carrying {
    pub fn new(random: &mut Random) -> Self {
        Carrying {
            out: Lent::new(random, Form::Two.longest_plan()),
            workspace: vec![0; register::WORKSPACE_BYTES],
        }
    }

    /// What differs, if anything does.
    pub fn compare(
        &mut self,
        random: &mut Random,
        asked: Asked,
        tally: &mut Tally,
    ) -> Result<(), String> {
        let exact = exact_length(asked);
        for _ in 0..2 {
            self.once(asked, lent::length(random, exact), tally)?;
        }
        self.there_and_back(asked, tally)
    }

    /// Into a buffer of a length.
    fn once(&mut self, asked: Asked, length: usize, tally: &mut Tally) -> Result<(), String> {
        let mut plain_out = self.out.before(length).to_vec();
        let wanted = by_plain(asked, &mut plain_out);
        let got = by_library(asked, self.out.lend(length));
        tally.count(name(asked.form), asked.form, &written(wanted));
        let about = format!("{} into {length} bytes", name(asked.form));
        same(&about, written(got), written(wanted))?;
        holds(self.out.now_begins(&plain_out), &format!("{about}: lent bytes differ"))?;
        let unchanged = wanted.is_ok() || self.out.is_unchanged(length);
        holds(unchanged, &format!("{about}: a refusal changed lent bytes"))
    }

    /// The library beside itself: carried there and back a plan is the same bytes, and carried it
    /// gets the same answers.
    fn there_and_back(&mut self, asked: Asked, tally: &mut Tally) -> Result<(), String> {
        let Some(carried) = self.carried(asked) else {
            return Ok(());
        };
        let there = Asked { form: asked.form.other(), plan: &carried };
        let back = self.carried(there);
        holds(back.as_deref() == Some(asked.plan), "there and back it is another plan")?;
        let (here, there) = (self.answers(asked), self.answers(there));
        holds(here.is_some() && here == there, "the answers in the other form are others")?;
        tally.count("there and back", asked.form, "the same");
        Ok(())
    }

    fn carried(&mut self, asked: Asked) -> Option<Vec<u8>> {
        let out = self.out.lend(asked.form.other().longest_plan());
        let length = by_library(asked, out).ok()?;
        Some(out[..length].to_vec())
    }

    /// What the library answers, field by field.
    fn answers(&mut self, asked: Asked) -> Option<Vec<Answer>> {
        let Asked { form, plan } = asked;
        let mut answers = vec![0; form.answer_bytes() * register::MOST_READS];
        let reads = register::play(for_library(form), plan, &mut answers, &mut self.workspace);
        let answers = answers.chunks_exact(form.answer_bytes()).take(reads.ok()?);
        Some(answers.map(|answer| get(for_plain(form), answer)).collect())
    }
}

fn name(form: Form) -> &'static str {
    match form {
        Form::One => "carry",
        Form::Two => "carry back",
    }
}

fn by_library(asked: Asked, out: &mut [u8]) -> Result<usize, register::Refusal> {
    match asked.form {
        Form::One => register::carry(asked.plan, out),
        Form::Two => register::carry_back(asked.plan, out),
    }
}

fn by_plain(asked: Asked, out: &mut [u8]) -> Result<usize, plain::Refused> {
    match asked.form {
        Form::One => plain::carry(asked.plan, out),
        Form::Two => plain::carry_back(asked.plan, out),
    }
}

/// What the carried plan takes, or what the plan takes if it is refused.
fn exact_length(asked: Asked) -> usize {
    let longest = asked.form.other().longest_plan();
    by_plain(asked, &mut vec![0; longest]).unwrap_or(asked.plan.len().min(longest))
}
