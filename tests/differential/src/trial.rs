//! One plan: every operation of both libraries, with lent bytes and arguments of all sorts.

use plans::{Form, Random};
use register::{MOST_READS, PAIRS_BYTES, PAIR_BYTES};

use crate::answers::changed;
use crate::asked::{for_library, Asked};
use crate::lent::{self, Lent, MORE};
use crate::results::{judged, packed, plain_words, said, shown, words};
use crate::sheets::Sheets;
use crate::tally::Tally;

const WORKSPACE: usize = plain::WORKSPACE_BYTES;

/// Bytes that are lent again and again.
pub struct Bench {
    answers: Lent,
    workspace: Lent,
    pairs: Lent,
    sheets: Sheets,
    plain_answers: Vec<u8>,
    plain_workspace: Vec<u8>,
}

impl Bench {
    pub fn new(random: &mut Random) -> Self {
        let longest_answers = Form::Two.answer_bytes() * MOST_READS;
        Bench {
            answers: Lent::new(random, longest_answers),
            workspace: Lent::new(random, WORKSPACE),
            pairs: Lent::new(random, PAIRS_BYTES),
            sheets: Sheets::new(random),
            plain_answers: vec![0; longest_answers + MORE],
            plain_workspace: vec![0; WORKSPACE + MORE],
        }
    }

    /// What differs, if anything does.
    pub fn compare(
        &mut self,
        random: &mut Random,
        asked: Asked,
        tally: &mut Tally,
    ) -> Result<(), String> {
        let reads = self.check(asked, tally)?;
        for _ in 0..2 {
            self.play(random, asked, reads, tally)?;
        }
        self.looks(random, asked, tally)?;
        self.answered(random, asked, reads, tally)
    }

    fn check(&mut self, Asked { form, plan }: Asked, tally: &mut Tally) -> Result<usize, String> {
        let wanted = plain::check(form.number(), plan);
        let got = register::check(for_library(form), plan);
        tally.count("check", form, &said(wanted));
        same("check", said(got), said(wanted))?;
        Ok(wanted.unwrap_or(0))
    }

    fn play(
        &mut self,
        random: &mut Random,
        Asked { form, plan }: Asked,
        reads: usize,
        tally: &mut Tally,
    ) -> Result<(), String> {
        let exact = form.answer_bytes() * reads;
        let answers_length = lent::length(random, exact);
        let workspace_length = workspace_length(random);
        let plain_answers = &mut self.plain_answers[..answers_length];
        plain_answers.copy_from_slice(self.answers.before(answers_length));
        let plain_workspace = &mut self.plain_workspace[..workspace_length];
        plain_workspace.copy_from_slice(self.workspace.before(workspace_length));
        let wanted = plain::play(form.number(), plan, plain_answers, plain_workspace);
        let got = {
            let answers = self.answers.lend(answers_length);
            let workspace = self.workspace.lend(workspace_length);
            register::play(for_library(form), plan, answers, workspace)
        };
        tally.count("play", form, &said(wanted));
        let about =
            format!("play, {answers_length} bytes for answers, workspace {workspace_length}");
        same(&about, said(got), said(wanted))?;
        let answers_stand = self.answers.now_begins(plain_answers);
        let workspace_stands = self.workspace.now_begins(plain_workspace);
        holds(answers_stand && workspace_stands, &format!("{about}: lent bytes differ"))?;
        if wanted.is_err() {
            let unchanged = self.answers.is_unchanged(answers_length)
                && self.workspace.is_unchanged(workspace_length);
            return holds(unchanged, &format!("{about}: a refusal changed lent bytes"));
        }
        let zero = plain_workspace[..WORKSPACE].iter().all(|&byte| byte == 0);
        holds(zero, &format!("{about}: the workspace isn't zero"))
    }

    /// Looks here and there, or now and then everywhere in a short plan.
    fn looks(
        &mut self,
        random: &mut Random,
        asked: Asked,
        tally: &mut Tally,
    ) -> Result<(), String> {
        let (servers, ticks) = size_said(asked.plan);
        if servers * ticks < 200 && random.once_in(30) {
            for place in 0..servers * ticks {
                self.look(random, asked, place % servers, place / servers, tally)?;
            }
        }
        for _ in 0..3 {
            let (server, tick) = (place(random, servers), place(random, ticks));
            self.look(random, asked, server, tick, tally)?;
        }
        Ok(())
    }

    fn look(
        &mut self,
        random: &mut Random,
        Asked { form, plan }: Asked,
        server: usize,
        tick: usize,
        tally: &mut Tally,
    ) -> Result<(), String> {
        let library_form = for_library(form);
        let workspace_length = workspace_length(random);
        let plain_workspace = &mut self.plain_workspace[..workspace_length];
        plain_workspace.copy_from_slice(self.workspace.before(workspace_length));
        let seen = plain::look(form.number(), plan, plain_workspace, server, tick);
        let about =
            format!("look at server {server} after tick {tick}, workspace {workspace_length}");
        let wanted = shown(seen.map(|seen| (seen.condition, seen.count)));
        tally.count("look", form, &wanted);

        let workspace = self.workspace.lend(workspace_length);
        let got = register::look(library_form, plan, workspace, server, tick);
        same(&about, words(got), plain_words(seen))?;
        self.workspace_stands(&about, workspace_length, seen.is_err())?;

        let pairs_length = random.below(2 * PAIRS_BYTES);
        let about = format!("{about}, {pairs_length} bytes for pairs");
        let got = {
            let workspace = self.workspace.lend(workspace_length);
            let pairs = self.pairs.lend(pairs_length);
            register::look_into(library_form, plan, workspace, server, tick, pairs)
        };
        same(&about, shown(got), wanted)?;
        let mut pairs = seen.map_or(Vec::new(), packed);
        pairs.truncate(pairs_length / PAIR_BYTES * PAIR_BYTES);
        holds(self.pairs.now_begins(&pairs), &format!("{about}: pairs differ"))?;
        self.workspace_stands(&about, workspace_length, seen.is_err())
    }

    /// Whether the library's workspace is now as the plain one's, and unchanged by a refusal.
    fn workspace_stands(&self, about: &str, length: usize, refused: bool) -> Result<(), String> {
        let stands = self.workspace.now_begins(&self.plain_workspace[..length])
            && (!refused || self.workspace.is_unchanged(length));
        holds(stands, &format!("{about}: workspace differs"))
    }

    /// Answers, true and changed, judged and on sheets.
    fn answered(
        &mut self,
        random: &mut Random,
        asked: Asked,
        reads: usize,
        tally: &mut Tally,
    ) -> Result<(), String> {
        let Asked { form, plan } = asked;
        let mut answers = vec![0; form.answer_bytes() * reads];
        let played = plain::play(form.number(), plan, &mut answers, &mut self.plain_workspace);
        if played.is_err() {
            let length = form.answer_bytes() * random.below(3);
            answers = (0..length).map(|_| random.number() as u8).collect();
        }
        judge(asked, &answers, tally)?;
        self.sheets.compare(random, asked, reads, &answers, tally)?;
        for _ in 0..4 {
            let changed = changed(random, asked, &answers);
            judge(asked, &changed, tally)?;
            self.sheets.compare(random, asked, reads, &changed, tally)?;
        }
        Ok(())
    }
}

fn judge(Asked { form, plan }: Asked, answers: &[u8], tally: &mut Tally) -> Result<(), String> {
    let wanted = plain::judge(form.number(), plan, answers);
    let got = register::judge(for_library(form), plan, answers);
    tally.count("judge", form, &judged(wanted));
    same(&format!("judge of {answers:?}"), judged(got), judged(wanted))
}

/// Servers and ticks by the header, where there is one. They stand before the first value.
fn size_said(plan: &[u8]) -> (usize, usize) {
    match plan {
        [first, _, third, fourth, ..] => {
            (usize::from(first >> 3), usize::from(third & 15) << 4 | usize::from(fourth >> 4))
        }
        _ => (4, 20),
    }
}

/// A place below the bound most often, at it or far past it else.
fn place(random: &mut Random, bound: usize) -> usize {
    let low = random.below(bound.max(1));
    match random.below(16) {
        0 => bound,
        1 => random.pick(&[bound + 1, 255, 256, 65_536, usize::MAX]),
        // Past the bound, but not in the low half or the low byte.
        2 => random.pick(&[low + (1 << 32), low + 256, low + (1 << 63)]),
        3 => bound.saturating_sub(1),
        _ => low,
    }
}

fn workspace_length(random: &mut Random) -> usize {
    match random.below(8) {
        0 => WORKSPACE - 1,
        1 => random.pick(&[0, 1, 59_000, 30_000]),
        2 | 3 => WORKSPACE + random.below(MORE),
        _ => WORKSPACE,
    }
}

pub fn same<T: PartialEq + std::fmt::Debug>(about: &str, got: T, wanted: T) -> Result<(), String> {
    holds(got == wanted, &format!("{about}: the library says {got:?}, plain {wanted:?}"))
}

pub fn holds(fact: bool, otherwise: &str) -> Result<(), String> {
    if fact {
        Ok(())
    } else {
        Err(otherwise.to_string())
    }
}
