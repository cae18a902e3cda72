//! timing [ROUNDS]: prints, as tables, the times of Check, Forecast, Play, Look, Judge, Sheet and Pack of
//! the library, of the plain one and of the rival, in one run and on the same plans of form one, how they
//! grow, Sheet beside Judge and Pack beside Check; form two beside form one; Forecast and carrying beside
//! Check; and the stack of Forecast, Play, Sheet, Pack and carrying.

mod cases;
mod measure;
mod operations;
mod stack;
mod tables;
mod turns;

use std::process::ExitCode;

use register::Form;

use cases::{Case, Shape, LONGEST, MIDDLE, NAMED};
use operations::{Operation, IN_A_FORM, IN_BOTH_FORMS, PROGRAMS};
use turns::{Row, Turns};

/// Samples that are taken at one go. All rows have their turn before the next ones, so that
/// a busy minute of the machine touches all of them.
const AT_ONCE: usize = 20;

/// What growth is shown by: each part of a plan alone.
fn growth() -> Vec<(String, Case)> {
    let case = |shape| Case::new(Form::One, shape);
    let mut cases = Vec::new();
    // Few ticks have no room for 512 forgeries.
    cases.extend([16, 32, 64, 128].map(|ticks| {
        (format!("{ticks} ticks, no forgeries"), case(Shape { ticks, forgeries: 0, ..MIDDLE }))
    }));
    cases.extend([6, 8, 11, 16].map(|servers| {
        (format!("{servers} servers, f=1"), case(Shape { servers, faulty: 1, ..MIDDLE }))
    }));
    cases.extend(
        [0, 256, 512, 1024].map(|forgeries| {
            (format!("{forgeries} forgeries"), case(Shape { forgeries, ..MIDDLE }))
        }),
    );
    cases
}

/// A shape in both forms.
struct Shaped {
    name: &'static str,
    one: Case,
    two: Case,
    /// The plan of form one in form two.
    carried: Case,
}

impl Shaped {
    fn new((name, shape): (&'static str, Shape)) -> Self {
        let (one, two) = (Case::new(Form::One, shape), Case::new(Form::Two, shape));
        Shaped { name, one, two, carried: Case::narrow(Form::Two, shape) }
    }

    /// All operations in form two, with form one in turn.
    fn in_both_forms(&self) -> Row<'_> {
        let cases = [&self.two, &self.one];
        let turns = IN_A_FORM.map(|operation| Turns::new(operation, &IN_BOTH_FORMS, &cases));
        Row::new(self.name, turns.into())
    }

    fn forecasting(&self) -> Row<'_> {
        self.beside_check(Operation::Forecast, [&self.one, &self.two])
    }

    fn carrying(&self) -> Row<'_> {
        self.beside_check(Operation::Carry, [&self.one, &self.carried])
    }

    /// An operation on a plan of each form, with Check in turn.
    fn beside_check<'a>(&'a self, operation: Operation, cases: [&'a Case; 2]) -> Row<'a> {
        let turns = cases.map(|case| {
            let check = Turns::new(Operation::Check, &IN_BOTH_FORMS, &[case]);
            Turns::new(operation, &IN_BOTH_FORMS, &[case]).and(check)
        });
        Row::new(self.name, turns.into())
    }
}

/// All operations of the three programs.
fn in_form_one<'a>(name: &'a str, case: &'a Case) -> Row<'a> {
    let turns = IN_A_FORM.map(|operation| Turns::new(operation, &PROGRAMS, &[case]));
    Row::new(name, turns.into())
}

fn run(rounds: usize) {
    let (named, growing) = (NAMED.map(Shaped::new), growth());
    let mut operations: Vec<Row> =
        named.iter().map(|shaped| in_form_one(shaped.name, &shaped.one)).collect();
    let mut growth: Vec<Row> = growing.iter().map(|(name, case)| in_form_one(name, case)).collect();
    let mut both_forms: Vec<Row> = named.iter().map(Shaped::in_both_forms).collect();
    let mut forecasting: Vec<Row> = named.iter().map(Shaped::forecasting).collect();
    let mut carrying: Vec<Row> = named.iter().map(Shaped::carrying).collect();
    for taken in (0..rounds).step_by(AT_ONCE) {
        let rows = operations.iter_mut().chain(&mut growth).chain(&mut both_forms);
        let rows = rows.chain(&mut forecasting).chain(&mut carrying);
        rows.for_each(|row| row.add(AT_ONCE.min(rounds - taken)));
    }
    tables::print_operations(&operations, rounds);
    tables::print_growth(&growth);
    tables::print_sheet(&operations);
    tables::print_pack(&operations);
    tables::print_form_two(&both_forms);
    tables::print_forecast(&forecasting);
    tables::print_carry(&carrying);
    stack::print();
}

fn main() -> ExitCode {
    let words: Vec<String> = std::env::args().skip(1).collect();
    let words: Vec<&str> = words.iter().map(String::as_str).collect();
    // How this program calls itself.
    if let ["--stack", what, frames] = words[..] {
        if let Ok(frames) = frames.parse() {
            stack::attempt(what, frames);
            return ExitCode::SUCCESS;
        }
    }
    let rounds = match words[..] {
        [] => Some(101),
        [rounds] => rounds.parse().ok(),
        _ => None,
    };
    let Some(rounds @ 1..) = rounds else {
        eprintln!("usage: bench/run [ROUNDS], a number from 1 on");
        return ExitCode::from(2);
    };
    for form in Form::ALL {
        assert_eq!(Case::new(form, LONGEST).plan.len(), form.longest_plan());
    }
    run(rounds);
    ExitCode::SUCCESS
}
