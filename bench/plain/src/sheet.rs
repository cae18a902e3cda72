//! The sheet: a page of lines of 80 characters and a line feed.

use std::fmt::Display;

use crate::form::Form;
use crate::judge::{is_concurrent, Answer};
use crate::plan::{Plan, Read};

/// What stands in the cells of a line.
fn line(cells: [&dyn Display; 7]) -> String {
    let [begin, reader, end, value, number, count, mark] = cells;
    format!("{begin:>7}{reader:>12}{end:>9}{value:>14}{number:>12}{count:>12}{mark:>14}\n")
}

fn heading() -> String {
    line([&"begin", &"screen", &"end", &"cue", &"number", &"count", &"writing"])
}

/// A dash for each column of a field.
fn rule(form: &Form) -> String {
    let value = if form == Form::ONE { "-----" } else { "--------" };
    line([&"---", &"-", &"---", &value, &"---", &"--", &"-"])
}

fn row(plan: &Plan, read: &Read, answer: Answer) -> String {
    let [_, _, value, number, count, _] = answer;
    let marked = plan.writes.iter().any(|write| is_concurrent(write, read));
    let mark = if marked { '*' } else { ' ' };
    line([&read.begin, &read.reader, &read.end, &value, &number, &count, &mark])
}

/// The sheet of these answers.
pub fn text<'a>(plan: &Plan, answered: impl Iterator<Item = (&'a Read, Answer)>) -> String {
    let mut text = heading() + &rule(plan.header.form);
    for (read, answer) in answered {
        text += &row(plan, read, answer);
    }
    text + &line([&""; 7])
}
