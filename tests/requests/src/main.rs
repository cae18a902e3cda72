//! Answers many requests with the proved library: for each record on standard input one line on
//! standard output.
//!
//! A record is a letter, the number of a form, then what the letter asks for in that form; numbers are
//! 8 bytes, big-endian, and byte strings have their length before them. A list is a byte string with 4
//! bytes for each of its numbers, big-endian.
//!   c plan                   Check, and the numbers of the header
//!   f plan numbers           Forecast, and what comes of it in so many lent numbers
//!   p plan                   the lines that the program prints for a plan of form one, for either form:
//!                            `reads`, then a line for each read; joined by `|`
//!   b plan buffer workspace  Play into lent bytes of those lengths
//!   l plan workspace server tick pairs
//!                            Look with lent bytes of those lengths
//!   t plan                   every look
//!   j plan answers           Judge
//!   s plan answers page      Sheet on a lent page of that length
//!   k header placements operations forgeries delays buffer
//!                            Pack of these lists into a lent buffer of that length
//!   y plan buffer            Carry from form one, Carry back from form two, into a lent buffer of that
//!                            length
//!   r plan                   there and back: what `c` and `p` say of the carried plan in its form, and
//!                            the plan carried from there
//! Lent bytes start as 1, 2, 3 .. modulo 251; a lent number is four of them, big-endian. Those of numbers,
//! answers, pairs, sheets, packed and carried plans are printed in hex, a workspace as `kept` if no byte
//! has changed, `cleared` if the first 60,000 are zero and the rest unchanged.

mod carrying;
mod forecasts;
mod lent;
mod records;

use std::io::{self, Read, Write};

use register::{
    answers, check, judge, look, look_into, pack, play, sheet, Condition, Form, Lists, Plan,
    Refusal, WORKSPACE_BYTES,
};

use carrying::{carried, carry_into, other};
use forecasts::foretold;
use lent::{hex, lent, state};
use records::Records;

fn refused(refusal: Refusal) -> String {
    format!("refused {}", refusal.number())
}

fn joined(numbers: &[usize]) -> String {
    numbers.iter().map(usize::to_string).collect::<Vec<_>>().join(" ")
}

fn number_of(condition: Condition) -> usize {
    match condition {
        Condition::Faulty => 0,
        Condition::Cured => 1,
        Condition::Correct => 2,
    }
}

fn checked(form: Form, bytes: &[u8]) -> Result<String, Refusal> {
    let plan = Plan::of(form, bytes)?;
    let numbers = [
        check(form, bytes)?,
        plan.servers(),
        plan.faulty(),
        plan.delta(),
        plan.period(),
        plan.readers(),
        plan.ticks(),
        plan.initial() as usize,
        plan.operations(),
        plan.forgeries(),
    ];
    Ok(format!("reads {}", joined(&numbers)))
}

fn printed(form: Form, bytes: &[u8]) -> Result<String, Refusal> {
    let plan = Plan::of(form, bytes)?;
    let mut buffer = lent(form.answer_bytes() * plan.reads());
    let reads = play(form, bytes, &mut buffer, &mut lent(WORKSPACE_BYTES))?;
    Ok(answers(form, &buffer).fold(format!("reads {reads}"), |text, answer| {
        let end = answer.begin + 2 * plan.delta();
        let (value, number) = (answer.value as usize, usize::from(answer.number));
        let numbers = [answer.begin, answer.reader, end, value, number, answer.count];
        format!("{text}|{}", joined(&numbers))
    }))
}

fn played(form: Form, plan: &[u8], buffer: usize, workspace: usize) -> String {
    let (mut buffer, mut workspace) = (lent(buffer), lent(workspace));
    let result = play(form, plan, &mut buffer, &mut workspace);
    let said = result.map_or_else(refused, |reads| format!("reads {reads}"));
    format!("{said} {} {}", hex(&buffer), state(&workspace))
}

/// What is to be looked at, and the lengths of what is lent for it.
struct Place {
    workspace: usize,
    server: usize,
    tick: usize,
    pairs: usize,
}

fn looked(form: Form, plan: &[u8], place: Place) -> String {
    let (mut workspace, mut pairs) = (lent(place.workspace), lent(place.pairs));
    let result = look_into(form, plan, &mut workspace, place.server, place.tick, &mut pairs);
    let said = result.map_or_else(refused, |(condition, count)| {
        format!("seen {}", joined(&[number_of(condition), count]))
    });
    format!("{said} {} {}", hex(&pairs), state(&workspace))
}

fn every_look(form: Form, bytes: &[u8]) -> Result<String, Refusal> {
    let plan = Plan::of(form, bytes)?;
    let mut workspace = lent(WORKSPACE_BYTES);
    let mut text = String::new();
    for place in 0..plan.ticks() * plan.servers() {
        let (tick, server) = (place / plan.servers(), place % plan.servers());
        let seen = look(form, bytes, &mut workspace, server, tick)?;
        let mut numbers = vec![tick, server, number_of(seen.condition)];
        for kept in seen.kept() {
            numbers.extend([kept.value as usize, usize::from(kept.number)]);
        }
        text += &format!("{}|", joined(&numbers));
    }
    Ok(text)
}

fn judged(form: Form, plan: &[u8], answers: &[u8]) -> Result<String, Refusal> {
    judge(form, plan, answers).map(|yes| if yes { "yes" } else { "no" }.to_string())
}

/// What came of filling a buffer of a length.
fn filled(length: usize, fill: impl FnOnce(&mut [u8]) -> Result<usize, Refusal>) -> String {
    let mut buffer = lent(length);
    let said = fill(&mut buffer).map_or_else(refused, |bytes| format!("bytes {bytes}"));
    format!("{said} {}", hex(&buffer))
}

fn printed_on(form: Form, plan: &[u8], answers: &[u8], page: usize) -> String {
    filled(page, |page| sheet(form, plan, answers, page))
}

fn packed(form: Form, lists: &Lists, buffer: usize) -> String {
    filled(buffer, |buffer| pack(form, lists, buffer))
}

fn there_and_back(form: Form, plan: &[u8]) -> Result<String, Refusal> {
    let (there, carried_plan) = (other(form), carried(form, plan)?);
    let (checked, printed) = (checked(there, &carried_plan)?, printed(there, &carried_plan)?);
    let back = carried(there, &carried_plan)?;
    Ok(format!("{checked}|{printed}|{}", hex(&back)))
}

/// The answer to the first of the records; nothing if it is none.
fn answer(records: &mut Records) -> Option<String> {
    let (letter, form) = (records.letter()?, records.form()?);
    match letter {
        b'k' => {
            let lists = records.lists()?;
            Some(packed(form, &lists, records.number()?))
        }
        letter => about_a_plan(letter, form, records),
    }
}

fn about_a_plan(letter: u8, form: Form, records: &mut Records) -> Option<String> {
    let plan = records.string()?;
    let result = match letter {
        b'c' => checked(form, plan),
        b'f' => Ok(foretold(form, plan, records.number()?)),
        b'p' => printed(form, plan),
        b'b' => Ok(played(form, plan, records.number()?, records.number()?)),
        b'l' => Ok(looked(form, plan, place(records)?)),
        b't' => every_look(form, plan),
        b'j' => judged(form, plan, records.string()?),
        b's' => Ok(printed_on(form, plan, records.string()?, records.number()?)),
        b'y' => Ok(filled(records.number()?, |buffer| carry_into(form, plan, buffer))),
        b'r' => there_and_back(form, plan),
        _ => return None,
    };
    Some(result.unwrap_or_else(refused))
}

fn place(records: &mut Records) -> Option<Place> {
    Some(Place {
        workspace: records.number()?,
        server: records.number()?,
        tick: records.number()?,
        pairs: records.number()?,
    })
}

fn main() -> io::Result<()> {
    let mut input = Vec::new();
    io::stdin().read_to_end(&mut input)?;
    let mut records = Records::of(&input);
    let mut output = io::BufWriter::new(io::stdout());
    while !records.is_empty() {
        let line = answer(&mut records);
        writeln!(output, "{}", line.ok_or(io::ErrorKind::InvalidData)?)?;
    }
    output.flush()
}
