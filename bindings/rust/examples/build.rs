//! Builds a plan of form one from typed parts and rehearses it: prints the length of the plan, each
//! read's answer, and whether the answers are those of a regular register. The plan is
//! examples/takeover.plan.
//!
//! The exit status is 0 for an accepted plan, 1 for a refused one, 2 if writing failed.

use std::io::{self, Write};
use std::process::ExitCode;

use register::{
    answers, check, judge, play, Draft, Forgery, Form, Operation, Party, Refusal, WORKSPACE_BYTES,
};

const FORM: Form = Form::One;

/// The read's begin and end.
const READ: (usize, usize) = (3, 5);

/// Five servers, of which one is faulty at a time, from server 0 on in turn; one reader.
fn takeover() -> Draft {
    let draft = Draft {
        servers: 5,
        faulty: 1,
        delta: 1,
        period: 2,
        readers: 1,
        ticks: 10,
        initial: 7,
        placements: (0..5).map(|server| vec![server]).collect(),
        operations: vec![
            Operation::Write { tick: 0, value: 100 },
            Operation::Read { tick: READ.0, reader: 1 },
            Operation::Write { tick: 6, value: 101 },
        ],
        delay: 1,
        ..Draft::default()
    };
    Draft { forgeries: forgeries(&draft), ..draft }
}

/// The faulty server tells all others that 666 is due, and the reader while its read is open.
fn forgeries(draft: &Draft) -> Vec<Forgery> {
    let mut forgeries = Vec::new();
    for tick in 0..draft.ticks {
        let sender = tick / draft.period;
        let others = (0..draft.servers).filter(|&server| server != sender).map(Party::Server);
        let reader = (READ.0..READ.1).contains(&tick).then_some(Party::Reader(1));
        for receiver in others.chain(reader) {
            forgeries.push(Forgery { tick, sender, receiver, value: 666, number: 9 });
        }
    }
    forgeries
}

/// What there is to say of the plan.
fn rehearse(draft: &Draft) -> Result<String, Refusal> {
    let plan = draft.build(FORM)?;
    let reads = check(FORM, &plan)?;
    let mut lent = vec![0; FORM.answer_bytes() * reads];
    play(FORM, &plan, &mut lent, &mut vec![0; WORKSPACE_BYTES])?;
    let mut text = format!("bytes {}\nreads {reads}\n", plan.len());
    for answer in answers(FORM, &lent) {
        text += &format!(
            "begin {} reader {} value {} number {} count {}\n",
            answer.begin, answer.reader, answer.value, answer.number, answer.count
        );
    }
    let regular = if judge(FORM, &plan, &lent)? { "yes" } else { "no" };
    Ok(text + "regular: " + regular + "\n")
}

fn main() -> ExitCode {
    let result = rehearse(&takeover());
    let accepted = result.is_ok();
    let text = result.unwrap_or_else(|refusal| format!("{refusal}\n"));
    if let Err(error) = io::stdout().write_all(text.as_bytes()) {
        eprintln!("build: {error}");
        return ExitCode::from(2);
    }
    ExitCode::from(u8::from(!accepted))
}
