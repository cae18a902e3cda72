//! The stack that an operation takes: how much less room is left beside it than beside nothing. Each
//! try is a process of its own, as an overflow ends the process.

use std::hint::black_box;
use std::process::{Command, Stdio};

use register::Form;

use crate::cases::{Case, LONGEST};
use crate::operations::{Operation, Work, PROGRAMS};

/// The stack of the thread that tries.
const STACK: usize = 4 << 20;
/// What one frame of `beneath` fills, at least.
const FRAME: usize = 1024;

/// The operations whose stack is of interest.
const TRIED: [Operation; 6] = [
    Operation::Forecast,
    Operation::Play,
    Operation::Look,
    Operation::Sheet,
    Operation::Pack,
    Operation::Carry,
];

/// Calls beneath so many frames.
fn beneath(frames: usize, call: &mut dyn FnMut() -> usize) {
    let mut room = [0u8; FRAME];
    black_box(&mut room);
    if frames == 0 {
        black_box(call());
    } else {
        beneath(frames - 1, call);
    }
    black_box(&mut room);
}

fn name(work: Work) -> String {
    format!("{:?} {:?} {:?}", work.operation, work.program, work.case.form)
}

/// All that can be tried on a plan.
fn works(case: &Case) -> impl Iterator<Item = Work<'_>> {
    let of = move |operation| PROGRAMS.map(|program| Work { program, operation, case });
    TRIED.into_iter().flat_map(of).filter(|work| work.exists())
}

/// Runs what is named, or nothing, beneath so many frames. The lent bytes are elsewhere.
pub fn attempt(what: &str, frames: usize) {
    let cases = Form::ALL.map(|form| Case::narrow(form, LONGEST));
    let work = cases.iter().flat_map(works).find(|&work| name(work) == what);
    let run = || match work {
        Some(work) => beneath(frames, &mut work.call(&mut work.lent())),
        None => beneath(frames, &mut || 0),
    };
    std::thread::scope(|scope| {
        let thread = std::thread::Builder::new().stack_size(STACK);
        thread.spawn_scoped(scope, run).unwrap().join().unwrap();
    });
}

fn ends(what: &str, frames: usize) -> bool {
    let mut program = Command::new(std::env::current_exe().unwrap());
    program.args(["--stack", what, &frames.to_string()]);
    program.stdout(Stdio::null()).stderr(Stdio::null());
    program.status().is_ok_and(|status| status.success())
}

/// The most frames beneath which it ends.
fn most_frames(what: &str) -> usize {
    let (mut low, mut high) = (0, STACK / FRAME);
    while low + 1 < high {
        let middle = (low + high) / 2;
        if ends(what, middle) {
            low = middle
        } else {
            high = middle
        }
    }
    low
}

/// How much stack an operation takes, by how many frames fit beside nothing.
fn kilobytes(work: Work, beside_nothing: usize) -> String {
    if !work.exists() {
        return "-".to_string();
    }
    let frames = beside_nothing - most_frames(&name(work));
    format!("{:.0}", frames as f64 * (STACK / beside_nothing) as f64 / 1024.0)
}

/// Prints how much stack the longest plan takes.
pub fn print() {
    println!("\nStack that the longest plan takes, in KB, to about one; plain and rival also allocate.\n");
    println!("| operation | plan in form | library | plain | rival |");
    println!("|---|---|---:|---:|---:|");
    let beside_nothing = most_frames("nothing");
    for (form, said) in [(Form::One, "one"), (Form::Two, "two")] {
        let case = &Case::narrow(form, LONGEST);
        for operation in TRIED {
            let cells = PROGRAMS
                .map(|program| kilobytes(Work { program, operation, case }, beside_nothing));
            println!("| {operation:?} | {said} | {} |", cells.join(" | "));
        }
    }
}
