//! The operations of the three programs as calls, each with lent bytes of its own.

use register::{Form, FORECAST_NUMBERS};

use crate::cases::Case;
use crate::measure::Call;

#[derive(Clone, Copy, Debug, PartialEq, Eq)]
pub enum Operation {
    Check,
    /// With room for all numbers.
    Forecast,
    Play,
    /// At server 0 after the last tick.
    Look,
    /// Of true answers.
    Judge,
    /// Of true answers, on a page just long enough.
    Sheet,
    /// Into a buffer just long enough.
    Pack,
    /// To the other form, into a buffer just long enough.
    Carry,
}

/// The operations that name a form.
pub const IN_A_FORM: [Operation; 7] = [
    Operation::Check,
    Operation::Forecast,
    Operation::Play,
    Operation::Look,
    Operation::Judge,
    Operation::Sheet,
    Operation::Pack,
];

#[derive(Clone, Copy, Debug, PartialEq, Eq)]
pub enum Program {
    Library,
    Plain,
    Rival,
}

pub const PROGRAMS: [Program; 3] = [Program::Library, Program::Plain, Program::Rival];

/// The programs that have all operations in both forms.
pub const IN_BOTH_FORMS: [Program; 2] = [Program::Library, Program::Plain];

/// Bytes lent to one program: what the operation fills, and the workspace.
pub struct Lent {
    pub out: Vec<u8>,
    workspace: Vec<u8>,
}

/// An operation of a program on a plan.
#[derive(Clone, Copy)]
pub struct Work<'a> {
    pub program: Program,
    pub operation: Operation,
    pub case: &'a Case,
}

impl<'a> Work<'a> {
    /// The rival has three operations, in form one.
    pub fn exists(self) -> bool {
        let of_rival = [Operation::Check, Operation::Play, Operation::Look];
        self.program != Program::Rival
            || self.case.form == Form::One && of_rival.contains(&self.operation)
    }

    /// What it must give as a number, and the bytes that it must write.
    pub fn wanted(self) -> (usize, &'a [u8]) {
        let case = self.case;
        match self.operation {
            Operation::Check => (case.reads, &[]),
            Operation::Forecast => (sum(case.forecast), &[]),
            Operation::Play => (case.reads, &case.answers),
            Operation::Look => (case.kept, &[]),
            Operation::Judge => (1, &[]),
            Operation::Sheet => (case.sheet.len(), &case.sheet),
            Operation::Pack => (case.plan.len(), &case.plan),
            Operation::Carry => {
                let carried = case.carried.as_deref().expect("the other form has room");
                (carried.len(), carried)
            }
        }
    }

    pub fn lent(self) -> Lent {
        let (_, written) = self.wanted();
        Lent { out: vec![0; written.len()], workspace: vec![0; plain::WORKSPACE_BYTES] }
    }

    pub fn call(self, lent: &'a mut Lent) -> Call<'a> {
        match self.program {
            Program::Library => library(self.operation, self.case, lent),
            Program::Plain => plain(self.operation, self.case, lent),
            Program::Rival => rival(self.operation, self.case, lent),
        }
    }
}

/// All numbers of a forecast as one, so that none of them can be left out.
fn sum(forecast: [u32; FORECAST_NUMBERS]) -> usize {
    forecast.iter().sum::<u32>() as usize
}

fn library<'a>(operation: Operation, case: &'a Case, lent: &'a mut Lent) -> Call<'a> {
    let Case { form, plan, lists, answers, last_tick, .. } = case;
    let (form, last_tick) = (*form, *last_tick);
    let Lent { out, workspace } = lent;
    match operation {
        Operation::Check => Box::new(move || register::check(form, plan).unwrap()),
        Operation::Forecast => Box::new(move || {
            let mut numbers = [0; FORECAST_NUMBERS];
            register::forecast_into(form, plan, &mut numbers).unwrap();
            sum(numbers)
        }),
        Operation::Play => Box::new(move || register::play(form, plan, out, workspace).unwrap()),
        Operation::Look => Box::new(move || {
            register::look(form, plan, workspace, 0, last_tick).unwrap().kept().len()
        }),
        Operation::Judge => {
            Box::new(move || usize::from(register::judge(form, plan, answers).unwrap()))
        }
        Operation::Sheet => Box::new(move || register::sheet(form, plan, answers, out).unwrap()),
        Operation::Pack => Box::new(move || register::pack(form, lists, out).unwrap()),
        Operation::Carry => match form {
            Form::One => Box::new(move || register::carry(plan, out).unwrap()),
            Form::Two => Box::new(move || register::carry_back(plan, out).unwrap()),
        },
    }
}

fn plain<'a>(operation: Operation, case: &'a Case, lent: &'a mut Lent) -> Call<'a> {
    let Case { form, plan, lists, answers, last_tick, .. } = case;
    let (number, last_tick) = (form.number(), *last_tick);
    let Lent { out, workspace } = lent;
    match operation {
        Operation::Check => Box::new(move || plain::check(number, plan).unwrap()),
        Operation::Forecast => {
            Box::new(move || sum(plain::forecast(number, plan).unwrap().numbers()))
        }
        Operation::Play => Box::new(move || plain::play(number, plan, out, workspace).unwrap()),
        Operation::Look => {
            Box::new(move || plain::look(number, plan, workspace, 0, last_tick).unwrap().count)
        }
        Operation::Judge => {
            Box::new(move || usize::from(plain::judge(number, plan, answers).unwrap()))
        }
        Operation::Sheet => Box::new(move || plain::sheet(number, plan, answers, out).unwrap()),
        Operation::Pack => {
            let register::Lists { header, placements, operations, forgeries, delays } = lists;
            let lists = plain::Lists { header, placements, operations, forgeries, delays };
            Box::new(move || plain::pack(number, &lists, out).unwrap())
        }
        Operation::Carry => match form {
            Form::One => Box::new(move || plain::carry(plan, out).unwrap()),
            Form::Two => Box::new(move || plain::carry_back(plan, out).unwrap()),
        },
    }
}

fn rival<'a>(operation: Operation, case: &'a Case, lent: &'a mut Lent) -> Call<'a> {
    let Case { plan, last_tick, .. } = case;
    let last_tick = *last_tick;
    let Lent { out, workspace } = lent;
    match operation {
        Operation::Check => Box::new(move || rival::check(plan).unwrap()),
        Operation::Play => Box::new(move || rival::play(plan, out, workspace).unwrap()),
        Operation::Look => {
            Box::new(move || rival::look(plan, workspace, 0, last_tick).unwrap().count)
        }
        _ => unreachable!("the rival has no {operation:?}"),
    }
}
