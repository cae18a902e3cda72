//! What is measured together: calls that have their turns one after the other, and rows of them.

use register::Form;

use crate::cases::Case;
use crate::measure::{measure, Call, Samples, Times};
use crate::operations::{Lent, Operation, Program, Work};

struct Measured<'a> {
    work: Work<'a>,
    samples: Samples,
}

/// Calls that are measured in turn.
pub struct Turns<'a>(Vec<Measured<'a>>);

impl<'a> Turns<'a> {
    /// These programs' calls of an operation, plan by plan; those that there are.
    pub fn new(operation: Operation, programs: &[Program], cases: &[&'a Case]) -> Self {
        let works = cases.iter().flat_map(|&case| {
            programs.iter().map(move |&program| Work { program, operation, case })
        });
        let works = works.filter(|work| work.exists());
        Turns(works.map(|work| Measured { work, samples: Samples::default() }).collect())
    }

    /// The calls of both in turn.
    pub fn and(mut self, other: Self) -> Self {
        self.0.extend(other.0);
        self
    }

    /// Adds so many samples of each. All must give and write what they should.
    fn add(&mut self, rounds: usize) {
        let works: Vec<Work> = self.0.iter().map(|measured| measured.work).collect();
        let mut lent: Vec<Lent> = works.iter().map(|work| work.lent()).collect();
        let pairs = works.iter().zip(&mut lent);
        let mut calls: Vec<Call> = pairs.map(|(work, lent)| work.call(lent)).collect();
        for (work, call) in works.iter().zip(&mut calls) {
            let Work { program, operation, .. } = work;
            assert_eq!(call(), work.wanted().0, "{operation:?} of {program:?}");
        }
        let samples = self.0.iter_mut().map(|measured| &mut measured.samples).collect();
        measure(rounds, &mut calls, samples);
        drop(calls);
        let mut written = works.iter().zip(&lent);
        assert!(written.all(|(work, lent)| lent.out == work.wanted().1), "what is written differs");
    }
}

/// A line or some lines of a table.
pub struct Row<'a> {
    pub name: &'a str,
    turns: Vec<Turns<'a>>,
}

impl<'a> Row<'a> {
    pub fn new(name: &'a str, turns: Vec<Turns<'a>>) -> Self {
        Row { name, turns }
    }

    pub fn add(&mut self, rounds: usize) {
        self.turns.iter_mut().for_each(|turns| turns.add(rounds));
    }

    fn find(&self, program: Program, operation: Operation, form: Form) -> Option<&Measured<'a>> {
        let mut all = self.turns.iter().flat_map(|turns| &turns.0);
        all.find(|Measured { work, .. }| {
            (work.program, work.operation, work.case.form) == (program, operation, form)
        })
    }

    /// Nothing if it was not measured.
    pub fn times(&self, program: Program, operation: Operation, form: Form) -> Option<Times> {
        self.find(program, operation, form)?.samples.times()
    }

    /// The plan's number of bytes in a form.
    pub fn bytes(&self, form: Form) -> usize {
        let checked = self.find(Program::Library, Operation::Check, form);
        checked.map_or(0, |measured| measured.work.case.plan.len())
    }
}
