//! differential [PLANS [SEED]]: the library, through its wrapper, against the plain one.
//!
//! Results and every lent byte are compared on random plans of both forms, accepted and damaged, with
//! lent bytes too short and too long, looks in and out of range, answers true, changed and malformed to
//! judge and to make sheets of, and now and then under the other form's name; and on as many random
//! lists of numbers to pack, right and bent. Plans are also carried to the other form. There the library
//! must give the same answers, and back from there the same bytes. A forecast must also be what the plain
//! program counts while it plays.
//! What shows a difference is kept under target/differ/ of this package.

mod answers;
mod asked;
mod carrying;
mod forecasts;
mod lent;
mod packing;
mod results;
mod sheets;
mod tally;
mod trial;

use std::process::ExitCode;
use std::time::Instant;

use plans::{accepted, damaged, some_lists, Form, Lists, Random, Size};

use asked::Asked;
use carrying::Carrying;
use packing::Packing;
use tally::Tally;
use trial::Bench;

const MOST_SHOWN: usize = 10;

/// How often a plan or lists of one form are said to be of the other: once in so many.
const MISTAKEN: usize = 8;

/// A plan of a form, and whether it was made to be accepted.
fn plan(random: &mut Random, form: Form) -> (Vec<u8>, bool) {
    match random.below(40) {
        0 | 1 => (accepted(random, form, Size::Any).pack(), true),
        2 => (damaged(random, form, Size::Any), false),
        3..=15 => (damaged(random, form, Size::Small), false),
        _ => (accepted(random, form, Size::Small).pack(), true),
    }
}

fn lists(random: &mut Random, form: Form) -> Lists {
    let size = if random.once_in(30) { Size::Any } else { Size::Small };
    some_lists(random, form, size)
}

/// The name of the file in which the contents are kept.
fn keep(name: &str, contents: &[u8]) -> String {
    let folder = concat!(env!("CARGO_MANIFEST_DIR"), "/target/differ");
    let name = format!("{folder}/{name}");
    let kept = std::fs::create_dir_all(folder).and_then(|()| std::fs::write(&name, contents));
    kept.map_or_else(|error| error.to_string(), |()| name)
}

/// What is compared, and what came of it.
struct Comparison {
    bench: Bench,
    carrying: Carrying,
    packing: Packing,
    tally: Tally,
    bytes: usize,
    different: usize,
}

impl Comparison {
    fn new() -> Self {
        let mut random = Random::new(1);
        Comparison {
            bench: Bench::new(&mut random),
            carrying: Carrying::new(&mut random),
            packing: Packing::new(&mut random),
            tally: Tally::default(),
            bytes: 0,
            different: 0,
        }
    }

    fn plan(&mut self, seed: u64) {
        let random = &mut Random::new(seed);
        let form = random.pick(&Form::ALL);
        let (plan, made_well) = plan(random, form);
        self.bytes += plan.len();
        let accepted = plain::check(form.number(), &plan).is_ok();
        assert!(!made_well || accepted, "seed {seed}: a plan was made wrongly");
        self.asked(random, seed, Asked { form, plan: &plan });
        if random.once_in(MISTAKEN) {
            self.asked(random, seed, Asked { form: form.other(), plan: &plan });
        }
    }

    fn asked(&mut self, random: &mut Random, seed: u64, asked: Asked) {
        let compared = self.bench.compare(random, asked, &mut self.tally);
        let compared =
            compared.and_then(|()| self.carrying.compare(random, asked, &mut self.tally));
        let compared = compared.and_then(|()| forecasts::compare(random, asked, &mut self.tally));
        if let Err(difference) = compared {
            let difference = format!("{}, {difference}", asked.form);
            self.differs(seed, &difference, &format!("{seed}.plan"), asked.plan);
        }
    }

    fn lists(&mut self, seed: u64) {
        let random = &mut Random::new(!seed);
        let form = random.pick(&Form::ALL);
        let lists = lists(random, form);
        let said = if random.once_in(MISTAKEN) { form.other() } else { form };
        if let Err(difference) = self.packing.compare(random, said, &lists, &mut self.tally) {
            let text = packing::text(&lists);
            self.differs(seed, &difference, &format!("{seed}.lists"), text.as_bytes());
        }
    }

    fn differs(&mut self, seed: u64, difference: &str, name: &str, contents: &[u8]) {
        self.different += 1;
        if self.different <= MOST_SHOWN {
            println!("seed {seed}: {difference}\n  kept as {}", keep(name, contents));
        }
    }
}

/// How many plans, and the first one's seed; nothing if an argument is wrong.
fn arguments() -> Option<(u64, u64)> {
    let words: Vec<String> = std::env::args().skip(1).collect();
    let (count, first): (u64, u64) = match &words[..] {
        [] => (100_000, 0),
        [count] => (count.parse().ok()?, 0),
        [count, first] => (count.parse().ok()?, first.parse().ok()?),
        _ => return None,
    };
    count.checked_add(first).map(|_| (count, first))
}

fn main() -> ExitCode {
    let Some((count, first)) = arguments() else {
        eprintln!("usage: tests/differential/run [PLANS [SEED]], both of them numbers");
        return ExitCode::from(2);
    };
    let began = Instant::now();
    let mut comparison = Comparison::new();
    for seed in first..first + count {
        comparison.plan(seed);
        comparison.lists(seed);
    }
    let Comparison { tally, bytes, different, .. } = comparison;
    println!("results by number of the refusal, and the rest:");
    tally.print();
    let missing = tally.missing();
    if count >= 10_000 && !missing.is_empty() {
        println!("never came up: {}", missing.join(", "));
    }
    println!(
        "{count} plans from seed {first}, {bytes} bytes, and as many lists to pack, {different} different, {:.1} s",
        began.elapsed().as_secs_f64()
    );
    if different == 0 && (count < 10_000 || missing.is_empty()) {
        ExitCode::SUCCESS
    } else {
        ExitCode::FAILURE
    }
}
