//! The plans that are measured: busy ones, in which nobody rests.

use plans::{Forgery, Operation, Parts, Random};
use register::{Form, Lists, FORECAST_NUMBERS, MOST_SHEET_BYTES};

/// The place of the number of ticks in a header.
const TICKS: usize = 5;

#[derive(Clone, Copy)]
pub struct Shape {
    pub servers: usize,
    pub faulty: usize,
    /// δ and Δ.
    pub bounds: (usize, usize),
    pub readers: usize,
    pub ticks: usize,
    pub forgeries: usize,
}

const SIXTEEN: Shape =
    Shape { servers: 16, faulty: 3, bounds: (1, 1), readers: 4, ticks: 128, forgeries: 0 };
const SLOW: Shape = Shape { bounds: (15, 15), ..SIXTEEN };
/// No accepted plan of its form is longer.
pub const LONGEST: Shape = Shape { forgeries: 1024, ..SIXTEEN };
/// What growth is measured from.
pub const MIDDLE: Shape = Shape { bounds: (4, 6), readers: 2, forgeries: 512, ..SIXTEEN };

pub const NAMED: [(&str, Shape); 9] = [
    (
        "5 servers, 40 ticks",
        Shape { servers: 5, faulty: 1, bounds: (2, 4), readers: 1, ticks: 40, forgeries: 0 },
    ),
    ("16 servers, δ=Δ=15", SLOW),
    ("16 servers, δ=Δ=15, 1,024 forgeries", Shape { forgeries: 1024, ..SLOW }),
    ("16 servers, δ=Δ=1", SIXTEEN),
    ("the longest: 16 servers, δ=Δ=1, 1,024 forgeries", LONGEST),
    ("16 servers, δ=4, Δ=6", Shape { forgeries: 0, ..MIDDLE }),
    ("6 servers, δ=4, Δ=6, 512 forgeries", Shape { servers: 6, faulty: 1, ..MIDDLE }),
    ("16 servers, δ=15, Δ=63", Shape { bounds: (15, 63), ..SIXTEEN }),
    (
        "1 server, 8 ticks",
        Shape { servers: 1, faulty: 0, bounds: (1, 1), readers: 1, ticks: 8, forgeries: 0 },
    ),
];

/// A plan, packed and as lists, and what the plain program makes of it.
pub struct Case {
    pub form: Form,
    pub plan: Vec<u8>,
    pub lists: Lists,
    pub reads: usize,
    pub forecast: [u32; FORECAST_NUMBERS],
    pub answers: Vec<u8>,
    pub sheet: Vec<u8>,
    pub last_tick: usize,
    /// How many stamped values server 0 keeps after the last tick.
    pub kept: usize,
    /// The plan in the other form, where that has room for its values.
    pub carried: Option<Vec<u8>>,
}

impl Case {
    /// A plan of a shape, with values that fill those of the form.
    pub fn new(form: Form, shape: Shape) -> Self {
        Case::of(form, parts(for_plans(form), shape).lists())
    }

    /// A plan of a shape whose values form one has room for.
    pub fn narrow(form: Form, shape: Shape) -> Self {
        Case::of(form, parts(plans::Form::One, shape).lists())
    }

    fn of(form: Form, lists: plans::Lists) -> Self {
        let number = form.number();
        let plan = lists.pack(for_plans(form));
        let reads = plain::check(number, &plan).unwrap();
        let forecast = plain::forecast(number, &plan).unwrap().numbers();
        let mut workspace = vec![0; plain::WORKSPACE_BYTES];
        let mut answers = vec![0; form.answer_bytes() * reads];
        plain::play(number, &plan, &mut answers, &mut workspace).unwrap();
        let mut sheet = vec![0; MOST_SHEET_BYTES];
        let length = plain::sheet(number, &plan, &answers, &mut sheet).unwrap();
        sheet.truncate(length);
        let plans::Lists { header, placements, operations, forgeries, delays } = lists;
        let last_tick = header[TICKS] as usize - 1;
        let kept = plain::look(number, &plan, &mut workspace, 0, last_tick).unwrap().count;
        let carried = carried(form, &plan);
        let lists = Lists { header, placements, operations, forgeries, delays };
        Case { form, plan, lists, reads, forecast, answers, sheet, last_tick, kept, carried }
    }
}

fn for_plans(form: Form) -> plans::Form {
    match form {
        Form::One => plans::Form::One,
        Form::Two => plans::Form::Two,
    }
}

/// The plan of a form in the other.
fn carried(form: Form, plan: &[u8]) -> Option<Vec<u8>> {
    let mut out = vec![0; Form::Two.longest_plan()];
    let length = match form {
        Form::One => plain::carry(plan, &mut out),
        Form::Two => plain::carry_back(plan, &mut out),
    };
    out.truncate(length.ok()?);
    Some(out)
}

/// A plan's parts: each party begins as soon as it may, the agents move on in turn at every
/// movement, delays are random, forgeries stand all over the ticks.
fn parts(form: plans::Form, shape: Shape) -> Parts {
    let mut parts = Parts {
        form,
        servers: shape.servers,
        faulty: shape.faulty,
        delta: shape.bounds.0,
        period: shape.bounds.1,
        readers: shape.readers,
        ticks: shape.ticks,
        initial: wide(form, 7),
        zero: 0,
        placements: Vec::new(),
        operations: Vec::new(),
        forgeries: Vec::new(),
        delays: Vec::new(),
    };
    let in_turn = |movement: usize| {
        let servers = (0..shape.faulty).map(|i| (movement * shape.faulty + i) % shape.servers);
        servers.fold(0, |set, server| set | 1 << server)
    };
    parts.placements = (0..parts.movements()).map(in_turn).collect();
    parts.operations = operations(&parts);
    parts.forgeries = forgeries(&parts, shape.forgeries);
    parts.delays = delays(&parts);
    parts
}

/// A value of form one at the upper end of the form's.
fn wide(form: plans::Form, value: u32) -> u32 {
    value << (form.value_bits() - plans::Form::One.value_bits())
}

fn operations(parts: &Parts) -> Vec<Operation> {
    let mut operations = Vec::new();
    for party in 0..=parts.readers {
        let begins = (0..parts.ticks).step_by(parts.duration(party) + 1);
        for tick in begins.filter(|tick| tick + parts.duration(party) < parts.ticks) {
            let value = if party == 0 { wide(parts.form, tick as u32 * 509 + 1) } else { 0 };
            operations.push(Operation { tick, party, value });
        }
    }
    operations.sort_by_key(|operation| (operation.tick, operation.party));
    operations
}

/// So many forgeries, votes and replies in turn, of a few false values with a high number.
fn forgeries(parts: &Parts, count: usize) -> Vec<Forgery> {
    let mut all = Vec::new();
    for tick in 0..parts.ticks {
        let faulty = (0..parts.servers).filter(|server| parts.faulty_at(tick) >> server & 1 == 1);
        for sender in faulty {
            let others = (0..parts.servers).filter(|&receiver| receiver != sender);
            let reads = parts.operations.iter().filter(|operation| operation.party != 0);
            let open = reads.filter(|read| read.tick <= tick && tick < read.tick + 2 * parts.delta);
            for receiver in others.chain(open.map(|read| parts.servers + read.party)) {
                let value = wide(parts.form, 60_000 + tick as u32 / 4 % 8);
                all.push(Forgery { tick, sender, receiver, value, number: 200 });
            }
        }
    }
    all.sort();
    assert!(count <= all.len());
    (0..count).map(|i| all[i * all.len() / count].clone()).collect()
}

fn delays(parts: &Parts) -> Vec<u8> {
    let mut random = Random::new(9);
    let parties = parts.parties();
    (0..parts.ticks * parties * parties)
        .map(|place| {
            let (sender, receiver) = (place / parties % parties, place % parties);
            let delay = random.between(1, parts.delta);
            if parts.has_link(sender, receiver) {
                delay as u8
            } else {
                0
            }
        })
        .collect()
}
