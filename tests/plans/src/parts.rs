//! A plan's parts. Nothing is checked, so that refused plans can be made too.

use crate::form::Form;

#[derive(Clone, Debug)]
pub struct Operation {
    pub tick: usize,
    /// 0 the writer, else a reader.
    pub party: usize,
    pub value: u32,
}

#[derive(Clone, Debug, PartialEq, Eq, PartialOrd, Ord)]
pub struct Forgery {
    pub tick: usize,
    pub sender: usize,
    pub receiver: usize,
    pub value: u32,
    pub number: u8,
}

#[derive(Clone, Debug)]
pub struct Parts {
    pub form: Form,
    pub servers: usize,
    pub faulty: usize,
    pub delta: usize,
    pub period: usize,
    pub readers: usize,
    pub ticks: usize,
    pub initial: u32,
    pub zero: usize,
    /// For each movement the set of faulty servers; server i is bit i.
    pub placements: Vec<u16>,
    pub operations: Vec<Operation>,
    pub forgeries: Vec<Forgery>,
    /// By tick, sender, receiver.
    pub delays: Vec<u8>,
}

impl Parts {
    /// A plan in which nobody is faulty and nothing is read, written or forged; every delay is 1. The
    /// bounds are δ and Δ.
    pub fn quiet(
        form: Form,
        servers: usize,
        faulty: usize,
        bounds: (usize, usize),
        readers: usize,
        ticks: usize,
    ) -> Self {
        let mut parts = Parts {
            form,
            servers,
            faulty,
            delta: bounds.0,
            period: bounds.1,
            readers,
            ticks,
            initial: 7,
            zero: 0,
            placements: vec![0; ticks.div_ceil(bounds.1)],
            operations: Vec::new(),
            forgeries: Vec::new(),
            delays: Vec::new(),
        };
        let parties = parts.parties();
        let links = (0..ticks * parties * parties)
            .map(|place| (place / parties % parties, place % parties));
        parts.delays =
            links.map(|(sender, receiver)| u8::from(parts.has_link(sender, receiver))).collect();
        parts
    }

    pub fn parties(&self) -> usize {
        self.servers + 1 + self.readers
    }

    pub fn movements(&self) -> usize {
        self.ticks.div_ceil(self.period)
    }

    pub fn has_link(&self, sender: usize, receiver: usize) -> bool {
        match (sender < self.servers, receiver < self.servers) {
            (true, true) => sender != receiver,
            (true, false) => receiver > self.servers,
            (false, true) => true,
            (false, false) => false,
        }
    }

    pub fn duration(&self, party: usize) -> usize {
        if party == 0 {
            self.delta
        } else {
            2 * self.delta
        }
    }

    /// The faulty servers after the tick's movement.
    pub fn faulty_at(&self, tick: usize) -> u16 {
        self.placements[tick / self.period]
    }
}
