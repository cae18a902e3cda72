//! A plan as five lists of numbers, one number for each field in packed order. Nothing is checked.

use crate::form::Form;
use crate::parts::Parts;

#[derive(Clone, Debug, PartialEq, Eq)]
pub struct Lists {
    pub header: Vec<u32>,
    pub placements: Vec<u32>,
    pub operations: Vec<u32>,
    pub forgeries: Vec<u32>,
    pub delays: Vec<u32>,
}

impl Lists {
    pub fn all(&self) -> [&Vec<u32>; 5] {
        [&self.header, &self.placements, &self.operations, &self.forgeries, &self.delays]
    }

    pub fn all_mut(&mut self) -> [&mut Vec<u32>; 5] {
        [
            &mut self.header,
            &mut self.placements,
            &mut self.operations,
            &mut self.forgeries,
            &mut self.delays,
        ]
    }

    /// The packed plan in a form; of a number that is too wide the low bits.
    pub fn pack(&self, form: Form) -> Vec<u8> {
        let mut bits = Packer::default();
        for (list, widths) in self.all().into_iter().zip(form.widths()) {
            for (&number, &width) in list.iter().zip(widths.iter().cycle()) {
                bits.put(number, width);
            }
        }
        bits.finish()
    }
}

impl Parts {
    pub fn lists(&self) -> Lists {
        let header = [self.servers, self.faulty, self.delta, self.period, self.readers, self.ticks];
        let counts = [self.operations.len(), self.forgeries.len(), self.zero];
        let initial = [self.initial as usize];
        let operations = self
            .operations
            .iter()
            .flat_map(|operation| [operation.tick as u32, operation.party as u32, operation.value]);
        let forgeries = self.forgeries.iter().flat_map(|forgery| {
            let [tick, sender, receiver] =
                [forgery.tick, forgery.sender, forgery.receiver].map(|number| number as u32);
            [tick, sender, receiver, forgery.value, u32::from(forgery.number)]
        });
        Lists {
            header: [&header[..], &initial, &counts].concat().iter().map(|&n| n as u32).collect(),
            placements: self.placements.iter().map(|set| u32::from(set.reverse_bits())).collect(),
            operations: operations.collect(),
            forgeries: forgeries.collect(),
            delays: self.delays.iter().map(|&delay| u32::from(delay)).collect(),
        }
    }

    pub fn pack(&self) -> Vec<u8> {
        self.lists().pack(self.form)
    }
}

#[derive(Default)]
struct Packer {
    bytes: Vec<u8>,
    waiting: u64,
    width: usize,
}

impl Packer {
    /// Puts the low bits of the number; what is too wide is cut.
    fn put(&mut self, number: u32, width: usize) {
        let cut = u64::from(number) & ((1 << width) - 1);
        self.waiting = self.waiting << width | cut;
        self.width += width;
        while self.width >= 8 {
            self.width -= 8;
            self.bytes.push((self.waiting >> self.width) as u8);
        }
    }

    fn finish(mut self) -> Vec<u8> {
        if self.width > 0 {
            self.put(0, 8 - self.width);
        }
        self.bytes
    }
}
