//! The plans of examples/ in either form, read and packed bit by bit without the library.

use register::{Form, Lists};

pub const FIRST: &[u8] = include_bytes!("../../../../examples/first.plan");
pub const FESTIVAL: &[u8] = include_bytes!("../../../../examples/festival.plan");
pub const TAKEOVER: &[u8] = include_bytes!("../../../../examples/takeover.plan");
pub const RECOVERY: &[u8] = include_bytes!("../../../../examples/recovery.plan");
pub const CONCURRENT: &[u8] = include_bytes!("../../../../examples/concurrent.plan");
pub const JUST_SET: &[u8] = include_bytes!("../../../../examples/just-set.plan");
pub const SIX_WRITES: &[u8] = include_bytes!("../../../../examples/six-writes.plan");
pub const TOO_FEW: &[u8] = include_bytes!("../../../../examples/too-few.plan");
pub const ACCEPTED: [&[u8]; 8] = [
    include_bytes!("../../../../examples/smallest.plan"),
    FIRST,
    FESTIVAL,
    TAKEOVER,
    RECOVERY,
    CONCURRENT,
    JUST_SET,
    SIX_WRITES,
];

/// What lent bytes hold before a call.
pub const BEFORE: u8 = 0xa5;

/// The bits of a value.
pub fn value_bits(form: Form) -> usize {
    match form {
        Form::One => 16,
        Form::Two => 24,
    }
}

/// The widths of the fields of the five lists, in their order.
pub fn widths(form: Form) -> [Vec<usize>; 5] {
    let value = value_bits(form);
    [
        vec![5, 2, 4, 6, 3, 8, value, 8, 11, 1],
        vec![16],
        vec![7, 3, value],
        vec![7, 4, 5, value, 8],
        vec![4],
    ]
}

/// Reads fields bit by bit.
struct Reader<'a> {
    plan: &'a [u8],
    at: usize,
}

impl Reader<'_> {
    fn field(&mut self, width: usize) -> u32 {
        let bits = self.at..self.at + width;
        self.at += width;
        bits.fold(0, |field, i| 2 * field + u32::from(self.plan[i / 8] >> (7 - i % 8) & 1))
    }

    fn records(&mut self, count: u32, widths: &[usize]) -> Vec<u32> {
        (0..count).flat_map(|_| widths).map(|&width| self.field(width)).collect()
    }
}

/// A plan read field by field.
pub fn lists_of(form: Form, plan: &[u8]) -> Lists {
    let mut fields = Reader { plan, at: 0 };
    let [header, placement, operation, forgery, delay] = widths(form);
    let header = fields.records(1, &header);
    let (parties, ticks) = (header[0] + 1 + header[4], header[5]);
    Lists {
        placements: fields.records(ticks.div_ceil(header[3]), &placement),
        operations: fields.records(header[7], &operation),
        forgeries: fields.records(header[8], &forgery),
        delays: fields.records(ticks * parties * parties, &delay),
        header,
    }
}

/// Numbers in fields of these widths, over and over, in whole bytes.
pub fn bits_of(numbers: &[u32], widths: &[usize]) -> Vec<u8> {
    let fields = numbers.iter().zip(widths.iter().cycle());
    fields
        .flat_map(|(number, &width)| (0..width).rev().map(move |bit| (number >> bit & 1) as u8))
        .collect()
}

/// Bits in bytes, the last one filled with zeros.
pub fn bytes_of(bits: &[u8]) -> Vec<u8> {
    let byte = |bits: &[u8]| bits.iter().zip((0..8).rev()).map(|(bit, place)| bit << place).sum();
    bits.chunks(8).map(byte).collect()
}

/// The plan of these lists, in which anything may be wrong.
pub fn packed(form: Form, lists: &Lists) -> Vec<u8> {
    let Lists { header, placements, operations, forgeries, delays } = lists;
    let parts = [header, placements, operations, forgeries, delays].into_iter().zip(widths(form));
    bytes_of(&parts.flat_map(|(numbers, widths)| bits_of(numbers, &widths)).collect::<Vec<_>>())
}

/// The bytes of an answer, from begin to the zero bit.
pub fn answer_bytes(form: Form, numbers: [u32; 6]) -> Vec<u8> {
    bytes_of(&bits_of(&numbers, &[7, 3, value_bits(form), 8, 5, 1]))
}

/// The plan of an example in a form.
pub fn in_form(form: Form, example: &[u8]) -> Vec<u8> {
    packed(form, &lists_of(Form::One, example))
}

/// The same with a change.
pub fn changed(form: Form, example: &[u8], change: impl Fn(&mut Lists)) -> Vec<u8> {
    packed(form, &changed_lists(example, change))
}

/// The lists of an example with a change.
pub fn changed_lists(example: &[u8], change: impl Fn(&mut Lists)) -> Lists {
    let mut lists = lists_of(Form::One, example);
    change(&mut lists);
    lists
}

pub fn flipped(bytes: &[u8], bit: usize) -> Vec<u8> {
    let mut flipped = bytes.to_vec();
    flipped[bit / 8] ^= 0x80 >> (bit % 8);
    flipped
}

/// A plan for each of Check's refusals, in their order.
pub fn refused_plans(form: Form) -> [Vec<u8>; 8] {
    let right = in_form(form, TAKEOVER);
    let header_bits: usize = widths(form)[0].iter().sum();
    [
        right[..header_bits / 8 - 1].to_vec(),
        // The header's zero bit.
        flipped(&right, header_bits - 1),
        in_form(form, TOO_FEW),
        [&right[..], &[0]].concat(),
        // Two servers in the first placement, where one may be faulty.
        changed(form, TAKEOVER, |lists| lists.placements[0] = 0xc000),
        // The second operation, a read, has a value.
        changed(form, TAKEOVER, |lists| lists.operations[3 + 2] = 1),
        // The first forged message is sent by server 1.
        changed(form, TAKEOVER, |lists| lists.forgeries[1] = 1),
        // A final bit.
        flipped(&right, 8 * right.len() - 1),
    ]
}
