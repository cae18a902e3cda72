//! Pack: a plan from lists of numbers, one number for each field in packed order.

use crate::bits::Packer;
use crate::form::Form;
use crate::plan::{Header, Plan};
use crate::{Outcome, Refused};

/// The refusals of the parts of a plan.
const REFUSALS: [Refused; 5] = [Refused(2), Refused(5), Refused(6), Refused(7), Refused(8)];

/// The five lists.
#[derive(Clone, Copy, Debug)]
pub struct Lists<'a> {
    pub header: &'a [u32],
    pub placements: &'a [u32],
    pub operations: &'a [u32],
    pub forgeries: &'a [u32],
    pub delays: &'a [u32],
}

impl<'a> Lists<'a> {
    fn all(&self) -> [&'a [u32]; 5] {
        [self.header, self.placements, self.operations, self.forgeries, self.delays]
    }

    fn are_implied(&self, header: &Header) -> bool {
        let records = header.form.parts().into_iter().zip(header.records());
        let lengths = records.map(|(widths, records)| widths.len() * records);
        lengths.eq(self.all().map(<[u32]>::len))
    }

    /// The refusal of the first part that has a number too wide for its field.
    fn too_wide(&self, form: &Form) -> Option<Refused> {
        let mut parts = self.all().into_iter().zip(form.parts()).zip(REFUSALS);
        parts.find(|((numbers, widths), _)| !fit(numbers, widths)).map(|(_, refused)| refused)
    }

    /// The plan; of a number that is too wide the low bits.
    fn packed(&self, form: &Form) -> Vec<u8> {
        let mut bits = Packer::default();
        for (numbers, widths) in self.all().into_iter().zip(form.parts()) {
            bits.put_all(numbers, widths);
        }
        bits.finish()
    }
}

/// Whether no number is too wide for its field. The widths come again and again.
pub fn fit(numbers: &[u32], widths: &[usize]) -> bool {
    numbers.iter().zip(widths.iter().cycle()).all(|(number, width)| number >> width == 0)
}

/// The header that a list says, or the refusal of what is wrong with it.
fn header(form: &'static Form, numbers: &[u32]) -> Outcome<Header> {
    let ten: [u32; 10] = numbers.try_into().map_err(|_| Refused(2))?;
    if !fit(numbers, &form.header) {
        return Err(Refused(2));
    }
    Header::from_fields(form, ten.map(u64::from))?.with_enough_servers()
}

/// The plan of the lists, accepted. A part that doesn't fit changes nothing of the checks of the
/// parts before it.
pub fn packed(form: &'static Form, lists: &Lists) -> Outcome<Vec<u8>> {
    if !lists.are_implied(&header(form, lists.header)?) {
        return Err(Refused(4));
    }
    let plan = lists.packed(form);
    let unpacked = Plan::unpack(form, &plan);
    let refused = [lists.too_wide(form), unpacked.err()].into_iter().flatten().min();
    refused.map_or(Ok(plan), Err)
}
