//! Carrying: a plan of one form in another, field by field.

use crate::bits::{Fields, Packer};
use crate::form::Form;
use crate::pack::fit;
use crate::plan::Plan;
use crate::{Outcome, Refused};

/// The plan in another form, if it is accepted and no value is too wide there.
pub fn carried(plan: &[u8], from: &'static Form, to: &Form) -> Outcome<Vec<u8>> {
    let header = Plan::unpack(from, plan)?.header;
    let mut fields = Fields::new(plan, 0);
    let mut bits = Packer::default();
    let widths = from.parts().into_iter().zip(to.parts());
    for (records, (from, to)) in header.records().into_iter().zip(widths) {
        let numbers = fields.take_records(records, from);
        if !fit(&numbers, to) {
            return Err(Refused(19));
        }
        bits.put_all(&numbers, to);
    }
    Ok(bits.finish())
}
