//! Lists of numbers: Pack of both libraries, with buffers of all sorts.

use plans::{Form, Lists, Random};

use crate::asked;
use crate::lent::{self, Lent};
use crate::results::written;
use crate::tally::Tally;
use crate::trial::{holds, same};

/// A buffer that is lent again and again.
pub struct Packing {
    out: Lent,
}

impl Packing {
    pub fn new(random: &mut Random) -> Self {
        Packing { out: Lent::new(random, Form::Two.longest_plan()) }
    }

    /// What differs, if anything does.
    pub fn compare(
        &mut self,
        random: &mut Random,
        form: Form,
        lists: &Lists,
        tally: &mut Tally,
    ) -> Result<(), String> {
        // What the lists take, by their own lengths.
        let exact = lists.pack(form).len().min(form.longest_plan());
        let length = lent::length(random, exact);
        let mut plain_out = self.out.before(length).to_vec();
        let wanted = plain::pack(form.number(), &for_plain(lists), &mut plain_out);
        let library_form = asked::for_library(form);
        let got = register::pack(library_form, &for_library(lists), self.out.lend(length));
        tally.count("pack", form, &written(wanted));
        let about = format!("pack in {form} into {length} bytes");
        same(&about, written(got), written(wanted))?;
        holds(self.out.now_begins(&plain_out), &format!("{about}: lent bytes differ"))?;
        match wanted {
            Ok(bytes) => {
                let accepted = register::check(library_form, &plain_out[..bytes]).is_ok();
                holds(accepted, &format!("{about}: Check refuses the plan"))
            }
            Err(_) => holds(
                self.out.is_unchanged(length),
                &format!("{about}: a refusal changed lent bytes"),
            ),
        }
    }
}

fn for_plain(lists: &Lists) -> plain::Lists<'_> {
    let Lists { header, placements, operations, forgeries, delays } = lists;
    plain::Lists { header, placements, operations, forgeries, delays }
}

fn for_library(lists: &Lists) -> register::Lists {
    let Lists { header, placements, operations, forgeries, delays } = lists.clone();
    register::Lists { header, placements, operations, forgeries, delays }
}

/// The lists as text, a line for each.
pub fn text(lists: &Lists) -> String {
    let line = |list: &Vec<u32>| {
        let numbers: Vec<String> = list.iter().map(u32::to_string).collect();
        numbers.join(" ") + "\n"
    };
    lists.all().map(line).concat()
}
