//! Sheets of answers: by both libraries, on pages of all sorts.

use plans::Random;
use register::{LINE_BYTES, MOST_SHEET_BYTES};

use crate::asked::{for_library, Asked};
use crate::lent::{self, Lent};
use crate::results::written;
use crate::tally::Tally;
use crate::trial::{holds, same};

/// A page that is lent again and again.
pub struct Sheets {
    page: Lent,
}

impl Sheets {
    pub fn new(random: &mut Random) -> Self {
        Sheets { page: Lent::new(random, MOST_SHEET_BYTES) }
    }

    /// What differs, if anything does.
    pub fn compare(
        &mut self,
        random: &mut Random,
        Asked { form, plan }: Asked,
        reads: usize,
        answers: &[u8],
        tally: &mut Tally,
    ) -> Result<(), String> {
        let length = lent::length(random, LINE_BYTES * (reads + 3));
        let mut plain_page = self.page.before(length).to_vec();
        let wanted = plain::sheet(form.number(), plan, answers, &mut plain_page);
        let got = register::sheet(for_library(form), plan, answers, self.page.lend(length));
        tally.count("sheet", form, &written(wanted));
        let about = format!("sheet of {answers:?} on {length} bytes");
        same(&about, written(got), written(wanted))?;
        holds(self.page.now_begins(&plain_page), &format!("{about}: lent bytes differ"))?;
        let unchanged = wanted.is_ok() || self.page.is_unchanged(length);
        holds(unchanged, &format!("{about}: a refusal changed lent bytes"))
    }
}
