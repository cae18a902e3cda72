//! What came up, so that a run shows that it tried everything.

use std::collections::BTreeMap;

use plans::Form;

/// By operation and form, how often each kind of result came up.
#[derive(Default)]
pub struct Tally(BTreeMap<(&'static str, Form), BTreeMap<String, u64>>);

/// The refusals that must come up.
const IN_BOTH_FORMS: [(&str, &[u32]); 7] = [
    ("check", &[1, 2, 3, 4, 5, 6, 7, 8]),
    ("forecast", &[1, 2, 3, 4, 5, 6, 7, 8]),
    ("play", &[1, 2, 3, 4, 5, 6, 7, 8, 9, 10]),
    ("look", &[1, 2, 3, 4, 5, 6, 7, 8, 10, 11]),
    ("judge", &[1, 2, 3, 4, 5, 6, 7, 8, 12, 13]),
    ("sheet", &[1, 2, 3, 4, 5, 6, 7, 8, 12, 13, 15]),
    ("pack", &[2, 3, 4, 5, 6, 7, 8, 14]),
];
const IN_FORM_ONE: (&str, &[u32]) = ("carry", &[1, 2, 3, 4, 5, 6, 7, 8, 20]);
const IN_FORM_TWO: (&str, &[u32]) = ("carry back", &[1, 2, 3, 4, 5, 6, 7, 8, 19, 20]);

impl Tally {
    /// Counts a result; all numbers of reads are one kind, all numbers of bytes, and all forecasts.
    pub fn count(&mut self, operation: &'static str, form: Form, result: &str) {
        let kinds = ["reads", "bytes", "numbers"];
        let counted = kinds.into_iter().find(|kind| result.starts_with(kind));
        let kind = counted.unwrap_or(result);
        let kinds = self.0.entry((operation, form)).or_default();
        match kinds.get_mut(kind) {
            Some(count) => *count += 1,
            None => drop(kinds.insert(kind.to_string(), 1)),
        }
    }

    pub fn print(&self) {
        for ((operation, form), kinds) in &self.0 {
            let mut kinds: Vec<_> = kinds.iter().collect();
            kinds.sort_by_key(|(kind, _)| (kind.len(), kind.as_str()));
            let said: Vec<_> =
                kinds.iter().map(|(kind, count)| format!("{kind}: {count}")).collect();
            println!("  {operation}, {form}: {}", said.join(", "));
        }
    }

    /// Refusals that never came up.
    pub fn missing(&self) -> Vec<String> {
        let in_both = Form::ALL.map(|form| IN_BOTH_FORMS.map(|wanted| (form, wanted)));
        let in_one = [(Form::One, IN_FORM_ONE), (Form::Two, IN_FORM_TWO)];
        let wanted = in_both.into_iter().flatten().chain(in_one);
        let each = wanted.flat_map(|(form, (operation, numbers))| {
            numbers.iter().map(move |number| (operation, form, number))
        });
        let missing = each.filter(|&(operation, form, number)| {
            let kinds = self.0.get(&(operation, form));
            !kinds.is_some_and(|kinds| kinds.contains_key(&format!("refused {number}")))
        });
        missing.map(|(operation, form, number)| format!("{operation} {number} in {form}")).collect()
    }
}
