//! Plans that Check refuses.

use plain::{check, Refused};
use plans::{damaged, Form, Random, Size};

/// Tries damaged plans of both forms, with the number that Check refuses each by; all of 1 to 8 come up.
pub fn every_refusal(holds: fn(Form, &[u8], Refused)) {
    for form in Form::ALL {
        let mut came_up = [0; 9];
        for seed in 0..2_000 {
            let plan = damaged(&mut Random::new(seed), form, Size::Small);
            if let Err(refused) = check(form.number(), &plan) {
                came_up[usize::from(refused.0)] += 1;
                holds(form, &plan, refused);
            }
        }
        assert!(came_up[1..].iter().all(|&times| times > 0), "{form}: {came_up:?}");
    }
}
