//! Carrying: the lists of a plan in the other form, each refusal, and every lent byte.

mod refused;

use plain::{carry, carry_back, check, Outcome, Refused};
use plans::{accepted, Forgery, Form, Operation, Random, Size};

/// What lent bytes hold before a call.
const BEFORE: u8 = 0xa5;

/// A plan of a form carried to the other, into a buffer of a length; and the buffer afterwards.
fn carried(form: Form, plan: &[u8], length: usize) -> (Outcome<usize>, Vec<u8>) {
    let mut out = vec![BEFORE; length];
    let result = match form {
        Form::One => carry(plan, &mut out),
        Form::Two => carry_back(plan, &mut out),
    };
    (result, out)
}

/// A plan of form two with these values: the initial one, one that is written and one that is forged.
fn with_values(initial: u32, written: u32, forged: u32) -> Vec<u8> {
    let mut plans = (0..).map(|seed| accepted(&mut Random::new(seed), Form::Two, Size::Small));
    let parts = plans.find(|parts| parts.ticks > parts.delta && parts.faulty_at(0) != 0);
    let mut parts = parts.unwrap();
    let sender = parts.faulty_at(0).trailing_zeros() as usize;
    let receiver = (sender + 1) % parts.servers;
    parts.initial = initial;
    parts.operations = vec![Operation { tick: 0, party: 0, value: written }];
    parts.forgeries = vec![Forgery { tick: 0, sender, receiver, value: forged, number: 9 }];
    parts.pack()
}

#[test]
fn there_and_back() {
    for seed in 0..200 {
        let lists = accepted(&mut Random::new(seed), Form::One, Size::Small).lists();
        let [one, two] = Form::ALL.map(|form| lists.pack(form));
        assert_eq!(
            two.len() - one.len(),
            1 + lists.operations.len() / 3 + lists.forgeries.len() / 5
        );
        assert_eq!(check(1, &one), check(2, &two));
        for (form, plan, wanted) in [(Form::One, &one, &two), (Form::Two, &two, &one)] {
            let length = wanted.len();
            assert_eq!(carried(form, plan, length), (Ok(length), wanted.clone()));
            let behind = [&wanted[..], &[BEFORE; 3]].concat();
            assert_eq!(carried(form, plan, length + 3), (Ok(length), behind));
            let unchanged = vec![BEFORE; length - 1];
            assert_eq!(carried(form, plan, length - 1), (Err(Refused(20)), unchanged));
        }
    }
}

/// Check's numbers come first, and nothing is written.
#[test]
fn what_check_refuses() {
    refused::every_refusal(|form, plan, number| {
        for length in [0, form.longest_plan()] {
            assert_eq!(carried(form, plan, length), (Err(number), vec![BEFORE; length]));
        }
    });
}

#[test]
fn values_too_wide() {
    let highest = Form::One.highest_value();
    let plan = with_values(highest, highest, highest);
    let length = plan.len() - 3;
    assert_eq!(carried(Form::Two, &plan, length).0, Ok(length));
    for value in [highest + 1, 0x80_0000, Form::Two.highest_value()] {
        for [initial, written, forged] in [[value, 0, 0], [0, value, 0], [0, 0, value]] {
            let plan = with_values(initial, written, forged);
            assert_eq!(check(2, &plan), Ok(0));
            // It comes before a buffer that is too short.
            for length in [0, plan.len()] {
                let unchanged = vec![BEFORE; length];
                assert_eq!(carried(Form::Two, &plan, length), (Err(Refused(19)), unchanged));
            }
        }
    }
}
