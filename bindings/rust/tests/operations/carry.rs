//! Carrying plans from one form to the other.

use register::{answers, carry, carry_back, check, judge, look, Answer, Form, Plan, Refusal};

use crate::plans::{changed, in_form, refused_plans, ACCEPTED, BEFORE, JUST_SET, TAKEOVER};
use crate::{played, workspace};

/// The lowest value that form one has no room for.
const WIDE: u32 = Form::One.highest_value() + 1;

/// One of the two ways.
type Way = fn(&[u8], &mut [u8]) -> Result<usize, Refusal>;

/// What is carried into a buffer that is longer by some bytes, which stay.
fn carried(way: Way, plan: &[u8], length: usize, more: usize) -> Vec<u8> {
    let mut out = vec![BEFORE; length + more];
    assert_eq!(way(plan, &mut out), Ok(length));
    assert!(out[length..].iter().all(|&byte| byte == BEFORE));
    out.truncate(length);
    out
}

/// Expects a refusal that leaves the buffer as it was.
fn refused(way: Way, plan: &[u8], length: usize, wanted: Refusal) {
    let mut out = vec![BEFORE; length];
    assert_eq!(way(plan, &mut out), Err(wanted));
    assert!(out.iter().all(|&byte| byte == BEFORE));
}

/// takeover.plan in form two with one value each for the start, the first write and the first forged
/// message.
fn with_values(initial: u32, written: u32, forged: u32) -> Vec<u8> {
    changed(Form::Two, TAKEOVER, |lists| {
        lists.header[6] = initial;
        lists.operations[2] = written;
        lists.forgeries[3] = forged;
    })
}

#[test]
fn the_examples_there_and_back() {
    for one in ACCEPTED {
        let two = in_form(Form::Two, one);
        let plan = Plan::of(Form::One, one).unwrap();
        assert_eq!(two.len(), one.len() + 1 + plan.operations() + plan.forgeries());
        for more in [0, 1, 40] {
            assert_eq!(carried(carry, one, two.len(), more), two);
            assert_eq!(carried(carry_back, &two, one.len(), more), one);
        }
    }
}

#[test]
fn the_same_answers_and_looks() {
    for one in ACCEPTED {
        let two = in_form(Form::Two, one);
        let (in_one, in_two) = (played(Form::One, one), played(Form::Two, &two));
        assert!(answers(Form::One, &in_one).eq(answers(Form::Two, &in_two)));
        assert_eq!(judge(Form::Two, &two, &in_two), Ok(true));
        let plan = Plan::of(Form::One, one).unwrap();
        let mut workspace = workspace();
        for server in 0..plan.servers() {
            for tick in 0..plan.ticks() {
                let seen = look(Form::One, one, &mut workspace, server, tick);
                assert_eq!(look(Form::Two, &two, &mut workspace, server, tick), seen);
            }
        }
    }
}

#[test]
fn what_check_refuses() {
    for (form, way) in [(Form::One, carry as Way), (Form::Two, carry_back)] {
        for (plan, wanted) in refused_plans(form).iter().zip(Refusal::ALL) {
            refused(way, plan, 0, wanted);
            refused(way, plan, form.longest_plan(), wanted);
        }
        refused(way, &[], 0, Refusal::PlanShort);
    }
    // With a value that is too wide besides.
    let mut plan = with_values(WIDE, WIDE, WIDE);
    plan.push(0);
    refused(carry_back, &plan, 0, Refusal::PlanLength);
}

#[test]
fn values_too_wide() {
    let highest = Form::Two.highest_value();
    for value in [WIDE, WIDE + 1, 0x1f_0007, highest] {
        for [initial, written, forged] in [[value, 0, 0], [0, value, 0], [0, 0, value]] {
            let plan = with_values(initial, written, forged);
            assert_eq!(check(Form::Two, &plan), Ok(1));
            refused(carry_back, &plan, plan.len(), Refusal::ValueTooWide);
            // It comes before a buffer that is too short.
            refused(carry_back, &plan, 0, Refusal::ValueTooWide);
        }
    }
    let plan = with_values(WIDE - 1, WIDE - 1, WIDE - 1);
    let one = carried(carry_back, &plan, TAKEOVER.len(), 0);
    assert_eq!(carried(carry, &one, plan.len(), 0), plan);
}

#[test]
fn buffers_too_short() {
    for one in ACCEPTED {
        let two = in_form(Form::Two, one);
        for (way, plan, length) in
            [(carry as Way, one, two.len()), (carry_back, &two[..], one.len())]
        {
            for short in [0, 1, length / 2, length - 1] {
                refused(way, plan, short, Refusal::CarriedShort);
            }
        }
    }
}

/// A plan of the one form is hardly ever one of the other.
#[test]
fn plans_of_the_other_form() {
    for one in ACCEPTED {
        let two = in_form(Form::Two, one);
        assert!(check(Form::Two, one).is_err());
        assert_eq!(carry(&two, &mut []), Err(check(Form::One, &two).unwrap_err()));
        assert_eq!(carry_back(one, &mut []), Err(check(Form::Two, one).unwrap_err()));
    }
}

#[test]
fn wide_values_are_read() {
    let value = 0xab_cdef;
    let plan = changed(Form::Two, JUST_SET, |lists| lists.operations[2] = value);
    let lent = played(Form::Two, &plan);
    let answer = Answer { begin: 2, reader: 1, value, number: 1, count: 4 };
    assert_eq!(answers(Form::Two, &lent).collect::<Vec<_>>(), [answer]);
    assert_eq!(judge(Form::Two, &plan, &lent), Ok(true));
    // The low 16 bits alone are another value.
    let narrow = changed(Form::Two, JUST_SET, |lists| lists.operations[2] = value & 0xffff);
    assert_eq!(judge(Form::Two, &narrow, &lent), Ok(false));
    assert_eq!(judge(Form::Two, &plan, &played(Form::Two, &narrow)), Ok(false));
}
