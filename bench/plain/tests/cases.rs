//! The rehearsed cases that the definitions are tried on, in both forms.

use plain::{check, judge, look, play, Condition, Outcome, Refused, WORKSPACE_BYTES};
use plans::{Form, Operation, Parts};

/// A plan with one reader in which every delay is 1.
fn parts(
    form: Form,
    servers: usize,
    faulty: usize,
    delta: usize,
    period: usize,
    ticks: usize,
) -> Parts {
    Parts::quiet(form, servers, faulty, (delta, period), 1, ticks)
}

fn write(tick: usize, value: u32) -> Operation {
    Operation { tick, party: 0, value }
}

fn read(tick: usize) -> Operation {
    Operation { tick, party: 1, value: 0 }
}

fn checked(parts: &Parts) -> Outcome<usize> {
    check(parts.form.number(), &parts.pack())
}

/// An answer of reader 1.
fn answer(form: Form, begin: u64, value: u32, number: u64, count: u64) -> Vec<u8> {
    let value = (u64::from(value), form.value_bits());
    let fields = [(begin, 7), (1, 3), value, (number, 8), (count, 5), (0, 1)];
    let packed = fields.iter().fold(0, |packed, (field, width)| packed << width | field);
    packed.to_be_bytes()[8 - form.answer_bytes()..].to_vec()
}

#[test]
fn servers_needed() {
    for form in Form::ALL {
        assert_eq!(checked(&parts(form, 5, 1, 2, 4, 9)), Ok(0));
        assert_eq!(checked(&parts(form, 4, 1, 2, 4, 9)), Err(Refused(3)));
        assert_eq!(checked(&parts(form, 6, 1, 2, 3, 9)), Ok(0));
        assert_eq!(checked(&parts(form, 5, 1, 2, 3, 9)), Err(Refused(3)));
        assert_eq!(checked(&parts(form, 6, 1, 2, 1, 9)), Err(Refused(2)));
    }
}

#[test]
fn smallest() {
    for (form, length) in [(Form::One, 15), (Form::Two, 16)] {
        let mut plan = parts(form, 1, 0, 1, 1, 1).pack();
        assert_eq!(plan.len(), length);
        assert_eq!(check(form.number(), &plan), Ok(0));
        plan.push(0);
        assert_eq!(check(form.number(), &plan), Err(Refused(4)));
        plan.truncate(form.header_bytes());
        assert_eq!(check(form.number(), &plan), Err(Refused(4)));
        plan.pop();
        assert_eq!(check(form.number(), &plan), Err(Refused(1)));
    }
}

#[test]
fn one_read() {
    let in_one = [0x00, 0x40, 0x01, 0xc0, 0x02];
    let in_two = [0x00, 0x40, 0x00, 0x01, 0xc0, 0x02];
    for (form, length, wanted) in [(Form::One, 31, &in_one[..]), (Form::Two, 33, &in_two)] {
        let (number, size) = (form.number(), wanted.len());
        let mut parts = parts(form, 1, 0, 1, 1, 3);
        parts.operations = vec![read(0)];
        let plan = parts.pack();
        assert_eq!(plan.len(), length);
        let (mut answers, mut workspace) = (vec![9; size + 2], vec![9; WORKSPACE_BYTES + 2]);
        let (short, workspace_short) = (&mut answers.clone()[1..size], &mut workspace.clone()[3..]);
        assert_eq!(play(number, &plan, short, &mut workspace), Err(Refused(9)));
        assert_eq!(play(number, &plan, &mut answers, workspace_short), Err(Refused(10)));
        assert!(answers.iter().chain(&workspace).all(|&byte| byte == 9));
        assert_eq!(play(number, &plan, &mut answers, &mut workspace), Ok(1));
        assert_eq!(answers, [wanted, &[9, 9]].concat());
        assert!(workspace[..WORKSPACE_BYTES].iter().all(|&byte| byte == 0));
        assert_eq!(workspace[WORKSPACE_BYTES..], [9, 9]);
        assert_eq!(judge(number, &plan, &answers[..size]), Ok(true));
        assert_eq!(judge(number, &plan, &answers), Err(Refused(12)));
    }
}

#[test]
fn write_then_read() {
    for form in Form::ALL {
        let value = form.highest_value() - 1;
        let mut parts = parts(form, 1, 0, 1, 2, 5);
        parts.operations = vec![write(0, value), read(2)];
        let mut answers = vec![0; form.answer_bytes()];
        let mut workspace = vec![0; WORKSPACE_BYTES];
        assert_eq!(play(form.number(), &parts.pack(), &mut answers, &mut workspace), Ok(1));
        assert_eq!(answers, answer(form, 2, value, 1, 1));
    }
}

/// By document 01 the start value would have been regular in the second of these.
#[test]
fn read_as_a_write_ends() {
    for form in Form::ALL {
        for (begin, is_regular) in [(0, true), (1, false), (2, false)] {
            let mut parts = parts(form, 1, 0, 1, 2, 5);
            parts.operations = vec![write(0, 9), read(begin)];
            let start_value = answer(form, begin as u64, 7, 0, 0);
            assert_eq!(judge(form.number(), &parts.pack(), &start_value), Ok(is_regular));
        }
    }
}

#[test]
fn a_server_recovers() {
    for form in Form::ALL {
        let written = form.highest_value();
        let mut parts = parts(form, 5, 1, 1, 2, 4);
        parts.operations = vec![write(0, written)];
        parts.placements = vec![1, 2];
        let plan = parts.pack();
        let see = |server, tick| {
            let seen = look(form.number(), &plan, &mut [1; WORKSPACE_BYTES], server, tick)?;
            let kept = seen.kept[..seen.count].iter().map(|kept| (kept.value(), kept.number()));
            Ok((seen.condition, kept.collect::<Vec<_>>()))
        };
        assert_eq!(see(0, 1), Ok((Condition::Faulty, vec![])));
        assert_eq!(see(0, 2), Ok((Condition::Cured, vec![])));
        assert_eq!(see(0, 3), Ok((Condition::Correct, vec![(written, 1), (7, 0)])));
        assert_eq!(see(5, 3), Err(Refused(11)));
        assert_eq!(see(0, 4), Err(Refused(11)));
    }
}

/// Of seven pairs the two oldest are gone, and a server that is reset learns the other five again.
#[test]
fn six_writes() {
    for form in Form::ALL {
        let mut parts = parts(form, 5, 1, 1, 2, 14);
        parts.operations = (0..6).map(|i| write(2 * i, 101 + i as u32)).collect();
        parts.placements = vec![0, 0, 0, 0, 0, 1, 2];
        let plan = parts.pack();
        let see = |server, tick| {
            let seen = look(form.number(), &plan, &mut [1; WORKSPACE_BYTES], server, tick).unwrap();
            let kept = seen.kept[..seen.count].iter().map(|kept| (kept.value(), kept.number()));
            (seen.condition, kept.collect::<Vec<_>>())
        };
        let last_five = vec![(106, 6), (105, 5), (104, 4), (103, 3), (102, 2)];
        let before = vec![(104, 4), (103, 3), (102, 2), (101, 1), (7, 0)];
        assert_eq!(see(2, 7), (Condition::Correct, before));
        assert_eq!(see(2, 11), (Condition::Correct, last_five.clone()));
        assert_eq!(see(0, 12), (Condition::Cured, vec![]));
        assert_eq!(see(0, 13), (Condition::Correct, last_five));
    }
}

#[test]
fn the_last_tick() {
    for form in Form::ALL {
        let mut parts = parts(form, 1, 0, 2, 4, 9);
        parts.operations = vec![read(4)];
        assert_eq!(checked(&parts), Ok(1));
        parts.operations = vec![read(5)];
        assert_eq!(checked(&parts), Err(Refused(6)));
    }
}

/// The form comes first, whatever else is wrong.
#[test]
fn no_such_form() {
    let plan = parts(Form::One, 1, 0, 1, 1, 1).pack();
    for form in [0, 3, 258, usize::MAX] {
        for plan in [&plan[..], &[]] {
            let (mut answers, mut workspace) = ([9; 5], [9; 5]);
            assert_eq!(check(form, plan), Err(Refused(1)));
            assert_eq!(play(form, plan, &mut answers, &mut workspace), Err(Refused(1)));
            assert_eq!(look(form, plan, &mut workspace, 9, 9), Err(Refused(1)));
            assert_eq!(judge(form, plan, &answers), Err(Refused(1)));
            assert_eq!((answers, workspace), ([9; 5], [9; 5]));
        }
    }
}
