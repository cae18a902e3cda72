//! Packing in both forms: the bytes of a plan from its lists, each refusal, and every lent byte.

use plain::{check, pack, Refused};
use plans::{accepted, some_lists, Form, Lists, Random, Size};

/// What lent bytes hold before a call.
const BEFORE: u8 = 0xa5;

fn lent(lists: &Lists) -> plain::Lists<'_> {
    let [header, placements, operations, forgeries, delays] = lists.all().map(|list| &list[..]);
    plain::Lists { header, placements, operations, forgeries, delays }
}

/// The result, and the buffer afterwards.
fn packed(form: Form, lists: &Lists, length: usize) -> (Result<usize, Refused>, Vec<u8>) {
    let mut out = vec![BEFORE; length];
    let result = pack(form.number(), &lent(lists), &mut out);
    (result, out)
}

/// One server and one read, all delays 1: 31 bytes in form one, 33 in form two.
fn first() -> Lists {
    Lists {
        header: vec![1, 0, 1, 1, 1, 3, 7, 1, 0, 0],
        placements: vec![0; 3],
        operations: vec![0, 1, 0],
        forgeries: vec![],
        delays: [0, 0, 1, 1, 0, 0, 1, 0, 0].repeat(3),
    }
}

#[test]
fn one_plan_by_hand() {
    let in_one = [
        0x08, 0x20, 0x90, 0x30, 0x00, 0x70, 0x10, 0x00, 0, 0, 0, 0, 0, 0, 0x00, 0x40, 0x00, 0x00,
        0x04, 0x40, 0x04, 0x00, 0x00, 0x44, 0x00, 0x40, 0x00, 0x04, 0x40, 0x04, 0x00,
    ];
    let in_two = [
        0x08, 0x20, 0x90, 0x30, 0x00, 0x00, 0x70, 0x10, 0x00, 0, 0, 0, 0, 0, 0, 0x00, 0x40, 0x00,
        0x00, 0x00, 0x04, 0x40, 0x04, 0x00, 0x00, 0x44, 0x00, 0x40, 0x00, 0x04, 0x40, 0x04, 0x00,
    ];
    for (form, bytes) in [(Form::One, &in_one[..]), (Form::Two, &in_two)] {
        let length = bytes.len();
        assert_eq!(packed(form, &first(), length), (Ok(length), bytes.to_vec()));
        let behind = [bytes, &[BEFORE; 2]].concat();
        assert_eq!(packed(form, &first(), length + 2), (Ok(length), behind));
        let unchanged = vec![BEFORE; length - 1];
        assert_eq!(packed(form, &first(), length - 1), (Err(Refused(14)), unchanged));
    }
}

#[test]
fn no_such_form() {
    let mut out = [BEFORE; 40];
    for form in [0, 3, 257, usize::MAX] {
        assert_eq!(pack(form, &lent(&first()), &mut out), Err(Refused(1)));
    }
    assert_eq!(out, [BEFORE; 40]);
}

#[test]
fn accepted_plans() {
    for seed in 0..200 {
        for form in Form::ALL {
            let parts = accepted(&mut Random::new(seed), form, Size::Small);
            let plan = parts.pack();
            assert_eq!(packed(form, &parts.lists(), plan.len()), (Ok(plan.len()), plan));
        }
    }
}

/// What is packed is accepted, and a refusal writes nothing.
#[test]
fn lists_of_all_sorts() {
    for form in Form::ALL {
        let mut came_up = [0; 9];
        for seed in 0..2_000 {
            let lists = some_lists(&mut Random::new(seed), form, Size::Small);
            match packed(form, &lists, 40_000) {
                (Ok(length), out) => {
                    assert_eq!(out[..length], lists.pack(form));
                    assert!(check(form.number(), &out[..length]).is_ok());
                    assert!(out[length..].iter().all(|&byte| byte == BEFORE));
                }
                (Err(Refused(number)), out) => {
                    came_up[usize::from(number)] += 1;
                    assert!(out.iter().all(|&byte| byte == BEFORE));
                }
            }
        }
        assert!(came_up[2..].iter().all(|&times| times > 0), "{form}: {came_up:?}");
    }
}

#[test]
fn each_refusal() {
    for form in Form::ALL {
        let wide = form.highest_value() + 1;
        let refused = |change: &dyn Fn(&mut Lists)| {
            let mut lists = first();
            change(&mut lists);
            let (result, out) = packed(form, &lists, form.longest_plan());
            assert!(out.iter().all(|&byte| byte == BEFORE));
            result.unwrap_err().0
        };
        assert_eq!(refused(&|lists| lists.header.truncate(9)), 2);
        assert_eq!(refused(&|lists| lists.header.push(0)), 2);
        assert_eq!(refused(&|lists| lists.header[0] += 32), 2);
        assert_eq!(refused(&|lists| lists.header[6] += wide), 2);
        assert_eq!(refused(&|lists| lists.header[9] = 1), 2);
        assert_eq!(refused(&|lists| lists.header[1] = 1), 3);
        assert_eq!(refused(&|lists| lists.placements.push(0)), 4);
        assert_eq!(refused(&|lists| lists.operations.truncate(2)), 4);
        assert_eq!(refused(&|lists| lists.forgeries.push(0)), 4);
        assert_eq!(refused(&|lists| lists.delays.truncate(26)), 4);
        assert_eq!(refused(&|lists| lists.placements[2] = 1 << 16), 5);
        assert_eq!(refused(&|lists| lists.placements[2] = 1), 5);
        assert_eq!(refused(&|lists| lists.operations[2] = wide), 6);
        assert_eq!(refused(&|lists| lists.operations[0] = 1), 6);
        assert_eq!(refused(&|lists| lists.delays[26] = 16), 8);
        assert_eq!(refused(&|lists| lists.delays[2] = 2), 8);
        // One forgery, which nobody may send; then with a number too wide, then a value.
        assert_eq!(refused(&|lists| one_forgery(lists, 9, 9)), 7);
        assert_eq!(refused(&|lists| one_forgery(lists, 9, 256)), 7);
        assert_eq!(refused(&|lists| one_forgery(lists, wide, 9)), 7);
    }
}

fn one_forgery(lists: &mut Lists, value: u32, number: u32) {
    lists.header[8] = 1;
    lists.forgeries = vec![0, 0, 0, value, number];
}

/// A part that doesn't stand comes before a later one that doesn't fit, and after an earlier one.
#[test]
fn the_first_refusal() {
    for form in Form::ALL {
        let mut lists = first();
        lists.delays[0] = u32::MAX;
        assert_eq!(packed(form, &lists, 0).0, Err(Refused(8)));
        lists.operations[0] = 1;
        assert_eq!(packed(form, &lists, 0).0, Err(Refused(6)));
        lists.placements[0] = 1 << 20;
        assert_eq!(packed(form, &lists, 0).0, Err(Refused(5)));
    }
}
