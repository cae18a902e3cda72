//! Packing the plans of examples/ from their lists and from typed parts.

use register::{check, pack, Draft, Forgery, Form, Lists, Operation, Party, Refusal, MOST_READS};

use crate::plans::{
    changed_lists, in_form, lists_of, widths, ACCEPTED, BEFORE, CONCURRENT, FESTIVAL, JUST_SET,
    TAKEOVER, TOO_FEW,
};

/// examples/takeover.plan without its forged messages.
fn takeover() -> Draft {
    Draft {
        servers: 5,
        faulty: 1,
        delta: 1,
        period: 2,
        readers: 1,
        ticks: 10,
        initial: 7,
        placements: (0..5).map(|server| vec![server]).collect(),
        operations: vec![
            Operation::Write { tick: 0, value: 100 },
            Operation::Read { tick: 3, reader: 1 },
            Operation::Write { tick: 6, value: 101 },
        ],
        delay: 1,
        ..Draft::default()
    }
}

/// Bytes that have room for takeover.plan in either form.
const ROOM: usize = 600;

/// A message that server 1 may send in tick 3, where it is faulty.
fn forged(receiver: Party) -> Forgery {
    Forgery { tick: 3, sender: 1, receiver, value: 666, number: 9 }
}

#[test]
fn lists_of_the_examples() {
    for form in Form::ALL {
        for example in ACCEPTED {
            let (lists, plan) = (lists_of(Form::One, example), in_form(form, example));
            let mut out = vec![BEFORE; form.longest_plan()];
            assert_eq!(pack(form, &lists, &mut out), Ok(plan.len()));
            assert_eq!(out[..plan.len()], plan);
            assert!(out[plan.len()..].iter().all(|&byte| byte == BEFORE));
            assert_eq!(lists_of(form, &plan), lists);
        }
        let too_few = lists_of(Form::One, TOO_FEW);
        assert_eq!(pack(form, &too_few, &mut []), Err(Refusal::TooFewServers));
    }
}

#[test]
fn buffers_of_several_lengths() {
    let lists = lists_of(Form::One, TAKEOVER);
    for form in Form::ALL {
        let plan = in_form(form, TAKEOVER);
        for more in [0, 1, 40] {
            let mut out = vec![BEFORE; plan.len() + more];
            assert_eq!(pack(form, &lists, &mut out), Ok(plan.len()));
            assert_eq!(out, [&plan[..], &vec![BEFORE; more]].concat());
        }
        for length in [0, 1, 8, plan.len() - 1] {
            let mut out = vec![BEFORE; length];
            assert_eq!(pack(form, &lists, &mut out), Err(Refusal::BufferShort));
            assert!(out.iter().all(|&byte| byte == BEFORE));
        }
    }
}

/// A fault that gives this refusal.
type Fault = (Refusal, fn(&mut Lists));

/// For each refusal of lists, the last one first, lists that have it and all later ones.
fn refused_lists() -> Vec<(Refusal, Lists)> {
    let faults: [Fault; 7] = [
        (Refusal::Delay, |lists| lists.delays[1] = 2),
        (Refusal::Forgery, |lists| lists.forgeries[2] = 0),
        (Refusal::Operation, |lists| lists.operations[0] = 4),
        (Refusal::Placement, |lists| lists.placements[4] = 0x0400),
        (Refusal::PlanLength, |lists| lists.delays.push(0)),
        (Refusal::TooFewServers, |lists| lists.header[1] = 2),
        (Refusal::Header, |lists| lists.header[0] = 0),
    ];
    let mut lists = lists_of(Form::One, TAKEOVER);
    let mut refused = vec![(Refusal::BufferShort, lists.clone())];
    for (refusal, put_in) in faults {
        put_in(&mut lists);
        refused.push((refusal, lists.clone()));
    }
    refused
}

#[test]
fn each_refusal() {
    for form in Form::ALL {
        for (refusal, lists) in refused_lists() {
            let mut out = [BEFORE; TAKEOVER.len() - 1];
            assert_eq!(pack(form, &lists, &mut out), Err(refusal));
            assert!(out.iter().all(|&byte| byte == BEFORE));
        }
    }
}

#[test]
fn headers_of_other_than_ten() {
    for form in Form::ALL {
        for length in [0, 1, 9, 11, 20] {
            let lists = changed_lists(TAKEOVER, |lists| lists.header.resize(length, 0));
            assert_eq!(pack(form, &lists, &mut [0; ROOM]), Err(Refusal::Header));
        }
        assert_eq!(pack(form, &Lists::default(), &mut []), Err(Refusal::Header));
    }
}

/// One number more or less in each list but the header.
#[test]
fn lists_of_other_lengths() {
    for list in 1..5 {
        let longer = changed_lists(TAKEOVER, |lists| numbers(lists, list).push(0));
        let shorter = changed_lists(TAKEOVER, |lists| {
            numbers(lists, list).pop();
        });
        for lists in [longer, shorter] {
            for form in Form::ALL {
                assert_eq!(pack(form, &lists, &mut [0; ROOM]), Err(Refusal::PlanLength));
            }
        }
    }
}

/// Each field in turn gets a number whose low bits are right, but that is too wide.
fn refuses_wide_numbers(form: Form) {
    let parts =
        [Refusal::Header, Refusal::Placement, Refusal::Operation, Refusal::Forgery, Refusal::Delay];
    let mut lists = lists_of(Form::One, TAKEOVER);
    for (list, (refusal, widths)) in parts.into_iter().zip(widths(form)).enumerate() {
        for (field, &width) in widths.iter().enumerate() {
            for bit in [width, 31] {
                numbers(&mut lists, list)[field] ^= 1 << bit;
                assert_eq!(pack(form, &lists, &mut [0; ROOM]), Err(refusal));
                numbers(&mut lists, list)[field] ^= 1 << bit;
            }
        }
    }
    assert!(pack(form, &lists, &mut [0; ROOM]).is_ok());
}

#[test]
fn numbers_too_wide() {
    Form::ALL.into_iter().for_each(refuses_wide_numbers);
}

/// A list by its place.
fn numbers(lists: &mut Lists, list: usize) -> &mut Vec<u32> {
    let Lists { header, placements, operations, forgeries, delays } = lists;
    [header, placements, operations, forgeries, delays].into_iter().nth(list).unwrap()
}

/// What has no number is refused and not taken for something else.
#[test]
fn drafts_refused() {
    let refused = |change: fn(&mut Draft)| {
        let mut draft = takeover();
        change(&mut draft);
        let [one, two] = Form::ALL.map(|form| draft.build(form).unwrap_err());
        assert_eq!(one, two);
        one
    };
    assert_eq!(refused(|draft| draft.servers = usize::MAX), Refusal::Header);
    assert_eq!(refused(many_servers_and_a_forgery), Refusal::Header);
    assert_eq!(refused(|draft| draft.readers = 5), Refusal::Header);
    assert_eq!(refused(|draft| draft.ticks = 1 << 40), Refusal::Header);
    assert_eq!(refused(|draft| draft.period = 0), Refusal::Header);
    assert_eq!(refused(|draft| draft.operations = vec![read_by(1); 256]), Refusal::Header);
    assert_eq!(refused(|draft| draft.placements.truncate(4)), Refusal::PlanLength);
    assert_eq!(refused(|draft| draft.placements[0] = vec![5]), Refusal::Placement);
    assert_eq!(refused(|draft| draft.placements[0] = vec![16]), Refusal::Placement);
    assert_eq!(refused(|draft| draft.placements[0] = vec![usize::MAX]), Refusal::Placement);
    assert_eq!(refused(|draft| draft.operations[1] = read_by(0)), Refusal::Operation);
    assert_eq!(refused(|draft| draft.operations[1] = read_by(2)), Refusal::Operation);
    assert_eq!(refused(|draft| draft.operations[1] = read_by(8)), Refusal::Operation);
}

/// Server 6 isn't there; party 6 is reader 1.
#[test]
fn receivers_refused() {
    let servers = [1, 5, 6, usize::MAX].map(Party::Server);
    let readers = [0, 2, usize::MAX].map(Party::Reader);
    for receiver in servers.into_iter().chain([Party::Writer]).chain(readers) {
        let draft = Draft { forgeries: vec![forged(receiver)], ..takeover() };
        for form in Form::ALL {
            assert_eq!(draft.build(form), Err(Refusal::Forgery));
        }
    }
}

fn many_servers_and_a_forgery(draft: &mut Draft) {
    draft.servers = usize::MAX;
    draft.forgeries = vec![forged(Party::Reader(1))];
}

fn read_by(reader: usize) -> Operation {
    Operation::Read { tick: 3, reader }
}

#[test]
fn delays_refused() {
    let built = |tick, sender, receiver, delay| {
        let mut draft = takeover();
        draft.delays.insert((tick, sender, receiver), delay);
        draft.build(Form::One).map(|plan| plan.len())
    };
    let (server, reader) = (Party::Server(0), Party::Reader(1));
    assert!(built(9, server, reader, 1).is_ok());
    assert_eq!(built(9, server, reader, 2), Err(Refusal::Delay));
    assert_eq!(built(9, server, reader, usize::MAX), Err(Refusal::Delay));
    assert_eq!(built(9, server, Party::Writer, 1), Err(Refusal::Delay));
    assert_eq!(built(9, Party::Writer, reader, 1), Err(Refusal::Delay));
    assert_eq!(built(10, server, reader, 1), Err(Refusal::PlanLength));
    assert_eq!(built(0, server, Party::Server(5), 1), Err(Refusal::PlanLength));
    assert_eq!(built(0, Party::Reader(0), server, 1), Err(Refusal::PlanLength));
    assert_eq!(Draft { delay: 0, ..takeover() }.build(Form::One), Err(Refusal::Delay));
}

#[test]
fn a_draft_in_any_order() {
    let forgeries = [Party::Reader(1), Party::Server(0), Party::Server(4)].map(forged);
    let mut draft = Draft { forgeries: forgeries.to_vec(), ..takeover() };
    draft.operations.reverse();
    let lists = draft.lists();
    assert_eq!(lists.operations, [0, 0, 100, 3, 1, 0, 6, 0, 101]);
    let receivers: Vec<u32> = lists.forgeries.chunks(5).map(|forgery| forgery[2]).collect();
    assert_eq!(receivers, [0, 4, 6]);
    for form in Form::ALL {
        let plan = draft.build(form).unwrap();
        assert_eq!(lists_of(form, &plan), lists);
        assert_eq!(check(form, &plan), Ok(1));
    }
}

/// takeover.plan with one forged message and these values in it.
fn with_values(initial: u32, written: u32, forged_value: u32) -> Draft {
    let mut draft = Draft { initial, ..takeover() };
    draft.operations[0] = Operation::Write { tick: 0, value: written };
    draft.forgeries = vec![Forgery { value: forged_value, ..forged(Party::Reader(1)) }];
    draft
}

#[test]
fn values_up_to_the_highest_of_the_form() {
    for form in Form::ALL {
        let (highest, wide) = (form.highest_value(), form.highest_value() + 1);
        let plan = with_values(highest, highest, highest).build(form).unwrap();
        let lists = lists_of(form, &plan);
        let values = [lists.header[6], lists.operations[2], lists.forgeries[3]];
        assert_eq!(values, [highest; 3]);
        for wide in [wide, u32::MAX] {
            assert_eq!(with_values(wide, 0, 0).build(form), Err(Refusal::Header));
            assert_eq!(with_values(0, wide, 0).build(form), Err(Refusal::Operation));
            assert_eq!(with_values(0, 0, wide).build(form), Err(Refusal::Forgery));
        }
    }
}

#[test]
fn drafts_of_examples() {
    let festival = Draft {
        ticks: 5,
        placements: vec![vec![0], vec![1], vec![]],
        operations: vec![
            Operation::Write { tick: 0, value: 100 },
            Operation::Read { tick: 2, reader: 1 },
        ],
        forgeries: vec![Forgery { tick: 2, ..forged(Party::Reader(1)) }],
        ..takeover()
    };
    assert_eq!(festival.build(Form::One).unwrap(), FESTIVAL);
    let concurrent = Draft {
        delta: 2,
        period: 4,
        readers: 2,
        ticks: 12,
        placements: vec![vec![0], vec![1], vec![2]],
        operations: vec![
            Operation::Write { tick: 0, value: 100 },
            Operation::Write { tick: 4, value: 101 },
            Operation::Read { tick: 5, reader: 1 },
            Operation::Read { tick: 5, reader: 2 },
        ],
        ..takeover()
    };
    assert_eq!(concurrent.build(Form::One).unwrap(), CONCURRENT);
}

#[test]
fn delays_by_a_function() {
    let mut draft = Draft {
        servers: 6,
        delta: 2,
        period: 3,
        ticks: 7,
        placements: vec![vec![0], vec![1], vec![]],
        operations: vec![
            Operation::Write { tick: 0, value: 100 },
            Operation::Read { tick: 2, reader: 1 },
        ],
        ..takeover()
    };
    let mut asked = 0;
    draft.set_delays(|_, _, _| {
        asked += 1;
        2
    });
    // In each tick from a server to the other five and the reader, from writer and reader to six.
    assert_eq!(asked, 7 * (6 * 6 + 6 + 6));
    assert_eq!(draft.build(Form::One).unwrap(), JUST_SET);
    assert_eq!(draft.build(Form::Two).unwrap(), in_form(Form::Two, JUST_SET));
    draft.set_delays(|tick, sender, _| if sender == Party::Writer { 1 } else { 1 + tick % 2 });
    let lists = lists_of(Form::One, &draft.build(Form::One).unwrap());
    assert_eq!((lists.delays[1], lists.delays[64 + 1]), (1, 2));
    assert_eq!(lists.delays[64 + 6 * 8], 1);
}

/// As many reads as a plan may have.
pub fn most_reads() -> Draft {
    let operations =
        (0..MOST_READS).map(|i| Operation::Read { tick: i / 4 * 3, reader: 1 + i % 4 });
    Draft {
        servers: 16,
        faulty: 3,
        delta: 1,
        period: 1,
        readers: 4,
        ticks: 128,
        placements: vec![vec![0, 7, 15]; 128],
        operations: operations.collect(),
        delay: 1,
        ..Draft::default()
    }
}

#[test]
fn a_draft_with_the_most_reads() {
    for form in Form::ALL {
        assert_eq!(check(form, &most_reads().build(form).unwrap()), Ok(MOST_READS));
    }
}
