//! Forecasts of the plans of examples/, and of plans whose messages are counted by hand.

use register::{
    carry, check, forecast, forecast_into, Draft, Forecast, Forgery, Form, Operation, Party, Plan,
    Refusal, FORECAST_NUMBERS,
};

use crate::pack::most_reads;
use crate::plans::{in_form, refused_plans, ACCEPTED};
use crate::played;

/// The fields of a forecast in their order.
type Numbers = [u32; FORECAST_NUMBERS];

/// The numbers of the accepted examples in form one, in their order.
const WANTED: [Numbers; ACCEPTED.len()] = [
    [5, 1, 0, 1, 0, 0],
    [5, 3, 0, 1, 0, 0],
    [5, 3, 5, 5, 16, 1],
    [5, 5, 10, 5, 32, 5],
    [5, 4, 5, 5, 16, 0],
    [10, 3, 10, 10, 32, 0],
    [5, 3, 6, 6, 25, 0],
    [5, 7, 30, 5, 116, 0],
];

/// What lent numbers hold before a call.
const BEFORE: u32 = 0xa5a5_a5a5;

/// The numbers in a form, by those in form one: the bytes of an answer differ.
fn numbers_in(form: Form, [answer_bytes, others @ ..]: Numbers) -> Numbers {
    let [moves, writes, reads, votes, forgeries] = others;
    [answer_bytes / 5 * form.answer_bytes() as u32, moves, writes, reads, votes, forgeries]
}

fn numbers_of(forecast: Forecast) -> Numbers {
    let Forecast { answer_bytes, moves, write_messages, read_messages, votes, most_forgeries } =
        forecast;
    [answer_bytes, moves, write_messages, read_messages, votes, most_forgeries]
}

/// Expects these numbers of form one, and those of form two to them.
fn has_numbers(draft: &Draft, wanted: Numbers) {
    for form in Form::ALL {
        let taken = forecast(form, &draft.build(form).unwrap());
        assert_eq!(taken.map(numbers_of), Ok(numbers_in(form, wanted)));
    }
}

/// Six servers, of which one is faulty at a time, the next one from each of the ticks 0, 4 and 8 on.
/// There are three writes and two reads, so 18 and 12 messages for them. Each WRITE reaches five servers
/// that are not faulty, and each of these votes to five others.
fn six_servers() -> Draft {
    Draft {
        servers: 6,
        faulty: 1,
        delta: 2,
        period: 4,
        readers: 2,
        ticks: 12,
        initial: 7,
        placements: vec![vec![0], vec![1], vec![2]],
        operations: vec![
            Operation::Write { tick: 0, value: 100 },
            Operation::Read { tick: 2, reader: 1 },
            Operation::Write { tick: 3, value: 101 },
            Operation::Read { tick: 5, reader: 2 },
            Operation::Write { tick: 8, value: 102 },
        ],
        delay: 1,
        ..Draft::default()
    }
}

const SIX_SERVERS: Numbers = [10, 3, 18, 12, 75, 0];

/// A forged message by its tick, receiver and delay.
type Forged = (usize, Party, usize);

/// The same with forged messages, whose sender is the server that is faulty then.
fn with_forgeries(forgeries: &[Forged]) -> Draft {
    let mut draft = six_servers();
    for (number, &(tick, receiver, delay)) in (0..).zip(forgeries) {
        let sender = tick / draft.period;
        draft.forgeries.push(Forgery { tick, sender, receiver, value: 666, number });
        draft.delays.insert((tick, Party::Server(sender), receiver), delay);
    }
    draft
}

#[test]
fn forecasts_of_the_examples() {
    for form in Form::ALL {
        for (example, wanted) in ACCEPTED.into_iter().zip(WANTED) {
            let plan = in_form(form, example);
            let taken = forecast(form, &plan).unwrap();
            assert_eq!(numbers_of(taken), numbers_in(form, wanted));
            assert_eq!(Plan::of(form, &plan).unwrap().forecast(), taken);
        }
    }
}

#[test]
fn carried_to_form_two() {
    for one in ACCEPTED {
        let mut two = vec![0; Form::Two.longest_plan()];
        let length = carry(one, &mut two).unwrap();
        let in_one = forecast(Form::One, one).unwrap();
        let in_two = forecast(Form::Two, &two[..length]).unwrap();
        assert_eq!(in_two, Forecast { answer_bytes: in_one.answer_bytes / 5 * 6, ..in_one });
    }
}

#[test]
fn bytes_of_the_answers() {
    for form in Form::ALL {
        let examples = ACCEPTED.map(|example| in_form(form, example));
        for plan in examples.into_iter().chain([most_reads().build(form).unwrap()]) {
            let answer_bytes = forecast(form, &plan).unwrap().answer_bytes;
            assert_eq!(answer_bytes as usize, played(form, &plan).len());
        }
    }
}

#[test]
fn counted_by_hand() {
    has_numbers(&six_servers(), SIX_SERVERS);
}

/// The WRITEs of tick 3 to servers 0 and 1, which arrive in tick 4 or in tick 5. Server 0 is faulty up to
/// the deliveries of tick 4, then cured; server 1 is faulty from after them.
#[test]
fn votes_by_the_tick_of_arrival() {
    for (to_0, to_1, votes) in [(1, 1, 75), (2, 1, 80), (1, 2, 70), (2, 2, 75)] {
        let mut draft = six_servers();
        draft.delays.insert((3, Party::Writer, Party::Server(0)), to_0);
        draft.delays.insert((3, Party::Writer, Party::Server(1)), to_1);
        let mut wanted = SIX_SERVERS;
        wanted[4] = votes;
        has_numbers(&draft, wanted);
    }
}

#[test]
fn forgeries_by_the_tick_of_arrival() {
    use Party::{Reader, Server};
    let cases: [(&[Forged], u32); 9] = [
        // In the last tick, and not below H.
        (&[(10, Server(0), 1)], 1),
        (&[(10, Server(0), 2)], 0),
        (&[(11, Server(0), 1)], 0),
        // At server 2, which is faulty from tick 8 on; at reader 1, whose read ends in tick 6.
        (&[(7, Server(2), 2)], 1),
        (&[(5, Reader(1), 2)], 1),
        // From two ticks, a vote and a reply in one; and two votes in two.
        (&[(5, Server(0), 2), (6, Reader(2), 1)], 2),
        (&[(5, Server(0), 1), (6, Server(0), 1)], 1),
        // To one receiver; and more in one tick than in a later one.
        (&[(6, Server(0), 1), (6, Server(0), 1)], 2),
        (&[(1, Server(3), 1), (1, Server(4), 1), (1, Server(5), 1), (6, Server(0), 1)], 3),
    ];
    for (forgeries, most) in cases {
        let mut wanted = SIX_SERVERS;
        wanted[5] = most;
        has_numbers(&with_forgeries(forgeries), wanted);
    }
}

#[test]
fn moves_below_h() {
    for (ticks, moves) in [(1, 1), (4, 1), (5, 2), (8, 2), (9, 3)] {
        let placements = vec![vec![]; moves];
        let draft = Draft { ticks, placements, operations: vec![], ..six_servers() };
        has_numbers(&draft, [0, moves as u32, 0, 0, 0, 0]);
    }
}

/// As many reads, writes and forged messages as a plan may have, these all in one tick. Each WRITE
/// reaches 13 of 16 servers that are not faulty.
#[test]
fn the_most() {
    let mut draft = most_reads();
    draft.operations.extend((0..64).map(|i| Operation::Write { tick: 2 * i, value: 100 }));
    let receiver = Party::Server(1);
    let forged = |value| Forgery { tick: 5, sender: 0, receiver, value, number: 9 };
    draft.forgeries = (0..1024).map(forged).collect();
    has_numbers(&draft, [5 * 168, 128, 64 * 16, 168 * 16, 64 * 13 * 15, 1024]);
}

#[test]
fn buffers_of_every_length() {
    for form in Form::ALL {
        let plan = six_servers().build(form).unwrap();
        let wanted = numbers_in(form, SIX_SERVERS);
        for length in 0..FORECAST_NUMBERS + 3 {
            let mut numbers = [BEFORE; FORECAST_NUMBERS + 3];
            let count = forecast_into(form, &plan, &mut numbers[..length]);
            assert_eq!(count, Ok(FORECAST_NUMBERS));
            let written = length.min(FORECAST_NUMBERS);
            assert_eq!(numbers[..written], wanted[..written]);
            assert!(numbers[written..].iter().all(|&number| number == BEFORE));
        }
    }
}

/// Expects a refusal that leaves the numbers as they were.
fn refused(form: Form, plan: &[u8], wanted: Refusal) {
    assert_eq!(forecast(form, plan), Err(wanted));
    for length in [0, 1, FORECAST_NUMBERS, FORECAST_NUMBERS + 2] {
        let mut numbers = vec![BEFORE; length];
        assert_eq!(forecast_into(form, plan, &mut numbers), Err(wanted));
        assert!(numbers.iter().all(|&number| number == BEFORE));
    }
}

#[test]
fn each_refusal() {
    for form in Form::ALL {
        for (plan, wanted) in refused_plans(form).iter().zip(Refusal::ALL) {
            refused(form, plan, wanted);
        }
        refused(form, &[], Refusal::PlanShort);
    }
    // Plans of the other form.
    for one in ACCEPTED {
        refused(Form::Two, one, check(Form::Two, one).unwrap_err());
    }
}
