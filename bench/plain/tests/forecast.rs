//! Forecasts in both forms: by hand, as playing counts them, and refused where Check refuses.

mod refused;

use plain::{forecast, forecast_by_playing, look, play, Condition, Refused, WORKSPACE_BYTES};
use plans::{accepted, Forgery, Form, Operation, Parts, Random, Size};

/// The places of two numbers of a forecast.
const VOTES: usize = 4;
const MOST_FORGERIES: usize = 5;

/// The parties behind the servers of `five`.
const WRITER: usize = 5;
const READER: usize = 6;

/// The six numbers, which playing counts too.
fn numbers(parts: &Parts) -> [u32; 6] {
    let (form, plan) = (parts.form.number(), parts.pack());
    let found = forecast(form, &plan).unwrap();
    assert_eq!(forecast_by_playing(form, &plan), Ok(found));
    found.numbers()
}

fn condition(parts: &Parts, server: usize, tick: usize) -> Condition {
    let workspace = &mut [0; WORKSPACE_BYTES];
    look(parts.form.number(), &parts.pack(), workspace, server, tick).unwrap().condition
}

/// Five servers, two readers, δ = 2, twelve ticks, and who is faulty from ticks 0, 4 and 8 on.
fn five(form: Form, placements: [u16; 3]) -> Parts {
    Parts { placements: placements.to_vec(), ..Parts::quiet(form, 5, 1, (2, 4), 2, 12) }
}

fn operation(tick: usize, party: usize) -> Operation {
    Operation { tick, party, value: 0 }
}

/// Puts in a forgery of server 0 with its delay.
fn forge(parts: &mut Parts, tick: usize, receiver: usize, delay: u8) {
    parts.forgeries.push(Forgery { tick, sender: 0, receiver, value: 666, number: 9 });
    set_delay(parts, tick, 0, receiver, delay);
}

fn set_delay(parts: &mut Parts, tick: usize, sender: usize, receiver: usize, delay: u8) {
    let parties = parts.parties();
    parts.delays[(tick * parties + sender) * parties + receiver] = delay;
}

#[test]
fn one_read() {
    for (form, wanted) in [(Form::One, [5, 3, 0, 1, 0, 0]), (Form::Two, [6, 3, 0, 1, 0, 0])] {
        let quiet = Parts::quiet(form, 1, 0, (1, 1), 1, 3);
        assert_eq!(numbers(&Parts { operations: vec![operation(0, 1)], ..quiet }), wanted);
    }
}

/// The rehearsal of docs/RULES.md.
#[test]
fn festival() {
    for (form, answer_bytes) in [(Form::One, 5), (Form::Two, 6)] {
        let mut parts = Parts::quiet(form, 5, 1, (1, 2), 1, 5);
        parts.placements = vec![0b1, 0b10, 0];
        parts.operations = vec![operation(0, 0), operation(2, 1)];
        parts.forgeries =
            vec![Forgery { tick: 2, sender: 1, receiver: READER, value: 666, number: 9 }];
        assert_eq!(numbers(&parts), [answer_bytes, 3, 5, 5, 16, 1]);
    }
}

#[test]
fn moves() {
    for form in Form::ALL {
        for (ticks, moves) in [(1, 1), (62, 1), (63, 1), (64, 2), (126, 2), (127, 3), (128, 3)] {
            let parts = Parts::quiet(form, 1, 0, (1, 63), 1, ticks);
            assert_eq!(numbers(&parts), [0, moves, 0, 0, 0, 0]);
        }
    }
}

/// Three writes, and three reads of two readers.
#[test]
fn messages() {
    for (form, answer_bytes) in [(Form::One, 15), (Form::Two, 18)] {
        let mut parts = five(form, [0; 3]);
        let operations = [(0, 0), (0, 1), (2, 2), (3, 0), (6, 0), (7, 2)];
        parts.operations = operations.map(|(tick, party)| operation(tick, party)).into();
        assert_eq!(numbers(&parts), [answer_bytes, 3, 15, 15, 60, 0]);
    }
}

/// Server 0 loses a WRITE exactly if it is faulty before the tick in which this arrives, also where that
/// is the tick of a movement.
#[test]
fn votes() {
    use Condition::{Correct, Cured, Faulty};
    let recovers = [(0, 1, Faulty), (2, 2, Faulty), (3, 1, Faulty), (3, 2, Cured), (4, 2, Cured)];
    let falls = [(2, 1, Correct), (2, 2, Correct), (3, 1, Correct), (3, 2, Faulty), (4, 1, Faulty)];
    for form in Form::ALL {
        for (placements, cases) in [([1, 0, 0], recovers), ([0, 1, 0], falls)] {
            for (begin, delay, before) in cases {
                let mut parts = five(form, placements);
                parts.operations = vec![operation(begin, 0)];
                set_delay(&mut parts, begin, WRITER, 0, delay);
                let arrival = begin + usize::from(delay);
                assert_eq!(condition(&parts, 0, arrival - 1), before, "tick {arrival}");
                let votes = if before == Faulty { 16 } else { 20 };
                assert_eq!(numbers(&parts)[VOTES], votes, "tick {arrival}");
            }
        }
    }
}

/// Of twelve ticks the last is tick 11.
#[test]
fn forgeries_below_the_end() {
    for form in Form::ALL {
        for (tick, delay, most) in [(9, 2, 1), (10, 1, 1), (10, 2, 0), (11, 1, 0)] {
            let mut parts = five(form, [0, 0, 1]);
            forge(&mut parts, tick, 1, delay);
            assert_eq!(numbers(&parts)[MOST_FORGERIES], most, "tick {tick}, delay {delay}");
        }
    }
}

/// A forgery arrives also at a server that is faulty by then, and at a reader whose read has ended.
#[test]
fn forgeries_that_are_lost() {
    for form in Form::ALL {
        let mut parts = five(form, [0b1, 0b10, 0]);
        forge(&mut parts, 3, 1, 2);
        assert_eq!(condition(&parts, 1, 4), Condition::Faulty);
        assert_eq!(numbers(&parts)[MOST_FORGERIES], 1);

        let mut parts = five(form, [0b1, 0b10, 0]);
        parts.operations = vec![operation(0, 1)];
        forge(&mut parts, 3, READER, 2);
        assert_eq!(numbers(&parts)[MOST_FORGERIES], 1);
    }
}

/// Votes and replies, sent in several ticks: three arrive in tick 4, and one in each of two others.
#[test]
fn forgeries_together() {
    for form in Form::ALL {
        let mut parts = five(form, [1, 0, 0]);
        parts.operations = vec![operation(0, 1)];
        for (tick, receiver, delay) in [(1, 2, 2), (2, 2, 2), (3, 3, 1), (3, 4, 2), (3, READER, 1)]
        {
            forge(&mut parts, tick, receiver, delay);
        }
        assert_eq!(numbers(&parts)[MOST_FORGERIES], 3);
    }
}

#[test]
fn what_check_refuses() {
    refused::every_refusal(|form, plan, number| {
        assert_eq!(forecast(form.number(), plan), Err(number));
        assert_eq!(forecast_by_playing(form.number(), plan), Err(number));
    });
}

#[test]
fn no_such_form() {
    let plan = Parts::quiet(Form::One, 1, 0, (1, 1), 1, 1).pack();
    for form in [0, 3, 257, usize::MAX] {
        assert_eq!(forecast(form, &plan), Err(Refused(1)));
        assert_eq!(forecast_by_playing(form, &plan), Err(Refused(1)));
    }
}

/// What is found is what playing counts, and Play asks for just as many bytes.
#[test]
fn plans_of_all_sorts() {
    for form in Form::ALL {
        let mut with_lost_writes = 0;
        for seed in 0..2_000 {
            let size = if seed % 30 == 0 { Size::Any } else { Size::Small };
            let parts = accepted(&mut Random::new(seed), form, size);
            let [answer_bytes, _, write_messages, _, votes, _] = numbers(&parts);
            let most_votes = write_messages * (parts.servers as u32 - 1);
            with_lost_writes += u32::from(votes < most_votes);
            let mut answers = vec![0; answer_bytes as usize];
            let played = |answers: &mut [u8]| {
                play(form.number(), &parts.pack(), answers, &mut [0; WORKSPACE_BYTES])
            };
            assert!(played(&mut answers).is_ok());
            if let [_, short @ ..] = &mut answers[..] {
                assert_eq!(played(short), Err(Refused(9)));
            }
        }
        assert!(with_lost_writes > 300, "{with_lost_writes}");
    }
}
