//! Check, Play, Look and Judge on the plans of examples/.

use register::{
    answers, check, judge, look, look_into, play, Answer, Condition, Form, Lists, Plan, Refusal,
    Stamped, DEPTH, LONGEST_INPUT, PAIRS_BYTES, PAIR_BYTES, WORKSPACE_BYTES,
};

use crate::plans::{
    answer_bytes, changed, flipped, in_form, packed, refused_plans, value_bits, BEFORE, CONCURRENT,
    FIRST, JUST_SET, RECOVERY, SIX_WRITES, TAKEOVER, TOO_FEW,
};
use crate::{played, workspace};

#[test]
fn answers_of_the_examples() {
    let answer =
        |begin, reader, value, number, count| Answer { begin, reader, value, number, count };
    let wanted = [
        (FIRST, vec![answer(0, 1, 7, 0, 1)]),
        (TAKEOVER, vec![answer(3, 1, 100, 1, 4)]),
        (RECOVERY, vec![answer(9, 1, 100, 1, 4)]),
        (CONCURRENT, vec![answer(5, 1, 101, 2, 4), answer(5, 2, 101, 2, 4)]),
        (JUST_SET, vec![answer(2, 1, 100, 1, 4)]),
        (SIX_WRITES, vec![answer(11, 1, 106, 6, 4)]),
    ];
    for form in Form::ALL {
        for (example, wanted) in &wanted {
            let plan = in_form(form, example);
            let lent = played(form, &plan);
            assert_eq!(answers(form, &lent).collect::<Vec<_>>(), *wanted);
            assert_eq!(judge(form, &plan, &lent), Ok(true));
        }
    }
}

/// The bytes of docs/FORMATS.md.
#[test]
fn bytes_of_an_answer() {
    assert_eq!(played(Form::One, FIRST), [0x00, 0x40, 0x01, 0xc0, 0x02]);
    let two = in_form(Form::Two, FIRST);
    assert_eq!(played(Form::Two, &two), [0x00, 0x40, 0x00, 0x01, 0xc0, 0x02]);
}

#[test]
fn header_of_a_plan() {
    for form in Form::ALL {
        let bytes = in_form(form, CONCURRENT);
        let plan = Plan::of(form, &bytes).unwrap();
        assert_eq!((plan.servers(), plan.faulty(), plan.delta(), plan.period()), (5, 1, 2, 4));
        assert_eq!((plan.readers(), plan.ticks(), plan.initial()), (2, 12, 7));
        assert_eq!((plan.operations(), plan.forgeries(), plan.reads()), (4, 0, 2));
        assert_eq!((plan.form(), plan.bytes()), (form, &bytes[..]));
        assert_eq!(Plan::of(form, &in_form(form, TAKEOVER)).unwrap().forgeries(), 42);
        assert_eq!(Plan::of(form, &in_form(form, TOO_FEW)), Err(Refusal::TooFewServers));
        let highest = form.highest_value();
        let bytes = changed(form, CONCURRENT, |lists| lists.header[6] = highest);
        assert_eq!(Plan::of(form, &bytes).unwrap().initial(), highest);
    }
}

#[test]
fn answers_that_are_not_whole() {
    for form in Form::ALL {
        let lent = played(form, &in_form(form, CONCURRENT));
        assert_eq!(answers(form, &lent[..lent.len() - 1]).len(), 1);
        assert_eq!(answers(form, &lent[..form.answer_bytes() - 1]).next(), None);
        assert_eq!(answers(form, &[]).next(), None);
        let value = form.highest_value();
        let full = Answer { begin: 127, reader: 7, value, number: u8::MAX, count: 31 };
        assert_eq!(answers(form, &vec![0xff; form.answer_bytes()]).next(), Some(full));
    }
}

/// Server 0 of recovery.plan, where a value is written while it is faulty.
#[test]
fn a_server_recovers() {
    for form in Form::ALL {
        for value in [100, form.highest_value()] {
            let plan = changed(form, RECOVERY, |lists| lists.operations[2] = value);
            let seen = |tick| {
                let seen = look(form, &plan, &mut workspace(), 0, tick).unwrap();
                (seen.condition, seen.kept().to_vec())
            };
            let kept = vec![Stamped { value, number: 1 }, Stamped { value: 7, number: 0 }];
            assert_eq!(seen(3), (Condition::Faulty, vec![]));
            assert_eq!(seen(4), (Condition::Cured, vec![]));
            assert_eq!(seen(6), (Condition::Correct, kept));
        }
    }
}

/// six-writes.plan: a full store drops its lowest pair, and a server that is reset learns as many again.
#[test]
fn the_last_five_are_kept() {
    for form in Form::ALL {
        let plan = in_form(form, SIX_WRITES);
        let seen = |server, tick| {
            let seen = look(form, &plan, &mut workspace(), server, tick).unwrap();
            (seen.condition, seen.kept().iter().map(|kept| kept.number).collect::<Vec<_>>())
        };
        assert_eq!(seen(2, 7), (Condition::Correct, vec![4, 3, 2, 1, 0]));
        assert_eq!(seen(2, 9), (Condition::Correct, vec![5, 4, 3, 2, 1]));
        assert_eq!(seen(2, 11), (Condition::Correct, vec![6, 5, 4, 3, 2]));
        assert_eq!(seen(0, 12), (Condition::Cured, vec![]));
        assert_eq!(seen(0, 13), seen(2, 11));
        assert_eq!(seen(0, 13).1.len(), DEPTH);
    }
}

#[test]
fn each_refusal_of_check() {
    for form in Form::ALL {
        for (plan, wanted) in refused_plans(form).iter().zip(Refusal::ALL) {
            let (mut lent, mut workspace) = ([BEFORE; 64], workspace());
            assert_eq!(check(form, plan), Err(wanted));
            assert_eq!(Plan::of(form, plan), Err(wanted));
            assert_eq!(play(form, plan, &mut lent, &mut workspace), Err(wanted));
            assert_eq!(look_into(form, plan, &mut workspace, 0, 0, &mut lent), Err(wanted));
            assert_eq!(judge(form, plan, &lent), Err(wanted));
            // They come before what the other operations ask for.
            assert_eq!(play(form, plan, &mut [], &mut []), Err(wanted));
            assert_eq!(look(form, plan, &mut [], usize::MAX, usize::MAX), Err(wanted));
            assert!(lent.iter().chain(&workspace).all(|&byte| byte == BEFORE));
        }
    }
}

#[test]
fn each_refusal_of_play_and_look() {
    for form in Form::ALL {
        let plan = in_form(form, TAKEOVER);
        let (mut lent, mut workspace) = ([BEFORE; 64], workspace());
        let short = WORKSPACE_BYTES - 1;
        let refused = play(form, &plan, &mut lent[..form.answer_bytes() - 1], &mut []);
        assert_eq!(refused, Err(Refusal::AnswersShort));
        let refused = play(form, &plan, &mut lent, &mut workspace[..short]);
        assert_eq!(refused, Err(Refusal::WorkspaceShort));
        let refused = look_into(form, &plan, &mut workspace[..short], 5, 10, &mut lent);
        assert_eq!(refused, Err(Refusal::WorkspaceShort));
        let nowhere = [(5, 0), (0, 10), (usize::MAX, 0), (0, usize::MAX), (1 << 32, 1 << 32)];
        for (server, tick) in nowhere {
            let refused = look_into(form, &plan, &mut workspace, server, tick, &mut lent);
            assert_eq!(refused, Err(Refusal::OutOfRange));
        }
        assert!(lent.iter().chain(&workspace).all(|&byte| byte == BEFORE));
    }
}

#[test]
fn each_refusal_of_judge() {
    for form in Form::ALL {
        let plan = in_form(form, TAKEOVER);
        let right = played(form, &plan);
        for answers in [&right[..right.len() - 1], &[&right[..], &[0]].concat()] {
            assert_eq!(judge(form, &plan, answers), Err(Refusal::AnswersLength));
        }
        // A bit of begin, of the reader, and the zero bit.
        for bit in [0, 6, 7, 9, 8 * right.len() - 1] {
            assert_eq!(judge(form, &plan, &flipped(&right, bit)), Err(Refusal::OtherRead));
        }
    }
}

#[test]
fn judge_says_no() {
    for form in Form::ALL {
        let plan = in_form(form, TAKEOVER);
        let right = played(form, &plan);
        // The first bit of the value, the last one of the number; the count is not judged.
        let count_at = 7 + 3 + value_bits(form) + 8;
        assert_eq!(judge(form, &plan, &flipped(&right, 10)), Ok(false));
        assert_eq!(judge(form, &plan, &flipped(&right, count_at - 1)), Ok(false));
        assert_eq!(judge(form, &plan, &flipped(&right, count_at)), Ok(true));
        // Value 7, number 0, to a read that begins in the tick in which 100 is set.
        let older = answer_bytes(form, [2, 1, 7, 0, 4, 0]);
        assert_eq!(judge(form, &in_form(form, JUST_SET), &older), Ok(false));
    }
}

#[test]
fn buffers_exact_and_longer() {
    for form in Form::ALL {
        let plan = in_form(form, CONCURRENT);
        let right = played(form, &plan);
        for more in [0, 1, 40] {
            let mut lent = vec![BEFORE; right.len() + more];
            let mut workspace = vec![BEFORE; WORKSPACE_BYTES + more];
            assert_eq!(play(form, &plan, &mut lent, &mut workspace), Ok(2));
            assert_eq!(lent[..right.len()], right);
            assert!(lent[right.len()..].iter().all(|&byte| byte == BEFORE));
            assert!(workspace[..WORKSPACE_BYTES].iter().all(|&byte| byte == 0));
            assert!(workspace[WORKSPACE_BYTES..].iter().all(|&byte| byte == BEFORE));
        }
    }
}

/// The pairs of server 0 after a tick, in buffers of every length.
fn pairs_in_buffers(form: Form, plan: &[u8], tick: usize, all: &[u8]) {
    for length in 0..PAIRS_BYTES + 2 {
        let (mut pairs, mut workspace) = ([BEFORE; PAIRS_BYTES + 2], workspace());
        let seen = look_into(form, plan, &mut workspace, 0, tick, &mut pairs[..length]);
        assert_eq!(seen, Ok((Condition::Correct, all.len() / PAIR_BYTES)));
        let written = (length / PAIR_BYTES * PAIR_BYTES).min(all.len());
        assert_eq!(pairs[..written], all[..written]);
        assert!(pairs[written..].iter().all(|&byte| byte == BEFORE));
        assert!(workspace.iter().all(|&byte| byte == 0));
    }
}

#[test]
fn pair_buffers_of_every_length() {
    for form in Form::ALL {
        pairs_in_buffers(form, &in_form(form, RECOVERY), 6, &[0, 0, 100, 1, 0, 0, 7, 0]);
        let last_five: Vec<u8> = (2..=6).rev().flat_map(|i| [0, 0, 100 + i, i]).collect();
        pairs_in_buffers(form, &in_form(form, SIX_WRITES), 13, &last_five);
    }
    let wide = changed(Form::Two, RECOVERY, |lists| lists.operations[2] = 0xab_cdef);
    pairs_in_buffers(Form::Two, &wide, 6, &[0xab, 0xcd, 0xef, 1, 0, 0, 7, 0]);
}

#[test]
fn input_longer_than_any_header_implies() {
    for (form, implied) in [(Form::One, 34_437), (Form::Two, LONGEST_INPUT - 1)] {
        // The most servers, readers, ticks, operations and forgeries.
        let header = vec![16, 0, 1, 1, 4, 128, 0, 255, 1_024, 0];
        let mut plan = packed(form, &Lists { header, ..Lists::default() });
        plan.resize(implied, 0);
        assert_eq!(check(form, &plan), Err(Refusal::Operation));
        plan.resize(LONGEST_INPUT, 0);
        assert_eq!(check(form, &plan), Err(Refusal::PlanLength));
        plan.resize(LONGEST_INPUT + 100, 0xff);
        assert_eq!(check(form, &plan), Err(Refusal::PlanLength));
    }
}

#[test]
fn refusals_in_words() {
    let numbers = (1..=15).chain([19, 20]);
    assert!(Refusal::ALL.into_iter().map(Refusal::number).eq(numbers));
    for refusal in Refusal::ALL {
        let words = refusal.to_string();
        assert_eq!(words, format!("refused {}: {}", refusal.number(), refusal.meaning()));
        assert!(refusal.meaning().len() > 20);
    }
    let error: Box<dyn std::error::Error> = Box::new(Refusal::TooFewServers);
    assert_eq!(error.to_string(), "refused 3: there are fewer servers than the faults ask for");
}

#[test]
fn conditions_in_words() {
    let words = [Condition::Faulty, Condition::Cured, Condition::Correct].map(|c| c.to_string());
    assert_eq!(words, ["faulty", "cured", "correct"]);
}
