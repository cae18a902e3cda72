//! Sheets in both forms: the lines by hand, each refusal, and every lent byte.

use plain::{check, play, sheet, Outcome, Refused, WORKSPACE_BYTES};
use plans::{accepted, damaged, Form, Operation, Parts, Random, Size};

/// What lent bytes hold before a call.
const BEFORE: u8 = 0xa5;

/// The bytes of a line.
const LINE: usize = 81;

const HEADING: &str =
    "  begin      screen      end           cue      number       count       writing\n";
const RULE_ONE: &str =
    "    ---           -      ---         -----         ---          --             -\n";
const RULE_TWO: &str =
    "    ---           -      ---      --------         ---          --             -\n";

fn empty() -> String {
    " ".repeat(80) + "\n"
}

/// The result, and a page of a length afterwards.
fn written(form: Form, plan: &[u8], answers: &[u8], length: usize) -> (Outcome<usize>, Vec<u8>) {
    let mut page = vec![BEFORE; length];
    let result = sheet(form.number(), plan, answers, &mut page);
    (result, page)
}

/// One server that is never faulty, two readers, δ = 2, every delay 1.
fn parts(form: Form, operations: Vec<Operation>) -> Parts {
    Parts { operations, ..Parts::quiet(form, 1, 0, (2, 63), 2, 128) }
}

fn operation(tick: usize, party: usize, value: u32) -> Operation {
    Operation { tick, party, value }
}

fn played(form: Form, plan: &[u8]) -> Vec<u8> {
    let mut answers = vec![0; form.answer_bytes() * check(form.number(), plan).unwrap()];
    play(form.number(), plan, &mut answers, &mut [0; WORKSPACE_BYTES]).unwrap();
    answers
}

#[test]
fn a_sheet_by_hand() {
    let lines = [
        "      9           1       13             7           0           1             *\n",
        "    100           1      104      ########           1           1              \n",
        "    123           2      127             5           2           1             *\n",
    ];
    for (form, rule, highest) in
        [(Form::One, RULE_ONE, "   65535"), (Form::Two, RULE_TWO, "16777215")]
    {
        let operations = vec![
            operation(9, 1, 0),
            operation(12, 0, form.highest_value()),
            operation(100, 1, 0),
            operation(122, 0, 5),
            operation(123, 2, 0),
        ];
        let plan = parts(form, operations).pack();
        let mut wanted = HEADING.to_string() + rule + &lines.concat().replace("########", highest);
        wanted += &empty();
        assert_eq!(wanted.len(), 6 * LINE);
        let answers = played(form, &plan);
        let (result, page) = written(form, &plan, &answers, wanted.len() + 3);
        assert_eq!(result, Ok(wanted.len()));
        assert_eq!(String::from_utf8_lossy(&page[..wanted.len()]), wanted);
        assert_eq!(page[wanted.len()..], [BEFORE; 3]);
    }
}

/// δ is 2 and the read lasts from 10 to 14.
#[test]
fn marks() {
    for form in Form::ALL {
        for (write, wanted) in [(8, b' '), (9, b'*'), (10, b'*'), (14, b'*'), (15, b' ')] {
            let mut operations = vec![operation(write, 0, 9), operation(10, 1, 0)];
            operations.sort_by_key(|operation| (operation.tick, operation.party));
            let plan = parts(form, operations).pack();
            let (_, page) = written(form, &plan, &played(form, &plan), 4 * LINE);
            assert_eq!(page[2 * LINE + 79], wanted, "a write at {write}");
        }
    }
}

/// Check's numbers come first, then those of the answers, then the page's.
#[test]
fn refusals() {
    for form in Form::ALL {
        let plan = parts(form, vec![operation(3, 1, 0)]).pack();
        let right = played(form, &plan);
        let refused = |plan: &[u8], answers: &[u8], length, wanted| {
            let unchanged = vec![BEFORE; length];
            assert_eq!(written(form, plan, answers, length), (Err(Refused(wanted)), unchanged));
        };
        for length in [0, 4 * LINE] {
            refused(&plan[1..], &right, length, 2);
            refused(&plan[..plan.len() - 1], &right, length, 4);
            refused(&plan, &right[1..], length, 12);
            refused(&plan, &[&right[..], &[0]].concat(), length, 12);
            for (place, bit) in [(0, 0x80), (1, 0x80), (1, 0x40), (right.len() - 1, 1)] {
                let mut other = right.clone();
                other[place] ^= bit;
                refused(&plan, &other, length, 13);
            }
        }
        for length in [0, 4 * LINE - 1] {
            refused(&plan, &right, length, 15);
        }
        assert_eq!(written(form, &plan, &right, 4 * LINE).0, Ok(4 * LINE));
    }
}

#[test]
fn no_such_form() {
    let plan = parts(Form::One, vec![]).pack();
    let mut page = [BEFORE; 4 * LINE];
    for form in [0, 3, 257, usize::MAX] {
        assert_eq!(sheet(form, &plan, &[], &mut page), Err(Refused(1)));
    }
    assert_eq!(page, [BEFORE; 4 * LINE]);
}

/// Lines of 80 characters, as many as there are reads and three more; a refused plan has none.
#[test]
fn plans_of_all_sorts() {
    for form in Form::ALL {
        for seed in 0..200 {
            let plan = accepted(&mut Random::new(seed), form, Size::Small).pack();
            let length = LINE * (check(form.number(), &plan).unwrap() + 3);
            let (result, page) = written(form, &plan, &played(form, &plan), length);
            assert_eq!(result, Ok(length));
            assert!(page
                .chunks(LINE)
                .all(|line| line.iter().position(|&c| c == b'\n') == Some(80)));
            let plan = damaged(&mut Random::new(seed), form, Size::Small);
            if let Err(refused) = check(form.number(), &plan) {
                assert_eq!(written(form, &plan, &[], 99), (Err(refused), vec![BEFORE; 99]));
            }
        }
    }
}
