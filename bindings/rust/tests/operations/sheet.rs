//! Sheets of the plans of examples/.

use register::{
    sheet, Draft, Form, Operation, Plan, Refusal, LINE_BYTES, MOST_READS, MOST_SHEET_BYTES,
};

use crate::pack::most_reads;
use crate::plans::{
    answer_bytes, changed, flipped, in_form, refused_plans, ACCEPTED, BEFORE, CONCURRENT, FIRST,
    JUST_SET, RECOVERY, SIX_WRITES, TAKEOVER,
};
use crate::played;

const DOCUMENT: &str = include_str!("../../../../docs/SHEET.md");

/// The numbers of a read's line, and whether it is marked.
type Row = ([u32; 6], bool);

fn line(cells: [&str; 7]) -> String {
    let [begin, screen, end, cue, number, count, mark] = cells;
    format!("{begin:>7}{screen:>12}{end:>9}{cue:>14}{number:>12}{count:>12}{mark:>14}\n")
}

fn row((numbers, marked): &Row) -> String {
    let [begin, screen, end, cue, number, count] = &numbers.map(|number| number.to_string());
    line([begin, screen, end, cue, number, count, if *marked { "*" } else { "" }])
}

/// The sheet with these lines.
fn page(form: Form, rows: &[Row]) -> String {
    let cue = match form {
        Form::One => "-----",
        Form::Two => "--------",
    };
    line(["begin", "screen", "end", "cue", "number", "count", "writing"])
        + &line(["---", "-", "---", cue, "---", "--", "-"])
        + &rows.iter().map(row).collect::<String>()
        + &line([""; 7])
}

/// A sheet on a page that is longer by some bytes, which stay.
fn written(form: Form, plan: &[u8], answers: &[u8], more: usize) -> String {
    let length = Plan::of(form, plan).unwrap().sheet_bytes();
    let mut page = vec![BEFORE; length + more];
    assert_eq!(sheet(form, plan, answers, &mut page), Ok(length));
    assert!(page[length..].iter().all(|&byte| byte == BEFORE));
    page.truncate(length);
    String::from_utf8(page).unwrap()
}

/// Expects a refusal that leaves the page as it was.
fn refused(form: Form, plan: &[u8], answers: &[u8], length: usize, wanted: Refusal) {
    let mut page = vec![BEFORE; length];
    assert_eq!(sheet(form, plan, answers, &mut page), Err(wanted));
    assert!(page.iter().all(|&byte| byte == BEFORE));
}

/// The form and the answers of a sheet, from its columns alone.
fn read_back(page: &str) -> (Form, Vec<u8>) {
    let lines: Vec<&str> = page.lines().collect();
    let [_, rule, reads @ .., _] = &lines[..] else {
        panic!("a sheet has three lines or more");
    };
    let form = if rule.as_bytes()[34] == b'-' { Form::Two } else { Form::One };
    let answer = |line: &&str| {
        let number = |columns: std::ops::Range<usize>| line[columns].trim_start().parse().unwrap();
        let (begin, screen, cue) = (number(4..7), number(18..19), number(34..42));
        answer_bytes(form, [begin, screen, cue, number(51..54), number(64..66), 0])
    };
    (form, reads.iter().flat_map(answer).collect())
}

#[test]
fn sheets_of_the_examples() {
    let wanted = [
        (FIRST, vec![([0, 1, 2, 7, 0, 1], false)]),
        (TAKEOVER, vec![([3, 1, 5, 100, 1, 4], false)]),
        (RECOVERY, vec![([9, 1, 13, 100, 1, 4], false)]),
        (CONCURRENT, vec![([5, 1, 9, 101, 2, 4], true), ([5, 2, 9, 101, 2, 4], true)]),
        (JUST_SET, vec![([2, 1, 6, 100, 1, 4], false)]),
        (SIX_WRITES, vec![([11, 1, 13, 106, 6, 4], false)]),
    ];
    for form in Form::ALL {
        for (example, rows) in &wanted {
            let plan = in_form(form, example);
            for more in [0, 1, 200] {
                assert_eq!(written(form, &plan, &played(form, &plan), more), page(form, rows));
            }
        }
    }
}

#[test]
fn by_the_plan() {
    let plan = Plan::of(Form::One, CONCURRENT).unwrap();
    let answers = played(Form::One, CONCURRENT);
    let mut page = vec![BEFORE; plan.sheet_bytes()];
    assert_eq!(plan.sheet(&answers, &mut page), Ok(5 * LINE_BYTES));
    assert_eq!(page, written(Form::One, CONCURRENT, &answers, 0).as_bytes());
    assert_eq!(plan.sheet(&answers[1..], &mut page), Err(Refusal::AnswersLength));
}

/// takeover.plan, in which δ is 1 and the read lasts from 3 to 5, with its writes begun elsewhere.
#[test]
fn marks() {
    let writes = [((0, 6), false), ((2, 6), false), ((3, 6), true), ((0, 5), true), ((3, 5), true)];
    for form in Form::ALL {
        for ((first, second), marked) in writes {
            let plan = changed(form, TAKEOVER, |lists| {
                lists.operations[0] = first;
                lists.operations[6] = second;
            });
            let line = written(form, &plan, &played(form, &plan), 0);
            let mark = line.lines().nth(2).unwrap().as_bytes()[79];
            assert_eq!(mark, if marked { b'*' } else { b' ' }, "writes at {first} and {second}");
        }
    }
}

/// What Judge would say no to, and what no play gives, is printed too.
#[test]
fn other_answers() {
    for form in Form::ALL {
        let plan = in_form(form, CONCURRENT);
        for (cue, number, count) in
            [(0, 0, 0), (form.highest_value(), 255, 31), (10, 10, 10), (9, 99, 9)]
        {
            let second = [5, 2, 101, 2, 4, 0];
            let first = answer_bytes(form, [5, 1, cue, number, count, 0]);
            let answers = [first, answer_bytes(form, second)].concat();
            let rows = [([5, 1, 9, cue, number, count], true), ([5, 2, 9, 101, 2, 4], true)];
            let text = written(form, &plan, &answers, 0);
            assert_eq!(text, page(form, &rows));
            assert_eq!(read_back(&text), (form, answers));
        }
    }
}

#[test]
fn read_from_the_page() {
    for form in Form::ALL {
        for example in ACCEPTED {
            let plan = in_form(form, example);
            let answers = played(form, &plan);
            assert_eq!(read_back(&written(form, &plan, &answers, 0)), (form, answers));
        }
    }
}

#[test]
fn the_most_reads() {
    for form in Form::ALL {
        let plan = most_reads().build(form).unwrap();
        let answers = played(form, &plan);
        let text = written(form, &plan, &answers, 7);
        assert_eq!(text.len(), MOST_SHEET_BYTES);
        assert_eq!(text.lines().count(), MOST_READS + 3);
        assert!(text.lines().all(|line| line.len() == LINE_BYTES - 1));
        assert_eq!(read_back(&text), (form, answers));
    }
}

#[test]
fn no_reads() {
    for form in Form::ALL {
        let draft = Draft { operations: vec![], ..most_reads() };
        let plan = draft.build(form).unwrap();
        assert_eq!(written(form, &plan, &[], 0), page(form, &[]));
        refused(form, &plan, &[0], 0, Refusal::AnswersLength);
        refused(form, &plan, &[], 3 * LINE_BYTES - 1, Refusal::PageShort);
    }
}

#[test]
fn each_refusal() {
    for form in Form::ALL {
        for (plan, wanted) in refused_plans(form).iter().zip(Refusal::ALL) {
            for length in [0, MOST_SHEET_BYTES] {
                refused(form, plan, &[], length, wanted);
                refused(form, plan, &played(form, &in_form(form, TAKEOVER)), length, wanted);
            }
        }
        let plan = in_form(form, TAKEOVER);
        let right = played(form, &plan);
        // The answers come before a page that is too short.
        for length in [0, MOST_SHEET_BYTES] {
            for answers in [&right[..right.len() - 1], &[&right[..], &[0]].concat(), &[]] {
                refused(form, &plan, answers, length, Refusal::AnswersLength);
            }
            // A bit of begin, of the reader, and the zero bit.
            for bit in [0, 6, 7, 9, 8 * right.len() - 1] {
                refused(form, &plan, &flipped(&right, bit), length, Refusal::OtherRead);
            }
        }
        for length in [0, 1, LINE_BYTES, 4 * LINE_BYTES - 1] {
            refused(form, &plan, &right, length, Refusal::PageShort);
        }
    }
}

/// The sheets that the document shows; there no line ends in spaces.
#[test]
fn the_document() {
    let wide = Draft {
        servers: 1,
        faulty: 0,
        delta: 1,
        period: 1,
        readers: 1,
        ticks: 4,
        initial: 7,
        placements: vec![vec![]; 4],
        operations: vec![
            Operation::Write { tick: 0, value: 70_000 },
            Operation::Read { tick: 1, reader: 1 },
        ],
        delay: 1,
        ..Draft::default()
    };
    let wide = wide.build(Form::Two).unwrap();
    for (form, plan) in [(Form::One, CONCURRENT), (Form::Two, &wide)] {
        let text = written(form, plan, &played(form, plan), 0);
        let shown: Vec<String> =
            text.trim_end().lines().map(|line| format!("    {}\n", line.trim_end())).collect();
        assert!(DOCUMENT.contains(&shown.concat()), "docs/SHEET.md has no\n{}", shown.concat());
    }
}
