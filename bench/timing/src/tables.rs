//! The tables that are printed, in microseconds for one call.

use register::Form;

use crate::measure::Times;
use crate::operations::{Operation, Program, IN_A_FORM, IN_BOTH_FORMS, PROGRAMS};
use crate::turns::Row;

fn microseconds(times: Times) -> String {
    let median = times.median / 1000.0;
    if median < 10.0 {
        format!("{median:.2}")
    } else {
        format!("{median:.1}")
    }
}

fn ratio(times: Times, to: Times) -> String {
    format!("{:.2}", times.median / to.median)
}

impl Row<'_> {
    /// Times that must have been measured.
    fn taken(&self, program: Program, operation: Operation, form: Form) -> Times {
        self.times(program, operation, form).expect("samples were taken")
    }

    /// The cells of the three in form one, a dash for a program without the operation.
    fn cells(&self, operation: Operation, cell: impl Fn(Times) -> String) -> [String; 3] {
        let times = PROGRAMS.map(|program| self.times(program, operation, Form::One));
        times.map(|times| times.map_or("-".to_string(), &cell))
    }

    /// The library's time of an operation, the plain program's, and the ratio of the two.
    fn beside_plain(&self, operation: Operation, form: Form) -> [String; 3] {
        let [library, plain] = IN_BOTH_FORMS.map(|program| self.taken(program, operation, form));
        [microseconds(library), microseconds(plain), ratio(library, plain)]
    }
}

pub fn print_operations(rows: &[Row], rounds: usize) {
    println!("Form one. Time of one call in microseconds: the median of {rounds} samples, the three in turn; 128 ticks where none are named.");
    println!("Spread: the middle half of the samples, in hundredths of the median.\n");
    println!("| plan | bytes | operation | library | plain | rival | library/plain | library/rival | spread |");
    println!("|---|---:|---|---:|---:|---:|---:|---:|---:|");
    for row in rows {
        for operation in IN_A_FORM {
            let library = row.taken(Program::Library, operation, Form::One);
            let [_, to_plain, to_rival] = row.cells(operation, |other| ratio(library, other));
            println!(
                "| {} | {} | {operation:?} | {} | {to_plain} | {to_rival} | {} |",
                row.name,
                row.bytes(Form::One),
                row.cells(operation, microseconds).join(" | "),
                row.cells(operation, |times| format!("{:.0}", times.spread())).join(" / "),
            );
        }
    }
}

pub fn print_growth(rows: &[Row]) {
    println!("\nGrowth, from 16 servers (f=3, δ=4, Δ=6), 2 readers, 128 ticks, 512 forgeries: library / plain / rival in microseconds.\n");
    println!("| changed | {} |", IN_A_FORM.map(|operation| format!("{operation:?}")).join(" | "));
    println!("|---|{}", "---:|".repeat(IN_A_FORM.len()));
    for row in rows {
        let cells = IN_A_FORM.map(|operation| row.cells(operation, microseconds).join(" / "));
        println!("| {} | {} |", row.name, cells.join(" | "));
    }
}

pub fn print_sheet(rows: &[Row]) {
    println!("\nThe library's Sheet beside its Judge of the same answers, in microseconds. Both make the tests of Check and of the answers.\n");
    print_beside(rows, Operation::Sheet, Operation::Judge);
}

pub fn print_pack(rows: &[Row]) {
    println!("\nThe library's Pack beside its Check of the same plan, in microseconds. Pack makes the tests of Check too.\n");
    print_beside(rows, Operation::Pack, Operation::Check);
}

fn print_beside(rows: &[Row], operation: Operation, other: Operation) {
    println!("| plan | bytes | {operation:?} | {other:?} | {operation:?}/{other:?} |");
    println!("|---|---:|---:|---:|---:|");
    for row in rows {
        let [time, beside] =
            [operation, other].map(|operation| row.taken(Program::Library, operation, Form::One));
        println!(
            "| {} | {} | {} | {} | {} |",
            row.name,
            row.bytes(Form::One),
            microseconds(time),
            microseconds(beside),
            ratio(time, beside),
        );
    }
}

pub fn print_form_two(rows: &[Row]) {
    println!("\nForm two, the same shapes with values of 24 bits, in microseconds; two/one is the time beside that in form one, both forms in turn.\n");
    println!(
        "| plan | bytes | operation | library | plain | library/plain | two/one: library | plain |"
    );
    println!("|---|---:|---|---:|---:|---:|---:|---:|");
    for row in rows {
        for operation in IN_A_FORM {
            let two_to_one = IN_BOTH_FORMS.map(|program| {
                let [one, two] = Form::ALL.map(|form| row.taken(program, operation, form));
                ratio(two, one)
            });
            println!(
                "| {} | {} | {operation:?} | {} | {} |",
                row.name,
                row.bytes(Form::Two),
                row.beside_plain(operation, Form::Two).join(" | "),
                two_to_one.join(" | "),
            );
        }
    }
}

pub fn print_forecast(rows: &[Row]) {
    println!("\nForecast beside the library's Check of the same plan, in microseconds, both in turn. Forecast makes the tests of Check too.\n");
    print_beside_check(rows, Operation::Forecast, ("form", ["one", "two"]));
}

pub fn print_carry(rows: &[Row]) {
    println!("\nA plan carried to form two, and back from there, beside the library's Check of the same plan, in microseconds. To carry makes the tests of Check too.\n");
    print_beside_check(rows, Operation::Carry, ("to", ["two", "one"]));
}

/// Two lines for each row, a plan of each form; the column says which is which.
fn print_beside_check(rows: &[Row], operation: Operation, (column, said): (&str, [&str; 2])) {
    println!("| plan | bytes | {column} | library | plain | library/plain | Check | {operation:?}/Check |");
    println!("|---|---:|---|---:|---:|---:|---:|---:|");
    for row in rows {
        for (form, said) in Form::ALL.into_iter().zip(said) {
            let [time, check] = [operation, Operation::Check]
                .map(|operation| row.taken(Program::Library, operation, form));
            println!(
                "| {} | {} | {said} | {} | {} | {} |",
                row.name,
                row.bytes(form),
                row.beside_plain(operation, form).join(" | "),
                microseconds(check),
                ratio(time, check),
            );
        }
    }
}
