//! Sizes that a caller needs beforehand, beside those of a [`Form`](crate::Form). The tests compare
//! them with the library's own numbers.

/// Bytes of workspace that [`play`](crate::play) and [`look`](crate::look) ask for.
pub const WORKSPACE_BYTES: usize = 60_000;

/// The most stamped values that a server keeps.
pub const DEPTH: usize = 5;

/// Bytes of one stamped value that [`look_into`](crate::look_into) writes, in either form.
pub const PAIR_BYTES: usize = 4;

/// Bytes of all stamped values that a server keeps, at most.
pub const PAIRS_BYTES: usize = DEPTH * PAIR_BYTES;

/// Bytes of a plan worth reading: one more than any header in range implies in either form. What
/// follows them changes nothing, as the plan is refused for its header or its length by then.
pub const LONGEST_INPUT: usize = 35_718;

/// The most reads of an accepted plan, in either form.
pub const MOST_READS: usize = 168;

/// How many numbers a forecast has: those that [`forecast_into`](crate::forecast_into) writes.
pub const FORECAST_NUMBERS: usize = 6;

/// Bytes of one line of a sheet, its line feed among them.
pub const LINE_BYTES: usize = 81;

/// Lines of a sheet beside those of the reads: the heading, the rule and the empty line at the end.
pub(crate) const OTHER_LINES: usize = 3;

/// Bytes of the longest sheet, in either form.
pub const MOST_SHEET_BYTES: usize = LINE_BYTES * (MOST_READS + OTHER_LINES);

/// The most servers, readers and ticks of an accepted plan.
pub(crate) const MOST_SERVERS: usize = 16;
pub(crate) const MOST_READERS: usize = 4;
pub(crate) const MOST_TICKS: usize = 128;

#[cfg(test)]
mod tests {
    use super::*;
    use crate::Form;

    extern "C" {
        fn register_most_bytes(form: usize) -> usize;
        fn register_most_reads() -> usize;
        fn register_answer_bytes(form: usize) -> usize;
        fn register_workspace_bytes() -> usize;
    }

    const C_HEADER: &str = include_str!("../../c/register.h");

    /// The number that the C header defines under a name.
    fn defined(name: &str) -> usize {
        let definition = format!("#define {name} ");
        let line = C_HEADER.lines().find_map(|line| line.strip_prefix(&definition));
        line.expect(name).trim().parse().expect(name)
    }

    #[test]
    fn as_in_the_library() {
        // SAFETY: they take at most a number and return a number.
        unsafe {
            for form in Form::ALL {
                assert_eq!(form.longest_plan(), register_most_bytes(form.number()));
                assert_eq!(form.answer_bytes(), register_answer_bytes(form.number()));
            }
            for unknown in [0, 3, usize::MAX] {
                assert_eq!((register_most_bytes(unknown), register_answer_bytes(unknown)), (0, 0));
            }
            assert_eq!(MOST_READS, register_most_reads());
            assert_eq!(WORKSPACE_BYTES, register_workspace_bytes());
        }
    }

    #[test]
    fn as_in_the_c_header() {
        for (form, name) in [(Form::One, "ONE"), (Form::Two, "TWO")] {
            assert_eq!(form.number(), defined(&format!("REGISTER_FORM_{name}")));
            assert_eq!(form.longest_plan(), defined(&format!("REGISTER_LONGEST_PLAN_{name}")));
            assert_eq!(form.answer_bytes(), defined(&format!("REGISTER_ANSWER_{name}")));
        }
        assert_eq!(LONGEST_INPUT, defined("REGISTER_LONGEST_INPUT"));
        assert_eq!(MOST_READS, defined("REGISTER_MOST_READS"));
        assert_eq!(WORKSPACE_BYTES, defined("REGISTER_WORKSPACE"));
        assert_eq!(DEPTH, defined("REGISTER_DEPTH"));
        assert_eq!(PAIR_BYTES, defined("REGISTER_PAIR"));
        assert_eq!(PAIRS_BYTES, defined("REGISTER_PAIRS"));
        assert_eq!(FORECAST_NUMBERS, defined("REGISTER_FORECAST"));
        assert_eq!(LINE_BYTES, defined("REGISTER_LINE"));
        assert_eq!(MOST_SHEET_BYTES, defined("REGISTER_MOST_SHEET"));
    }

    #[test]
    fn no_header_implies_more() {
        let (moves, operations, forgeries) = (MOST_TICKS, 255, 1024);
        let parties = MOST_SERVERS + 1 + MOST_READERS;
        let delays = MOST_TICKS * parties * parties;
        // In form two, which has the wider values.
        let bits = 72 + 16 * moves + 34 * operations + 48 * forgeries + 4 * delays;
        assert_eq!(LONGEST_INPUT, usize::div_ceil(bits, 8) + 1);
    }
}
