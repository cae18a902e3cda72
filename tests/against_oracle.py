#!/usr/bin/env python3
"""against_oracle.py FOLDER [--plans N] [--seed S]

Compares the proved library, through its Rust wrapper (tests/requests), and the program `simulate` with
the rehearsal program of other authorship in FOLDER, in both forms: on its vectors and on N plans of each
form that it generates (2,000 if not said), six for each seed from S on (0 if not said).  In form one they
are small or not, damaged or not, and two have reads that begin around the ends of writes.  In form two
three have values of up to 24 bits and such reads, two are damaged, and one has the fields of a plan of
form one, as the vectors have there.

For each plan: Check and the header's numbers; Forecast, with room for all its numbers, for fewer and for
more; the text that the program prints (of form one), also as the wrapper decodes the answers; Play with
lent bytes of several lengths; Looks in and out of range, with pair buffers of every length, one of them
after the last tick, and of a small plan every Look; Judge and Sheet of right, altered and malformed
answers, the sheets on pages of several lengths, where the other program says the refusals and the facts
of each read, sheet.py makes the page of them, and the answers have to be read back from it; Pack of the
plan's lists, right and bent, into buffers of several lengths, where the lists of an accepted plan have to
give its bytes and these the lists again; the plan carried to the other form, into buffers of several
lengths, and with a value that form one has no room for.  A carried plan has to be accepted with the same
numbers and get the same answers, and carried back it has to be the same bytes.  Every plan is also handed
in under the other form, as it is and with the length that its header implies there, and its lists are
packed there.  Results and every lent byte are compared.

Builds what it needs with `rt` and `cargo`; LIB_DIR names a folder with another libcapi.a to compare.
Prints what differs, then a line with the counts for each form; the exit status is 1 if anything differs.
The forms run side by side."""

import argparse
import concurrent.futures
import itertools
import os
import random
import subprocess
import sys

sys.dont_write_bytecode = True

import sheet
from asked import PAIR, REQUESTS, TOP, WORKSPACE, WORKSPACES, Asked
from oracle import DEPTH, Oracle

FORM_ONE, FORM_TWO = FORMS = 1, 2
# Plans that are generated from a seed, in each form.
KINDS = 6
ANSWER_SIZES = 5, 6
PAIR_BUFFERS = range(DEPTH * PAIR + 3)
FAR = (2 ** 32, 2 ** 64 - 1)
FORECAST_NUMBERS = 6
# The highest value that a plan can be carried back with.
NARROW = 2 ** 16 - 1
# Servers times ticks of a plan that is looked at everywhere, at most: all that are generated small.
LOOKED_AT = 16 * 24
COMPARED = "Check", "Forecast", "Play", "Look", "Judge", "Sheet", "text printed", "text decoded", "Pack", "Carry", "there and back"


class Comparison(Asked):
    """What is asked about each plan."""

    def __init__(self, oracle, seed):
        super().__init__(oracle)
        self.rng = random.Random(seed)

    def all_about(self, name, plan):
        accepted = self.about(name, plan)
        self.counts["accepted" if accepted else "refused"] += 1
        self.text(name, plan)
        self.about_lists(name, plan, accepted)

    def of_the_other_form(self, name, plan, lists):
        """A plan of the other form with its lists, handed in under this one."""
        self.counts["of the other form"] += 1
        fitted = self.oracle.fitted(plan)
        for handed_in in [plan] if fitted in (None, plan) else [plan, fitted]:
            self.counts["of the other form accepted"] += self.about(name, handed_in)
        if lists is not None:
            self.pack(name, lists, len(plan) * self.rng.choice([1, 2]))

    def about(self, name, plan):
        """Whether the plan is accepted."""
        self.check(name, plan)
        fewer, more = self.rng.randrange(FORECAST_NUMBERS), self.rng.randrange(FORECAST_NUMBERS + 1, 20)
        self.forecast(name, plan, [FORECAST_NUMBERS, fewer, more])
        reads = self.oracle.check(plan)
        refused = self.oracle.is_refused(reads)
        if refused:
            self.about_refused(name, plan)
        else:
            self.about_accepted(name, plan, reads)
        self.about_carrying(name, plan)
        return not refused

    def about_refused(self, name, plan):
        rng = self.rng
        self.play(name, plan, rng.choice([0, 1, 300]), rng.choice(WORKSPACES))
        self.look(name, plan, rng.choice(WORKSPACES), rng.randrange(20), rng.randrange(140), [rng.choice(PAIR_BUFFERS)])
        answers = bytes(rng.randrange(256) for _ in range(rng.randrange(12)))
        self.judge(name, plan, answers)
        self.sheet(name, plan, answers, rng.choice([0, sheet.size(0), sheet.size(3), sheet.MOST]))

    def about_accepted(self, name, plan, reads):
        rng, header = self.rng, self.oracle.header(plan)
        exact, in_a_form = self.oracle.answer_bytes * reads, rng.choice(ANSWER_SIZES) * reads
        answers = self.play(name, plan, exact, WORKSPACE)
        self.play(name, plan, rng.choice([exact, exact + 7, max(0, exact - 1), 0, in_a_form]), rng.choice(WORKSPACES))
        self.look(name, plan, WORKSPACE, rng.randrange(header.n), rng.randrange(header.H), PAIR_BUFFERS)
        out_of_range = rng.choice([(header.n, 0), (0, header.H), (header.n - 1, rng.choice(FAR)), (rng.choice(FAR), header.H - 1)])
        self.look(name, plan, rng.choice(WORKSPACES), *out_of_range, [rng.choice(PAIR_BUFFERS)])
        self.look(name, plan, WORKSPACE, rng.randrange(header.n), header.H - 1, [DEPTH * PAIR])
        if header.n * header.H <= LOOKED_AT:
            self.every_look(name, plan)
        self.judge(name, plan, answers)
        self.sheets(name, plan, answers)
        malformed = [answers[:-1], answers + b"\0", answers + bytes(self.oracle.answer_bytes), b"", bytes(in_a_form)]
        self.judged_and_printed(name, plan, rng.choice(malformed), reads)
        for _ in range(6 if reads else 0):
            self.judged_and_printed(name, plan, self.altered(plan, answers), reads)

    def sheets(self, name, plan, answers):
        """Of Play's answers, which are also the facts that the other program has of them."""
        exact = sheet.size(len(answers) // self.oracle.answer_bytes)
        self.compare(f"{name}, the facts", self.oracle.rows(plan, answers), self.oracle.facts(plan))
        for length in (exact, exact + self.rng.randrange(1, 200), exact - 1, 0):
            self.sheet(name, plan, answers, length)

    def judged_and_printed(self, name, plan, answers, reads):
        exact = sheet.size(reads)
        self.judge(name, plan, answers)
        self.sheet(name, plan, answers, self.rng.choice([exact, exact, exact, exact + 50, exact - 1, 0]))

    def altered(self, plan, answers):
        """Answers with one field of one of them altered, most often to something near."""
        rng, size, highest = self.rng, self.oracle.answer_bytes, self.oracle.highest_value
        count = len(answers) // size
        at = size * rng.choice([0, count - 1, rng.randrange(count)])
        begin, reader, value, number, named, zero = self.oracle.unpack_answer(answers[at:at + size])
        what = rng.randrange(8)
        if what < 4:
            pairs = self.oracle.pairs(plan)
            near = pairs[max(0, number - 1):number + 2]
            number, value = rng.choice(pairs if what < 2 else near)
        elif what == 4:
            value = rng.choice([value ^ 1, value ^ 1 << rng.randrange(highest.bit_length()), rng.randint(0, highest), highest])
        elif what == 5:
            number = rng.choice([number ^ 1, rng.randrange(256)])
        elif what == 6:
            named = rng.randrange(32)
        else:
            begin, reader, zero = rng.choice([(rng.randrange(128), reader, zero), (begin, rng.randrange(8), zero), (begin, reader, 1)])
        return answers[:at] + self.oracle.pack_answer(begin, reader, value, number, named, zero) + answers[at + size:]

    def about_lists(self, name, plan, accepted):
        lists = self.oracle.lists(plan)
        if lists is None:
            return
        packed = self.pack(name, lists, len(plan))
        if accepted:
            self.counts["packed again"] += 1
            self.compare(f"{name}, packed from its lists", packed, plan)
            self.compare(f"{name}, the lists of what is packed", self.oracle.lists(packed), lists)
            self.pack(name, lists, len(plan) + self.rng.randrange(1, 100))
            self.pack(name, lists, len(plan) - 1)
        for bent in [self.bent(lists), self.bent(lists), self.oracle.bent_lists(self.rng, plan)]:
            self.counts["bent"] += bent != lists
            self.pack(name, bent, len(plan) + self.rng.choice([0, 0, 0, -1, 9]))

    def bent(self, lists):
        """Lists with one thing changed: a number too wide or near, two records' order, or a length."""
        rng, which = self.rng, self.rng.randrange(5)
        bent, widths = [list(values) for values in lists], self.oracle.widths[which]
        values, way = bent[which], rng.choice(["wide", "near", "order", "length"])
        at = rng.choice([0, len(values) - 1, rng.randrange(len(values))]) if values else 0
        width = widths[at % len(widths)]
        if way == "wide" and values:
            values[at] = rng.choice([1 << width, values[at] | 1 << rng.randrange(width, 32), 2 ** 32 - 1])
        elif way == "near" and values:
            values[at] = max(0, values[at] + rng.choice([-1, 1]))
        elif way == "order" and len(values) > len(widths):
            first = at // len(widths) * len(widths)
            record = values[first:first + len(widths)]
            del values[first:first + len(widths)]
            values[:0] = record
        else:
            more = rng.choice([1, len(widths)])
            bent[which] = rng.choice([values + [0] * more, values[:-more], []])
        return bent

    def about_carrying(self, name, plan):
        rng, carried = self.rng, self.oracle.carry(plan, None)
        if self.oracle.is_refused(carried):
            for length in (0, rng.randrange(2 * len(plan) + 1)):
                self.carry(name, plan, length)
            return
        exact = len(carried)
        for length in (exact, exact + rng.randrange(1, 100), rng.choice([exact - 1, rng.randrange(exact)]), 0):
            self.carry(name, plan, length)
        self.there_and_back(name, plan)
        if self.oracle.highest_value > NARROW:
            self.carry_too_wide(name, plan, exact)

    def carry_too_wide(self, name, plan, exact):
        """A plan that can be carried back, with one value that can't."""
        rng, highest = self.rng, self.oracle.highest_value
        value = rng.choice([NARROW + 1, NARROW + 1, rng.randint(NARROW + 1, highest), highest])
        for wide in self.oracle.with_a_value(plan, value, rng.choice):
            self.carry(name, wide, rng.choice([exact, exact + 9, exact - 1, 0]))

    def summary(self):
        count = self.counts
        asked = ", ".join(f"{what} {count[what]}" for what in COMPARED)
        return (f"form {self.oracle.number}: {count['accepted'] + count['refused']} plans, {count['accepted']} accepted and "
                f"{count['refused']} refused, and {count['of the other form']} of the other form, "
                f"{count['of the other form accepted']} accepted; compared: {asked}; "
                f"every Look of {count['looked at everywhere']} plans, pairs shown {self.pairs_shown()}; Judge yes {count['Judge yes']}, no {count['Judge no']}; "
                f"refusals {self.refused('Check', 'Play', 'Look', 'Judge')}; "
                f"Forecast done {count['Forecast done']}, of {count['forecasts']} plans, {count['with a WRITE lost']} of them with a WRITE that is lost "
                f"and {count['with forgeries that arrive']} with forgeries that arrive, refusals {self.refused('Forecast')}; "
                f"Sheet done {count['Sheet done']}, with {count['lines']} reads, {count['marks']} of them marked, all read back, "
                f"refusals {self.refused('Sheet')}; "
                f"lists of {count['packed again']} accepted plans packed to their bytes and read again, {count['bent']} bent lists, "
                f"Pack done {count['Pack done']}, refusals {self.refused('Pack')}; "
                f"Carry done {count['Carry done']}, refusals {self.refused('Carry')}; "
                f"{self.different} different")


def generated_one(oracle, seed, kind):
    """A plan of form one, with its name."""
    if kind < 4:
        small, damage = kind < 2, kind % 2 == 1
        name = f"seed {seed}{' small' if small else ''}{' damaged' if damage else ''}"
        return name, oracle.generate.generate(seed, damage=damage, small=small)
    _, plan = oracle.generate02.generate(seed, "one", kind)
    return f"seed {seed} around the ends of writes, {kind}", plan


def generated_two(oracle, seed, kind):
    """A plan of form two, with its name."""
    if kind < 3:
        _, plan = oracle.generate02.generate(seed, "two", kind)
        return f"seed {seed} in form two, {kind}", plan
    if kind < 5:
        both_forms = (oracle.generate02.generate(seed, "damaged", index) for index in itertools.count())
        damaged = (plan for form, plan in both_forms if form == oracle.form)
        return f"seed {seed} in form two damaged, {kind}", next(itertools.islice(damaged, kind - 3, None))
    of_form_one = (generated_one(oracle, seed, which % KINDS) for which in itertools.count(seed))
    return next(with_the_fields(oracle, of_form_one))


def with_the_fields(oracle, named_plans):
    """Plans of form one with the same fields in form two, those that have the length that their header implies."""
    for name, plan in named_plans:
        fields = oracle.of_form_one(plan)
        if fields is not None:
            yield f"{name}, its fields", fields


def vectors(oracle):
    """The other program's own plans; in form two their fields, and a longest plan with the widest values."""
    if oracle.number == FORM_ONE:
        yield from oracle.vectors()
        yield "a plan of both forms", oracle.of_both_forms()
        return
    yield from with_the_fields(oracle, oracle.vectors())
    yield "a longest plan", oracle.longest()


def plans(oracle, count, seed):
    yield from vectors(oracle)
    generated = generated_one if oracle.number == FORM_ONE else generated_two
    for i in range(count):
        yield generated(oracle, seed + i // KINDS, i % KINDS)


def compared(folder, number, count, seed):
    """The counts of a form, and how many answers differ."""
    oracle, other = Oracle(folder, number), Oracle(folder, FORM_TWO if number == FORM_ONE else FORM_ONE)
    comparison = Comparison(oracle, seed)
    for name, plan in plans(oracle, count, seed):
        comparison.all_about(name, plan)
    for name, plan in plans(other, count, seed):
        comparison.of_the_other_form(f"{name}, of form {other.number}", plan, other.lists(plan))
    comparison.settle()
    return comparison.summary(), comparison.different


def build():
    """The library, what answers requests with it, and the program; what is built already is not built again."""
    commands = [["cargo", "build", "--quiet", "--release", "--offline", "--manifest-path", os.path.join(REQUESTS, "Cargo.toml")],
                [os.path.join("tools", "build"), "program"]]
    if not os.environ.get("LIB_DIR"):
        commands.insert(0, [os.path.join("tools", "build"), "library"])
    for command in commands:
        built = subprocess.run(command, cwd=TOP, stdout=subprocess.PIPE, stderr=subprocess.STDOUT)
        if built.returncode != 0:
            sys.exit(f"{' '.join(command)}:\n{built.stdout.decode()}")


def main():
    first, rest = __doc__.split("\n\n", 1)
    parser = argparse.ArgumentParser(usage=first, description=rest, formatter_class=argparse.RawDescriptionHelpFormatter)
    parser.add_argument("folder", help="the other program's folder, with oracle02.py, generate02.py and vectors/")
    parser.add_argument("--plans", type=int, default=2_000)
    parser.add_argument("--seed", type=int, default=0)
    arguments = parser.parse_args()
    if not os.path.isfile(os.path.join(arguments.folder, "oracle02.py")):
        parser.error(f"{arguments.folder} has no oracle02.py")
    build()
    with concurrent.futures.ProcessPoolExecutor(len(FORMS)) as pool:
        runs = [pool.submit(compared, arguments.folder, form, arguments.plans, arguments.seed) for form in FORMS]
        results = [run.result() for run in runs]
    for summary, _ in results:
        print(summary)
    return 1 if any(different for _, different in results) else 0


if __name__ == "__main__":
    sys.exit(main())
