#!/usr/bin/env python3
"""make_packs.py ORACLE FOLDER

Writes the lists that the program `packs` packs and what it has to print, as the rehearsal program of
other authorship in the folder ORACLE says it:

  FOLDER/data/lists  a row of cases: how many numbers each of the five lists has, the length of the
                     buffer, the form, then the lists.  A number below 255 is one byte; any other is four,
                     big-endian, behind a byte of 255.
  FOLDER/stdout      a line for each case: `bytes N` or `refused N`; `kept` or `changed` for the bytes
                     behind the plan, on a refusal for the whole buffer, which holds 165 before; the
                     plan's bytes as hexadecimal digits, of more than 300 a check sum (`shown` in oracle.py).

The same oracle gives the same bytes."""

import collections
import itertools
import os
import random
import sys

sys.dont_write_bytecode = True

from oracle import FORM_TWO, LARGEST, Oracle, lent, write

MOST_SERVERS = 6
SMALL_BYTES = 115
# There are no such forms; the low bits of some name one.
NO_FORMS = 0, 3, 255, 256, 257, 258, 65_537, 65_538, 2 ** 31 + 1, LARGEST
# One more than the most servers, readers, ticks and forgeries, with their places in the header.
BEYOND = (0, 17), (4, 5), (5, 129), (8, 1025)
HEADER, PLACEMENTS, OPERATIONS, FORGERIES, _ = PARTS = range(5)


def small_plans(oracle, plans, count):
    """So many of the accepted plans that are small."""
    return list(itertools.islice((plan for plan in plans if is_small(oracle, plan)), count))


def is_small(oracle, plan):
    return (len(plan) <= SMALL_BYTES and not oracle.is_refused(oracle.check(plan))
            and oracle.header(plan).n <= MOST_SERVERS)


def plans_of_form_one(oracle):
    """The vectors, then generated ones."""
    yield from (plan for _, plan in oracle.vectors())
    for seed in itertools.count(800_000):
        yield oracle.generate.generate(seed, small=True)


def plans_of_form_two(oracle):
    for index in itertools.count():
        yield oracle.generate02.generate(800_000, "two", index)[1]


def built_plans(oracle):
    """Accepted plans with several records in each part, to be bent."""
    highest = oracle.highest_value
    yield oracle.built(n=5, f=1, delta=1, Delta=2, s=1, H=4, start=7, held=[[4], [1]],
                       ops=[(0, 0, 9), (1, 1, 0)],
                       forge=[(0, 4, 2, 5, 1), (1, 4, 3, highest, 255), (2, 1, 6, 9, 1)])
    yield oracle.built(n=6, f=1, delta=1, Delta=1, s=1, H=4, start=highest, held=[[3], [3], [3], [3]],
                       ops=[(0, 0, 300), (1, 1, 0), (2, 0, 8)],
                       forge=[(1, 3, 7, 0, 0), (1, 3, 7, 0, 1), (2, 3, 7, 1, 2)])
    yield oracle.built(n=5, f=1, delta=2, Delta=4, s=2, H=7, start=0, held=[[2], [3]], delay=2,
                       ops=[(0, 0, 1), (0, 1, 0), (1, 2, 0), (3, 0, 2)],
                       forge=[(0, 2, 6, 1, 1), (3, 2, 7, 2, 2), (4, 3, 4, 3, 3)])


def replaced(numbers, at, value):
    return numbers[:at] + [value] + numbers[at + 1:]


def other_numbers(lists, number, width):
    """Numbers near a number and at the ends of ranges, of more bits than form one has for a value, and some
    that are much too wide for the field."""
    n, _, _, _, readers, ticks = lists[HEADER][:6]
    near = {0, number // 2, number - 1, number + 1, (1 << width) - 1}
    near |= {1 << bits for bits in range(16, width)}
    if width < 16:
        near |= {end + more for end in (n, readers, n + readers, ticks) for more in (0, 1)}
    fit = {other for other in near if 0 <= other < 1 << width}
    return [*sorted(fit), number | 1 << 31, LARGEST]


def with_a_number_changed(lists, numbers, widths):
    """Each field of the first, the second and the last record."""
    records = len(numbers) // len(widths)
    for record in sorted({0, min(1, records - 1), records - 1}):
        for place, width in enumerate(widths):
            at = record * len(widths) + place
            for value in other_numbers(lists, numbers[at], width):
                yield replaced(numbers, at, value)


def with_one_bit_more(numbers, widths):
    """Any number a bit too wide; of many numbers the first and the last ones."""
    for at in sorted({*range(len(numbers))[:20], *range(len(numbers))[-20:]}):
        yield replaced(numbers, at, numbers[at] | 1 << widths[at % len(widths)])


def with_records_moved(numbers, widths):
    """Two neighbours exchanged, one twice, the first one last."""
    size = len(widths)
    if len(numbers) >= 2 * size:
        first, second, rest = numbers[:size], numbers[size:2 * size], numbers[2 * size:]
        yield from (second + first + rest, first + first + rest, second + rest + first)


def with_another_length(numbers, widths):
    """A number or a record less or more, and no numbers."""
    size = len(widths)
    yield from (numbers[:-1], numbers + [0], numbers[:-size], numbers + numbers[-size:], [])


def faults(oracle, lists, part):
    """The list of a part with something changed, each once; some are right ones."""
    numbers, widths = lists[part], oracle.widths[part]
    found = itertools.chain(with_a_number_changed(lists, numbers, widths), with_one_bit_more(numbers, widths),
                            with_records_moved(numbers, widths), with_another_length(numbers, widths))
    return [list(bent) for bent in dict.fromkeys(map(tuple, found)) if list(bent) != numbers]


class Cases:
    """The cases of one form."""

    def __init__(self, oracle):
        self.oracle, self.rng = oracle, random.Random(1)
        self.packed, self.lines = bytearray(), []

    def add(self, lists, room):
        for number in [*map(len, lists), room, self.oracle.number, *itertools.chain(*lists)]:
            self.packed += bytes([number]) if number < 255 else b"\xff" + number.to_bytes(4, "big")
        buffer = lent(room)
        self.lines.append(self.oracle.written(self.oracle.pack(lists, buffer), buffer))

    def some_room(self, plan):
        """Most often enough."""
        return self.rng.choice([len(plan)] * 5 + [len(plan) + 9, len(plan) - 1, 0])

    def accepted(self, plan):
        for room in (len(plan), len(plan) + self.rng.randrange(1, 100), len(plan) - 1, 0):
            self.add(self.oracle.lists(plan), room)

    def too_few_servers(self, plan):
        """More of them may be faulty than so many servers bear."""
        lists = self.oracle.lists(plan)
        self.add(replaced(lists, HEADER, replaced(lists[HEADER], 1, 3)), self.some_room(plan))

    def beyond_limits(self, plan):
        """A number of the header beyond all plans."""
        lists = self.oracle.lists(plan)
        for at, value in BEYOND:
            self.add(replaced(lists, HEADER, replaced(lists[HEADER], at, value)), len(plan))

    def one_fault(self, plan, part):
        lists = self.oracle.lists(plan)
        for bent in faults(self.oracle, lists, part):
            self.add(replaced(lists, part, bent), self.some_room(plan))

    def more_faults(self, plan):
        """Faults in two parts at once, for each two, and in all."""
        lists = self.oracle.lists(plan)
        for parts in [*itertools.combinations(PARTS, 2), PARTS]:
            bent = list(lists)
            for part in parts:
                bent[part] = self.rng.choice(faults(self.oracle, lists, part))
            self.add(bent, self.some_room(plan))

    def bent_by_oracle(self, plan):
        self.add(self.oracle.bent_lists(self.rng, plan), self.some_room(plan))

    def longest(self):
        plan = self.oracle.longest()
        self.add(self.oracle.lists(plan), len(plan))


def cases_of(oracle, plans, bent, times):
    """Of small plans, and of the built ones: `bent` says of which of them which parts are bent one by one."""
    cases, built = Cases(oracle), list(built_plans(oracle))
    for plan in plans + built:
        cases.accepted(plan)
        cases.bent_by_oracle(plan)
    for plan in plans[::3]:
        cases.too_few_servers(plan)
    for which, parts in bent.items():
        for part in parts:
            cases.one_fault(built[which], part)
    cases.beyond_limits(built[0])
    for plan in times * built:
        cases.more_faults(plan)
    cases.add([[]] * 5, 0)
    cases.longest()
    return cases


def cases_of_form_one(oracle):
    plans = small_plans(oracle, plans_of_form_one(oracle), 120)
    return cases_of(oracle, plans, bent={0: PARTS, 1: (PLACEMENTS, OPERATIONS, FORGERIES)}, times=3)


def cases_of_form_two(oracle):
    """Fewer, and most where values stand."""
    plans = small_plans(oracle, plans_of_form_two(oracle), 30)
    return cases_of(oracle, plans, bent={0: (HEADER, OPERATIONS, FORGERIES)}, times=1)


def cases_of_no_form(oracle, plans):
    """Right lists, and lists with everything wrong."""
    cases = Cases(oracle)
    for lists, length in plans:
        cases.add(lists, length)
        cases.add(lists, 0)
    cases.add([[]] * 5, 0)
    cases.add([[LARGEST]] * 5, 1)
    return cases


def kind(line):
    """How a case came out, in short."""
    return " ".join(line.split()[:2 if line.startswith("refused") else 1])


def main(argv):
    if len(argv) != 2:
        sys.stderr.write(__doc__)
        return 2
    source, folder = argv
    one, two = Oracle(source), Oracle(source, FORM_TWO)
    plan = next(built_plans(one))
    right = [(one.lists(plan), len(plan)), (one.lists(plan), len(one.carry(plan)))]
    groups = {"one": [cases_of_form_one(one)], "two": [cases_of_form_two(two)],
              "other": [cases_of_no_form(Oracle(source, number), right) for number in NO_FORMS]}
    every = list(itertools.chain(*groups.values()))
    os.makedirs(os.path.join(folder, "data"), exist_ok=True)
    packed = b"".join(cases.packed for cases in every)
    lines = list(itertools.chain(*(cases.lines for cases in every)))
    write(packed, folder, "data", "lists")
    write("".join(f"{line}\n" for line in lines).encode(), folder, "stdout")
    print(f"{len(lines)} cases, {len(packed)} bytes")
    for form, cases in groups.items():
        counts = collections.Counter(kind(line) for group in cases for line in group.lines)
        print(f"form {form}: {sum(counts.values())} cases;", ", ".join(f"{what}: {count}" for what, count in sorted(counts.items())))
    return 0


if __name__ == "__main__":
    sys.exit(main(sys.argv[1:]))
