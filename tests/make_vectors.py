#!/usr/bin/env python3
"""make_vectors.py ORACLE FOLDER

Writes the plans and requests of the program `vectors` and what it has to print, as the rehearsal
program of other authorship in the folder ORACLE says it:

  FOLDER/data/plans  for each plan its form in 6 bytes, its length in 4 and the number of its requests
                     in 2, then the plan and the requests, of 13 bytes each, a letter and its numbers,
                     big-endian:
                       p  answer bytes lent (4 bytes), workspace bytes lent (4), nothing (4)
                       l  workspace bytes lent (4), server (4), tick (4)
                       j  length of the answers (4), which of them is replaced (2), its bytes (6; in form
                          one the last is nothing)
                       c  plan bytes lent (4), nothing (8)
                       s  page bytes lent (2), then as for j: length of the answers (2), which of them is
                          replaced (2), its bytes (6)
                     Lent bytes hold 165; answers beyond Play's are zeros.
  FOLDER/stdout      for each plan a line `plan I in form N` (I counted from 0); a line `check reads N` or
                     `check refused N`; a line `forecast` with six numbers, bytes of answers, moves, WRITE
                     messages, READ messages, votes on receipt of a WRITE, the most forgeries that arrive in
                     one tick, or `forecast refused N`; in form one the program's text; for an accepted plan
                     the line `answers` with each answer as a number, and if it has at most 120 servers times
                     ticks a line `look` for each tick and server: tick, server, condition (0 faulty,
                     1 cured, 2 correct), then value and number of each stamped value kept, highest first.
                     Then a line for each request:
                       play   `reads N` or `refused N`; `kept` or `changed` for answers and workspace
                       look   what is seen or `refused N`; `kept` or `changed` for workspace and pairs
                       judge  `yes`, `no` or `refused N`
                       carry  `bytes N` or `refused N`; `kept` or `changed` for the bytes behind the carried
                              plan, on a refusal for the whole buffer; the plan's bytes as hexadecimal
                              digits, of more than 300 a check sum (`shown` in oracle.py)
                       sheet  `refused N` and `kept` or `changed` for the whole page; or `bytes N`, then the
                              lines of the sheet as they stand on the page, then a line with `kept` or
                              `changed` for the bytes behind them

The same oracle gives the same bytes."""

import collections
import itertools
import os
import random
import struct
import sys

sys.dont_write_bytecode = True

import sheet
from oracle import DEPTH, FORM_ONE, FORM_TWO, Oracle, kept, lent, write

LOOKED_AT = 120
SMALL_BYTES = 2_500
CARRIED_BYTES = 9_000       # of the vectors that are also asked in form two
FEW_BYTES = 300             # of those that are asked in the wrong form
LONG_BYTES = 100_000
ROOM = 36_000               # for any carried plan
BEYOND = 2 ** 16 - 1        # an answer that is not there: nothing is replaced
REPLACED = 6                # bytes of a request for an answer
SHEETS = 5                  # one plan in so many has sheets; so has each with reads around the end of a write, and with the most reads
MOST_READS = 168
SHEET_LINES = 24            # of the sheets that are also asked for with altered answers
# There are no such forms; the low bits of some name one.
NO_FORMS = 0, 3, 255, 256, 257, 258, 65_537, 65_538, 2 ** 32 + 1, 2 ** 32 + 2, 2 ** 48 - 1
# The start value and three that are written; in form two they differ only above the bits of form one.
VALUES = {FORM_ONE: (7, 9, 8, 6), FORM_TWO: (0x07_0009, 0x09_0009, 0x08_0009, 0x06_0009)}


def limits(oracle, longest):
    """Lengths at the ends, beside the longest plan."""
    header = oracle.form.header_bytes
    yield b""
    yield longest[:header - 1]
    yield longest[:header]
    yield longest[:-1]
    yield longest + bytes(LONG_BYTES - len(longest))


def damaged_at_the_end(longest):
    """Faults that only reading to the end finds."""
    for at, bits in ((len(longest) - 1, 0x01), (len(longest) - 1, 0x80), (len(longest) // 2, 0xFF)):
        plan = bytearray(longest)
        plan[at] ^= bits
        yield bytes(plan)


def some_of_each(oracle, plans, accepted, refused):
    """The small ones of these plans: so many accepted ones, and so many for each refusal."""
    seen = collections.Counter()
    for plan in plans:
        result = oracle.check(plan)
        number = result.number if oracle.is_refused(result) else 0
        if len(plan) <= SMALL_BYTES and seen[number] < (refused if number else accepted):
            seen[number] += 1
            yield plan


def generated_in_form_one(oracle):
    for seed in range(700_000, 700_900):
        for damage in (False, True):
            yield oracle.generate.generate(seed, damage=damage, small=True)


def generated_in_form_two(oracle):
    for index in range(900):
        for kind in ("two", "damaged"):
            form, plan = oracle.generate02.generate(700_000, kind, index)
            if form == oracle.form:
                yield plan


def at_the_last_byte(oracle):
    """Plans with 0, 2, 4 and 6 final bits: whole, with each final bit set, a byte short, a byte long."""
    for ticks, operations in ((4, []), (3, [(0, 1, 0)]), (3, []), (4, [(0, 1, 0)])):
        whole = oracle.built(H=ticks, ops=operations)
        yield whole
        for bit in range(8 * len(whole) - oracle.forms.implied_bits(oracle.form, oracle.header(whole))):
            yield whole[:-1] + bytes([whole[-1] | 1 << bit])
        yield whole[:-1]
        yield whole + bytes(1)


def around_a_write_end(oracle):
    """Reads that begin a tick before a write ends, in that tick and a tick after it, for both k; all delays
    are the longest, the values differ or are all one, and the faulty server forges an older pair."""
    start, *different = VALUES[oracle.number]
    for delta, period, n in ((2, 4, 5), (2, 3, 6), (1, 2, 5), (1, 1, 6)):
        writes = [i * (delta + 1) for i in range(3)]
        for values in (different, 3 * different[:1]):
            for begin in range(writes[1] + delta - 1, writes[1] + delta + 2):
                operations = [*((tick, 0, value) for tick, value in zip(writes, values)), (begin, 1, 0)]
                ticks, sender = begin + 2 * delta + 2, begin // period % n
                yield oracle.built(n=n, f=1, delta=delta, Delta=period, H=ticks, start=start, delay=delta,
                                   held=[[i % n] for i in range(ticks)], ops=operations,
                                   forge=[(begin, sender, n + 1, values[0], 1)])


def of_many_writes(oracle):
    """Around as many writes as a store keeps pairs: with one server, and for both k with another server taken
    over in each period, which the echoes bring all pairs again and which forges one that is dropped in time."""
    start, step = VALUES[oracle.number][0], 1 if oracle.number == FORM_ONE else 2 ** 16
    for delta, period, n, f in ((1, 63, 1, 0), (1, 2, 5, 1), (1, 1, 6, 1), (2, 4, 5, 1)):
        for writes in range(DEPTH - 2, DEPTH + 4):
            last = (writes - 1) * (delta + 1)
            ticks, read = last + 3 * delta + 1, last + delta
            if n * ticks > LOOKED_AT:
                break
            operations = [*((i * (delta + 1), 0, start + (i + 1) * step) for i in range(writes)), (read, 1, 0)]
            forgers = {tick: tick // period % n for tick in (last, read)} if f else {}
            yield oracle.built(n=n, f=f, delta=delta, Delta=period, H=ticks, start=start, delay=delta,
                               held=[[i % n] if f else [] for i in range(ticks)], ops=operations,
                               forge=[(tick, sender, (sender + 1) % n, start + step, 1) for tick, sender in forgers.items()])


def just_counted(oracle):
    """Around the ticks that decide what a forecast counts."""
    start, value, *_ = VALUES[oracle.number]

    def five(held, writes=(), reads=(), forge=(), slow=()):
        """With five servers, and movements in ticks 0, 4 and 8 of 10.  A forgery, and a message that takes two
        ticks and not one, is said by tick, sender and receiver."""
        return oracle.built(n=5, f=1, delta=2, Delta=4, H=10, start=start, held=held,
                            ops=[*((tick, 0, value) for tick in writes), *((tick, 1, 0) for tick in reads)],
                            forge=[(*link, value, 9) for link in forge], special={link: 2 for link in slow})

    for ticks in (63, 64):
        yield oracle.built(Delta=63, H=ticks, start=start)
    # A WRITE arrives at server 0 in the tick of a movement, and in the tick behind it.
    for held in ([[0], [], []], [[], [0], []]):
        yield five(held, writes=[3])
        yield five(held, writes=[3], slow=[(3, 5, 0)])
    # A forgery arrives in the last tick; two arrive too late.
    yield five([[0]], forge=[(8, 0, 1)])
    yield five([[0]], forge=[(8, 0, 1), (9, 0, 1)], slow=[(8, 0, 1)])
    # A forgery arrives at a server that is faulty by then; at a reader whose read has ended.
    yield five([[0], [1], []], forge=[(3, 0, 1)], slow=[(3, 0, 1)])
    yield five([[0], [], []], reads=[0], forge=[(3, 0, 6)], slow=[(3, 0, 6)])
    # Votes and a reply arrive together, one more in the tick before and one in the tick behind.
    yield five([[0], [], []], reads=[0], forge=[(1, 0, 2), (2, 0, 2), (3, 0, 3), (3, 0, 4), (3, 0, 6)],
               slow=[(1, 0, 2), (2, 0, 2), (3, 0, 4)])


def with_one_value(one, two):
    """The start value, a written and a forged one, each alone at the highest of form one and above it."""
    plan = two.built(n=5, f=1, delta=1, Delta=2, H=6, start=7, held=[[4], [1], [2]], ops=[(0, 0, 9), (2, 0, 8), (3, 1, 0)],
                     forge=[(0, 4, 2, 5, 1), (2, 1, 0, 6, 2), (4, 2, 6, 5, 1)])
    yield plan
    for value in (one.highest_value, one.highest_value + 1, two.highest_value):
        yield from two.with_a_value(plan, value, lambda records: records[0])
        yield from two.with_a_value(plan, value, lambda records: records[-1])


def plans_of_form_one(one):
    longest = one.longest()
    yield from (plan for _, plan in one.vectors())
    yield from limits(one, longest)
    yield from damaged_at_the_end(longest)
    yield from some_of_each(one, generated_in_form_one(one), accepted=250, refused=35)
    yield from at_the_last_byte(one)


def plans_of_form_two(one, two):
    longest = two.longest()
    vectors = (plan for _, plan in one.vectors() if len(plan) <= CARRIED_BYTES)
    yield from filter(None, map(two.of_form_one, vectors))
    yield longest
    yield from limits(two, longest)
    yield from damaged_at_the_end(longest)
    yield from some_of_each(two, generated_in_form_two(two), accepted=100, refused=15)
    yield from at_the_last_byte(two)
    yield from with_one_value(one, two)


def in_the_wrong_form(one, two):
    """Accepted plans of form one asked in form two, and the other way round, with the oracle to ask; and a plan
    that is accepted in both."""
    yield one, one.of_both_forms()
    yield two, one.of_both_forms()
    for _, plan in one.vectors():
        if len(plan) <= FEW_BYTES and not one.is_refused(one.check(plan)):
            yield two, plan
            yield one, one.carry(plan)


def in_no_form(folder, one):
    """Accepted plans of both forms, and no bytes, in forms that there are not."""
    plan = one.built(H=3, start=7, ops=[(0, 1, 0)])
    for number in NO_FORMS:
        for given in (plan, one.carry(plan), b""):
            yield Oracle(folder, number), given


class Asked:
    """What is asked about one plan, and what the oracle answers."""

    def __init__(self, oracle, plan, answers, rng):
        self.oracle, self.plan, self.answers, self.rng = oracle, plan, answers, rng
        self.requests, self.lines = [], []

    def add(self, request, line):
        assert len(request) == 13
        self.requests.append(request)
        self.lines.append(line)

    def play(self, room, space):
        answers, workspace = lent(room), lent(space)
        said = self.oracle.said(self.oracle.play(self.plan, answers, workspace), lambda reads: f"reads {reads}")
        self.add(struct.pack(">c3I", b"p", room, space, 0), f"play {said} {kept(answers)} {kept(workspace)}")

    def look(self, space, server, tick):
        workspace = lent(space)
        result = self.oracle.look(self.plan, workspace, server, tick)
        is_shown = not self.oracle.is_refused(result) and result[1]
        self.add(struct.pack(">c3I", b"l", space, server, tick),
                 f"look {self.oracle.said(result, seen)} {kept(workspace)} {'changed' if is_shown else 'kept'}")

    def given(self, length, index, replaced):
        """So many bytes of the answers, one of them replaced."""
        given, at = self.answers + bytes(length), len(replaced) * index
        if index != BEYOND:
            given = given[:at] + replaced + given[at + len(replaced):]
        return given[:length]

    def judge(self, length, index=BEYOND, replaced=b""):
        judged = self.oracle.judge(self.plan, self.given(length, index, replaced))
        said = self.oracle.said(judged, lambda good: "yes" if good else "no")
        self.add(struct.pack(f">cIH{REPLACED}s", b"j", length, index, replaced), f"judge {said}")

    def sheet(self, room, length, index=BEYOND, replaced=b""):
        """The numbers of a replaced answer are printed, if it belongs to its read."""
        buffer = lent(room)
        result = self.oracle.sheet(self.plan, self.given(length, index, replaced), buffer)
        said = self.oracle.said(result, lambda page: f"bytes {len(page)}\n{page.decode('ascii')}")
        left = buffer if self.oracle.is_refused(result) else buffer[len(result):]
        self.add(struct.pack(f">c3H{REPLACED}s", b"s", room, length, index, replaced), f"sheet {said} {kept(left)}")

    def carry(self, room):
        buffer = lent(room)
        result = self.oracle.carry(self.plan, buffer)
        self.add(struct.pack(">c3I", b"c", room, 0, 0), f"carry {self.oracle.written(result, buffer)}")

    def refused(self):
        """A refusal of Check comes before every other."""
        self.play(0, 0)
        self.look(0, 99, 99)
        self.judge(3)

    def not_carried(self):
        """Neither into no bytes nor into many."""
        self.carry(0)
        self.carry(ROOM)

    def in_no_form(self):
        """However much is lent: room for an answer of each form, and as many bytes of answers."""
        space = self.oracle.workspace_bytes
        self.look(space, 0, 0)
        for form in self.oracle.forms.FORMS.values():
            self.play(form.answer_bytes, space)
            self.judge(form.answer_bytes)

    def short_or_long(self):
        """Lent bytes, servers, ticks and answers at the ends of what is asked for, and behind them."""
        size, space = len(self.answers), self.oracle.workspace_bytes
        header = self.oracle.header(self.plan)
        self.play(size, space - 1)
        self.look(space - 1, header.n, header.H)
        self.look(space, header.n, 0)
        self.look(space, 0, header.H)
        self.judge(size)
        self.judge(size + 1)
        if size:
            self.play(size - 1, space)
            self.play(size - 1, space - 1)
            self.judge(size - 1)

    def answer(self, index):
        size = self.oracle.answer_bytes
        return self.oracle.unpack_answer(self.answers[size * index:size * index + size])

    def altered(self, times):
        """One answer replaced: a field of it, or its pair by another of the plan's."""
        size, rng = len(self.answers), self.rng
        if not size:
            return
        reads, pairs = size // self.oracle.answer_bytes, self.oracle.pairs(self.plan)
        for what in ("begin", "reader", "zero", "count", "value", "number", "value and zero", *["pair"] * times):
            index = rng.choice([0, reads - 1, rng.randrange(reads)])
            begin, reader, value, number, count, zero = self.answer(index)
            if what == "begin":
                begin ^= 1 << rng.randrange(7)
            elif what == "reader":
                reader ^= 1 << rng.randrange(3)
            elif what == "count":
                count ^= 1 << rng.randrange(5)
            elif what == "number":
                number ^= 1 << rng.randrange(8)
            elif what == "pair":
                number, value = rng.choice(pairs)
            if what.startswith("value"):
                value ^= 1 << rng.randrange(self.oracle.form.cue)
            if what.endswith("zero"):
                zero = 1
            self.judge(size, index, self.oracle.pack_answer(begin, reader, value, number, count, zero))

    def each_pair(self):
        """Every answer replaced by each pair of the plan."""
        for index in range(len(self.answers) // self.oracle.answer_bytes):
            answer = self.answer(index)
            for number, value in self.oracle.pairs(self.plan):
                self.judge(len(self.answers), index, self.oracle.pack_answer(*answer._replace(cue=value, number=number)))

    def in_range(self):
        """More lent than is asked for, and the last server after the last tick."""
        space, header = self.oracle.workspace_bytes, self.oracle.header(self.plan)
        self.play(len(self.answers) + 7, space + 9)
        self.look(space, header.n - 1, header.H - 1)
        self.look(space + 9, 2 ** 32 - 1, 0)
        self.look(space, 0, 2 ** 32 - 1)

    def carried(self):
        """Into as many bytes as the carried plan has, one less, more, and none."""
        carried = self.oracle.carry(self.plan)
        if self.oracle.is_refused(carried):
            self.not_carried()
            return
        for room in (len(carried), len(carried) - 1, len(carried) + 9, 0):
            self.carry(room)


    def no_sheets(self):
        """Neither on no bytes nor on many, whatever the answers are."""
        self.sheet(0, 0)
        self.sheet(sheet.MOST, len(self.answers) + 5)

    def sheets(self, rng):
        """On a page as long as the sheet, one byte less and none; with answers too few and too many, and altered ones."""
        size, exact = len(self.answers), sheet.size(len(self.answers) // self.oracle.answer_bytes)
        self.sheet(exact, size)
        self.sheet(exact - 1, size)
        self.sheet(0, size)
        self.sheet(exact, size + 1)
        if not size:
            return
        self.sheet(0, size - 1)
        index = rng.randrange(size // self.oracle.answer_bytes)
        begin, reader, value, number, count, zero = self.answer(index)
        replaced = [(begin ^ 1 << rng.randrange(7), reader, value, number, count, zero),
                    (begin, reader ^ 1 << rng.randrange(3), value, number, count, zero),
                    (begin, reader, value, number, count, 1)]
        for room, answer in zip((exact, exact - 1, exact + 9), replaced):
            self.sheet(room, size, index, self.oracle.pack_answer(*answer))
        if exact <= sheet.LINE * SHEET_LINES:
            value, number, count = rng.choice([(rng.randint(0, self.oracle.highest_value), rng.randrange(256), rng.randrange(32)),
                                               (self.oracle.highest_value, 255, 31), (0, 0, 0), (value, number, count ^ 16)])
            self.sheet(exact + 9, size, index, self.oracle.pack_answer(begin, reader, value, number, count))


def seen(look):
    condition, pairs = look
    return " ".join(map(str, [condition, *(x for pair in pairs for x in pair)]))


def looks(oracle, plan):
    """Every look of an accepted plan, if there are not too many."""
    header = oracle.header(plan)
    if header.n * header.H > LOOKED_AT:
        return []
    return [f"look {tick} {server} {seen(look)}" for tick, server, *look in oracle.every_look(plan)]


def about_refused(oracle, plan, rng):
    asked = Asked(oracle, plan, b"", rng)
    asked.refused()
    if oracle.form is None:
        asked.in_no_form()
    else:
        asked.not_carried()
    return asked, []


def about_accepted(oracle, plan, rng, each_pair):
    size = oracle.answer_bytes
    answers = bytearray(size * oracle.check(plan))
    oracle.play(plan, answers, bytearray(oracle.workspace_bytes))
    asked = Asked(oracle, plan, bytes(answers), rng)
    asked.short_or_long()
    asked.altered(3)
    if len(plan) <= SMALL_BYTES:
        asked.in_range()
    if each_pair:
        asked.each_pair()
    asked.carried()
    numbers = [int.from_bytes(answers[i:i + size], "big") for i in range(0, len(answers), size)]
    return asked, [" ".join(["answers", *map(str, numbers)]), *looks(oracle, plan)]


def about(oracle, index, plan, rng, each_pair):
    """The requests about a plan, and what the program has to print of it."""
    reads = oracle.check(plan)
    forecast = oracle.said(oracle.forecast(plan), lambda numbers: " ".join(map(str, numbers)))
    first = [f"plan {index} in form {oracle.number}", f"check {oracle.said(reads, lambda count: f'reads {count}')}",
             f"forecast {forecast}"]
    if oracle.number == FORM_ONE:
        first += oracle.text(plan).splitlines()
    refused = oracle.is_refused(reads)
    asked, lines = about_refused(oracle, plan, rng) if refused else about_accepted(oracle, plan, rng, each_pair)
    has_sheets = each_pair or index % SHEETS == 0 or reads == MOST_READS
    if has_sheets and refused:
        asked.no_sheets()
    elif has_sheets:
        asked.sheets(random.Random(index))
    return asked, [*first, *lines, *asked.lines]


def all_plans(folder):
    """The oracle to ask, the plan, and whether its answers are judged with each pair."""
    one, two = Oracle(folder), Oracle(folder, FORM_TWO)
    yield from ((one, plan, False) for plan in plans_of_form_one(one))
    yield from ((one, plan, True) for plan in around_a_write_end(one))
    yield from ((one, plan, False) for plan in of_many_writes(one))
    yield from ((two, plan, False) for plan in plans_of_form_two(one, two))
    yield from ((two, plan, True) for plan in around_a_write_end(two))
    yield from ((two, plan, False) for plan in of_many_writes(two))
    for oracle, plan in itertools.chain(in_the_wrong_form(one, two), in_no_form(folder, one)):
        yield oracle, plan, False
    for oracle in (one, two):
        yield from ((oracle, plan, False) for plan in just_counted(oracle))


def kind(line):
    """What was asked, and how it was answered, in short."""
    words = line.split()
    return " ".join(words[:3] if words[1] == "refused" else words[:1 if words[0] != "judge" else 2])


def main(argv):
    if len(argv) != 2:
        sys.stderr.write(__doc__)
        return 2
    source, folder = argv
    rng = random.Random(1)
    packed, printed, counts = [], [], collections.defaultdict(collections.Counter)
    for index, (oracle, plan, each_pair) in enumerate(all_plans(source)):
        asked, lines = about(oracle, index, plan, rng, each_pair)
        packed += [oracle.number.to_bytes(6, "big"), struct.pack(">IH", len(plan), len(asked.requests)), plan, *asked.requests]
        printed += lines
        form = oracle.form.name if oracle.form else "other"
        counts[form].update(["plans", *map(kind, [*lines[1:3], *asked.lines])])
    os.makedirs(os.path.join(folder, "data"), exist_ok=True)
    write(b"".join(packed), folder, "data", "plans")
    write(("\n".join(printed) + "\n").encode(), folder, "stdout")
    print(f"{index + 1} plans, {sum(map(len, packed))} bytes")
    for form, times in counts.items():
        print(f"form {form}:", ", ".join(f"{what}: {count}" for what, count in sorted(times.items())))
    return 0


if __name__ == "__main__":
    sys.exit(main(sys.argv[1:]))
