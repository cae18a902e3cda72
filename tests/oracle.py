"""The rehearsal program of other authorship, as the scripts of this folder ask it: document 01 with
the requests of document 02 that are met here.  A refusal is an object with a number."""

import functools
import os
import sys
from dataclasses import replace

import sheet

DEPTH = 5           # pairs in a store (request Eight)
LOOSE = True        # request Four: a write that ends as a read begins has finished before it
LARGEST = 2 ** 32 - 1       # number of a list
FILLER = 165        # byte of a lent buffer
FORM_ONE, FORM_TWO = 1, 2
MOST_SHOWN = 300    # bytes of a plan that the gate's programs print byte by byte; of a longer one a check sum
BASE, PRIME = 257, 2 ** 31 - 1


def read(*path):
    with open(os.path.join(*path), "rb") as file:
        return file.read()


def write(data, *path):
    with open(os.path.join(*path), "wb") as file:
        file.write(data)


def lent(length):
    """A buffer as the gate's programs lend it."""
    return bytearray([FILLER]) * length


def kept(buffer):
    """Whether a lent buffer is as it was."""
    return "kept" if buffer == lent(len(buffer)) else "changed"


def shown(plan):
    """A plan's bytes as the gate's programs print them.  A check sum is the bytes as digits of one number in
    the base, modulo the prime."""
    if len(plan) <= MOST_SHOWN:
        return plan.hex()
    number = 0
    for byte in plan:
        number = (number * BASE + byte) % PRIME
    return f"sum {number}"


class Oracle:
    """The operations in the form of a number: 1 or 2, or any other, which is refused."""

    def __init__(self, folder, form=FORM_ONE):
        if not os.path.isfile(os.path.join(folder, "oracle02.py")):
            sys.stderr.write(f"{folder} has no oracle02.py: name the folder of the other author's program, which is not in this repository\n")
            sys.exit(2)
        sys.path.insert(0, folder)
        import builder02
        import forms
        import generate
        import generate02
        import hall02
        import operations02
        import oracle02
        self.folder, self.number, self.form = folder, form, forms.FORMS.get(form)
        self.builder02, self.forms = builder02, forms
        self.generate, self.generate02 = generate, generate02
        self.hall02, self.operations, self.oracle02 = hall02, operations02, oracle02
        self.workspace_bytes = operations02.WORKSPACE_BYTES
        self.conditions = [hall02.HELD, hall02.CURING, hall02.SOUND]

    @property
    def widths(self):
        """The bits of each field, list by list."""
        form = self.form
        return [[bits for _, bits in fields]
                for fields in (form.header, form.placement, form.operation, form.forgery, form.delay)]

    @property
    def answer_bytes(self):
        return self.form.answer_bytes

    @property
    def highest_value(self):
        return 2 ** self.form.cue - 1

    def vectors(self):
        """Its own plans by name: the rehearsed cases, one for every refusal and wrong turn, large ones."""
        folder = os.path.join(self.folder, "vectors")
        for name in sorted(os.listdir(folder)):
            if name.endswith(".plan"):
                yield name, read(folder, name)

    def built(self, **given):
        """A plan of this form from its builder's words, packed."""
        return self.builder02.packed(self.form, **given)

    def longest(self):
        """The longest plan of this form that Check accepts."""
        return self.forms.pack(self.builder02.largest(self.form))

    def of_both_forms(self):
        """A plan of form one that is accepted in form two as well, where its operations are two forgeries: server
        5, faulty here, makes their number, server 8 is server 0 there."""
        return self.builder02.packed(self.forms.FORM_ONE, n=16, f=2, delta=1, Delta=63, s=1, H=12, start=7,
                                     held=[[5, 8]], ops=[(0, 0, 13), (2, 0, 1), (8, 0, 0x8100), (9, 1, 0)])

    def is_refused(self, result):
        return isinstance(result, self.forms.Refused)

    def said(self, result, say):
        return f"refused {result.number}" if self.is_refused(result) else say(result)

    def written(self, result, buffer):
        """What the gate's programs print of a plan that was to be written into a lent buffer."""
        if self.is_refused(result):
            return f"refused {result.number} {kept(buffer)}"
        length = len(result)
        return f"bytes {length} {kept(buffer[length:])} {shown(buffer[:length])}"

    def unpacked(self, plan):
        return self.forms.unpack(self.form, plan)

    def header(self, plan):
        return self.forms.unpack_header(self.form, plan)

    def header_numbers(self, plan):
        """All fields of the header but the zero bit, in their order."""
        return self.forms.header_numbers(self.form, self.header(plan))[:-1]

    def of_form_one(self, plan):
        """A plan of form one with the same fields in this form, refused ones too.  None if it hasn't the
        length that its header implies."""
        try:
            return self.forms.pack(replace(self.forms.unpack(self.forms.FORM_ONE, plan), form=self.form))
        except (ValueError, ZeroDivisionError):
            return None

    def fitted(self, plan):
        """The plan cut, or filled up with zeros, to the length that its header implies.  None if the
        header itself is refused."""
        if len(plan) < self.form.header_bytes or not self.forms.header_stands(self.form, self.header(plan)):
            return None
        length = self.forms.implied_bytes(self.form, self.header(plan))
        return plan[:length].ljust(length, b"\0")

    def with_a_value(self, plan, value, choose):
        """Plans that differ from this one in one value: the initial one, one that is written, a forged one.
        `choose` takes one of a list."""
        plan = self.unpacked(plan)
        yield self.forms.pack(replace(plan, header=replace(plan.header, start=value)))
        writes = [operation for operation in plan.operations if operation.party == 0]
        if writes:
            one = choose(writes)
            operations = [each._replace(cue=value) if each is one else each for each in plan.operations]
            yield self.forms.pack(replace(plan, operations=operations))
        if plan.forgeries:
            one = choose(plan.forgeries)
            forgeries = sorted(each._replace(cue=value) if each is one else each for each in plan.forgeries)
            yield self.forms.pack(replace(plan, forgeries=forgeries))

    def pairs(self, plan):
        """The start pair and those of the writes, each (number, value); a pair stands at its number."""
        plan = self.unpacked(plan)
        return [plan.start_pair, *(write.pair for write in plan.writes())]

    def check(self, plan):
        plan = self.forms.check(self.form, plan)
        return plan if self.is_refused(plan) else len(plan.reads)

    def forecast(self, plan):
        """The six numbers of what playing the plan takes."""
        return self.operations.takes(self.form, plan)

    @functools.lru_cache(1)
    def facts(self, plan):
        """For each read of an accepted plan begin, screen, end, cue, number, count and mark."""
        return [fact[:7] for fact in self.operations.facts(self.form, plan, DEPTH, LOOSE)]

    def text(self, plan):
        """What the program prints."""
        reads = self.check(plan)
        if self.is_refused(reads):
            return f"refused {reads.number}\n"
        lines = [("reads", reads), *(fact[:6] for fact in self.facts(plan))]
        return "".join(" ".join(map(str, line)) + "\n" for line in lines)

    def play(self, plan, answers, workspace):
        return self.operations.play_into(self.form, plan, answers, workspace, DEPTH)

    def seen(self, look):
        """The condition's number, then value and number of each pair."""
        condition, pairs = look
        return self.conditions.index(condition), [pair[:2] for pair in pairs]

    def look(self, plan, workspace, server, tick):
        """The other program has no Look with a lent workspace: 10 stands between Check's refusals and its 11."""
        checked = self.check(plan)
        if self.is_refused(checked):
            return checked
        if len(workspace) < self.workspace_bytes:
            return self.forms.Refused(10)
        result = self.operations.look(self.form, plan, server, tick, depth=DEPTH)
        if self.is_refused(result):
            return result
        self.operations.clean(workspace)
        return self.seen(result)

    def every_look(self, plan):
        """Tick, server and what is seen, for every tick and server of an accepted plan."""
        plan = self.unpacked(plan)
        hall = self.hall02.Hall(plan, DEPTH)
        for tick in range(plan.header.H):
            hall.tick(tick)
            for server in range(plan.header.n):
                yield tick, server, *self.seen(hall.look(server))

    def judge(self, plan, answers):
        return self.operations.judge(self.form, plan, answers, LOOSE)

    def rows(self, plan, answers):
        """The lines of a sheet of these answers: begin, screen, end and mark are the read's."""
        given = self.forms.unpack_answers(self.form, answers)
        return [(begin, screen, end, answer.cue, answer.number, answer.count, mark)
                for (begin, screen, end, *_, mark), answer in zip(self.facts(plan), given)]

    def sheet(self, plan, answers, buffer):
        """The sheet's bytes, which then also stand in the buffer.  The other program has none: Judge gives the
        refusals before 15, and of Play's answers it has the facts."""
        judged = self.judge(plan, answers)
        if self.is_refused(judged):
            return judged
        page = sheet.page(self.number, self.rows(plan, answers))
        if len(buffer) < len(page):
            return self.forms.Refused(15)
        buffer[:len(page)] = page
        return page

    def unpack_answer(self, answer):
        return self.forms.unpack_answers(self.form, answer)[0]

    def pack_answer(self, *fields):
        return self.forms.pack_answer(self.form, *fields)

    def lists(self, plan):
        """A plan read field by field: five lists.  None if it hasn't the length that its header implies."""
        try:
            return self.forms.lists_of(self.unpacked(plan))
        except (ValueError, ZeroDivisionError):
            return None

    def pack(self, lists, buffer):
        """The plan's bytes, which then also stand in the buffer."""
        return self.forms.write_plan(self.form, lists, buffer)

    def carry(self, plan, buffer=None):
        """The plan of this form in the other one; its bytes then also stand in the buffer, if there is one."""
        way = self.forms.carry if self.form == self.forms.FORM_ONE else self.forms.carry_back
        return way(plan, buffer)

    def bent_lists(self, rng, plan):
        """The plan's lists as its own generator bends them, right ones among them."""
        text = self.generate02.some_lists(rng, self.form, plan)
        return [[min(number, LARGEST) for number in numbers] for numbers in self.oracle02.lists_in(text.encode())]
