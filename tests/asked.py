"""What against_oracle.py asks the proved library: the requests of tests/requests in one form, each with
the answer that the other author's program gives, and what comes of them."""

import collections
import os
import struct
import subprocess

import sheet

TOP = os.path.dirname(os.path.dirname(os.path.abspath(__file__)))
REQUESTS = os.path.join(TOP, "tests", "requests")
ANSWERING = os.path.join(REQUESTS, "target", "release", "requests")
SIMULATE = os.path.join(TOP, "target", "bin", "simulate")
# The form that the program reads.
PRINTED_FORM = 1

WORKSPACE = 60_000
WORKSPACES = (0, WORKSPACE - 1, WORKSPACE, WORKSPACE + 9)
PAIR = NUMBER = 4           # bytes
# Bytes of requests and wanted answers that one run of the library is for, about.
TOGETHER = 50_000_000
MOST_SHOWN = 20
SHOWN = 300


def lent(length):
    return bytearray(i % 251 + 1 for i in range(length))


LENT = {length: bytes(lent(length)) for length in WORKSPACES}
CLEARED = {length: bytes(WORKSPACE) + LENT[length][WORKSPACE:] for length in WORKSPACES if length >= WORKSPACE}


def state(workspace):
    """A workspace after a call, in the words of tests/requests."""
    now, length = bytes(workspace), len(workspace)
    return "kept" if now == LENT[length] else "cleared" if now == CLEARED.get(length) else "spoilt"


def hexed(data):
    return "x" + bytes(data).hex()


def joined(text):
    """The lines of a text in one."""
    return text.rstrip("\n").replace("\n", "|")


def string(data):
    return numbers(len(data)) + data


def numbers(*values):
    return struct.pack(f">{len(values)}Q", *values)


def packed_numbers(values):
    """Numbers of a list, or lent ones."""
    return struct.pack(f">{len(values)}I", *values)


def listed(values):
    return string(packed_numbers(values))


def packed_pairs(kept):
    return packed_numbers([value << 8 | number for value, number in kept])


class Asked:
    """Requests in a form with the answers that the other program gives, and what came of them."""

    def __init__(self, oracle):
        self.oracle = oracle
        self.waiting, self.waiting_bytes = [], 0
        self.counts, self.refusals, self.shown = collections.Counter(), collections.Counter(), collections.Counter()
        self.different = 0

    def ask(self, name, what, letter, record, wanted, count=1):
        self.counts[what] += count
        if wanted.startswith("refused"):
            self.refusals[what, int(wanted.split()[1])] += 1
        record = letter + numbers(self.oracle.number) + record
        self.waiting.append((f"{name}, {what}", record, wanted))
        self.waiting_bytes += len(record) + len(wanted)
        if self.waiting_bytes >= TOGETHER:
            self.settle()

    def checked(self, plan):
        return self.oracle.said(self.oracle.check(plan),
                                lambda reads: " ".join(map(str, ["reads", reads, *self.oracle.header_numbers(plan)])))

    def check(self, name, plan):
        self.ask(name, "Check", b"c", string(plan), self.checked(plan))

    def forecast(self, name, plan, lengths):
        """As many of its numbers as fit stand at the start of lent ones; all else of these is as before."""
        result = self.oracle.forecast(plan)
        said = self.oracle.said(result, lambda six: " ".join(map(str, ["takes", *six])))
        count = self.oracle.said(result, lambda six: f"numbers {len(six)}")
        written = b"" if self.oracle.is_refused(result) else packed_numbers(result)
        for length in lengths:
            fit = written[:NUMBER * length]
            now = fit + lent(NUMBER * length)[len(fit):]
            self.ask(name, "Forecast", b"f", string(plan) + numbers(length), f"{said} {count} {hexed(now)}")
        if written:
            _, _, write_messages, _, votes, most_forgeries = result
            self.counts["forecasts"] += 1
            self.counts["Forecast done"] += len(lengths)
            self.counts["with a WRITE lost"] += votes < write_messages * (self.oracle.header(plan).n - 1)
            self.counts["with forgeries that arrive"] += most_forgeries > 0

    def text(self, name, plan):
        """The lines as the wrapper decodes the answers, and what the program prints where it reads the form."""
        wanted = self.oracle.text(plan)
        self.ask(name, "text decoded", b"p", string(plan), joined(wanted))
        if self.oracle.number == PRINTED_FORM:
            self.counts["text printed"] += 1
            printed = subprocess.run([SIMULATE], input=plan, capture_output=True).stdout
            self.compare(f"{name}, text printed", printed.decode(), wanted)

    def play(self, name, plan, buffer, workspace):
        answers, lent_workspace = lent(buffer), bytearray(LENT[workspace])
        said = self.oracle.said(self.oracle.play(plan, answers, lent_workspace), lambda reads: f"reads {reads}")
        self.ask(name, "Play", b"b", string(plan) + numbers(buffer, workspace),
                 f"{said} {hexed(answers)} {state(lent_workspace)}")
        return bytes(answers)

    def look(self, name, plan, workspace, server, tick, pair_buffers):
        """As many whole pairs as fit stand at the start of a pair buffer; all else of it is as before."""
        lent_workspace = bytearray(LENT[workspace])
        result = self.oracle.look(plan, lent_workspace, server, tick)
        kept = [] if self.oracle.is_refused(result) else result[1]
        self.shown[len(kept)] += not self.oracle.is_refused(result)
        said = self.oracle.said(result, lambda seen: f"seen {seen[0]} {len(kept)}")
        for length in pair_buffers:
            fit = packed_pairs(kept)[:length // PAIR * PAIR]
            pairs = fit + lent(length)[len(fit):]
            self.ask(name, "Look", b"l", string(plan) + numbers(workspace, server, tick, length),
                     f"{said} {hexed(pairs)} {state(lent_workspace)}")

    def every_look(self, name, plan):
        seen, text = list(self.oracle.every_look(plan)), ""
        for tick, server, condition, kept in seen:
            shown = [tick, server, condition, *(number for pair in kept for number in pair)]
            text += " ".join(map(str, shown)) + "|"
            self.shown[len(kept)] += 1
        self.counts["looked at everywhere"] += 1
        self.ask(name, "Look", b"t", string(plan), text, count=len(seen))

    def judge(self, name, plan, answers):
        said = self.oracle.said(self.oracle.judge(plan, answers), lambda good: "yes" if good else "no")
        self.counts[f"Judge {said}"] += said in ("yes", "no")
        self.ask(name, "Judge", b"j", string(plan) + string(answers), said)

    def sheet(self, name, plan, answers, length):
        """What comes of a sheet of these answers on a page of that length.  From the sheet alone they are read again."""
        buffer = lent(length)
        page = self.filled(name, "Sheet", self.oracle.sheet(plan, answers, buffer), buffer, b"s", string(plan) + string(answers))
        if self.oracle.is_refused(page):
            return
        rows = self.oracle.rows(plan, answers)
        self.counts["lines"] += len(rows)
        self.counts["marks"] += sum(row[-1] for row in rows)
        form, numbers = sheet.read_back(page)
        again = b"".join(self.oracle.pack_answer(*fields) for fields in numbers)
        self.compare(f"{name}, read back from the sheet", (form, again), (self.oracle.number, answers))

    def pack(self, name, lists, length):
        """The other program's result, for a buffer of that length."""
        buffer = lent(length)
        return self.filled(name, "Pack", self.oracle.pack(lists, buffer), buffer, b"k", b"".join(map(listed, lists)))

    def carry(self, name, plan, length):
        """The same for the plan carried to the other form."""
        buffer = lent(length)
        return self.filled(name, "Carry", self.oracle.carry(plan, buffer), buffer, b"y", string(plan))

    def filled(self, name, what, result, buffer, letter, record):
        said = self.oracle.said(result, lambda plan: f"bytes {len(plan)}")
        self.counts[f"{what} done"] += said.startswith("bytes")
        self.ask(name, what, letter, record + numbers(len(buffer)), f"{said} {hexed(buffer)}")
        return result

    def there_and_back(self, name, plan):
        """A plan that can be carried has the header's numbers and the answers in the other form too; carried
        from there it is itself."""
        wanted = f"{self.checked(plan)}|{joined(self.oracle.text(plan))}|{hexed(plan)}"
        self.ask(name, "there and back", b"r", string(plan), wanted)

    def settle(self):
        """The waiting requests answered by the library, and compared."""
        asked = b"".join(record for _, record, _ in self.waiting)
        got = subprocess.run([ANSWERING], input=asked, stdout=subprocess.PIPE, check=True).stdout
        lines = got.decode().splitlines()
        assert len(lines) == len(self.waiting), (len(lines), len(self.waiting))
        for (about, _, wanted), line in zip(self.waiting, lines):
            self.compare(about, line, wanted)
        self.waiting, self.waiting_bytes = [], 0

    def compare(self, about, got, wanted):
        if got == wanted:
            return
        self.different += 1
        if self.different <= MOST_SHOWN:
            got, wanted = repr(got)[:SHOWN], repr(wanted)[:SHOWN]
            print(f"form {self.oracle.number}, {about}: got {got}, wanted {wanted}", flush=True)

    def pairs_shown(self):
        """How many servers looked at, each after a tick, show so many pairs."""
        return ", ".join(f"{pairs}: {count}" for pairs, count in sorted(self.shown.items()))

    def refused(self, *operations):
        """How often each refusal came from these operations."""
        times = collections.Counter()
        for (what, number), count in self.refusals.items():
            times[number] += count if what in operations else 0
        return ", ".join(f"{number}: {count}" for number, count in sorted(times.items()) if count)
