#!/usr/bin/env python3
"""make_runs.py ORACLE CRATES

Writes what the programs `simulate` and `runs` are run on, and what they have to print; for a plan
that is what the rehearsal program of other authorship in the folder ORACLE prints for it:

  CRATES/simulate/stdin, stdout         the longest plan
  CRATES/runs/stdin, data/, args, stdout
                                        each line of args is run as the argument of `simulate`; the
                                        examples in data/examples are taken as they stand

The same oracle and examples give the same bytes."""

import os
import sys

sys.dont_write_bytecode = True

from oracle import FORM_TWO, Oracle, read, write

HELP = """\
usage: simulate [PLAN]

Checks a plan, plays it and prints the answers to its reads. The plan is the
file PLAN or, with no argument, standard input. It prints one of

  reads N      and then a line for each of the N reads: its begin, reader and
               end, and its answer's value, number and count
  refused N    the plan is refused; N is the number of the reason

What cannot be opened, read or written is named on standard error, with the
system's reason. The exit status is 0 in every case: a script looks at what
is printed.

  --help       prints this
  --version    prints the version

Any other argument that begins with - is an unknown option; a file with such a
name is given as ./-NAME.
"""

VERSION = """\
simulate 0.1.0
The verified rehearsal of a replicated register under mobile Byzantine faults.
"""

ASKED = {"--help": HELP, "--version": VERSION}

UNKNOWN = ("-", "--", "-h", "--helping", "--versio")

FAILED = {"missing.plan": "No such file or directory", "examples": "Is a directory", "": "No such file or directory"}


def refused(oracle):
    """Of the oracle's vectors, the first with a byte in it for each refusal of Check."""
    found = {}
    for _, plan in oracle.vectors():
        result = oracle.check(plan)
        if plan and oracle.is_refused(result):
            found.setdefault(result.number, plan)
    return {f"refused-{number}.plan": found[number] for number in range(1, 9)}


def longest_implied(oracle):
    """A header in range that implies the most bytes, and so many zeros."""
    return oracle.built(n=16, s=4, H=128, ops=[(0, 0, 0)] * 255, forge=[(0, 0, 0, 0, 0)] * 1024, delay=0)


def inputs(oracle, longest):
    """Files by name: a plan for each refusal, and lengths at the ends.  One byte more is read than a header
    implies in any form."""
    implied = longest_implied(oracle)
    all_read = implied.ljust(len(longest_implied(Oracle(oracle.folder, FORM_TWO))) + 1, b"\0")
    return {**refused(oracle),
            "empty.plan": b"",
            "longest.plan": longest,
            "longest-but-one.plan": longest[:-1],
            "longest-and-one.plan": longest + b"\0",
            "implied.plan": implied,
            "implied-and-one.plan": implied + b"\0",
            "all-read.plan": all_read,
            "all-read-but-one.plan": all_read + b"\0",
            "implied-and-more.plan": implied + bytes(10_000)}


def said(line):
    return f"said: simulate: {line}\n"


def main(argv):
    if len(argv) != 2:
        sys.stderr.write(__doc__)
        return 2
    oracle, crates = Oracle(argv[0]), argv[1]
    longest = oracle.longest()
    write(longest, crates, "simulate", "stdin")
    write(oracle.text(longest).encode(), crates, "simulate", "stdout")
    runs = os.path.join(crates, "runs")
    data, examples = os.path.join(runs, "data"), os.path.join(runs, "data", "examples")
    files = {f"examples/{name}": read(examples, name) for name in sorted(os.listdir(examples))}
    made = inputs(oracle, longest)
    for name, plan in made.items():
        write(plan, data, name)
    files.update(made)
    first = next(iter(files))
    write(files[first], runs, "stdin")
    args = {name: oracle.text(plan) for name, plan in files.items()}
    args.update(ASKED)
    args.update({word: said(f"unknown option {word} (see simulate --help)") for word in UNKNOWN})
    args.update({name: said(f"{name}: {reason}") for name, reason in FAILED.items()})
    printed = {"standard input": args[first],
               "standard input that is closed": said("standard input: Bad file descriptor"),
               **args,
               "more than one argument": said("more than one argument (see simulate --help)"),
               f"to a closed output: {first}": said("standard output: Bad file descriptor"),
               f"to a full device: {first}": said("standard output: No space left on device")}
    write("".join(f"{word}\n" for word in args).encode(), runs, "args")
    write("".join(f"== {what}\n{text}" for what, text in printed.items()).encode(), runs, "stdout")
    print(f"{len(printed)} runs")
    return 0


if __name__ == "__main__":
    sys.exit(main(sys.argv[1:]))
