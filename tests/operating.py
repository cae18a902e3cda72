#!/usr/bin/env python3
"""operating.py PROGRAM EXAMPLES

Runs the built program `simulate` where the system refuses it something, and on plans that arrive
in pieces: what it prints and what it says on standard error.  EXAMPLES is the folder of example
plans.  Prints what differs, and the counts; with strace at hand also how many writes a plan takes."""

import os
import shutil
import socket
import subprocess
import sys
import threading
import time

PRINTED = b"reads 2\n5 1 9 101 2 4\n5 2 9 101 2 4\n"


def pieces(plan, size):
    """The reading end of a pipe that a plan arrives at in pieces."""
    reading, writing = os.pipe()

    def feed():
        for at in range(0, len(plan), size):
            os.write(writing, plan[at:at + size])
            time.sleep(0.001)
        os.close(writing)

    threading.Thread(target=feed).start()
    return reading


def reset(plan):
    """A connection that a part of the plan has arrived at, and that then fails."""
    near, far = socket.socketpair()
    near.send(b"unread")
    far.sendall(plan)
    far.close()
    return near.detach()


def run(program, *words, closing=None, stdin=subprocess.DEVNULL, stdout=subprocess.PIPE):
    before = (lambda: os.close(closing)) if closing is not None else None
    done = subprocess.run([program, *words], stdin=stdin, stdout=stdout, stderr=subprocess.PIPE, preexec_fn=before)
    return done.stdout or b"", done.stderr


def cases(program, examples):
    """What each run is called, what it gave, and what it has to give: printed, said."""
    path = os.path.join(examples, "concurrent.plan")
    with open(path, "rb") as file:
        plan = file.read()
    folder = os.open(examples, os.O_RDONLY)
    full = os.open("/dev/full", os.O_WRONLY)
    for size in (1, 31, 64, len(plan)):
        yield f"a pipe, {size} at a time", run(program, stdin=pieces(plan, size)), (PRINTED, b"")
    yield "a plan", run(program, path), (PRINTED, b"")
    yield "no input", run(program), (b"refused 1\n", b"")
    yield "closed input", run(program, closing=0), (b"", b"standard input: Bad file descriptor")
    yield "a folder as input", run(program, stdin=folder), (b"", b"standard input: Is a directory")
    yield "a failing input", run(program, stdin=reset(plan[:50])), (b"", b"standard input: Connection reset by peer")
    yield "closed output", run(program, path, closing=1), (b"", b"standard output: Bad file descriptor")
    yield "a full device", run(program, path, stdout=full), (b"", b"standard output: No space left on device")
    yield "help to a full device", run(program, "--help", stdout=full), (b"", b"standard output: No space left on device")
    yield "a missing file", run(program, "none.plan"), (b"", b"none.plan: No such file or directory")
    yield "a folder", run(program, examples), (b"", os.fsencode(examples) + b": Is a directory")
    yield "too long a name", run(program, "x" * 5000), (b"", b"argument: File name too long")
    yield "an option", run(program, "--what"), (b"", b"unknown option --what (see simulate --help)")
    yield "two arguments", run(program, path, path), (b"", b"more than one argument (see simulate --help)")


def writes(program, plan):
    """How many writes the program makes for a plan."""
    traced = subprocess.run(["strace", "-f", "-e", "trace=write", program, plan], capture_output=True).stderr
    return sum(line.startswith(b"write(") for line in traced.splitlines())


def main(argv):
    if len(argv) != 2:
        sys.stderr.write(__doc__)
        return 2
    program, examples = argv
    count = different = 0
    for name, got, (printed, said) in cases(program, examples):
        count += 1
        wanted = printed, b"simulate: " + said + b"\n" if said else b""
        if got != wanted:
            different += 1
            print(f"{name}: got {got}, wanted {wanted}")
    print(f"{count} runs, {different} different")
    if shutil.which("strace"):
        print(f"a plan with two reads: {writes(program, os.path.join(examples, 'concurrent.plan'))} write")
    return 1 if different else 0


if __name__ == "__main__":
    sys.exit(main(sys.argv[1:]))
