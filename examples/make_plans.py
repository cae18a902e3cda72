#!/usr/bin/env python3
"""make_plans.py FOLDER

Writes the plans of this folder, field by field as docs/FORMATS.md says, into FOLDER.  `packed` can
be taken for plans of your own."""

import os
import sys


def packed(n, f, delta, period, readers, ticks, start, placements, operations, forgeries=(),
           delay=lambda tick, sender, receiver: 1):
    """The bytes of a plan.  A placement is a set of servers, an operation (tick, party, value), a
    forgery (tick, sender, receiver, value, number); `delay` is asked for every link."""
    bits = []

    def put(width, *numbers):
        bits.extend(format(number, f"0{width}b") for number in numbers)

    def record(widths, numbers):
        for width, number in zip(widths, numbers):
            put(width, number)

    record((5, 2, 4, 6, 3, 8, 16, 8, 11, 1),
           (n, f, delta, period, readers, ticks, start, len(operations), len(forgeries), 0))
    for placement in placements:
        put(1, *(int(server in placement) for server in range(16)))
    for operation in operations:
        record((7, 3, 16), operation)
    for forgery in forgeries:
        record((7, 4, 5, 16, 8), forgery)
    parties = range(n + 1 + readers)
    for tick in range(ticks):
        for sender in parties:
            for receiver in parties:
                link = receiver not in (sender, n) if sender < n else receiver < n
                put(4, delay(tick, sender, receiver) if link else 0)
    whole = "".join(bits)
    whole += "0" * ((8 - len(whole) % 8) % 8)
    return int(whole, 2).to_bytes(len(whole) // 8, "big")


def takeover():
    """Server i is faulty in period i and names (666, 9) to all, and to reader 1 while its read is open."""
    forgeries = []
    for tick in range(10):
        sender = tick // 2
        receivers = [server for server in range(5) if server != sender] + ([6] if 3 <= tick < 5 else [])
        forgeries += [(tick, sender, receiver, 666, 9) for receiver in receivers]
    return packed(5, 1, 1, 2, 1, 10, 7, [{i} for i in range(5)], [(0, 0, 100), (3, 1, 0), (6, 0, 101)], forgeries)


def plans():
    yield "smallest", packed(1, 0, 1, 63, 1, 3, 7, [set()], [(0, 1, 0)])
    yield "first", packed(1, 0, 1, 1, 1, 3, 7, [set()] * 3, [(0, 1, 0)])
    yield "festival", packed(5, 1, 1, 2, 1, 5, 7, [{0}, {1}, set()], [(0, 0, 100), (2, 1, 0)], [(2, 1, 6, 666, 9)])
    yield "takeover", takeover()
    yield "recovery", packed(5, 1, 2, 4, 1, 16, 7, [{0}, {1}, {2}, set()], [(0, 0, 100), (9, 1, 0)],
                             delay=lambda tick, sender, receiver: 2)
    yield "concurrent", packed(5, 1, 2, 4, 2, 12, 7, [{0}, {1}, {2}],
                               [(0, 0, 100), (4, 0, 101), (5, 1, 0), (5, 2, 0)])
    yield "just-set", packed(6, 1, 2, 3, 1, 7, 7, [{0}, {1}, set()], [(0, 0, 100), (2, 1, 0)],
                             delay=lambda tick, sender, receiver: 2)
    yield "six-writes", packed(5, 1, 1, 2, 1, 14, 7, [set()] * 5 + [{0}, {1}],
                               [*((2 * i, 0, 101 + i) for i in range(6)), (11, 1, 0)])
    yield "too-few", packed(4, 1, 1, 2, 1, 6, 7, [{0}, {1}, {2}], [(0, 0, 100), (3, 1, 0)])


def main(argv):
    if len(argv) != 1:
        sys.stderr.write(__doc__ + "\n")
        return 2
    os.makedirs(argv[0], exist_ok=True)
    for name, plan in plans():
        with open(os.path.join(argv[0], name + ".plan"), "wb") as file:
            file.write(plan)
        print(f"{name}.plan: {len(plan)} bytes")
    return 0


if __name__ == "__main__":
    sys.exit(main(sys.argv[1:]))
