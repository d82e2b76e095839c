#!/usr/bin/env python3
"""make_traces.py FOLDER: writes traces for measuring how many requests a second are played.

hits.trace         loads on four lines, which the upper level holds after the first pass
misses.trace       loads that go round more lines than both levels hold
write-backs.trace  stores that go round these lines, so that every line is dirty when it has to go
setup.trace        the setup that the others begin with, alone
Each is as long as a trace may be, the setup aside.
"""
import os
import sys

TRACE_LIMIT = 32_768
LINE_SIZE = 16
LINES = 64

LRU = 1
# (sets, ways, rule), the one next to the memory first: they hold 16 lines and 4
LEVELS = [(4, 4, LRU), (2, 2, LRU)]
LATENCY = 4

LOAD, STORE, PASS = 1, 2, 3
WARM_UP_STEPS = 200


def number(n):
    """A number in groups of seven bits, the lowest first."""
    groups = bytearray()
    while n >= 128:
        groups.append(128 | n % 128)
        n //= 128
    groups.append(n)
    return bytes(groups)


def record(kind, *fields):
    return bytes([kind]) + b"".join(number(field) for field in fields)


def setup():
    levels = [field for level in LEVELS for field in level]
    return record(0, LINES, 1, LATENCY, 0, len(LEVELS), *levels)


def filled(front, record_of):
    """The front, and behind it the records 0, 1, 2, … as long as they fit."""
    trace = bytearray(front)
    i = 0
    while len(trace) + len(record_of(i)) <= TRACE_LIMIT:
        trace += record_of(i)
        i += 1
    return trace


def load(line, offset):
    return record(LOAD, 1, LINE_SIZE * line + offset)


def store(line, offset, value):
    return record(STORE, 1, LINE_SIZE * line + offset, value)


def hits():
    warm_up = b"".join(load(line, 0) for line in range(4)) + record(PASS, WARM_UP_STEPS)
    return filled(setup() + warm_up, lambda i: load(i % 4, i // 4 % LINE_SIZE))


def misses():
    return filled(setup(), lambda i: load(i % LINES, i // LINES % LINE_SIZE))


def write_backs():
    return filled(setup(), lambda i: store(i % LINES, i // LINES % LINE_SIZE, i % 128))


def main():
    if len(sys.argv) != 2:
        sys.exit(__doc__)
    folder = sys.argv[1]
    os.makedirs(folder, exist_ok=True)
    traces = {"setup": setup(), "hits": hits(), "misses": misses(), "write-backs": write_backs()}
    for name, trace in traces.items():
        with open(os.path.join(folder, f"{name}.trace"), "wb") as file:
            file.write(trace)


main()
