#!/usr/bin/env python3
"""measure.py RUNS TRACE PROGRAM..: runs each program RUNS times with the trace as its input, in turn, and prints for each
the shortest time on the clock and the shortest of the processor (user and system), in microseconds."""
import os
import sys
import time


def run(program, trace):
    """The seconds on the clock and of the processor that one run takes."""
    files = [
        (os.POSIX_SPAWN_OPEN, 0, trace, os.O_RDONLY, 0),
        (os.POSIX_SPAWN_OPEN, 1, os.devnull, os.O_WRONLY, 0),
    ]
    start = time.perf_counter()
    child = os.posix_spawn(program, [program], os.environ, file_actions=files)
    _, status, used = os.wait4(child, 0)
    clock = time.perf_counter() - start
    if status != 0:
        sys.exit(f"{program} failed on {trace}")
    return clock, used.ru_utime + used.ru_stime


def main():
    if len(sys.argv) < 4:
        sys.exit(__doc__)
    runs, trace, programs = int(sys.argv[1]), sys.argv[2], sys.argv[3:]
    taken = {program: [] for program in programs}
    for _ in range(runs):
        for program in programs:
            taken[program].append(run(program, trace))
    for program in programs:
        clock, processor = (min(times) for times in zip(*taken[program]))
        print(f"{1e6 * clock:.0f} {1e6 * processor:.0f}")


main()
