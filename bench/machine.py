#!/usr/bin/env python3
"""Prints the time of a turn and of a collection, side by side.

It runs a program of golf_bench_machine (crates/golf_bench_machine/out/golf_bench_machine), each thing five times, and
prints the best.

- Turns, with 10, 1,000, 10,000 and 100,000 goroutines blocked on channels of their own: a loop of loads, sums,
  comparisons and jumps; two goroutines that send to each other on unbuffered channels; two that lock and unlock a
  mutex. Processor time, less that of a run without a turn.
- The same loop in Python and, if it is there, in Lua: nanoseconds for each of the 13 instructions that it has here.
- Collections of 1,000, 10,000 and 100,000 goroutines blocked each on a channel of its own, half of them live, by 1, 2
  and 4 markers, without recovery and with it: milliseconds by the clock, part by part.
"""

import re
import shutil
import sys
import time

from shared import Words, give_up, measured, run

RUNS = 5
TURNS = 5_000_000
ROUNDS = 3_000_000
STEPS = 13
LUA = f"local i, s = 0, 0 while i < {ROUNDS} do s = s + i i = i + 1 end"
PARTS = ("graph", "marked", "kept", "marked_again", "freed")
HEAD = ("goroutines, markers, recovery: graph, marking, keep rule, second graph and marking, freeing; "
        "a whole collection, in ms")


def processor_time(*words):
    """Returns the seconds of processor time of a run, that of its threads together."""
    took = measured([str(word) for word in words])
    if took.status != 0:
        give_up(f"status {took.status}")
    return took.seconds


def best(measure):
    """Returns the least of some measurements."""
    return min(measure() for _ in range(RUNS))


def turn(program, kind, blocked):
    """Returns the nanoseconds of a turn."""
    before, whole = (best(lambda: processor_time(program, kind, blocked, turns)) for turns in (0, TURNS))
    return (whole - before) / TURNS * 1e9


def in_python():
    """Returns the nanoseconds of an instruction of the loop in Python."""
    begin = time.process_time()
    i = s = 0
    while i < ROUNDS:
        s = s + i
        i = i + 1
    return (time.process_time() - begin) / ROUNDS / STEPS * 1e9


def in_lua(lua):
    """Returns the nanoseconds of an instruction of the loop in Lua."""
    return processor_time(lua, "-e", LUA) / ROUNDS / STEPS * 1e9


def collections(program, pairs, markers):
    """Returns for each value of recovery the milliseconds of the five parts of a collection, and of a whole one."""
    found = {}
    for line in run([program, str(pairs), str(markers)], "").stdout.decode().splitlines():
        ends = [int(re.search(rf"\b{part}: (\d+)", line)[1]) / 1000 for part in PARTS]
        whole = int(line.rsplit(" ", 1)[1]) / 1000
        found["recover: true" in line] = [end - begin for begin, end in zip([0, *ends], ends)] + [whole]
    return found


def tell_collections(program, pairs, markers):
    """Prints the times of a collection, without recovery and with it."""
    runs = [collections(program, pairs, markers) for _ in range(RUNS)]
    for recover in (False, True):
        *parts, whole = (min(times) for times in zip(*(found[recover] for found in runs)))
        shown = " ".join(f"{part:.2f}" for part in parts)
        print(f"{2 * pairs:7} {markers} {recover!s:<5}: {shown}; {whole:.2f}", flush=True)


def main():
    options = Words(__doc__)
    options.add_program("a program of golf_bench_machine")
    program = options.parse_args().program
    for kind in ("loop", "channel", "mutex"):
        for blocked in (10, 1_000, 10_000, 100_000):
            print(f"{kind:<8} {blocked:7} blocked: {turn(program, kind, blocked):8.1f} ns a turn", flush=True)
    print(f"python3 {sys.version_info[0]}.{sys.version_info[1]}: {best(in_python):.1f} ns")
    lua = shutil.which("lua5.4") or shutil.which("lua")
    if lua:
        print(f"{lua}: {best(lambda: in_lua(lua)):.1f} ns")
    print(HEAD)
    for pairs in (500, 5_000, 50_000):
        for markers in (1, 2, 4):
            tell_collections(program, pairs, markers)


if __name__ == "__main__":
    main()
