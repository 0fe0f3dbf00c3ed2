#!/usr/bin/env python3
"""Prints the time of certificates and reasons beside that of the marking.

It runs a program of golf_bench_marking (crates/golf_bench_marking/out/golf_bench_marking) on a list, a tree, a star,
random nodes and a relay (half of its places are sleepers, each of which waits on one node and refers to the next) of
1,000 to 1,000,000 places. It prints milliseconds: of the plain marking in one thread, of the certificate of its
marking, of the check of that certificate, and of what the reasons of all sleepers need. Each is the best of five runs
by the clock; the word says how the check ended.
"""

import re

from shared import Words, give_up, run

RUNS = 5
SHAPES = ("list", "tree", "star", "random", "relay")
COUNTS = (1_000, 10_000, 100_000, 1_000_000)
PARTS = ("to mark", "to certify", "to verify", "for reasons")


def parts_of(program, shape, count):
    """Returns the verdict of a run, and the milliseconds of each part."""
    done = run([program, "certificate", shape, str(count)], "")
    line = done.stdout.decode()
    verdict = re.search(r"links, (\w+)", line)
    times = [re.search(rf"(\d+) ns {part}", line) for part in PARTS]
    if done.returncode or not verdict or not all(times):
        give_up(f"status {done.returncode}, {line[:200]!r}")
    return verdict[1], [int(time[1]) / 1e6 for time in times]


def main():
    options = Words(__doc__)
    options.add_program("a program of golf_bench_marking")
    program = options.parse_args().program
    print("shape, places: marking, certify, verify, reasons in ms")
    for shape in SHAPES:
        for count in COUNTS:
            runs = [parts_of(program, shape, count) for _ in range(RUNS)]
            best = [min(times) for times in zip(*(times for _, times in runs))]
            print(f"{shape:<7} {count:8}: {' '.join(f'{time:8.2f}' for time in best)}  {runs[0][0]}", flush=True)


if __name__ == "__main__":
    main()
