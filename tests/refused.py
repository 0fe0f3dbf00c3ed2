#!/usr/bin/env python3
"""Refuses each request for memory of a run in turn.

    tests/refused.py PROGRAM FILE WORDS..    one run: the program by these words, with the file as its input
    tests/refused.py --all                   the runs of RUNS and the tests of TESTS

The run is repeated once for each request that it makes, and that request is refused. It must end as the whole run
does. Or its status is 8, its output is a prefix of the whole one, and its errors are a prefix with the line `out of
memory`. A test must pass, or say that it got no memory. `--all` takes the programs that the gate built, or else the
released ones. It needs a C compiler, `cc`, and Linux.
"""

import argparse
import os
import shutil
import sys
import tempfile
from concurrent.futures import ThreadPoolExecutor
from pathlib import Path

import archive
import watched
from shared import CRATES, Words, places_of, program

# Runs of tests/runs.
RUNS = (
    "worker_pool_with_an_abandoned_reply_recover",
    "unreachable_finalised_object_holds_a_channel",
    "finaliser_set_later_on_a_shared_object",
    "generate_3",
    "explore_asleep",
)
# Tests of calls that leave all as it was if they lack memory, each with its crate.
TESTS = (
    ("golf_tests_collector", "collections::recovery::a_refused_growth_changes_neither_state_nor_book"),
    ("golf_tests_machine", "refusals::a_select_that_blocks_is_refused_memory"),
    ("golf_tests_machine", "refusals::a_call_is_refused_memory"),
)
# How a test begins to tell that it got no memory.
LACKED = (b"error: Memory\n", b"error: AllocFailed ")


def ends_as(got, whole):
    """Returns `same` if a run ended as the whole one, `lacks` if it ended for lack of memory, and None otherwise."""
    if (got.returncode, got.stdout, got.stderr) == (whole.returncode, whole.stdout, whole.stderr):
        return "same"
    if got.stderr.startswith(LACKED):
        return "lacks"
    line = b"out of memory\n"
    lacks = got.returncode == 8 and whole.stdout.startswith(got.stdout) and got.stderr.endswith(line)
    return "lacks" if lacks and whole.stderr.startswith(got.stderr[:-len(line)]) else None


def faults_of(name, runs):
    """Refuses each request of a run in turn, prints how the runs ended, and answers how many ended otherwise."""
    whole, requests, _ = runs.whole()
    if not requests:
        print(f"{name}: it makes no request for memory, or there is no such run")
        return 1
    with ThreadPoolExecutor(os.cpu_count()) as pool:
        ends = list(pool.map(lambda number: (number, runs.run(number)), range(1, requests + 1)))
    same = lacks = 0
    for number, got in ends:
        end = ends_as(got, whole)
        same += end == "same"
        lacks += end == "lacks"
        if end is None:
            print(f"{name}: request {number}: status {got.returncode}, "
                  f"output {got.stdout[-80:]!r}, errors {got.stderr[-200:]!r}")
    bad = requests - same - lacks
    print(f"{name}: {requests} requests: {lacks} runs lacked memory, {same} ended as without, {bad} ended otherwise")
    return bad


def listed(shim):
    """Yields the runs of RUNS, and those of TESTS that were built, each with its name."""
    for run in (archive.of(name) for name in RUNS):
        place = next(path for path in reversed(places_of(run.program)) if path.exists())
        yield run.name, watched.Watched(shim, str(place), run.words, run.source())
    for crate, test in TESTS:
        tests = CRATES / crate / "out" / f"{crate}_tests"
        if tests.exists():
            yield test, watched.Watched(shim, str(tests), [test], b"")


def words():
    """Returns the words of the script."""
    options = Words(__doc__)
    options.add_argument("--all", action="store_true", help="the runs of RUNS and the tests of TESTS")
    options.add_argument("program", nargs="?", type=program, metavar="PROGRAM")
    options.add_argument("file", nargs="?", type=Path, metavar="FILE")
    options.add_argument("words", nargs=argparse.REMAINDER, metavar="WORDS")
    given = options.parse_args()
    if given.all == bool(given.program) or bool(given.program) != bool(given.file):
        options.error("PROGRAM FILE WORDS.., or --all")
    if given.file and not given.file.is_file():
        options.error(f"no file {given.file}")
    return given


def main():
    given = words()
    if not shutil.which("cc"):
        print("tests/refused.py: left out, since cc is not installed")
        return 0
    with tempfile.TemporaryDirectory() as folder:
        shim = watched.build(folder)
        if given.all:
            runs = listed(shim)
        else:
            runs = [(str(given.file), watched.Watched(shim, given.program, given.words, given.file.read_bytes()))]
        return 1 if sum(faults_of(name, run) for name, run in runs) else 0


if __name__ == "__main__":
    sys.exit(main())
