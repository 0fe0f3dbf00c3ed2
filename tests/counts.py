#!/usr/bin/env python3
"""Counts what runs ask of the system: requests for memory, and threads.

A run that makes nothing asks for no memory once it goes on: each file of STEADY makes as many requests in many turns as
in few. A run starts one thread, which it runs on, and those that its words ask for: THREADS has some runs. The last two
collect by one marker. It takes the program that the gate built, or else the released one. It needs a C compiler, `cc`,
and Linux.
"""

import shutil
import sys
import tempfile

import watched
from shared import ROOT, Words, ended, places_of

FEW, MANY = 20_000, 320_000
# Files of which no round makes anything.
STEADY = ["tests/long_queue.go", *(f"bench/rounds/{name}.go" for name in (
    "loop", "slice", "mutex_by_two", "ping_pong", "buffered"))]
# The words of a run, the file, and how many threads it starts.
THREADS = (
    ("run", "examples/leak.go", 1),
    ("run --markers 16", "examples/leak.go", 31),
    ("run --markers 16 --recover", "examples/leak.go", 31),
    ("run --threads 1", "examples/leak.go", 1),
    ("run --threads 4", "examples/leak.go", 4),
)


def runs(shim, words, file):
    """Returns the runs of golf by these words on a file of the repository."""
    place = next(path for path in reversed(places_of("golf")) if path.exists())
    return watched.Watched(shim, str(place), words.split(), (ROOT / file).read_bytes())


def steady_faults(shim):
    """Yields the files of STEADY whose requests for memory grow with their turns."""
    for file in STEADY:
        few, many = (runs(shim, f"run --turns {turns}", file).whole() for turns in (FEW, MANY))
        if {few[0].returncode, many[0].returncode} != {3}:
            yield f"{file}: it ends before turn {MANY}"
        elif few[1] != many[1]:
            yield f"{file}: {few[1]} requests for memory in {FEW} turns, {many[1]} in {MANY}"


def thread_faults(shim):
    """Yields the runs of THREADS that start another number of threads."""
    for words, file, wanted in THREADS:
        _, _, threads = runs(shim, words, file).whole()
        if threads != wanted:
            yield f"golf {words} < {file}: {threads} threads, not {wanted}"


def main():
    Words(__doc__).parse_args()
    if not shutil.which("cc"):
        print("tests/counts.py: left out, since cc is not installed")
        return 0
    with tempfile.TemporaryDirectory() as folder:
        shim = watched.build(folder)
        faults = [*steady_faults(shim), *thread_faults(shim)]
    return ended(f"requests for memory of {len(STEADY)} files, threads of {len(THREADS)} runs", faults)


if __name__ == "__main__":
    sys.exit(main())
