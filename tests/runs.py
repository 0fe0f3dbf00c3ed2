#!/usr/bin/env python3
"""Runs the programs on the runs of tests/runs/, and compares output, errors and status, byte for byte.

Without a PROGRAM it takes for each run the released one and the one that the gate built; two with the same bytes are
run once. A PROGRAM that is named is run on the runs of `golf`, or on those of `golf-explore` if its name has
`explore`. A run is one file, `tests/runs/NAME.txtar`, in the form that stands at the head of tests/archive.py. So a
new run is a new file.
"""

import hashlib
import os
import re
import resource
import subprocess
import sys
from concurrent.futures import ThreadPoolExecutor
from pathlib import Path

from archive import runs
from shared import ENVIRONMENT, PROGRAMS, ROOT, Words, places_of

COLLECTION = re.compile(r"collection \d+: marked \d+, reported \d+, kept 0, reclaimed \d+, objects [012]")


def differs_in_form(errors, last):
    """Whether the errors are not 160 collections, 10,000 goroutines and these last lines."""
    lines = errors.decode().splitlines()
    collections = [line for line in lines if line.startswith("collection ")]
    reported = [line for line in lines if line.startswith("goroutine ")]
    return (
        (len(collections), len(reported)) != (160, 10000)
        or lines[10160:] != last.decode().splitlines()
        or not all(COLLECTION.fullmatch(line) for line in collections)
    )


def done(program, run):
    """Returns what the program does on a run: output, errors and status."""
    folder = os.open("/", os.O_RDONLY)
    full = os.open("/dev/full", os.O_WRONLY)

    def limit():
        if run.memory:
            resource.setrlimit(resource.RLIMIT_AS, (run.memory * 1024,) * 2)

    given = {"stdin": folder} if run.has_directory() else {"input": run.source()}
    given["stdout"] = full if run.has_full_device() else subprocess.PIPE
    ended = subprocess.run([program, *run.words], stderr=subprocess.PIPE, env=ENVIRONMENT, preexec_fn=limit, **given)
    os.close(folder)
    os.close(full)
    return ended.stdout or b"", ended.stderr, ended.returncode


def fault(program, run):
    """Returns what is wrong with a run, or nothing."""
    output, errors, status = done(program, run)
    if status != run.status:
        return f"{run.name}: status {status}, wanted {run.status}: {errors[:200]!r}"
    if output != run.text("stdout"):
        return f"{run.name}: output {output[:200]!r}, wanted {run.text('stdout')[:200]!r}"
    if "stderr.end" in run.texts:
        bad = differs_in_form(errors, run.text("stderr.end"))
        return f"{run.name}: errors of another form" if bad else None
    if errors != run.text("stderr"):
        return f"{run.name}: errors {errors[:200]!r}, wanted {run.text('stderr')[:200]!r}"
    return None


def chosen(name, named):
    """Returns the programs of that name that are there, each once by its bytes."""
    paths = [Path(file).resolve() for file in named if ("explore" in Path(file).name) == (name == "golf-explore")]
    programs = {}
    for path in paths if named else places_of(name):
        if path.exists():
            programs.setdefault(hashlib.sha256(path.read_bytes()).digest(), path)
    return list(programs.values())


def faults_on(program, of):
    """Tries a program on runs, prints what is wrong, and returns how many are."""
    with ThreadPoolExecutor(os.cpu_count()) as pool:
        faults = [text for text in pool.map(lambda run: fault(program, run), of) if text]
    for text in faults:
        print(text)
    print(f"{len(of)} runs on {os.path.relpath(program, ROOT)}, {len(faults)} faults")
    return len(faults)


def main():
    options = Words(__doc__)
    options.add_argument("programs", nargs="*", metavar="PROGRAM")
    options.add_argument("--only", default="", metavar="TEXT", help="only the runs whose name has this text")
    options.add_argument("--list", action="store_true", help="show each run with its line and its test alone")
    given = options.parse_args()
    found, unread = runs(given.only)
    for text in unread:
        print(text)
    bad = len(unread)
    if given.list:
        for run in found:
            print(f"{run.name}: {' '.join([run.program, *run.words])}: {run.keys.get('test', 'none')}")
    for name in PROGRAMS if not given.list else ():
        mine = [run for run in found if run.program == name]
        programs = chosen(name, given.programs)
        if mine and not programs and not given.programs:
            print(f"no program {name} is built, and none is released")
            bad += 1
        for program in programs:
            bad += faults_on(program, mine)
    return 1 if bad else 0


if __name__ == "__main__":
    sys.exit(main())
