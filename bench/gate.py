#!/usr/bin/env python3
"""Prints what the gate costs: the minutes of processor that each crate took, and the longest path.

It runs a command, by default `rt ci`, at the top of the repository. It prints a table of what each crate took for its
proof, its tests and its must-fail edits, and then the longest path of crates that depend on each other. With `--write`
the table becomes docs/gate.tsv, if the command succeeds, and its last row alone is printed. The command's own output
goes to gate.log in the folder for temporary files.

A kit whose `rt ci` takes over what it has proved before has `rt ci --anew`, which proves all from nothing: give it as
the command, as the last words.
"""

import argparse
import os
import re
import subprocess
import sys
import tempfile
import time
from pathlib import Path

from shared import ROOT, Words, crates

MARK = f"GATE_OF={os.getpid()}"
TICK = os.sysconf("SC_CLK_TCK")
LOG = Path(tempfile.gettempdir()) / "gate.log"
TABLE = ROOT / "docs" / "gate.tsv"
PHASES = ("proof", "tests", "edits")


def check_of(pid):
    """Returns the key of a process and its crate, phase and seconds so far, or None if it is no check of this run."""
    place = Path("/proc") / pid
    words = (place / "cmdline").read_text(encoding="utf-8", errors="replace").split("\0")
    if "--crate-name" not in words:
        return None
    fields = (place / "stat").read_text(encoding="utf-8", errors="replace").rpartition(")")[2].split()
    folder = os.readlink(place / "cwd")
    if MARK.encode() not in (place / "environ").read_bytes().split(b"\0"):
        return None
    if "/rt-edit-" in folder:
        phase = "edits"
    else:
        phase = "tests" if "--test" in words or any(word.endswith("_tests.o") for word in words) else "proof"
    crate = words[words.index("--crate-name") + 1]
    return (pid, fields[19]), (crate, phase, (int(fields[11]) + int(fields[12])) / TICK)


def look(seen):
    """Notes the processor time so far of each check of this run."""
    for pid in filter(str.isdigit, os.listdir("/proc")):
        try:
            found = check_of(pid)
        except (OSError, ValueError):
            continue
        if found:
            seen[found[0]] = found[1]


def times_of(command):
    """Runs the command, and returns its status and for each crate the seconds of its phases."""
    seen = {}
    with LOG.open("w", encoding="utf-8") as log:
        environment = dict(os.environ, GATE_OF=str(os.getpid()))
        run = subprocess.Popen(command, stdout=log, stderr=subprocess.STDOUT, env=environment, cwd=ROOT)
        while run.poll() is None:
            look(seen)
            time.sleep(0.4)
    took = {}
    for crate, phase, seconds in seen.values():
        took.setdefault(crate, dict.fromkeys(PHASES, 0))[phase] += seconds
    return run.returncode, took


def row(name, parts):
    """Returns a row of the table, of seconds."""
    return "\t".join([name, *(f"{it / 60:.1f}" for it in [*parts, sum(parts)])])


def table(took):
    """Returns the lines of the table: a head, the crates from dear to cheap, and the sums over all."""
    dear = sorted(took, key=lambda it: -sum(took[it].values()))
    sums = row("all", [sum(it[phase] for it in took.values()) for phase in PHASES])
    return ["\t".join(["crate", *PHASES, "all"]), *(row(crate, took[crate].values()) for crate in dear), sums]


def longest_path(took):
    """Returns the seconds of the longest path of proofs, and its crates."""
    path = {}
    for name, crate in crates().items():
        before, way = max((path[it] for it in crate.uses if it in path), default=(0, []))
        path[name] = (before + took.get(name, {}).get("proof", 0), [*way, name])
    return max(path.values())


def main():
    options = Words(__doc__)
    options.add_argument("--write", action="store_true", help="write the table to docs/gate.tsv")
    options.add_argument("command", nargs=argparse.REMAINDER, metavar="COMMAND", help="rt ci, if left out")
    words, began = options.parse_args(), time.time()
    status, took = times_of(words.command or ["rt", "ci"])
    lines = table(took)
    if words.write and took and status == 0:
        TABLE.write_text("".join(f"{line}\n" for line in lines), encoding="utf-8")
        lines = lines[-1:]
    print("\n".join(lines))
    seconds, way = longest_path(took)
    print(f"\nlongest path: {seconds / 60:.1f} minutes of processor: {' '.join(way)}")
    print(f"wall: {(time.time() - began) / 60:.1f} minutes; the last line of {LOG}:")
    said = LOG.read_text(encoding="utf-8", errors="replace").rstrip()
    print(re.sub(r"\n.*\n", "\n", said).rsplit("\n", 1)[-1])
    return status


if __name__ == "__main__":
    sys.exit(main())
