#!/usr/bin/env python3
"""Proves and builds the programs in this clone, and leaves them in out/. `./golf` and `./golf-explore` then run these.

It proves the crates that the programs depend on in a copy of them, without the edits that must fail, and says before
how long that may take. A line tells of each crate that is proved. What was proved here before is not proved again.
The sources are those of this moment: after an edit `./golf` runs the program of before until it is proved anew. The
status is 1 if a proof fails, and then the programs of before stay.
"""

import os
import shutil
import subprocess
import sys
import tempfile
import time
from pathlib import Path

from release import lines_of, said, sources_sum
from shared import CRATES, PROGRAMS, ROOT, Words, below, crates, give_up, text_of

OUT = ROOT / "out"


def costs(names, known):
    """Returns the minutes of processor that these proofs take by docs/gate.tsv, and those of their longest path."""
    rows = [line.split("\t") for line in text_of(ROOT / "docs" / "gate.tsv").splitlines()[1:]]
    took, path = {row[0]: float(row[1]) for row in rows}, {}
    for name in (name for name in known if name in names):
        path[name] = took.get(name, 0) + max((path.get(it, 0) for it in known[name].uses), default=0)
    return sum(took.get(name, 0) for name in names), max(path.values())


def foretell(names, known):
    """Says what the proofs will take."""
    every, longest = costs(names, known)
    processors = len(os.sched_getaffinity(0))
    clock = max(every / processors, longest)
    print(f"prove: {len(names)} crates: about {every:.0f} minutes of processor, {clock:.0f} by the clock on "
          f"{processors} processors, less for what was proved here before", file=sys.stderr, flush=True)


def copy_to(place, names, known):
    """Copies the sources of these crates, without their edits and without what was built."""
    shutil.copy(ROOT / "HANDLES", place)
    lines = "".join(known[name].line + "\n" for name in known if name in names)
    (place / "crates.txt").write_text(lines, encoding="utf-8")
    for name in names:
        shutil.copytree(CRATES / name, place / "crates" / name, ignore=shutil.ignore_patterns("out", "must-fail"))


def proved_in(line):
    """Returns the crate of which a line of `rt ci` says that it is proved, or None."""
    if not line.startswith("rt: ") or ": its tests are" in line:
        return None
    return line.split()[1] if " is kept: " in line or line.rstrip().endswith(" proved") else None


def prove(place, count):
    """Runs `rt ci` there, tells of each crate that is proved, and returns the whole log and the status."""
    log, told, began = [], 0, time.monotonic()
    with subprocess.Popen(["rt", "ci"], cwd=place, stdout=subprocess.PIPE, stderr=subprocess.STDOUT, text=True,
                          errors="replace") as process:
        for line in process.stdout:
            log.append(line)
            if crate := proved_in(line):
                told += 1
                minutes = (time.monotonic() - began) // 60
                print(f"prove: {told} of {count}: {crate}, {minutes:.0f} min", file=sys.stderr, flush=True)
    return "".join(log), process.returncode


def keep(place, sums):
    """Puts the programs of these sums of sources into out/, and notes what they are in out/BUILD."""
    notes = said(OUT / "BUILD") if (OUT / "BUILD").is_file() else {}
    for name, sources in sums.items():
        made = place / "crates" / PROGRAMS[name] / "out" / PROGRAMS[name]
        # A program that runs at this moment is not changed: the new file takes its name.
        shutil.copy(made, OUT / f"{name}.new")
        (OUT / f"{name}.new").replace(OUT / name)
        notes[name] = lines_of(OUT / name, sources)
    text = "".join(f"{name} {key} {value}\n" for name, lines in notes.items() for key, value in lines.items())
    (OUT / "BUILD.new").write_text(text, encoding="utf-8")
    (OUT / "BUILD.new").replace(OUT / "BUILD")


def main():
    options = Words(__doc__)
    options.add_argument("programs", nargs="*", metavar="PROGRAM", help=f"{' or '.join(PROGRAMS)}; both if left out")
    programs = options.parse_args().programs or list(PROGRAMS)
    if strange := [name for name in programs if name not in PROGRAMS]:
        options.error(f"no program {strange[0]}")
    if not shutil.which("rt"):
        give_up("the toolchain is not on the path: rt proves and builds the programs")
    try:
        OUT.mkdir(exist_ok=True)
        tempfile.TemporaryFile(dir=OUT).close()
    except OSError as fault:
        give_up(f"nothing can be written to {OUT}: {fault.strerror}")
    known = crates()
    names = {it for name in programs for it in (PROGRAMS[name], *below(PROGRAMS[name], known))}
    foretell(names, known)
    with tempfile.TemporaryDirectory() as place:
        copy_to(Path(place), names, known)
        sums = {name: sources_sum(PROGRAMS[name]) for name in programs}
        log, status = prove(place, len(names))
        if status:
            sys.stderr.write(log)
            give_up("a proof failed: the log is above")
        keep(Path(place), sums)
    print(f"prove: {' and '.join(f'out/{name}' for name in programs)}: ./golf and ./golf-explore run what is in out/")
    return 0


if __name__ == "__main__":
    sys.exit(main())
