#!/usr/bin/env python3
"""Fails if a released program is not that of these sources.

release/BUILD has the number of the release, which is that of VERSION, of the first heading of CHANGELOG.md, and of the
line of `golf-explore --version` in the code and in its definition. Each program of release/ has its lines there: its
own sums, the sum over its sources, the toolchain and the day. The sources of a program are HANDLES, the lines of
crates.txt and the .rt and .antt files of the crates that it depends on, without must-fail. If the gate has built the
program here with the same toolchain, the two must be the same, byte for byte.
"""

import datetime
import hashlib
import re
import shutil
import subprocess
import sys

from shared import CRATES, PROGRAMS, ROOT, Words, below, built, crates, ended, released, text_of

BUILD = ROOT / "release" / "BUILD"
RELEASE = "release"  # the word of BUILD before the number
# The files that have the line of the version, below crates/golf_explore_command.
VERSIONED = ("src/texts.rt", "specs/Texts.antt")
FOLDERS = ("src", "specs", "proofs")


def sources_of(crate):
    """Returns the sources of a program by name, as bytes."""
    known = crates()
    names = sorted({crate, *below(crate, known)})
    lines = "".join(known[name].line + "\n" for name in names)
    parts = {"crates.txt": lines.encode(), "HANDLES": (ROOT / "HANDLES").read_bytes()}
    files = [file for name in names for folder in FOLDERS for file in (CRATES / name / folder).rglob("*")]
    return parts | {str(file.relative_to(ROOT)): file.read_bytes() for file in files if file.suffix in (".rt", ".antt")}


def sources_sum(crate):
    """Returns the sum over the sorted names and sums of a program's sources."""
    rows = [f"{hashlib.sha256(part).hexdigest()}  {name}\n" for name, part in sorted(sources_of(crate).items())]
    return hashlib.sha256("".join(rows).encode()).hexdigest()


def file_sum(path):
    """Returns the sum of a file."""
    return hashlib.sha256(path.read_bytes()).hexdigest()


def short_sum(path):
    """Returns a sum of a file that is made in little time, which the launcher compares: it finds damage alone."""
    return hashlib.md5(path.read_bytes(), usedforsecurity=False).hexdigest()


def toolchain():
    """Returns the one line of the toolchain, or nothing if it is not there."""
    try:
        return subprocess.run(["rt", "version"], capture_output=True, text=True, check=True).stdout.strip()
    except (OSError, subprocess.CalledProcessError):
        return ""


def lines_of(path, sources):
    """Returns what BUILD says of a program that was built today of sources with this sum."""
    today = datetime.datetime.now(datetime.timezone.utc).date().isoformat()
    sums = {"program": file_sum(path), "md5": short_sum(path), "sources": sources}
    return sums | {"toolchain": toolchain(), "day": today}


def number():
    """Returns the number of the release."""
    return text_of(ROOT / "VERSION").strip()


def faults_of_number(says):
    """Returns what is wrong with the number of the release."""
    headings = re.findall(r"^## (.*)$", text_of(ROOT / "CHANGELOG.md"), re.M)
    told = {"release/BUILD": says.get(RELEASE, {}).get("number"), "CHANGELOG.md": (headings or [None])[0]}
    for name in VERSIONED:
        path = CRATES / "golf_explore_command" / name
        lines = re.findall(r'"golf-explore ([0-9][^"\\]*)\\n"', text_of(path))
        told[str(path.relative_to(ROOT))] = lines[0] if len(lines) == 1 else None
    return [f"{file} has the number {it}, and VERSION {number()}" for file, it in told.items() if it != number()]


def said(build=BUILD):
    """Returns what a file BUILD says of each program."""
    found = {}
    for line in text_of(build).splitlines():
        name, key, value = line.split(" ", 2)
        found.setdefault(name, {})[key] = value
    return found


def take():
    """Copies what the gate built, and writes release/BUILD."""
    BUILD.parent.mkdir(exist_ok=True)
    rows = [f"{RELEASE} number {number()}\n"]
    for name, crate in PROGRAMS.items():
        path = released(name)
        shutil.copy(built(crate), path)
        rows += [f"{path.name} {key} {value}\n" for key, value in lines_of(path, sources_sum(crate)).items()]
    BUILD.write_text("".join(rows), encoding="utf-8")


def fault(name, crate, says):
    """Returns what is wrong with a released program, or nothing."""
    path = released(name)
    if not path.is_file() or not says:
        return "it is not there, or BUILD does not name it"
    if file_sum(path) != says.get("program") or short_sum(path) != says.get("md5"):
        return "its sums are not those of BUILD"
    if sources_sum(crate) != says.get("sources"):
        return "the sources have changed: take it anew (python3 checks/release.py --take, after rt ci)"
    if not built(crate).is_file():
        print(f"{path.name}: nothing is built here to compare it with")
    elif toolchain() != says.get("toolchain"):
        print(f"{path.name}: another toolchain built it, so it could not be compared")
    elif built(crate).read_bytes() != path.read_bytes():
        return "the gate built another program"
    return None


def main():
    options = Words(__doc__)
    options.add_argument("--take", action="store_true", help="take what the gate built, and write release/BUILD")
    if options.parse_args().take:
        take()
    try:
        says = said()
    except (OSError, ValueError):
        return ended("release", ["release/BUILD is not there, or is no list of programs"])
    names = {name: released(name).name for name in PROGRAMS}
    faults = [f"{names[name]}: {text}" for name, crate in PROGRAMS.items()
              if (text := fault(name, crate, says.get(names[name])))]
    return ended(f"release: {len(PROGRAMS)} programs", faults_of_number(says) + faults)


if __name__ == "__main__":
    sys.exit(main())
