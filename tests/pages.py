#!/usr/bin/env python3
"""Runs each command that the pages show, and compares what it writes with what they show.

A line of code that begins with `$ ` is a command. The lines below it, up to the next command or the end of the code,
are what it writes to standard output and standard error, in the order of the writes. golf-go keeps no such order: its
output comes first. `..` stands for any text, and on a line of its own for any lines.

Each command runs in a folder with a link to each file of the repository, so what it makes is gone afterwards, and has
ten seconds. One that takes longer has `# N minutes` behind it and is not run. Commands of golf-go are left out if Go
1.24 is not there. If it is, golf-go is built first.
"""

import os
import re
import shutil
import signal
import subprocess
import sys
import tempfile
from pathlib import Path
from typing import NamedTuple

from shared import ROOT, Words, ended, text_of

PAGES = ("README.md", "docs/REVIEW.md", "docs/USAGE.md", "docs/LANGUAGE.md", "docs/MEANING.md",
         "tools/golf-lower/README.md")
GO = "./golf-go "
SECONDS = 10
MINUTES = re.compile(r"  # .*\bminutes?\b")
# golf-go is built by Go at its first call.
BUILD_SECONDS = 600
# How the statuses of Bash begin that say that no program ran, or that it was ended by a signal. 125 is the launcher's.
NO_PROGRAM = 125


class Shown(NamedTuple):
    """A command, and what a page shows of it."""

    place: str
    command: str
    lines: list


def shown_on(name):
    """Returns the commands of a page."""
    found, current = [], None
    for number, line in enumerate(text_of(ROOT / name).splitlines(), 1):
        code = line[4:] if line.startswith("    ") else None
        if code is None:
            current = None
        elif code.startswith("$ "):
            current = Shown(f"{name}:{number}", code[2:], [])
            found.append(current)
        elif current:
            current.lines.append(code)
    return found


def pattern(lines):
    """Returns what matches these lines."""
    parts = [r"(?:.*\n)*" if line == ".." else re.escape(line).replace(r"\.\.", ".*") + r"\n" for line in lines]
    return re.compile("".join(parts))


def has_go():
    """Whether Go 1.24 or newer is there."""
    if not shutil.which("go"):
        return False
    version = subprocess.run(["go", "env", "GOVERSION"], capture_output=True, text=True).stdout
    found = re.match(r"go1\.(\d+)", version)
    return bool(found) and int(found[1]) >= 24


def ended_in(command, folder, seconds):
    """Runs a command of Bash, and returns its status and what it writes, or None if it takes longer.

    The command has a session of its own, so that nothing which it started goes on after the time.
    """
    errors = subprocess.PIPE if GO in command else subprocess.STDOUT
    process = subprocess.Popen(["bash", "-c", command], cwd=folder, stdin=subprocess.DEVNULL, text=True,
                               stdout=subprocess.PIPE, stderr=errors, start_new_session=True,
                               env=dict(os.environ, PYTHONDONTWRITEBYTECODE="1"))
    try:
        texts = process.communicate(timeout=seconds)
    except subprocess.TimeoutExpired:
        os.killpg(process.pid, signal.SIGKILL)
        process.communicate()
        return None
    return process.returncode, "".join(filter(None, texts))


def fault_of(shown):
    """Returns what is wrong with a command, or nothing."""
    with tempfile.TemporaryDirectory() as folder:
        for path in ROOT.iterdir():
            (Path(folder) / path.name).symlink_to(path)
        done = ended_in(shown.command, folder, SECONDS)
    if not done:
        return f"{shown.place}: over {SECONDS} seconds: {shown.command}"
    status, text = done
    if status >= NO_PROGRAM:
        return f"{shown.place}: status {status}: {text[-200:]!r}"
    if not pattern(shown.lines).fullmatch(text):
        return f"{shown.place}: {shown.command}: it writes {text[:400]!r}"
    return None


def main():
    Words(__doc__).parse_args()
    found = [shown for name in PAGES for shown in shown_on(name) if not MINUTES.search(shown.command)]
    real = [shown for shown in found if GO in shown.command]
    if real and not has_go():
        print(f"pages: {len(real)} commands of golf-go left out, since Go 1.24 is not installed")
        found = [shown for shown in found if shown not in real]
    elif real and not ended_in("./golf-go --version", ROOT, BUILD_SECONDS):
        return ended("pages", [f"golf-go is not built in {BUILD_SECONDS} seconds"])
    faults = [fault for fault in map(fault_of, found) if fault]
    faults += [] if found else ["no command is found"]
    return ended(f"{len(found)} commands of {len(PAGES)} pages", faults)


if __name__ == "__main__":
    sys.exit(main())
