"""What the scripts of this repository share.

It has the words of a command line, the crates, runs of a program, and the lines of reports. `bench/`, `tests/` and
`wrong/` have a link to this file, so each script runs from anywhere by its path.
"""

import argparse
import contextlib
import os
import re
import subprocess
import sys
import tempfile
import time
from pathlib import Path
from typing import NamedTuple

ROOT = Path(__file__).resolve().parent.parent
CRATES = ROOT / "crates"
# The programs, each with the crate whose `main` it is.
PROGRAMS = {"golf": "golf", "golf-explore": "golf_explorer"}
# As the launcher has it: huge pages, and one arena for all threads.
ENVIRONMENT = {"GLIBC_TUNABLES": "glibc.malloc.hugetlb=1:glibc.malloc.arena_max=1"}

# The lines that a run writes of a collection.
COLLECTION = re.compile(
    r"collection (\d+): marked (\d+), reported (\d+), kept (\d+), reclaimed (\d+), objects (\d+)"
)
REPORTED = re.compile(r"goroutine (\d+): (.+) at line (\d+), started at line (\d+)")
CERTIFICATE = re.compile(r"certificate (\d+): (\d+) places")
REACHED = re.compile(r"goroutine (\d+): (.+) at line (\d+), reached by (.+)")


# ---- words


def program(path):
    """Returns the whole path of a program, for the words of a script."""
    if not os.access(path, os.X_OK) or os.path.isdir(path):
        raise argparse.ArgumentTypeError(f"no program {path}")
    return os.path.abspath(path)


class Words(argparse.ArgumentParser):
    """The words of a script. `--help` prints its text with status 0; wrong words end it with status 2 and one line."""

    def __init__(self, text, **more):
        form = argparse.RawDescriptionHelpFormatter
        super().__init__(description=text, formatter_class=form, allow_abbrev=False, **more)

    def error(self, message):
        self.exit(2, f"{self.prog}: {' '.join(message.split())} (--help shows the words)\n")

    def add_program(self, which="a program `golf`, built or released"):
        """Adds the word PROGRAM."""
        self.add_argument("program", metavar="PROGRAM", type=program, help=which)

    def add_made(self, count):
        """Adds the words COUNT and SEED: how many files are made, and from which seed."""
        said = f"how many files; {count} if left out"
        self.add_argument("count", nargs="?", type=int, default=count, metavar="COUNT", help=said)
        self.add_argument("seed", nargs="?", type=int, default=1, metavar="SEED", help="1 if left out")


def ended(of, faults):
    """Prints a line for each fault and a last line, and returns the status: 1 if there is a fault."""
    for fault in faults:
        print(fault)
    print(f"{of}, {len(faults)} faults")
    return 1 if faults else 0


# ---- the repository


class Crate(NamedTuple):
    """What crates.txt says of a crate."""

    layer: str  # the heading above it
    line: str  # its line
    uses: list  # the libraries that the line names, in its order


def text_of(path):
    """Returns the text of a file."""
    return Path(path).read_text(encoding="utf-8")


def crates():
    """Returns the crates by name, in the order of crates.txt."""
    found, layer = {}, ""
    for line in text_of(ROOT / "crates.txt").splitlines():
        head, colon, uses = line.partition("#")[0].partition(":")
        if colon:
            found[head.split()[0]] = Crate(layer, line, uses.split())
        elif line.startswith("#"):
            layer = line.strip("# ")
    return found


def below(name, known):
    """Returns the crates of the repository that a crate depends on, over any number of steps."""
    found, left = set(), list(known[name].uses)
    while left:
        it = left.pop()
        if it in known and it not in found:
            found.add(it)
            left += known[it].uses
    return found


def released(name):
    """Returns where the released program of that name is."""
    return ROOT / "release" / f"{name}-x86_64-linux"


def built(crate):
    """Returns where the gate leaves the program of a crate."""
    return CRATES / crate / "out" / crate


def places_of(name):
    """Returns where a program may be: the released one, and the one that the gate built."""
    return [released(name), built(PROGRAMS[name])]


def examples(pattern):
    """Returns the files of examples/ of this pattern, in order."""
    return sorted((ROOT / "examples").glob(pattern))


# ---- runs


def run(command, text, timeout=600):
    """Runs a command with a text as standard input. Output and errors of what it returns are bytes."""
    return subprocess.run(command, input=text.encode(), capture_output=True, timeout=timeout)


def best_time(command, text, runs, status, errors):
    """Returns the least time by the clock of so many runs, in seconds. Each is to have this status and these errors."""
    times = []
    for _ in range(runs):
        begin = time.monotonic()
        done = run(command, text)
        times.append(time.monotonic() - begin)
        if done.returncode != status or done.stderr != errors:
            give_up(f"status {done.returncode}, {done.stderr[:200]!r}")
    return min(times)


class Measured(NamedTuple):
    """What a run took."""

    status: int
    seconds: float  # of processor, that of its threads together
    megabytes: float  # at the peak


def measured(command, text="", output=subprocess.DEVNULL, errors=subprocess.DEVNULL, limit=None):
    """Runs a command with a text as standard input, and these files as the other streams."""
    with tempfile.TemporaryFile() as source:
        source.write(text.encode())
        source.seek(0)
        process = subprocess.Popen(command, stdin=source, stdout=output, stderr=errors, preexec_fn=limit)
        _, status, usage = os.wait4(process.pid, 0)
    process.returncode = os.waitstatus_to_exitcode(status)
    return Measured(process.returncode, usage.ru_utime + usage.ru_stime, usage.ru_maxrss / 1024)


def give_up(why):
    """Ends a script that cannot go on with status 1 and a line."""
    sys.exit(f"{Path(sys.argv[0]).name}: {why}")


@contextlib.contextmanager
def scratch(name, text):
    """Gives a file of that name with this text, in a folder that is gone afterwards."""
    with tempfile.TemporaryDirectory() as folder:
        path = Path(folder) / name
        path.write_text(text, encoding="utf-8")
        yield path
