#!/usr/bin/env python3
"""Tries the words of every script of bench/, checks/, tests/ and wrong/.

`--help` must be answered with status 0 and a text on standard output alone. A word that no script knows must be
answered with status 2 and one line on standard error alone, which begins with the name of the script. The README of a
folder must name each script in it.
"""

import os
import subprocess
import sys
import tempfile
from concurrent.futures import ThreadPoolExecutor

from shared import ROOT, Words, ended, text_of

FOLDERS = ("bench", "checks", "tests", "wrong")


def scripts():
    """Returns the scripts of the folders: the files that begin with the name of their interpreter."""
    files = [file for folder in FOLDERS for file in sorted((ROOT / folder).iterdir())]
    return [file for file in files if file.suffix in (".py", ".sh", "") and file.is_file()
            and text_of(file).startswith("#!")]


def answer(script, word):
    """Returns the status, the output and the errors of a script, which is run from a folder of its own."""
    with tempfile.TemporaryDirectory() as folder:
        done = subprocess.run([script, word], capture_output=True, text=True, cwd=folder, stdin=subprocess.DEVNULL)
    return done.returncode, done.stdout, done.stderr


def faults_of(script):
    """Returns what is wrong with a script."""
    name, faults = script.relative_to(ROOT), []
    if not os.access(script, os.X_OK):
        return [f"{name}: it cannot be run"]
    status, output, errors = answer(script, "--help")
    if (status, errors) != (0, "") or len(output.splitlines()) < 3:
        faults.append(f"{name}: --help has status {status}, {len(output)} bytes of output, errors {errors[-80:]!r}")
    status, output, errors = answer(script, "--no-such-word")
    line = errors.rstrip("\n")
    if (status, output) != (2, "") or "\n" in line or not line.startswith(f"{script.name}: "):
        faults.append(f"{name}: a wrong word has status {status}, output {output[:80]!r}, errors {errors[-80:]!r}")
    if f"`{script.name}" not in text_of(script.parent / "README.md"):
        faults.append(f"{name}: {script.parent.name}/README.md does not name it")
    return faults


def main():
    Words(__doc__).parse_args()
    found = scripts()
    with ThreadPoolExecutor(os.cpu_count()) as pool:
        faults = [fault for faults in pool.map(faults_of, found) for fault in faults]
    return ended(f"words of {len(found)} scripts", faults)


if __name__ == "__main__":
    sys.exit(main())
