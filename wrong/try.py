#!/usr/bin/env python3
"""Tries the wrong bodies that the gate does not try. Every one must be refused.

wrong/code/CRATE/*.edit are edits of code, and wrong/definitions/CRATE/*.edit of definitions, which an example or a law
refuses. The script works on a copy of the files that git knows, with these edits in place of the gate's. It runs
`rt must-fail` there, which first checks what the crates depend on, and its status is that of `rt must-fail`.
"""

import shutil
import subprocess
import sys
import tempfile
from pathlib import Path

from shared import ROOT, Words

FOLDERS = [ROOT / "wrong" / name for name in ("code", "definitions")]


def edits_of(crate):
    """Returns the edits of a crate: those of code, and those of definitions."""
    return [path for folder in FOLDERS for path in sorted((folder / crate).glob("*.edit"))]


def copy_to(place):
    """Copies the sources, without the gate's own edits."""
    command = ["git", "ls-files", "crates.txt", "HANDLES", "crates"]
    names = subprocess.run(command, check=True, capture_output=True, text=True, cwd=ROOT).stdout.splitlines()
    for name in names:
        if "/must-fail/" not in name and (ROOT / name).exists():
            (place / name).parent.mkdir(parents=True, exist_ok=True)
            shutil.copy(ROOT / name, place / name)


def main():
    options = Words(__doc__)
    options.add_argument("crates", nargs="*", metavar="CRATE", help="only the edits of these crates")
    known = sorted({path.name for folder in FOLDERS for path in folder.iterdir()})
    crates = options.parse_args().crates or known
    if strange := [crate for crate in crates if crate not in known]:
        options.error(f"no wrong bodies of {strange[0]}")
    with tempfile.TemporaryDirectory() as place:
        copy_to(Path(place))
        for crate in crates:
            target = Path(place) / "crates" / crate / "must-fail"
            target.mkdir(parents=True)
            for edit in edits_of(crate):
                shutil.copy(edit, target)
        return subprocess.run(["rt", "must-fail", *crates], cwd=place, check=False).returncode


if __name__ == "__main__":
    sys.exit(main())
