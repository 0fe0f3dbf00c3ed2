#!/usr/bin/env python3
"""Tries the launchers `golf`, `golf-explore` and `golf-page` as they stand in a clone, in places where they could fail.

It takes a copy of the launchers, the released programs and the examples, and calls them through links, from folders
with odd names, without HOME, with closed streams, as another user, many at once, and with damaged programs. If the
program runs, output, errors and status must be those of the program itself. If it cannot, the status is 125 and one
line says why. A start may take 10 ms of processor more than the program. It needs Linux, and root for what another
user does.
"""

import hashlib
import os
import pty
import resource
import shutil
import subprocess
import sys
import tempfile
from concurrent.futures import ThreadPoolExecutor
from pathlib import Path

from shared import PROGRAMS, ROOT, Words, ended, released, text_of

PARTS = ("golf", "golf-explore", "golf-page", "prove", "release", "examples", "tools/golf-page", "docs/LANGUAGE.md")
MOST_MILLISECONDS = 10
WORDS = {"golf": "run", "golf-explore": "all"}
# A file that golf refuses, and golf-go takes.
REAL = "package main\n\nfunc main() {\n\tf := func() {}\n\tf()\n}\n"
NOBODY = ["setpriv", "--reuid=65534", "--regid=65534", "--clear-groups", "--inh-caps=-all"]

# How a launcher is called, in Bash. $C is the clone, $T a folder for links, $X the example; $P is the launcher or the
# program itself, which must do the same.
AS_THE_PROGRAM = {
    "plain": "$P < $X",
    "a working folder that is gone": "mkdir $T/gone; cd $T/gone; rmdir $T/gone; $P < $X 2> /dev/null",
    "no HOME": "unset HOME; $P < $X",
    "an empty environment": "exec env -i $P < $X",
    "CDPATH": "cd $C/..; CDPATH=/tmp:/:.; export CDPATH; $P < $X",
    "BASH_ENV and ENV": "BASH_ENV=/dev/null ENV=/dev/null $P < $X",
    "no input": "$P <&-",
    "no output": "$P < $X >&-",
    "no errors": "$P < $X 2>&-",
    "no streams": "$P <&- >&- 2>&-",
    "a folder as input": "$P < /",
    "a full device": "$P < $X > /dev/full",
    "a pipe that nobody reads": "{ sleep 0.2; $P < $X; echo $? >&2; } | true",
    "words that are wrong": "$P --help",
    "sixteen open files": "ulimit -n 16; $P < $X",
    "no bytes in files": "trap '' XFSZ; ulimit -f 0; $P < $X",
    "64 kB of stack": "ulimit -s 64; $P < $X",
    "20 MB of memory": "ulimit -v 20000; $P < $X",
}
# These ways to call it, with the words of $W.
CALLS = {
    "a link": "ln -sf $C/$N $T/$N; $T/$N $W < $X",
    "a link of another name": "ln -sf $C/$N $T/other-$N; $T/other-$N $W < $X",
    "a relative link": "mkdir -p $T/bin; ln -srf $C/$N $T/bin/$N; $T/bin/$N $W < $X",
    "a link to a link": "ln -sf $C/$N $T/first-$N; ln -sf first-$N $T/second-$N; $T/second-$N $W < $X",
    "a link to the folder": "ln -sfn $C $T/folder; $T/folder/$N $W < $X",
    "the path": "PATH=$C:$PATH; cd /; $N $W < $X",
    "bash": "cd $C; bash $N $W < $X",
    "sh": "cd $C; sh $N $W < $X",
}
# What is wrong with the released program.
DAMAGES = {
    "cut": "truncate -s 100000 $R",
    "cut, with its time": "touch -r $R $T/time; truncate -s 100000 $R; touch -r $T/time $R",
    "another byte": "printf x | dd of=$R bs=1 seek=50000 conv=notrunc 2>/dev/null",
    "empty": ": > $R",
    "gone": "rm $R",
    "not to be run": "chmod -x $R",
    "without BUILD": "rm ${R%/*}/BUILD",
    "a BUILD that is cut": "printf golf > ${R%/*}/BUILD",
}


def copied(place):
    """Copies the launchers, the programs and the examples to a folder."""
    for part in PARTS:
        target = place / part
        target.parent.mkdir(parents=True, exist_ok=True)
        command = ["cp", "-a", str(ROOT / part), str(target)]
        subprocess.run(command, check=True)
    return place


def end_of(command, **names):
    """Returns status, output and errors of a Bash command, with these variables."""
    env = {"PATH": os.environ["PATH"], **{name: str(value) for name, value in names.items()}}
    done = subprocess.run(["bash", "-c", command], env=env, capture_output=True, timeout=120)
    return done.returncode, done.stdout, done.stderr


class Trial:
    """A copy of the clone, a folder for links, and what was wrong so far."""

    def __init__(self, folder):
        self.folder, self.faults, self.count = folder, [], 0
        self.clone = copied(folder / "clone")
        self.example = self.clone / "examples" / "leak.go"

    def expect(self, what, got, wanted):
        """Notes a fault if these are not the same."""
        self.count += 1
        if got != wanted:
            self.faults.append(f"{what}: {got!r}, wanted {wanted!r}")

    def names(self, name):
        """Returns the variables of a command that calls a launcher."""
        links = Path(tempfile.mkdtemp(dir=self.folder))
        return {"C": self.clone, "T": links, "X": self.example, "N": name, "W": WORDS[name]}

    def as_the_program(self, name):
        """The launcher does what the program does."""
        program = released(name)
        for what, command in AS_THE_PROGRAM.items():
            ends = [end_of(command.replace("$P", f'"{path}" {WORDS[name]}'), **self.names(name))
                    for path in (self.clone / name, program)]
            self.expect(f"{name}, {what}", *ends)

    def calls(self, name):
        """However it is called, the launcher finds the program."""
        wanted = end_of(f'"{released(name)}" {WORDS[name]} < $X', X=self.example)
        for what, command in CALLS.items():
            self.expect(f"{name}, {what}", end_of(command, **self.names(name)), wanted)
        for odd in ("a b'\"$x", "line\nline", "-dash", "*"):
            place = copied(self.folder / odd)
            command = [str(place / name), WORDS[name]]
            done = subprocess.run(command, input=self.example.read_bytes(), capture_output=True)
            self.expect(f"{name}, a folder {odd!r}", (done.returncode, done.stdout, done.stderr), wanted)
            shutil.rmtree(place)

    def damages(self, name):
        """A program that is damaged is told in one line, with status 125."""
        for what, command in DAMAGES.items():
            place = copied(self.folder / "damaged")
            end_of(command, R=place / "release" / released(name).name, T=self.folder)
            status, output, errors = end_of('"$C/$N" $W < $X', C=place, N=name, W=WORDS[name], X=self.example)
            said = (status, output, errors.count(b"\n"), errors.startswith(f"{name}: ".encode()))
            self.expect(f"{name}, {what}: {errors!r}", said, (125, b"", 1, True))
            shutil.rmtree(place)

    def at_once(self, name):
        """Forty that start at the same time do the same, and leave nothing in the clone."""
        place = copied(self.folder / "at once")
        before = sorted(place.rglob("*"))
        with ThreadPoolExecutor(40) as pool:
            command = '"$C/$N" $W < $X'
            ends = pool.map(lambda _: end_of(command, C=place, N=name, W=WORDS[name], X=self.example), range(40))
            wanted = end_of(f'"{released(name)}" {WORDS[name]} < $X', X=self.example)
            self.expect(f"{name}, forty at once", set(ends), {wanted})
        self.expect(f"{name}, what is left", sorted(place.rglob("*")), before)

    def what_was_proved(self, name):
        """The program that ./prove left is run, and is told if it is damaged."""
        out = self.clone / "out"
        out.mkdir(exist_ok=True)
        (out / name).write_text("#!/bin/sh\necho proved\n", encoding="utf-8")
        (out / name).chmod(0o755)
        note = hashlib.md5((out / name).read_bytes(), usedforsecurity=False).hexdigest()
        (out / "BUILD").write_text(f"{name} program 0\n{name} md5 {note}\n", encoding="utf-8")
        command = '"$C/$N" $W < $X'
        self.expect(f"{name}, proved", end_of(command, **self.names(name)), (0, b"proved\n", b""))
        (out / name).write_text("#!/bin/sh\necho provoked\n", encoding="utf-8")
        self.expect(f"{name}, proved and damaged", end_of(command, **self.names(name))[:2], (125, b""))
        shutil.rmtree(out)

    def another_user(self, name):
        """Another user can run it in a clone that cannot be written to, whatever stands below /tmp."""
        if os.geteuid() != 0 or not shutil.which("setpriv"):
            print("launcher: another user: left out, since that takes root and setpriv")
            return
        self.folder.chmod(0o755)
        evil = self.folder / "evil"
        evil.write_text("#!/bin/sh\necho evil\n", encoding="utf-8")
        evil.chmod(0o755)
        wanted = end_of(f'"{released(name)}" {WORDS[name]} < $X', X=self.example)
        nobody = " ".join(NOBODY)
        for home in ("", "HOME=/nonexistent", f"HOME={self.folder}", f"XDG_CACHE_HOME={self.folder}"):
            command = f'env -i {home} {nobody} "$C/$N" $W < $X'
            self.expect(f"{name}, another user, {home}", end_of(command, **self.names(name)), wanted)

    def on_a_terminal(self):
        """Messages that lead on come on a terminal alone."""
        real = self.folder / "real.go"
        real.write_text(REAL, encoding="utf-8")
        leads = "golf-go FILE.go takes closures, interfaces, maps, generics and more of Go"
        refused = ["refused: line 3: syntax"]
        self.expect("a refused file", told(self.clone / "golf", ["run"], real), (4, [*refused, leads]))
        explored = (4, [*refused, leads.replace("golf-go", "golf-go explore")])
        self.expect("a refused file, explored", told(self.clone / "golf-explore", ["all"], real), explored)
        status, lines = told(self.clone / "golf", ["run", str(real)], Path("/dev/null"))
        leads = f"the file comes on standard input: golf run < {real}"
        self.expect("a file as a word", (status, lines[-1]), (5, leads))
        quiet = end_of('"$C/golf" run < $T', C=self.clone, T=real)
        self.expect("a refused file, no terminal", quiet, (4, b"", b"refused: line 3: syntax\n"))

    def costs(self, name):
        """A start takes at most so many milliseconds of processor more than the program."""
        text = text_of(self.example)
        both = [min(milliseconds([str(path), WORDS[name]], text) for _ in range(5))
                for path in (self.clone / name, released(name))]
        print(f"launcher: {name}: {both[0]:.1f} ms of processor, the program {both[1]:.1f} ms")
        self.expect(f"{name}, a start", both[0] - both[1] <= MOST_MILLISECONDS, True)

    def page(self):
        """A page is made through links and from odd folders, and without Python one line says so."""
        names = {**self.names("golf"), "D": copied(self.folder / "p a g e")}
        for what, command in {
            "plain": "$C/golf-page $X",
            "a link": "ln -s $C/golf-page $T/page; $T/page $X",
            "odd folder": '"$D/golf-page" $X',
            "CDPATH": "cd $C/..; CDPATH=/tmp:/:.; export CDPATH; clone/golf-page $X",
            "no folder for temporary files": "TMPDIR=/nonexistent $C/golf-page $X",
        }.items():
            status, output, errors = end_of(command, **names)
            self.expect(f"golf-page, {what}", (status, output[:15], errors), (0, b"<!doctype html>", b""))
        tools = "for x in sh dirname readlink; do ln -sf $(command -v $x) $T/; done; PATH=$T $C/golf-page $X"
        status, output, errors = end_of(tools, **names)
        self.expect("golf-page, no Python", (status, output, errors.count(b"\n")), (1, b"", 1))


def told(launcher, words, source):
    """Returns the status and the lines of standard error of a launcher that has a terminal there."""
    ours, theirs = pty.openpty()
    with source.open("rb") as file:
        done = subprocess.run([launcher, *words], stdin=file, stdout=subprocess.DEVNULL, stderr=theirs)
    os.close(theirs)
    lines = os.read(ours, 4096).decode().splitlines()
    os.close(ours)
    return done.returncode, lines


def milliseconds(command, text, runs=20):
    """Returns the processor time of a run, in milliseconds, as an average of some runs."""
    def spent():
        usage = resource.getrusage(resource.RUSAGE_CHILDREN)
        return usage.ru_utime + usage.ru_stime

    before = spent()
    for _ in range(runs):
        subprocess.run(command, input=text.encode(), capture_output=True)
    return (spent() - before) / runs * 1000


def main():
    Words(__doc__).parse_args()
    with tempfile.TemporaryDirectory() as folder:
        trial = Trial(Path(folder))
        for name in PROGRAMS:
            for part in (trial.as_the_program, trial.calls, trial.damages, trial.at_once, trial.what_was_proved,
                         trial.another_user, trial.costs):
                part(name)
        trial.on_a_terminal()
        trial.page()
        return ended(f"launcher: {trial.count} trials", trial.faults)


if __name__ == "__main__":
    sys.exit(main())
