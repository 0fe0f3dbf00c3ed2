#!/usr/bin/env python3
"""Tries ./install: into a new folder, from a copy of the clone that is gone afterwards, and away again.

What is installed must do what the released programs do, with an empty environment and as another user. The front end
and the page must find the programs beside themselves. After `--remove` nothing may be left. The man pages and
completions must have each option that docs/USAGE.md names. golf-go is tried if Go 1.24 is there. It needs Linux, and
root for what another user does.
"""

import os
import re
import shutil
import subprocess
import sys
import tempfile
from pathlib import Path

from shared import ROOT, Words, ended, released, text_of

PARTS = ("install", "release", "docs", "share", "tools/golf-page", "tools/golf-lower")
LEAK = ROOT / "examples" / "leak.go"
PROGRAMS = {"golf": "run", "golf-explore": "all"}
NOBODY = ["setpriv", "--reuid=65534", "--regid=65534", "--clear-groups", "--inh-caps=-all"]


def end_of(command, text=b"", env=None):
    """Returns status, output and errors of a command, with an empty environment if none is given."""
    done = subprocess.run(command, input=text, env=env or {}, capture_output=True, timeout=900)
    return done.returncode, done.stdout, done.stderr


def can_be_another():
    """Whether a command can be run as another user."""
    return os.geteuid() == 0 and shutil.which("setpriv") is not None


class Trial:
    """A copy of the clone, and what was wrong so far."""

    def __init__(self, folder):
        self.folder, self.clone, self.faults, self.count = folder, folder / "clone", [], 0
        for part in PARTS:
            (self.clone / part).parent.mkdir(parents=True, exist_ok=True)
            subprocess.run(["cp", "-a", str(ROOT / part), str(self.clone / part)], check=True)

    def expect(self, what, got, wanted):
        """Notes a fault if these are not the same."""
        self.count += 1
        if got != wanted:
            self.faults.append(f"{what}: {got!r}, wanted {wanted!r}")

    def install(self, *words, user=()):
        """Runs ./install, and returns its status and its lines."""
        env = {name: os.environ[name] for name in ("PATH", "HOME", "GOCACHE") if name in os.environ and not user}
        env["PATH"] = os.environ["PATH"]
        status, output, errors = end_of([*user, str(self.clone / "install"), *map(str, words)], env=env)
        return status, (output + errors).decode().splitlines()

    def programs(self, prefix, user=()):
        """What is installed does what the released programs do, with an empty environment."""
        text = LEAK.read_bytes()
        for name, word in PROGRAMS.items():
            wanted = end_of([str(released(name)), word], text)
            self.expect(f"{name} in {prefix}", end_of([*user, str(prefix / "bin" / name), word], text), wanted)
            self.expect(f"the bytes of {name}", (prefix / "bin" / name).read_bytes(), released(name).read_bytes())
        status, output, errors = end_of([*user, str(prefix / "bin" / "golf-page"), str(LEAK)])
        self.expect("golf-page", (status, output[:15], errors), (0, b"<!doctype html>", b""))
        self.version(prefix, "golf-page", user)
        self.front_end(prefix, user)

    def version(self, prefix, name, user):
        """The version is that of the release, with what BUILD says of the programs."""
        status, output, errors = end_of([*user, str(prefix / "bin" / name), "--version"])
        lines = output.decode().splitlines()
        number = text_of(ROOT / "VERSION").strip()
        self.expect(f"{name} --version", (status, lines[:1], errors), (0, [f"{name} {number}"], b""))
        noted = re.findall(r"(?:program|sources|day|toolchain) (.*)", text_of(ROOT / "release" / "BUILD"))
        self.expect(f"{name} --version, BUILD", [one for one in noted if one not in output.decode()], [])

    def front_end(self, prefix, user=()):
        """golf-go finds the others beside itself, with an empty environment, and through a link."""
        if not (prefix / "bin" / "golf-go").exists():
            print("install: golf-go: left out, since Go 1.24 is not installed")
            return
        self.version(prefix, "golf-go", user)
        link = self.folder / "a link to golf-go"
        link.unlink(missing_ok=True)
        link.symlink_to(prefix / "bin" / "golf-go")
        for program in (prefix / "bin" / "golf-go", link):
            for words, status, part in (([LEAK], 1, b"goroutine 2: chan receive at leak.go:5:2 in recv"),
                                        (["explore", LEAK], 1, b"goroutine 2: chan receive at leak.go:5:2 in recv"),
                                        (["page", LEAK], 0, b"<!doctype html>"),
                                        (["--help"], 0, b"golf-go run PACKAGE")):
                found, output, errors = end_of([*user, str(program), *map(str, words)])
                self.expect(f"{program.name} {words[0]}", (found, part in output + errors), (status, True))

    def odd_words(self):
        """Wrong words have status 2, what cannot be done has status 1, and one line says why."""
        for words, status in ((["--x"], 2), (["a", "b"], 2), (["--remove", self.folder / "nowhere"], 1),
                              (["/proc/golf"], 1)):
            found, lines = self.install(*words)
            self.expect(f"install {words}", (found, len(lines) in (1, 2), lines[-1].startswith("install: ")),
                        (status, True, True))
        (self.clone / "release" / "damaged").touch()
        with (self.clone / "release" / "golf-x86_64-linux").open("r+b") as file:
            file.seek(5000)
            file.write(b"x")
        status, lines = self.install(self.folder / "damaged")
        self.expect("a damaged program", (status, len(lines), (self.folder / "damaged").exists()), (1, 1, False))

    def another_user(self):
        """Another user installs from a clone that cannot be written to."""
        if not can_be_another():
            print("install: another user: left out, since that takes root and setpriv")
            return
        home = self.folder / "home"
        home.mkdir()
        os.chown(home, 65534, 65534)
        for path in (self.folder, home):
            path.chmod(0o755)
        user = ["env", "-i", "PATH=/usr/bin:/bin", *NOBODY]
        status, lines = self.install(home / "local", user=user)
        self.expect("another user installs", (status, lines[0]), (0, str(home / "local" / "bin" / "golf")))
        self.programs(home / "local", ["env", "-i", *NOBODY])
        self.expect("another user removes", self.install("--remove", home / "local", user=user)[0], 0)
        self.expect("what is left", sorted(home.iterdir()), [])

    def whole(self):
        """Installs, moves the clone away, runs, and removes."""
        prefix = self.folder / "new folder" / "local"
        status, lines = self.install(prefix)
        self.expect("install", (status, lines[0]), (0, str(prefix / "bin" / "golf")))
        self.expect("install again", self.install(f"{prefix}/")[0], 0)
        (prefix / "bin" / "mine").write_text("mine", encoding="utf-8")
        self.clone.rename(self.folder / "moved")
        self.programs(prefix)
        if can_be_another():
            self.folder.chmod(0o755)
            self.programs(prefix, ["env", "-i", *NOBODY])
        (self.folder / "moved").rename(self.clone)
        self.expect("remove", self.install("--remove", prefix)[0], 0)
        left = sorted(str(path.relative_to(prefix)) for path in prefix.rglob("*"))
        self.expect("what is left", left, ["bin", "bin/mine"])
        shutil.rmtree(prefix.parent)


def faults_of_pages():
    """Returns the options of the programs in docs/USAGE.md that the man pages or a completion lack."""
    lines = [line for line in text_of(ROOT / "docs" / "USAGE.md").splitlines() if "./install" not in line]
    usage = set(re.findall(r"--[a-z]+", "\n".join(lines)))
    share = ROOT / "share"
    pages = {"the man pages": "".join(text_of(path) for path in sorted((share / "man" / "man1").iterdir()))}
    pages["bash"] = text_of(share / "bash-completion" / "completions" / "golf")
    pages["zsh"] = text_of(share / "zsh" / "site-functions" / "_golf")
    return [f"{option}: not in {of}" for of, text in pages.items() for option in sorted(usage) if option not in text]


def main():
    Words(__doc__).parse_args()
    with tempfile.TemporaryDirectory() as folder:
        trial = Trial(Path(folder))
        trial.whole()
        trial.another_user()
        trial.odd_words()
        return ended(f"install: {trial.count} trials", trial.faults + faults_of_pages())


if __name__ == "__main__":
    sys.exit(main())
