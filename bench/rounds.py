#!/usr/bin/env python3
"""Prints what a turn and a round of the programs of bench/rounds cost.

- Instructions a turn, by callgrind: the difference of a run of 70,000 turns and one of 20,000. They are the same on
  every machine and under every load. Valgrind must be there.
- How many turns a round has, by golf-explore trace on 1,000 and on 2,000 rounds.
- With --clock, the nanoseconds of a round, side by side: golf, Lua and Go, as far as they are there and have the
  program. Processor time, the least of five runs, less that of a run without a round.
"""

import os
import re
import shutil
import subprocess
import tempfile
from pathlib import Path

from shared import ROOT, Words, give_up, measured, released, run, text_of

FOLDER = ROOT / "bench" / "rounds"
ROUNDS = "5000000"  # how the files write their number of rounds
TURNS = (20_000, 70_000)
CLOCK_TURNS = 8_000_000
RUNS = 5


def instructions(program, text, turns):
    """Returns how many instructions a run of so many turns has."""
    command = ["valgrind", "--tool=callgrind", "--callgrind-out-file=/dev/null", program, "run", "--turns", str(turns)]
    found = re.search(r"Collected : (\d+)", run(command, text).stderr.decode())
    if not found:
        give_up("valgrind counted nothing")
    return int(found[1])


def turns_of(explorer, text, rounds):
    """Returns how many turns the program takes for so many rounds."""
    done = run([explorer, "trace", "--turns", "100000"], text.replace(ROUNDS, str(rounds)))
    return max(map(int, re.findall(r"^turn (\d+):", done.stderr.decode(), re.MULTILINE)))


def least(command, text=""):
    """Returns the least processor time of some runs, in seconds."""
    return min(measured([str(word) for word in command], text).seconds for _ in range(RUNS))


def by_golf(program, text, turns_a_round):
    """Returns the nanoseconds of a round by golf."""
    whole, start = (least([program, "run", "--turns", turns], text) for turns in (CLOCK_TURNS, 1))
    return (whole - start) / CLOCK_TURNS * turns_a_round * 1e9


def by_lua(lua, file):
    """Returns the nanoseconds of a round by Lua, or None if the program is not there."""
    if not lua or not file.exists():
        return None
    return (least([lua, file, ROUNDS]) - least([lua, file, "0"])) / int(ROUNDS) * 1e9


def by_go(go, file, folder):
    """Returns the nanoseconds of a round by Go, or None if it is not there."""
    if not go:
        return None
    made = {}
    for rounds in (ROUNDS, "2"):
        source = folder / f"{file.stem}_{rounds}.go"
        source.write_text(text_of(file).replace(ROUNDS, rounds), encoding="utf-8")
        made[rounds] = source.with_suffix("")
        subprocess.run([go, "build", "-o", made[rounds], source], check=True, env=environment())
    return (least([made[ROUNDS]]) - least([made["2"]])) / int(ROUNDS) * 1e9


def environment():
    """Returns the environment of this process, with one processor for Go's programs and without the network."""
    return {**os.environ, "GOMAXPROCS": "1", "GOPROXY": "off", "GOFLAGS": "", "GO111MODULE": "off"}


def shown(nanoseconds):
    """Returns a number of nanoseconds as text."""
    return "-" if nanoseconds is None else f"{nanoseconds:.1f}"


def main():
    options = Words(__doc__)
    options.add_program()
    options.add_argument("--clock", action="store_true", help="nanoseconds of a round too, beside Lua and Go")
    words = options.parse_args()
    lua, go = shutil.which("lua5.4") or shutil.which("lua"), shutil.which("go")
    print("program: instructions a turn, turns a round, instructions a round"
          + ("; ns a round by golf, Lua, Go" if words.clock else ""))
    with tempfile.TemporaryDirectory() as folder:
        for file in sorted(FOLDER.glob("*.go")):
            text = text_of(file)
            few, many = (instructions(words.program, text, turns) for turns in TURNS)
            turn = (many - few) / (TURNS[1] - TURNS[0])
            loops = "loops" in file.stem
            a_round = 15 if loops else (turns_of(released("golf-explore"), text, 2_000)
                                        - turns_of(released("golf-explore"), text, 1_000)) / 1_000
            line = f"{file.stem}: {turn:.0f}, {a_round:.1f}, {turn * a_round:.0f}"
            if words.clock:
                times = (by_golf(words.program, text, a_round), by_lua(lua, file.with_suffix(".lua")),
                         None if loops else by_go(go, file, Path(folder)))
                line += "; " + ", ".join(map(shown, times))
            print(line, flush=True)


if __name__ == "__main__":
    main()
