#!/usr/bin/env python3
"""Compares `golf-explore trace` with the model, turn by turn.

    tests/traced.py compare PROGRAM                                compares PROGRAM with the model
    tests/traced.py trace [--every N] --choices N,N,.. < FILE      what a trace writes to standard error, by the model

`compare` runs `PROGRAM trace --every N --schedule choices:..` on each generated program and on the files of
examples/schedules, by the schedules of tests/explored.py. Output, standard error and status must be the same. So must
those of `PROGRAM trace --threads N`, except for the last line: that has the numbers of the turns, by which the model
runs. The model has no finalisers, so goroutine 0 takes no turn in it.
"""

import random
import sys

from explored import differences_ended, lines_of
from model.code import code_of
from model.machine import Run, runnable
from model.programs import Maker, example_files, schedules_of
from shared import Words, run, text_of


def line_of_turn(code, goroutine):
    """Returns the line at which a goroutine takes its turn."""
    function, at, _, _, _, leaving, _ = goroutine[1][-1]
    body = code.functions[function].body
    if leaving is None:
        return body[at][2]
    return body[at - 1][2] if leaving[0] == "return" else leaving[2]


def deeds(before, after, runner):
    """Returns what the turn did to goroutines."""
    text = ""
    if after[3] != before[3]:
        text += f", starts goroutine {before[3]}"
    left = [goroutine for goroutine in after[2] if goroutine[0] == runner]
    if not left:
        text += ", ends"
    elif left[0][2] is not None:
        text += ", blocks"
    asleep = [goroutine[0] for goroutine in before[2] if goroutine[2] is not None]
    woken = [goroutine[0] for goroutine in after[2] if goroutine[2] is None and goroutine[0] in asleep]
    return text + (", wakes " + ", ".join(f"goroutine {number}" for number in woken) if woken else "")


class Traced(Run):
    """A run that tells each turn."""

    def take(self, number):
        """Takes a turn by this number, and tells it."""
        before = self.state
        able = runnable(before)
        goroutine = before[2][able[number % len(able)]]
        printed = super().take(number)
        done = deeds(before, self.state, goroutine[0])
        line = line_of_turn(self.code, goroutine)
        self.errors.append(f"turn {self.turns}: goroutine {goroutine[0]} at line {line}{done}")
        return printed


def told(program, text, words):
    """Returns the output, the standard error and the status of a trace."""
    ran = run([program, "trace", *words], text)
    return ran.stdout.decode(), ran.stderr.decode(), ran.returncode


def faults_of(name, words, theirs, traced):
    """Returns a line for each part of a trace in which the model's run and the program's differ."""
    ours = lines_of(traced.output), lines_of(traced.errors), traced.status
    return [f"program {name}, {' '.join(words)}: {part}\n  told:  {their!r}\n  model: {our!r}"
            for part, their, our in zip(("output", "errors", "status"), theirs, ours) if their != our]


def faults_of_run(program, name, text, words, numbers, every):
    """Returns a line for each part in which a run by these numbers differs."""
    words = ["--every", str(every), *words]
    return faults_of(name, words, told(program, text, words), Traced(code_of(text), numbers, every))


def faults_by_threads(program, name, text, threads):
    """Returns a line for each part in which a run by threads differs from one by the numbers that it tells."""
    words = ["--threads", str(threads)]
    output, errors, status = told(program, text, words)
    lines, history = errors.rstrip("\n").rpartition("history: ")[::2]
    if not (history and all(number.isdigit() for number in history.split(","))):
        return [f"program {name}, {' '.join(words)}: no numbers: {errors!r}"]
    numbers = [int(number) for number in history.split(",")]
    return faults_of(name, words, (output, lines, status), Traced(code_of(text), numbers, len(numbers) + 1))


def programs(seed, count):
    """Yields the names and texts of the files of examples/schedules and of so many generated programs."""
    for file in example_files():
        yield file.stem, text_of(file)
    for number in range(count):
        yield f"{number} of seed {seed}", Maker(seed, number).program()


def compare(given):
    """Compares traces, and returns the status."""
    bad, runs = [], 0
    for name, text in programs(given.seed, given.programs):
        at_random = random.Random(f"{given.seed} traces {name}")
        for words, numbers in schedules_of(at_random):
            bad += faults_of_run(given.program, name, text, words, numbers, at_random.choice([1, 7, 1000]))
            runs += 1
        bad += faults_by_threads(given.program, name, text, at_random.choice([1, 2, 4]))
        runs += 1
    return differences_ended(f"{runs} runs told by the model and by the program", bad)


def tell(given):
    """Prints a trace by the model, and returns the status of the run."""
    traced = Traced(code_of(sys.stdin.read()), given.choices, given.every or len(given.choices) + 1)
    sys.stdout.write(lines_of(traced.errors))
    return traced.status


def numbers_of(text):
    """Returns the numbers of a word, with commas between."""
    return [int(number) for number in text.split(",")]


def words():
    """Returns the words of the script."""
    options = Words(__doc__)
    commands = options.add_subparsers(dest="command", required=True, metavar="COMMAND")
    one = commands.add_parser("compare", text="Compares PROGRAM with the model.")
    one.add_program("a program `golf-explore`, built or released")
    one.add_argument("--programs", type=int, default=200, metavar="N", help="generated programs; 200 if left out")
    one.add_argument("--seed", type=int, default=1, metavar="SEED", help="of the generated programs")
    one.set_defaults(does=compare)
    two = commands.add_parser("trace", text="Tells a trace of standard input, by the model.")
    two.add_argument("--choices", type=numbers_of, required=True, metavar="N,N,..", help="the numbers of the turns")
    two.add_argument("--every", type=int, metavar="N", help="a collection after each N turns")
    two.set_defaults(does=tell)
    return options.parse_args()


if __name__ == "__main__":
    chosen = words()
    sys.exit(chosen.does(chosen))
