#!/usr/bin/env python3
"""Compares golf-explore and golf with a model in Python, on examples and on generated programs.

    tests/explored.py compare PROGRAM     compares the answers of `PROGRAM all` and `PROGRAM search`
    tests/explored.py check [PROGRAM]     compares runs of `golf`, turn by turn
    tests/explored.py all < FILE          what all schedules of a file come to, in the words of golf-explore
    tests/explored.py generate NUMBER     prints a generated program

`compare` looks at the status, whether a run leaks, whether a run panics or falls asleep, and whether each run ends. The
model looks at each turn of each state for these. The number of states is that of the model if frame-local turns follow
each turn and alike states count as one; with `--any-states` it may differ. The choices of a leak are replayed by the
model, and with `--golf` by that program too. `search` must find a leak exactly when the model does, with as few
preemptions, or keep as many states.

`check` runs the model and `golf run --every 1` on five schedules of each program. It compares output, reports,
collections, endings and statuses turn by turn. For each line that a report can have in the model, it runs a shortest
run that shows it, and compares the report. States of small programs are counted twice.

Both begin with the files of examples/schedules. There a file NAME_leaks.go leaks, and the others do not. The model is
the package model/: its turns are exactly those of the program.
"""

import random
import re
import sys

from model.code import code_of
from model.machine import Run
from model.programs import Counts, Maker, example_programs, made_programs, schedules_of
from model.states import Explored, Searched, Settled, always_ends, plain_states, preemptions_of
from model.syntax import Unread
from shared import REPORTED, ROOT, Words, program, released, run, text_of

DEFAULT_STATES = 1_000_000
MOST_STATES_COUNTED_TWICE = 1_000
MOST_STATES_SEARCHED_TWICE = 20_000
FEW_STATES = 2_000
MOST_PREEMPTIONS = 2
MOST_TOLD = 20
EVERY = re.compile(r"every schedule: (\d+) states, no leak")
LEAK = re.compile(r"leak: --every (\d+) --schedule choices:(\d+(?:,\d+)*)")
NOTHING = re.compile(rf"nothing found: (\d+) states, at most {MOST_PREEMPTIONS} preemptions")


def lines_of(lines):
    """Returns the text of some lines."""
    return "".join(line + "\n" for line in lines)


def choices_of(numbers):
    """Returns the word of a schedule by these numbers."""
    return "choices:" + ",".join(str(number) for number in numbers)


def differences_ended(line, bad):
    """Prints the first differences and how many there are, and returns the status."""
    for fault in bad[:MOST_TOLD]:
        print(fault)
    print(f"{line}: {len(bad)} differences")
    return 1 if bad else 0


# ---- the words of golf-explore


def answer(text, most):
    """Returns the lines for a file, and the status."""
    explored = Explored(code_of(text), most)
    if explored.leak is not None:
        leak = Run(explored.code, explored.leak, max(1, len(explored.leak)))
        first = f"leak: --every {len(explored.leak)} --schedule {choices_of(explored.leak)}"
        return [first, *(line for line in leak.errors if line.startswith("goroutine"))], 1
    if not explored.complete:
        return [f"stopped: more than {most} states"], 3
    lines = [f"every schedule: {Settled(explored).states} states, no leak"]
    lines.append("panics under some schedule" if explored.ends("panicked") else "never panics")
    lines.append("all asleep under some schedule" if explored.ends("asleep") else "never all asleep")
    return lines + ["always ends"] * always_ends(explored), 0


def tell_all(given):
    """Prints what all schedules of standard input come to, and returns the status."""
    try:
        lines, status = answer(sys.stdin.read(), given.states)
    except Unread as why:
        lines, status = [f"unread: {why}"], 4
    print("\n".join(lines))
    return status


def generate(given):
    """Prints a generated program."""
    print(Maker(given.seed, given.number).program(), end="")
    return 0


# ---- the model beside golf run


def golf_run(golf, words, text):
    """Returns output, errors and status of a run."""
    ran = run([golf, "run", *words], text)
    return ran.stdout.decode(), ran.stderr.decode(), ran.returncode


def differences(golf, made, words, numbers, every):
    """Returns a line for each part of a run in which the model and the program differ."""
    by_model = Run(made.code, numbers, every)
    wanted = golf_run(golf, ["--every", str(every), *words], made.text)
    modelled = (lines_of(by_model.output), lines_of(by_model.errors), by_model.status)
    names = ("output", "errors", "status")
    return [f"program {made.name}, {' '.join(words)}: {name}\n  golf:  {theirs!r}\n  model: {ours!r}"
            for name, theirs, ours in zip(names, wanted, modelled) if theirs != ours]


def leak_differences(golf, made, line, choices):
    """Returns what is wrong with the run of these choices, which is to show the line, by the model and the program."""
    bad = differences(golf, made, ["--schedule", choices_of(choices)], choices, len(choices))
    shown = line in Run(made.code, choices, len(choices)).errors
    return bad if shown else bad + [f"program {made.name}: nobody is reported as {line}"]


def count_differences(made):
    """Returns what is wrong with the number of states of a small program, which are counted in two ways."""
    if made.explored.states > MOST_STATES_COUNTED_TWICE:
        return []
    plain = plain_states(made.code)
    return [] if plain == made.explored.states else [f"program {made.name}: {made.explored.states} and {plain} states"]


def faults_of_example(made):
    """Returns what is wrong with an example by the model."""
    if made.name.endswith("_leaks"):
        return [] if made.kind() == "some" else [f"{made.name} does not leak under some schedules alone"]
    is_closed = made.explored.complete and made.explored.leak is None
    return [] if is_closed else [f"{made.name} leaks, or has too many states"]


class Checking:
    """The model beside golf, on one program after another."""

    def __init__(self, golf, seed):
        self.golf, self.seed, self.bad = golf, seed, []
        self.runs = self.lines = self.twice = 0

    def check(self, made):
        """Compares the runs of a program."""
        at_random = random.Random(f"{self.seed} schedules {made.name}")
        for words, numbers in schedules_of(at_random):
            self.bad += differences(self.golf, made, words, numbers, 1)
            self.runs += 1
        for line, choices in made.explored.leaks.items():
            self.bad += leak_differences(self.golf, made, line, choices)
            self.lines += 1
        self.bad += count_differences(made)
        self.twice += made.explored.states <= MOST_STATES_COUNTED_TWICE

    def check_example(self, made):
        """Compares the runs of an example, and tells how many states it has."""
        self.bad += faults_of_example(made)
        self.check(made)
        leak = made.explored.leak
        told = f"a leak after {len(leak)} turns" if leak else "no leak"
        print(f"{made.name}: {made.explored.states} states, {told}")


def check(given):
    """Compares runs, and returns the status."""
    counts, checking = Counts(), Checking(given.program, given.seed)
    for made in example_programs():
        checking.check_example(made)
    for made in made_programs(given.seed, given.programs, counts):
        checking.check(made)
    counts.tell()
    print(f"{checking.lines} lines of reports shown by golf, states of {checking.twice} programs counted twice")
    return differences_ended(f"{checking.runs} schedules run by the model and by golf", checking.bad)


# ---- the model beside golf-explore


class Told:
    """What golf-explore tells of a file."""

    def __init__(self, explore, text, most, *words):
        ran = run([explore, *(words or ("all",)), "--states", str(most)], text, 3600)
        self.lines = (ran.stdout + ran.stderr).decode().splitlines()
        self.status = ran.returncode
        self.every, self.leak, self.nothing = self.first(EVERY), self.first(LEAK), self.first(NOTHING)
        self.reports = [line for line in self.lines if REPORTED.fullmatch(line)]

    def first(self, form):
        """Returns the first line of this form, or None."""
        return next(filter(None, map(form.fullmatch, self.lines)), None)

    def says(self, line):
        """Whether it tells this line."""
        return line in self.lines


def faults_of_closed(told, explored, any_states):
    """Returns what is wrong with the answer to a program without a leak."""
    if told.status != 0 or not told.every:
        return [f"no leak in {explored.states} states by the model"]
    faults, settled = [], Settled(explored)
    if not any_states and int(told.every[1]) != settled.states:
        faults.append(f"{told.every[1]} states, {settled.states} by the model")
    if told.says("always ends") != always_ends(explored):
        faults.append(f"'always ends' is {'' if told.says('always ends') else 'not '}told")
    for never, some, happens in (("never panics", "panics under some schedule", explored.ends("panicked")),
                                 ("never all asleep", "all asleep under some schedule", explored.ends("asleep"))):
        if told.says(never) == happens or told.says(some) != happens:
            faults.append(f"{never!r} is {'' if told.says(never) else 'not '}told")
    return faults


def faults_of_leak(told, made, golf):
    """Returns what is wrong with the answer to a program that leaks."""
    if told.status != 1 or not told.leak:
        return [f"a leak by the model, after {len(made.explored.leak)} turns"]
    every, choices = int(told.leak[1]), [int(number) for number in told.leak[2].split(",")]
    wanted = [line for line in Run(made.code, choices, every).errors if line.startswith("goroutine")]
    faults = [] if wanted and told.reports == wanted else [f"reports {told.reports!r}, {wanted!r} by the model"]
    if golf:
        words = ["--every", str(every), "--schedule", choices_of(choices)]
        by_golf = [line for line in golf_run(golf, words, made.text)[1].splitlines() if REPORTED.fullmatch(line)]
        faults += [] if by_golf == told.reports else [f"reports {told.reports!r}, {by_golf!r} by golf"]
    return faults


def faults_of_search(told, made):
    """Returns what is wrong with the answer of a search by preemptions."""
    searched = Searched(made.explored, MOST_PREEMPTIONS)
    faults = []
    if made.explored.states <= MOST_STATES_SEARCHED_TWICE:
        plain = Searched(made.explored, MOST_PREEMPTIONS, settles=False)
        if plain.found != searched.found:
            faults.append(f"{searched.found} preemptions, {plain.found} without frame-local turns, both by the model")
    if searched.found is None:
        if told.status != 0 or not told.nothing or int(told.nothing[1]) != searched.visits:
            faults.append(f"nothing in {searched.visits} states by the model")
        return faults
    if told.status != 1 or not told.leak:
        return [*faults, f"a leak after {searched.found} preemptions by the model"]
    preemptions = preemptions_of(made.code, [int(number) for number in told.leak[2].split(",")])
    if preemptions != searched.found:
        faults.append(f"a leak after {preemptions} preemptions, {searched.found} by the model")
    return faults


class Comparing:
    """The answers of a program beside the model's."""

    def __init__(self, given):
        self.given, self.bad, self.leaks, self.shortest = given, [], 0, 0

    def compare(self, made):
        """Compares the answer to a program."""
        told = Told(self.given.program, made.text, DEFAULT_STATES)
        if made.explored.leak is None:
            faults = faults_of_closed(told, made.explored, self.given.any_states)
        else:
            faults = faults_of_leak(told, made, self.given.golf)
            self.leaks += 1
            self.shortest += bool(told.leak) and int(told.leak[1]) == len(made.explored.leak)
        self.bad += [f"program {made.name}: {fault}; told: {told.lines[:3]!r}" for fault in faults]
        self.search(made)

    def search(self, made):
        """Compares the answer of a search by preemptions."""
        told = Told(self.given.program, made.text, DEFAULT_STATES, "search", "--preemptions", str(MOST_PREEMPTIONS))
        self.bad += [f"program {made.name}, search: {fault}; told: {told.lines[:3]!r}"
                     for fault in faults_of_search(told, made)]

    def stops(self, name, most, line):
        """Looks whether the program stops on a file of examples/ with this line, and status 3."""
        told = Told(self.given.program, text_of(ROOT / "examples" / name), most)
        if told.status != 3 or not told.says(line):
            self.bad.append(f"{name}: status {told.status}; told: {told.lines[:3]!r}")


def compare(given):
    """Compares answers, and returns the status."""
    counts, comparing = Counts(), Comparing(given)
    comparing.stops("schedules/endless.go", FEW_STATES, f"stopped: more than {FEW_STATES} states")
    comparing.stops("finaliser.go", DEFAULT_STATES, "stopped: the file sets finalisers")
    for made in example_programs():
        comparing.compare(made)
    for made in made_programs(given.seed, given.programs, counts):
        comparing.compare(made)
    counts.tell()
    print(f"of {comparing.leaks} leaks {comparing.shortest} are as short as the shortest one of the model")
    return differences_ended(f"answers to {counts.programs} programs and the examples", comparing.bad)


def words():
    """Returns the words of the script."""
    options = Words(__doc__)
    commands = options.add_subparsers(dest="command", required=True, metavar="COMMAND")
    one = commands.add_parser("compare", text="Compares the answers of `PROGRAM all`.")
    one.add_program("a program `golf-explore`, built or released")
    one.add_argument("--programs", type=int, default=300, metavar="N", help="generated programs; 300 if left out")
    one.add_argument("--golf", type=program, metavar="PROGRAM", help="a program `golf` that replays each leak")
    one.add_argument("--any-states", action="store_true", help="the number of states may differ")
    one.set_defaults(does=compare)
    two = commands.add_parser("check", text="Compares runs of `golf`, turn by turn.")
    two.add_argument("program", nargs="?", type=program, default=released("golf"), metavar="PROGRAM")
    two.add_argument("--programs", type=int, default=200, metavar="N", help="generated programs; 200 if left out")
    two.set_defaults(does=check)
    three = commands.add_parser("all", text="Tells what all schedules of standard input come to.")
    three.add_argument("--states", type=int, default=DEFAULT_STATES, metavar="N", help="it stops at more states")
    three.set_defaults(does=tell_all)
    four = commands.add_parser("generate", text="Prints a generated program.")
    four.add_argument("number", type=int, metavar="NUMBER")
    four.set_defaults(does=generate)
    for each in (one, two, four):
        each.add_argument("--seed", type=int, default=1, metavar="SEED", help="of the generated programs")
    return options.parse_args()


if __name__ == "__main__":
    chosen = words()
    sys.exit(chosen.does(chosen))
