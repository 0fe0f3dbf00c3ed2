#!/usr/bin/env python3
"""Tests of the data of a page, against what the programs write.

    page_test.py [names of tests]

The programs are those of $GOLF and $GOLF_EXPLORE, or the launchers of the repository.
"""

import glob
import io
import json
import os
import re
import subprocess
import sys
import tempfile
import unittest
from contextlib import redirect_stderr, redirect_stdout
from unittest import mock

HERE = os.path.dirname(os.path.abspath(__file__))
TOOL = os.path.dirname(HERE)
ROOT = os.path.dirname(os.path.dirname(TOOL))
sys.path.insert(0, TOOL)

import data
import home
import page
import places
import program
import source
import tell
import traced
import words

GOLF = program.program_path(None, "GOLF", "golf")
EXPLORE = program.program_path(None, "GOLF_EXPLORE", "golf-explore")
EXAMPLES = sorted(glob.glob(os.path.join(ROOT, "examples", "*.go")))
SCHEDULES = sorted(glob.glob(os.path.join(ROOT, "examples", "schedules", "*.go")))
SAMPLES = [os.path.join(TOOL, "samples", f"{name}.go") for name in ("chains", "ends")]
MADE = tempfile.TemporaryDirectory()
MOST_BYTES = 3_000_000


def example(name):
    return os.path.join(ROOT, "examples", f"{name}.go")


def sample(name):
    return os.path.join(TOOL, "samples", f"{name}.go")


def small_pool():
    """Makes the example of the worker pool with fewer jobs and without a collection in the end. Returns its path."""
    with open(example("worker_pool"), encoding="utf-8") as file:
        text = file.read()
    path = os.path.join(MADE.name, "pool.go")
    with open(path, "w", encoding="utf-8") as file:
        file.write(text[text.index("package main"):text.index("sum(10))")] + "sum(3))\n\truntime.GC()\n}\n")
    return path


FILES = EXAMPLES + SCHEDULES + SAMPLES + [small_pool()]


def page_of(path, *line):
    return page.page_of({"--golf": GOLF, "--explore": EXPLORE}, path, list(line))


def lowered_page_of(path, lines, *sources):
    """Returns the page of a lowered file, of which a file has the places."""
    return page.page_of({"--golf": GOLF, "--explore": EXPLORE, "--lines": lines, "--source": list(sources)}, path, [])


def data_of(path, *line):
    """Returns what the script of the page reads, from its text, with rows in place of spots."""
    text = page_of(path, *line).html()
    found = re.search(r'<script type="application/json" id="data">(.*?)</script>', text, re.S)
    return in_rows(json.loads(found[1]))


def in_rows(shown):
    """Returns the data with rows in place of spots."""
    def row(spot):
        return shown["spots"][spot - 1][0] if spot > 0 else spot
    shown["row"] = [row(spot) for spot in shown["spot"]]
    for goroutine in shown["goroutines"]:
        goroutine[2] = row(goroutine[2])
        for wait in goroutine[-1]:
            wait[2] = row(wait[2])
    return shown


def ran(program_, *line, path):
    """Returns what a program writes for a file, and its status."""
    with open(path, "rb") as file:
        done = subprocess.run([program_, *line], stdin=file, capture_output=True, check=False)
    return done.stdout.decode("utf-8", "replace"), done.stderr.decode("utf-8", "replace"), done.returncode


def turn_lines(path, *line):
    return [each for each in ran(EXPLORE, "trace", *line, path=path)[1].split("\n") if each.startswith("turn ")]


def told_by(shown):
    """Returns the lines of the turns, as the data of a page tells them."""
    starts, ends, blocks, wakes = {}, {}, set(), {}
    for number, name, started, begin, end, dead, reported, removed, waits in shown["goroutines"]:
        if number > 1:
            starts[begin] = number
        ends[end] = number
        for wait in waits:
            blocks.add((wait[0], number, wait[2]))
            wakes.setdefault(wait[1], []).append(number)
    lines = []
    for turn, (number, row) in enumerate(zip(shown["who"], shown["row"]), 1):
        line = f"turn {turn}: goroutine {number} at line {row}"
        if turn in starts:
            line += f", starts goroutine {starts[turn]}"
        if (turn, number, row) in blocks:
            line += ", blocks"
        if ends.get(turn) == number:
            line += ", ends"
        if turn in wakes:
            line += ", wakes " + ", ".join(f"goroutine {each}" for each in sorted(wakes[turn]))
        lines.append(line)
    return lines


def assert_same(test, found, wanted):
    """Fails with the first difference of two lists: a difference of long lists takes minutes to print."""
    for at, (one, other) in enumerate(zip(found, wanted)):
        test.assertEqual(one, other, f"at place {at}")
    test.assertEqual(len(found), len(wanted))


class File:
    """A file that a test makes."""

    def __init__(self, text):
        self.raw = text if isinstance(text, bytes) else text.encode()

    def __enter__(self):
        self.folder = tempfile.TemporaryDirectory(prefix="golf-page-")
        path = os.path.join(self.folder.name, "made.go")
        with open(path, "wb") as file:
            file.write(self.raw)
        return path

    def __exit__(self, *failure):
        self.folder.cleanup()


class DataAgainstPrograms(unittest.TestCase):
    """The data of the page of each example, compared with what the programs write."""

    def test_turns_are_those_of_the_trace(self):
        for path in FILES:
            with self.subTest(os.path.basename(path)):
                assert_same(self, told_by(data_of(path)), turn_lines(path))

    def test_turns_by_another_schedule(self):
        for line in (["--schedule", "seed:7"], ["--schedule", "seed:3", "--every", "20"], ["--turns", "40"]):
            for path in EXAMPLES:
                with self.subTest(f"{os.path.basename(path)} {line}"):
                    assert_same(self, told_by(data_of(path, *line)), turn_lines(path, *line))

    def test_output_comes_in_its_turn(self):
        for path in EXAMPLES + SAMPLES:
            for turn in data_of(path)["printed"]:
                with self.subTest(f"{os.path.basename(path)} {turn}"):
                    before, after = (ran(GOLF, "run", "--turns", str(max(1, each)), path=path)[0]
                                     for each in (turn - 1, turn))
                    self.assertLess(len(before), len(after))

    def test_output_is_that_of_golf(self):
        for path in FILES:
            with self.subTest(os.path.basename(path)):
                made = page_of(path)
                self.assertEqual(b"".join(piece for turn, piece in made.run.printed.output).decode(),
                                 ran(GOLF, "run", path=path)[0])
                self.assertEqual(made.run.status, ran(GOLF, "run", path=path)[2])

    def test_collections_and_reports_are_those_of_golf(self):
        for path in FILES:
            with self.subTest(os.path.basename(path)):
                shown = data_of(path)
                reports = re.findall(r"(?m)^goroutine (\d+): (.*) at line (\d+), started at line (\d+)$",
                                     ran(GOLF, "run", path=path)[1])
                found = sorted((number, shown["kinds"][waits[-1][3]], waits[-1][2], started)
                               for number, name, started, begin, end, dead, reported, removed, waits
                               in shown["goroutines"] if reported > 0)
                self.assertEqual(found, sorted((int(number), kind, int(line), int(started))
                                               for number, kind, line, started in reports))
                for number, turn in shown["collections"]:
                    counts = [ran(GOLF, "run", "--turns", str(each), path=path)[1].count("collection ")
                              for each in (turn - 1, turn)]
                    self.assertEqual(counts, [number - 1, number])

    def test_reasons_are_those_of_a_stopped_run(self):
        for path in EXAMPLES + SAMPLES:
            shown = data_of(path)
            for moment in range(1, shown["last"], 23):
                with self.subTest(f"{os.path.basename(path)} {moment}"):
                    self.assertEqual(reasons_in(shown, moment), reasons_told(path, moment))


def reasons_in(shown, moment):
    """Returns (goroutine, kind, row, chain) of each blocked goroutine by the data of a page; the chain of a dead one
    is none."""
    found = set()
    for number, name, started, begin, end, dead, reported, removed, waits in shown["goroutines"]:
        for begun, until, row, kind, changes in waits:
            if number and begun <= moment and (until < 0 or moment < until):
                seen = [chain for at, chain in zip(changes[::2], changes[1::2]) if at <= moment]
                is_dead = 0 <= dead <= moment
                found.add((number, shown["kinds"][kind], row, None if is_dead else tuple(shown["chains"][seen[-1]])))
    return found


def reasons_told(path, moment):
    """Returns the same by a run that is stopped at the moment, with a collection there."""
    errors = ran(GOLF, "run", "--turns", str(moment), "--every", str(moment), "--why", path=path)[1]
    found = {(int(number), kind, int(line), None) for number, kind, line in
             re.findall(r"(?m)^goroutine (\d+): (.*) at line (\d+), started at", errors)}
    last = errors[errors.rindex("collection "):]
    for number, kind, line, chain in re.findall(r"(?m)^goroutine (\d+): (.*) at line (\d+), reached by (.*)$", last):
        members = tuple(int(each[7:]) if each.startswith("object ") else -int(each[10:]) for each in chain.split(", "))
        found.add((int(number), kind, int(line), members))
    return found


class ByHand(unittest.TestCase):
    """What the data must say, found by hand from the source."""

    def goroutines(self, path, *line):
        """Returns {number: (name, row of start, rows of waits, whether it ends, whether it is reported)}."""
        return {number: (name, started, [wait[2] for wait in waits], end > 0, reported > 0)
                for number, name, started, begin, end, dead, reported, removed, waits
                in data_of(path, *line)["goroutines"]}

    def test_leak(self):
        self.assertEqual(self.goroutines(example("leak")),
                         {1: ("main", 0, [], True, False), 2: ("recv", 9, [5], False, True)})

    def test_mutex(self):
        self.assertEqual(self.goroutines(example("mutex")),
                         {1: ("main", 0, [], True, False), 2: ("account.settle", 32, [21], False, True),
                          3: ("account.deposit", 35, [25], False, True)})

    def test_select(self):
        self.assertEqual(self.goroutines(example("select")),
                         {1: ("main", 0, [], True, False), 2: ("watch", 25, [15], True, False),
                          3: ("watch", 26, [15], False, True)})

    def test_finaliser(self):
        self.assertEqual(self.goroutines(example("finaliser")),
                         {0: ("finalisers", 0, [], False, False), 1: ("main", 0, [], True, False),
                          2: ("wait", 31, [24], True, False)})

    def test_goroutines_that_end_unseen(self):
        found = self.goroutines(sample("ends"))
        self.assertEqual({number: each[:2] + each[3:] for number, each in found.items()},
                         {1: ("main", 0, True, False), 2: ("nothing", 17, True, False),
                          3: ("once", 18, True, False), 4: ("once", 19, True, False)})

    def test_worker_pool(self):
        found = self.goroutines(example("worker_pool"))
        self.assertEqual({number: (name, started, set(rows)) for number, (name, started, rows, *rest) in found.items()},
                         {1: ("main", 0, {34}), 2: ("squares", 28, {17}), 3: ("squares", 28, {17})})

    def test_recover_takes_back(self):
        shown = data_of(example("leak"), "--recover")
        self.assertEqual([each[6:8] for each in shown["goroutines"]], [[-1, -1], [1, 1]])

    def test_kept_goroutine_is_not_taken_back(self):
        shown = data_of(example("late_finaliser"), "--recover")
        self.assertEqual([each[7] for each in shown["goroutines"]], [-1, -1])

    def test_chains_sample(self):
        shown = data_of(sample("chains"))
        # After 430 turns the nodes are objects 2, 5 and 8, each made before its mutex and its channel. Goroutine 4
        # waits on the channel of the third node, which is the head.
        self.assertEqual({(number, chain) for number, kind, row, chain in reasons_in(shown, 430) if chain},
                         {(2, (8, 5, 2, 4)), (3, (8, 5, 7)), (4, (8, 9)), (5, (1,)), (6, (1,)), (7, (1,))})
        self.assertEqual({(number, kind, row) for number, kind, row, chain in reasons_in(shown, 430) if not chain},
                         {(8, "chan receive", 38), (9, "sync.Mutex.Lock", 43), (10, "chan receive (nil chan)", 48)})


LEAK_CYCLE = os.path.join(ROOT, "examples", "schedules", "lock_cycle_leaks.go")


LOCK_AT_RETURN = os.path.join(ROOT, "examples", "schedules", "lock_at_return_leaks.go")


def asleep(text, *line):
    """Returns the lines of the report that tell who waits where."""
    with tempfile.NamedTemporaryFile("w", suffix=".go", encoding="utf-8") as made:
        made.write(text)
        made.flush()
        lines = tell.report_lines(page_of(made.name, *line).run)
    return [line for _, line, kind, _ in lines if kind == "asleep"]


class Words(unittest.TestCase):
    """The words of a page."""

    def test_a_leak_is_shown_by_its_line(self):
        line = ran(EXPLORE, "all", path=LEAK_CYCLE)[0].split("\n")[0]
        for given in ([line], line.split()):
            shown = data_of(LEAK_CYCLE, *given)
            reported = {number: (waits[-1][2], started)
                        for number, name, started, begin, end, dead, reported, removed, waits
                        in shown["goroutines"] if reported > 0}
            self.assertEqual(reported, {2: (11, 25), 4: (11, 27)})
            self.assertFalse(shown["ended"])

    def test_main_can_be_dead(self):
        made = page_of(LOCK_AT_RETURN, ran(EXPLORE, "search", path=LOCK_AT_RETURN)[0].split("\n")[0])
        self.assertEqual(tell.headline(made.run)[1],
                         "Goroutine 1 waits for ever at line 10 (sync.Mutex.Lock), started at line 18.")
        self.assertEqual(in_rows(data.data_of(made.run))["goroutines"][0][2], 18)

    def test_a_run_that_falls_asleep_is_shown_by_its_line(self):
        made = page_of(LOCK_AT_RETURN, ran(EXPLORE, "search", "--for", "asleep", path=LOCK_AT_RETURN)[0].split("\n")[0])
        self.assertEqual(tell.headline(made.run)[0], "All goroutines are asleep")

    def test_who_waits_where_all_are_asleep_is_told(self):
        file = ("package main\n\nfunc wait(c chan int) {\n\t<-c\n}\n\nfunc main() {\n\tc := make(chan int)\n"
                "\tgo wait(c)\n\tgo wait(nil)\n\td := make(chan int)\n\td <- 1\n}\n")
        self.assertEqual(asleep(file), [
            "goroutine 1: chan send at line 12", "goroutine 2: chan receive at line 4, started at line 9",
            "goroutine 3: chan receive (nil chan) at line 4, started at line 10"])

    def test_who_holds_the_lock_is_told(self):
        file = ("package main\n\nimport \"sync\"\n\n"
                "func move(from *sync.Mutex, to *sync.Mutex, both *sync.WaitGroup) {\n\tfrom.Lock()\n"
                "\tboth.Done()\n\tboth.Wait()\n\tto.Lock()\n}\n\nfunc main() {\n\tleft := &sync.Mutex{}\n"
                "\tright := &sync.Mutex{}\n\tboth := &sync.WaitGroup{}\n\tboth.Add(2)\n\tgo move(left, right, both)\n"
                "\tgo move(right, left, both)\n\tselect {}\n}\n")
        for words_ in ([], ["--schedule", "seed:5"], ["--threads", "2"]):
            self.assertEqual(asleep(file, *words_), [
                "goroutine 1: select (no cases) at line 19",
                "goroutine 2: sync.Mutex.Lock at line 9, started at line 17, locked by goroutine 3 at line 6",
                "goroutine 3: sync.Mutex.Lock at line 9, started at line 18, locked by goroutine 2 at line 6"])

    def test_a_goroutine_that_locks_twice_waits_for_itself(self):
        file = ("package main\n\nimport \"sync\"\n\nfunc main() {\n\tm := &sync.RWMutex{}\n\tm.Lock()\n\tm.Lock()\n}\n")
        self.assertEqual(asleep(file), ["goroutine 1: sync.RWMutex.Lock at line 8, locked by itself at line 7"])

    def test_of_two_readers_no_holder_is_told(self):
        file = ("package main\n\nimport \"sync\"\n\nfunc read(m *sync.RWMutex, c chan int) {\n\tm.RLock()\n\tc <- 1\n"
                "\tc <- 2\n}\n\nfunc main() {\n\tm := &sync.RWMutex{}\n\tc := make(chan int)\n\tgo read(m, c)\n"
                "\tgo read(m, c)\n\t<-c\n\t<-c\n\tm.Lock()\n}\n")
        self.assertEqual(asleep(file)[0], "goroutine 1: sync.RWMutex.Lock at line 18")

    def test_a_leak_with_too_many_numbers_is_told(self):
        with self.assertRaisesRegex(program.Failure, "more than the words of a run may have"):
            words.of_answer("leak: after 4099 turns, more than 4096".split())

    def test_most_turns(self):
        self.assertEqual(words.of_page(["--why"]), ["--turns", "100000", "--why"])
        self.assertEqual(words.of_page(["--turns", "100001", "--why"]), ["--turns", "100000", "--why"])
        self.assertEqual(words.of_page(["--turns=7"]), ["--turns=7"])
        self.assertEqual(words.of_page(["--turns", "many"]), ["--turns", "many"])
        self.assertEqual(words.of_page(["--threads", "2"]), ["--threads", "2"])

    def test_threads(self):
        made = page_of(example("worker_pool"), "--threads", "4")
        self.assertEqual(b"".join(piece for turn, piece in made.run.printed.output), b"sum 385\n")
        self.assertIn("<dd>4 threads</dd>", made.html())
        self.assertEqual(made.run.story.last, len(made.run.trace.turns))

    def test_a_history_that_is_too_long_is_told(self):
        with self.assertRaisesRegex(program.Failure, "too long"):
            words.of_history("1," * 70_000)

    def test_wrong_words_are_named(self):
        for line, sentence in (("--nothing", "no word of golf run: --nothing"), ("--every", "no value after --every"),
                               ("--turns", "no value after --turns"), ("--turns 0", "no value of --turns: 0"),
                               ("--why --why", "twice: --why"), ("--recover=1", "no word of golf run: --recover=1"),
                               ("--schedule choices:1,,2", "no value of --schedule: choices:1,,2"),
                               ("--threads 4 --why", "not beside --threads: --why")):
            with self.subTest(line), self.assertRaises(program.Failure) as failure:
                page_of(example("leak"), *line.split())
            self.assertEqual((str(failure.exception), failure.exception.status), (sentence, 5))

    def test_help_and_version_go_to_standard_output(self):
        for line, first in (("--help", b"usage: golf-page "), ("--version", b"golf-page ")):
            out = io.TextIOWrapper(io.BytesIO(), encoding="utf-8")
            with self.subTest(line), redirect_stdout(out):
                self.assertEqual(page.main([line]), 0)
            self.assertTrue(out.buffer.getvalue().startswith(first))

    def test_command_line(self):
        for line, status in (([], 5), (["--golf"], 5), ([os.path.join(ROOT, "nowhere.go")], 1), ([ROOT], 1)):
            with self.subTest(line), redirect_stderr(io.StringIO()) as errors:
                self.assertEqual(page.main(line), status)
            self.assertTrue(errors.getvalue())
        with redirect_stderr(io.StringIO()) as errors:
            self.assertEqual(page.main(["--explore", os.path.join(ROOT, "nowhere"), example("leak")]), 1)
        self.assertIn("there is no program", errors.getvalue())

    def test_a_page_that_cannot_be_written(self):
        with open("/dev/full", "wb") as full:
            done = subprocess.run([sys.executable, os.path.join(TOOL, "page.py"), "--golf", GOLF, "--explore", EXPLORE,
                                   example("leak")],
                                  stdout=full, stderr=subprocess.PIPE, check=False)
        self.assertEqual((done.returncode, done.stderr),
                         (1, b"golf-page: the output cannot be written: No space left on device\n"))

    def test_page_goes_to_standard_output(self):
        out = io.TextIOWrapper(io.BytesIO(), encoding="utf-8")
        with redirect_stdout(out):
            self.assertEqual(page.main(["--golf", GOLF, "--explore", EXPLORE, example("leak")]), 0)
        self.assertIn(b"<h1>1 goroutine can never run again</h1>", out.buffer.getvalue())


def written(*pieces, status=0, in_order=True):
    """Returns what a program wrote: a text that begins with > is output."""
    writes = [(program.OUTPUT, each[1:]) if each.startswith(">") else (program.ERRORS, each) for each in pieces]
    return program.Written([(stream, text.encode()) for stream, text in writes], status, in_order)


class Reading(unittest.TestCase):
    """How lines are read."""

    def test_all_parts_of_a_turn(self):
        read = traced.Trace(written("turn 1: goroutine 1 at line 9, starts goroutine 2\n",
                                    "turn 2: goroutine 2 at line 5, blocks, wakes goroutine 3\n",
                                    "turn 3: goroutine 12 at line 20, ends, wakes goroutine 2, goroutine 10\n"))
        self.assertEqual(read.turns, [(1, 9, 2, False, False, ()), (2, 5, None, True, False, (3,)),
                                      (12, 20, None, False, True, (2, 10))])

    def test_output_has_the_next_turn(self):
        read = traced.Trace(written(">a\n", "turn 1: goroutine 1 at line 9\ncollec",
                                    "tion 1: marked 0, reported 0, kept 0, "
                                    "reclaimed 0, objects 0\n", ">b\n", ">c\n", "turn 2: goroutine 1 at line 9\n"))
        self.assertEqual(read.pieces, [(1, b"a\n"), (2, b"b\n"), (2, b"c\n")])
        self.assertEqual([each.turn for each in read.collections], [1])

    def test_output_has_no_turn_if_the_order_is_not_known(self):
        self.assertEqual(traced.Trace(written(">a\n", in_order=False)).pieces, [(None, b"a\n")])

    def test_nothing_after_a_panic_is_read(self):
        text = ("panic: a\nturn 2: goroutine 7 at line 1\n"
                "collection 1: marked 0, reported 0, kept 0, reclaimed 0, objects 0 (goroutine 1, line 4)")
        read = traced.Trace(written("turn 1: goroutine 1 at line 4\n", text[:12], text[12:] + "\n"))
        self.assertEqual((len(read.turns), read.collections, read.tail), (1, [], text))
        self.assertEqual((read.fault[3], read.fault[4]), ("1", "4"))

    def test_unknown_lines_are_told(self):
        for lines in (["turn 2: goroutine 1 at line 9\n"], ["turn 1: goroutine 1 at line 9, sleeps\n"],
                      ["collection 1: marked 0, reported 0, kept 0, reclaimed 0, objects 0\n", "goroutine 2: lost\n"]):
            with self.subTest(lines), self.assertRaises(program.Failure):
                traced.Trace(written(*lines))

    def test_writes_come_in_their_order(self):
        script = "for i in 1 2 3 4 5 6 7 8 9; do echo out $i; echo err $i >&2; done; exit 3"
        ordered = program.in_order(["sh", "-c", script], b"")
        self.assertEqual(ordered.writes, [each for number in range(1, 10) for each in
                                          ((program.OUTPUT, f"out {number}\n".encode()),
                                           (program.ERRORS, f"err {number}\n".encode()))])
        self.assertEqual(ordered.status, 3)

    def test_a_launcher_is_heard_while_it_builds(self):
        with tempfile.TemporaryDirectory() as folder:
            path = os.path.join(folder, "golf-explore")
            with open(path, "w", encoding="utf-8") as file:
                file.write("#!/bin/sh\necho 'golf-explore: 1 of 2' >&2\n"
                           "echo 'turn 1: goroutine 1 at line 1, ends' >&2\n")
            os.chmod(path, 0o755)
            told = io.TextIOWrapper(io.BytesIO())
            with mock.patch("sys.stderr", told):
                ordered = program.in_order([path], b"")
            self.assertEqual(told.buffer.getvalue(), b"golf-explore: 1 of 2\n")
            self.assertEqual(ordered.writes, [(program.ERRORS, b"turn 1: goroutine 1 at line 1, ends\n")])

    def test_a_program_that_cannot_run_is_told(self):
        with self.assertRaisesRegex(program.Failure, "/nowhere/golf-explore: No such file"):
            program.in_order(["/nowhere/golf-explore"], b"")


TOO_LONG = ('package main\n\nimport "fmt"\n\nconst k = "' + 900_000 * "x" + '"\n\nfunc main() {\n\tfmt.Println('
            + ", ".join(10 * ["k"]) + ")\n}\n")
MANY_TURNS = """package main

func relay(in chan int, out chan int) {
	for n := range in {
		out <- n
	}
}

func main() {
	a := make(chan int)
	b := make(chan int)
	go relay(a, b)
	for i := 0; ; i++ {
		a <- i
		i += <-b
	}
}
"""
MANY_GOROUTINES = """package main

func wait(c chan int) {
	<-c
}

func main() {
	for {
		go wait(make(chan int))
	}
}
"""
MANY_LINES = """package main

import "fmt"

func main() {
	for {
		fmt.Println("a line of output, so long that it has a hundred bytes: ..................................")
	}
}
"""


def many_functions():
    """Returns a file of nearly 1 MB, of which the last function waits."""
    parts = ["package main\n\nimport \"runtime\"\n\n"]
    for number in range(11_500):
        parts.append(f"func f{number}(a int) int {{\n\tif a > 7 {{ // a remark on f{number}\n\t\treturn a * {number}\n"
                     "\t}\n\treturn 1\n}\n\n")
    parts.append("func wait(c chan int) {\n\t<-c\n}\n\nfunc main() {\n\tgo wait(make(chan int))\n"
                 "\tfor i := 0; i < 50; i++ {\n\t}\n\truntime.GC()\n}\n")
    return "".join(parts)


class Limits(unittest.TestCase):
    """Pages of large files and long runs."""

    def made(self, text, *line):
        with File(text) as path:
            made = page_of(path, *line)
            text = made.html()
        self.assertLess(len(text.encode()), MOST_BYTES)
        return made, text

    def test_100_000_turns(self):
        made, text = self.made(MANY_TURNS)
        self.assertEqual(made.run.story.last, 100_000)
        self.assertIn("Stopped after 100,000 turns", text)

    def test_many_goroutines(self):
        made, text = self.made(MANY_GOROUTINES)
        self.assertGreater(len(made.run.story.goroutines), data.MOST_GOROUTINES)
        self.assertEqual(data.data_of(made.run)["left_out"], len(made.run.story.goroutines) - data.MOST_GOROUTINES)

    def test_much_output(self):
        made, text = self.made(MANY_LINES)
        self.assertRegex(text, r"<li class=none>[\d,]+ lines are left out</li>")

    def test_many_collections(self):
        self.made(MANY_TURNS, "--every", "1", "--why")

    def test_thousand(self):
        with open(sample("thousand"), encoding="utf-8") as file:
            made, text = self.made(file.read())
        self.assertEqual(len(made.run.story.goroutines), 1001)
        self.assertIn("300 goroutines can never run again", text)

    def test_a_file_of_1_megabyte(self):
        text = many_functions()
        self.assertGreater(len(text), 980_000)
        made, shown = self.made(text)
        line = text[:text.index("<-c")].count("\n") + 1
        self.assertIn(f"<li id=L{line} data-n={line}>", shown)
        self.assertRegex(shown, r"<li class=gap>lines [\d,]+ to [\d,]+ are left out</li>")

    def test_a_write_that_is_too_long_has_no_turn(self):
        made, text = self.made(TOO_LONG)
        self.assertEqual(made.run.printed.output[0][0], None)
        self.assertIn("more characters</em>", text)
        self.assertEqual(len(b"".join(piece for turn, piece in made.run.printed.output)), 10 * 900_001)

    def test_fewer_moments_if_the_chains_are_too_many(self):
        changes = [number for moment in range(1, 90) for number in (moment, moment % 7)]
        self.assertEqual(data.thinned(changes, 90, 10),
                         [number for moment in range(10, 90, 10) for number in (moment, moment % 7)])
        self.assertEqual(data.thinned([3, 0, 12, 1], 15, 10), [3, 0])


class Refused(unittest.TestCase):
    """Files that are refused at each stage, and odd ones."""

    def shown(self, text):
        with File(text) as path:
            made = page_of(path)
            return made.html()

    def test_more_bytes_than_a_file_may_have(self):
        text = self.shown("package main\n\nfunc main() {\n}\n" + 1_048_576 * "\n")
        self.assertIn("refused: more than 1048576 bytes", text)
        self.assertLess(len(text), MOST_BYTES)

    def test_bytes_that_are_no_tokens(self):
        text = self.shown("package main\n\nfunc main() {\n\tx := 1 ^ 2\n}\n")
        self.assertIn("<b>Byte 36</b> The bytes are no tokens of the language: column 9, the byte 94 (^).", text)

    def test_a_file_that_ends_inside_a_comment(self):
        self.assertIn("The file ends inside a token or a comment.",
                      self.shown("package main\n\nfunc main() {\n}\n/* a remark\n"))

    def test_tokens_that_are_no_file(self):
        self.assertIn("<b>Syntax</b>", self.shown('package main\n\nfunc main() {\n\tprintln("a" "b")\n}\n'))

    def test_a_broken_rule(self):
        text = self.shown("package main\n\nfunc main() {\n\tx := 1 + true\n\t_ = x\n}\n")
        self.assertIn("<b>Rule 8</b> Operands have the types of their operators. Conditions are <code>bool</code>, "
                      "indices and sizes <code>int</code>.", text)

    def test_each_rule_has_a_sentence(self):
        self.assertEqual(sorted(tell.rules_of(page.read(home.LANGUAGE))), list(range(1, 25)))

    def test_an_empty_file(self):
        self.assertIn("refused: line 1: syntax", self.shown(""))

    def test_bytes_that_are_no_utf_8(self):
        text = self.shown(b'package main\n\nimport "fmt"\n\n// \xff\xfe\n'
                          b'func main() {\n\tfmt.Println("\xe2\x82", "\xf0")\n}\n')
        self.assertIn("\ufffd", text)
        self.assertIn("Status 0.", text)

    def test_a_file_with_carriage_returns(self):
        text = self.shown(b"package main\r\n\r\nfunc main() {\r\n\tc := make(chan int)\r\n\t<-c\r\n}\r\n")
        self.assertIn("<li id=L6 data-n=6>", text)
        self.assertNotIn("<li id=L7 ", text)

    def test_no_text_of_a_file_is_markup(self):
        text = self.shown("package main\n\nfunc main() {\n"
                          '\tpanic("</script><script>alert(1)</script> @@DATA@@ <!-- <script> &lt;")\n}\n')
        self.assertEqual(text.count("<script"), 2)
        self.assertEqual(text.count("</script>"), 2)
        self.assertEqual(text.count('id="data"'), 1)
        self.assertIn("&lt;/script&gt;&lt;script&gt;alert(1)&lt;/script&gt; @@DATA@@ &lt;!-- &lt;script&gt; &amp;lt;",
                      text)


class Sources(unittest.TestCase):
    """The names and rows of a file."""

    def test_functions_and_calls(self):
        found = source.Source("package main\n\nfunc (t *T) get() int {\n\treturn 1\n}\n"
                              "func main() {\n\tgo run(1)\n\tgo t.get(); go run(2)\n}\n")
        self.assertEqual([found.function_of(line) for line in (1, 4, 7)], ["", "T.get", "main"])
        self.assertEqual([found.call_of(line) for line in (7, 8)], ["run", ""])

    def test_finalisers(self):
        self.assertTrue(source.Source("x.SetFinalizer(p, f)").finalisers)
        self.assertFalse(source.Source("// SetFinalizer\n\"SetFinalizer\"").finalisers)

    def test_a_comment_over_lines(self):
        self.assertEqual(source.Source("a /* b\nc */ d\n").rows, ["a <i class=c>/* b</i>", "<i class=c>c */</i> d"])

    def test_a_long_line_is_cut(self):
        row = source.Source("x = " + 5000 * "1").rows[0]
        self.assertTrue(row.endswith("</i><em>… 3,004 more characters</em>"))

    def test_wanted_lines_come_first(self):
        found = source.Source("x\n" * 200_000)
        shown = source.shown_lines(found, [100_000, 150_000], 5_000)
        self.assertEqual(list(shown)[-14:], [*range(99_997, 100_004), *range(149_997, 150_004)])
        self.assertLess(len(source.rows_of(found, {}, [100_000], 1, 5_000)), 5_100)


LOWERED = b"""package main

func work() {
\tprint(1)
}

func tick() {
}
"""
MAP = "0\n0\na.go:3:1\twork\na.go:4:2\twork\na.go:5:2\twork\n0\n0\tthe clock\n0\tthe clock\n"
NOTES = "site\t1\ta.go:5:9 in work\nwait\t4\tchan send\tc (made at a.go:3:7 in work)\n"


class LoweredFiles(unittest.TestCase):
    """The places and the output of lowered files."""

    def places(self, *names):
        return places.Lowered([(f"x/{name}", b"package main\n" * 9) for name in names], LOWERED,
                              MAP.replace("a.go", names[-1]), NOTES)

    def test_rows_of_one_file(self):
        self.assertEqual([self.places("a.go").row(line) for line in (4, 7, 99)], [4, 0, 0])

    def test_rows_of_two_files(self):
        found = self.places("b.go", "a.go")
        self.assertEqual((found.row(4), found.files), (13, [["b.go", 0], ["a.go", 9]]))

    def test_words(self):
        found = self.places("a.go")
        self.assertEqual([found.at(line) for line in (4, 6, 8)], ["at a.go:4:2 in work", "in work", "in the clock"])
        self.assertEqual(found.told_text("goroutine 2: chan send at line 4, started at line 5"),
                         "goroutine 2: chan send at a.go:4:2 in work, started at a.go:5:2 in work, "
                         "on c (made at a.go:3:7 in work)")
        self.assertEqual(found.told_text("goroutine 2: chan receive at line 4, reached by object 1"),
                         "goroutine 2: chan receive at a.go:4:2 in work, reached by object 1")

    def test_output_is_decoded(self):
        printed = self.places("a.go").printed([(3, "a ‿ b ‿\n".encode()), (4, "‿\n".encode()), (5, "c\n".encode()),
                                               (6, "‿err d\n".encode()),
                                               (7, "‿panic e ‿\n".encode()), (8, "‿byte 226 ‿\n".encode()),
                                               (9, "‿exit 3 ‿\n".encode())])
        self.assertEqual(printed.output, [(3, b"ab"), (4, b""), (5, b"c\n"), (8, b"\xe2")])
        self.assertEqual((printed.errors, printed.panic, printed.exit), ([(6, b"d\n")], b"e", 3))
        self.assertEqual(tell.output_lines(printed.output), [(3, "abc"), (8, "\ufffd")])

    def test_ends(self):
        found, printed = self.places("a.go"), places.Printed([])
        printed.panic = b"lost"
        self.assertEqual(found.told_tail("panic: ‿ (goroutine 1, line 4)", printed),
                         "panic: lost (goroutine 1, a.go:4:2 in work)")
        unlocked = "fatal error: sync: unlock of unlocked mutex (goroutine 1, line 4)"
        self.assertEqual(found.told_tail(unlocked, printed), unlocked.replace("line 4", "a.go:4:2 in work"))
        printed.site = 1
        self.assertEqual(found.told_tail("panic: ‿ (goroutine 1, line 8)", printed),
                         "panic: lost (goroutine 1, a.go:5:9 in work)")
        printed.exit = 2
        self.assertEqual(found.told_tail(unlocked, printed), "golf-go: os.Exit(2) at a.go:4:2 in work")

    def test_a_panic_in_generated_code_has_the_place_of_its_call(self):
        found = self.places("a.go")
        found.lines[4] = "\ttick()"
        turns = [traced.Turn(1, line, None, False, False, ()) for line in (4, 5, 8)]
        found.follow(turns)
        self.assertEqual(found.told_tail("panic: lost (goroutine 1, line 8)", places.Printed([])),
                         "panic: lost (goroutine 1, a.go:5:2 in work)")
        found.follow(turns[:1])
        self.assertEqual(found.told_tail("panic: lost (goroutine 1, line 8)", places.Printed([])),
                         "panic: lost (goroutine 1, in the clock)")

    def test_a_wait_in_generated_code_has_the_place_of_its_call(self):
        found = self.places("a.go")
        found.lines[4] = "\ttick()"
        found.follow([traced.Turn(number, line, None, line == 8, False, ())
                      for number, line in ((1, 4), (2, 8), (1, 5), (1, 8), (1, 5), (1, 4))])
        wait = "chan receive at line 8, started at line 3"
        told = "chan receive in the clock{}, started at a.go:3:1 in work"
        for number, moment, call in ((1, 4, ", called at a.go:5:2 in work"), (1, 3, ""), (2, 6, "")):
            self.assertEqual(found.told_text(f"goroutine {number}: {wait}", moment),
                             f"goroutine {number}: {told.format(call)}")

    def test_spots_have_columns(self):
        spots = data.Spots(self.places("a.go"))
        turns = [traced.Turn(1, line, None, False, False, ()) for line in (4, 8, 5, 4)]
        self.assertEqual(spots.of_turns(turns), [1, -1, 2, 1])
        self.assertEqual(list(spots.numbers.numbers), [(4, 2), (5, 2)])
        self.assertEqual(list(spots.generated.numbers), [("the clock", 1)])


if __name__ == "__main__":
    unittest.main()
