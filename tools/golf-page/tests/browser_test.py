#!/usr/bin/env python3
"""Tests of pages in a browser: headless Chromium opens them, and keys move them.

    browser_test.py [names of tests]

If no Chromium is there, one line says that the tests are left out. $GOLF_PAGE_SHOTS may name a folder for pictures.
"""

import json
import os
import sys
import tempfile
import unittest

HERE = os.path.dirname(os.path.abspath(__file__))
sys.path.insert(0, HERE)

from browser import Browser, browser_program
from page_test import EXAMPLES, EXPLORE, FILES, LEAK_CYCLE, MANY_GOROUTINES, MANY_TURNS
from page_test import assert_same, example, lowered_page_of, many_functions, page_of, ran, sample, turn_lines

HOSTILE = """package main

import (
	"fmt"
	"runtime"
)

// </script><script>document.title = "owned"</script> &amp; @@DATA@@ <!-- <script>
func wait(c chan int) {
	<-c // <img src=x onerror="document.title='owned'">
}

func main() {
	go wait(make(chan int))
	fmt.Println("</script><script>document.title='owned'</script>", "<!--<script>", "&lt;")
	fmt.Println("collection 9: marked 1, reported 1, kept 1, reclaimed 0, objects 1")
	fmt.Println("turn 3: goroutine 7 at line 1, starts goroutine 8")
	runtime.GC()
	panic("</script>\\ncollection 2: marked 0, reported 1, kept 1, reclaimed 0, objects 1\\n%s")
}
""" % "goroutine 7: chan receive at line 3, started at line 4"
REFUSED = """package main

func count(c chan<- int) {
	for n := range c {
		_ = n
	}
}

func main() {
	count(make(chan int))
}
"""
BYTE = "package main\n\nfunc main() {\n\tx := 1 ^ 2\n}\n"
SYNTAX = 'package main\n\nfunc main() {\n\tprintln("a" "b")\n}\n'
PANIC = "package main\n\nfunc main() {\n\tvar s []int\n\ts[3] = 1\n}\n"
ASLEEP = """package main

func wait(c chan int) {
	<-c
}

func main() {
	c := make(chan int)
	go wait(c)
	for i := 0; i < 5; i++ {
	}
	wait(c)
}
"""
# Generated code starts two goroutines and the user's main a third, which runs generated code too.
LOWERED = """package main

func tick(c chan int) {
	<-c
}

func begin(c chan int) {
	go tick(c)
	go tick(c)
}

func main() {
	c := make(chan int)
	begin(c)
	go tick(c)
	for i := 0; i < 9; i++ {
	}
}
"""
LINES = "".join("0\tthe clock\n" if 3 <= line <= 10 else f"made.go:{line}:2\tmain\n" if line > 11 else "0\n"
                for line in range(1, LOWERED.count("\n") + 1))
SHOTS = os.environ.get("GOLF_PAGE_SHOTS")


class InBrowser(unittest.TestCase):
    """A test with the browser, and texts of its page."""

    @classmethod
    def setUpClass(cls):
        cls.browser = Browser(browser_program())
        cls.folder = tempfile.TemporaryDirectory(prefix="golf-page-")

    @classmethod
    def tearDownClass(cls):
        cls.browser.close()
        cls.folder.cleanup()

    def file(self, text, name="made"):
        path = os.path.join(self.folder.name, f"{name}.go")
        with open(path, "w", encoding="utf-8") as file:
            file.write(text)
        return path

    def open(self, path, *line, width=1280, fragment="", dark=False):
        """Makes the page of a file and opens it. Returns the seconds that it takes to open."""
        return self.open_page(path, page_of(path, *line), width=width, fragment=fragment, dark=dark)

    def open_page(self, path, page, **how):
        self.name = os.path.basename(path).removesuffix(".go")
        self.page = os.path.join(self.folder.name, f"{self.name}.html")
        with open(self.page, "w", encoding="utf-8") as file:
            file.write(page.html())
        return self.browser.open(self.page, **how)

    def tearDown(self):
        self.assertEqual(self.browser.faults(), [])

    def value(self, code):
        return self.browser.value(code)

    def text(self, selector):
        return self.value(f"document.querySelector({json.dumps(selector)}).textContent")

    def now(self):
        return self.text("#now")

    def lane(self, number):
        return self.text(f".lane[data-g='{number}'] .who small")

    def mark(self, row):
        """Returns the classes and the chips of a row."""
        chips = "[...row.querySelectorAll('.chip')].map(chip => chip.textContent).join(' ')"
        return self.value(f"(row => row.className + ': ' + {chips})(document.getElementById('L{row}'))")

    def reasons(self):
        return self.value("[...document.querySelectorAll('#reasons li')].map(item => item.textContent)")

    def graph(self):
        return self.value("[...document.querySelectorAll('#graph text')].map(text => text.textContent)")

    def at(self, turn):
        self.value(f"show({turn})")

    def shows(self, wanted, found):
        self.assertIn(wanted, found)


class EachFile(InBrowser):
    """All examples, at both widths."""

    def test_nothing_is_logged_and_nothing_is_too_wide(self):
        for path in FILES:
            for width in (1280, 400):
                with self.subTest(f"{os.path.basename(path)} {width}"):
                    self.open(path, width=width)
                    self.assertEqual(self.browser.faults(), [])
                    self.assertLessEqual(self.value("document.documentElement.scrollWidth"), width)
                    if SHOTS:
                        self.browser.shot(os.path.join(SHOTS, f"{self.name}-{width}.png"))

    def test_states_are_those_of_the_trace(self):
        for path in EXAMPLES + [sample("chains"), sample("ends")]:
            with self.subTest(os.path.basename(path)):
                self.open(path)
                found = self.value("Array.from({length: last + 1}, (_, moment) => "
                                   "goroutines.filter(each => each.number).map(each => "
                                   "stateOf(each, moment).name.replace('dead', 'blocked')))")
                assert_same(self, found, states_of(turn_lines(path)))

    def test_runners_are_those_of_the_trace(self):
        for path in EXAMPLES:
            with self.subTest(os.path.basename(path)):
                self.open(path)
                found = self.value("Array.from({length: last}, (_, at) => "
                                   r"whatHappened(at + 1).match(/^G\d+ runs line \d+/)[0])")
                wanted = [f"G{line.split()[3]} runs line {line.split()[6].strip(',')}" for line in turn_lines(path)]
                assert_same(self, found, wanted)


def states_of(lines):
    """Returns the names of the states of all goroutines but 0 at each moment, by the lines of a trace without their
    reports. A dead goroutine is blocked."""
    numbers = sorted({1} | {int(line.split("starts goroutine ")[1].split(",")[0]) for line in lines
                            if "starts" in line})
    states = {number: "free" if number == 1 else "absent" for number in numbers}
    moments = [[states[number] for number in numbers]]
    for line in lines:
        words = line.replace(",", "").split()
        runner = int(words[3])
        for at, word in enumerate(words):
            if word == "starts":
                states[int(words[at + 2])] = "free"
            if word in ("blocks", "ends"):
                states[runner] = "blocked" if word == "blocks" else "ended"
        woken = line.split(", wakes ")[1] if ", wakes " in line else ""
        for each in woken.replace("goroutine ", "").split(", ") if woken else []:
            states[int(each)] = "free"
        moments.append([("runs" if number == runner and states[number] == "free" else states[number])
                        for number in numbers])
    return moments


class ByHand(InBrowser):
    """What lanes, chains and marks must say, found by hand from the source."""

    def test_leak(self):
        self.open(example("leak"))
        self.assertEqual(self.text("h1"), "1 goroutine can never run again")
        self.assertEqual(self.text(".more"), "Goroutine 2 waits for ever at line 5 (chan receive), started at line 9.")
        self.shows("turn 13 of 15: G1 runs line 14; 1 dead; collection 1.", self.now())
        self.assertEqual([self.lane(1), self.lane(2)], ["runs line 14", "dead at line 5"])
        self.assertEqual([self.mark(5), self.mark(14)], ["hit dead: G2", "runs: G1 runs"])
        self.assertEqual(self.reasons(),
                         ["G2chan receive at line 5: nothing live reaches what it waits on. Started at line 9. "
                          "Dead since turn 10; reported by collection 1 after turn 13."])
        self.assertEqual(self.graph(),
                         ["nothing live reaches this", "ROOTS", "a channel", "G2 recv", "chan receive, line 5"])
        self.assertEqual(self.text("#output li"), "121G1")
        self.assertEqual(self.text("#report li:nth-child(2)"), "goroutine 2: chan receive at line 5, started at line 9")
        self.shows("Status 1. The run returned, and a goroutine was reported.", self.text("#h-report"))

    def test_keys(self):
        self.open(example("leak"))
        self.browser.press("Home")
        self.assertEqual(self.now(), "start of 15: nobody is blocked.")
        self.assertEqual(self.mark(5), ": ")
        self.browser.press("ArrowRight")
        self.shows("turn 1 of 15: G1 runs line 11", self.now())
        self.browser.press("ArrowRight", shift=True)
        self.shows("turn 11 of 15", self.now())
        self.browser.press("p")
        self.shows("turn 10 of 15: G2 runs line 5 and blocks", self.now())
        self.shows("collection 1 will report it after turn 13.", self.reasons()[0])
        self.browser.press("p")
        self.shows("turn 7 of 15: G1 runs line 9, G2 is started", self.now())
        self.browser.press("n")
        self.shows("turn 10 of 15", self.now())
        self.browser.press("End")
        self.shows("G1 runs line 11 and ends; 1 dead; the run ended.", self.now())
        self.assertEqual(self.lane(1), "runs, and ends")
        self.browser.press("ArrowLeft")
        self.shows("turn 14 of 15", self.now())
        self.assertEqual(self.value("$('slider').getAttribute('aria-valuetext')"), "after turn 14 of 15")

    def test_worker_pool(self):
        self.open(example("worker_pool"))
        self.assertEqual(self.text("h1"), "2 goroutines can never run again")
        self.assertEqual(self.text(".more"), "2 wait at line 17 (chan receive).")
        self.assertEqual(self.mark(17), "hit dead: G2 G3")
        self.assertEqual(self.graph()[2:5], ["channel 1", "G2 squares", "chan receive, line 17"])
        self.shows("At turn 325, when it was live, it waited on channel 1.", self.reasons()[0])
        self.at(200)
        self.assertEqual([self.lane(1), self.lane(2)], ["chan receive, line 34", "chan receive, line 17"])
        self.assertEqual(self.reasons(),
                         ["Live, since a root reaches what they wait on:", "G1chan receive at line 34rootchannel 2G1",
                          "G2chan receive at line 17rootchannel 1G2"])
        self.assertEqual(self.mark(17), "hit: G2")
        self.shows("sum 385", self.text("#output"))
        self.assertEqual(self.value("document.querySelector('#output li').className"), "later")

    def test_select(self):
        self.open(example("select"))
        self.assertEqual(self.mark(15), "hit dead: G2 G3")
        self.shows("nothing live reaches what it waits on. Started at line 26", self.reasons()[0])
        self.assertEqual(self.reasons()[1:],
                         ["Live, since a root reaches what they wait on:", "G2select at line 15rootchannel 1G2"])
        self.browser.press("End")
        self.assertEqual([self.lane(2), self.lane(3)], ["ended", "dead at line 15"])

    def test_mutex(self):
        self.open(example("mutex"))
        self.assertEqual([self.lane(2), self.lane(3)], ["dead at line 21", "dead at line 25"])
        self.shows("sync.Mutex.Lock at line 25", self.reasons()[1])
        self.shows("dead, reported", self.text("#legend"))

    def test_condition(self):
        self.open(example("condition"))
        self.assertEqual(self.mark(26), "hit dead: G2")
        self.shows("sync.Cond.Wait at line 26", self.reasons()[0])
        self.assertEqual(self.value("byNumber.get(2).name"), "queue.take")

    def test_pipeline(self):
        self.open(example("pipeline"))
        self.assertEqual([self.mark(17), self.mark(23)], ["hit dead: G2", "hit dead: G3"])
        self.assertEqual(self.text(".more"), "1 waits at line 17 (chan send), 1 waits at line 23 (chan send).")

    def test_finaliser(self):
        self.open(example("finaliser"))
        self.assertEqual(self.text("h1"), "No goroutine is dead")
        self.at(400)
        self.assertEqual(self.lane(2), "chan receive, line 24")
        self.assertEqual(self.reasons()[1], "G2chan receive at line 24rootchannel 2G2")
        self.at(483)
        self.shows("G0 runs line 20, G2 is woken", self.now())
        self.browser.press("End")
        self.assertEqual(self.lane(2), "ended")

    def test_late_finaliser_keeps(self):
        self.open(example("late_finaliser"), "--recover")
        self.assertEqual(self.lane(2), "dead at line 28")

    def test_recover(self):
        self.open(example("leak"), "--recover")
        self.browser.press("End")
        self.assertEqual(self.lane(2), "taken back")
        self.assertEqual(self.reasons(),
                         ["G2Taken back by collection 1 after turn 13. "
                          "Dead before in chan receive at line 5, started at line 9."])
        self.shows("taken back", self.text("#legend"))

    def test_chains(self):
        self.open(sample("chains"), fragment="#t=430&g=3")
        self.shows("turn 430 of 923", self.now())
        self.assertEqual([self.lane(2), self.lane(5), self.lane(9)],
                         ["chan receive, line 20", "select, line 29", "dead at line 43"])
        self.assertEqual(self.mark(20), "hit selected: G2 G3 G4")
        self.assertEqual(self.mark(59), "from selected: starts G3")
        self.assertEqual(self.reasons()[4:6], ["G2chan receive at line 20rootobject 8object 5object 2channel 4G2",
                                               "G3chan receive at line 20rootobject 8object 5channel 7G3"])
        self.shows("nothing", self.graph())

    def test_ends(self):
        self.open(sample("ends"))
        self.assertEqual([self.lane(number) for number in (1, 2, 3, 4)], ["runs, and ends", "ended", "ended", "ended"])

    def test_lock_cycle(self):
        self.open(LEAK_CYCLE, ran(EXPLORE, "all", path=LEAK_CYCLE)[0].split("\n")[0])
        self.assertEqual(self.mark(11), "runs hit dead: G4 runs G2 G4")
        self.assertEqual(self.graph().count("nothing live reaches this"), 1)
        self.browser.press("End")
        self.shows("the run was stopped", self.now())


class Ends(InBrowser):
    """Panics, files that are refused, and runs that fall asleep."""

    def test_hostile(self):
        self.open(self.file(HOSTILE, "hostile"))
        self.assertEqual(self.value("document.title"), "hostile.go: 1 goroutine can never run again")
        self.assertEqual(self.value("document.scripts.length"), 2)
        self.assertEqual(self.value("document.images.length"), 0)
        self.shows("</script><script>document.title", self.text("#L8"))
        self.shows("<!--<script> &lt;", self.text("#output"))
        self.assertEqual(self.value("data.collections.length"), 1)
        self.assertEqual(self.value("byNumber.has(7)"), False)

    def test_refused(self):
        self.open(self.file(REFUSED))
        self.assertEqual(self.text("h1"), "The file is refused")
        self.shows("in a direction that they allow", self.text(".fault"))
        self.assertEqual(self.mark(4), "hit dead: ")

    def test_byte(self):
        self.open(self.file(BYTE))
        self.shows("column 9, the byte 94 (^)", self.text(".fault"))

    def test_syntax(self):
        self.open(self.file(SYNTAX))
        self.shows("first broken part", self.text(".fault"))
        self.assertEqual(self.mark(3), "hit dead: ")

    def test_panic(self):
        self.open(self.file(PANIC))
        self.assertEqual(self.text("h1"), "Panic at line 5")
        self.shows("index out of range [3]", self.text(".fault:not([hidden])"))
        self.assertEqual(self.mark(5), "runs hit dead: G1 runs")
        self.assertEqual(self.lane(1), "crashed at line 5")
        self.browser.press("Home")
        self.assertEqual(self.value("document.querySelectorAll('.fault:not([hidden])').length"), 0)

    def test_asleep(self):
        self.open(self.file(ASLEEP))
        self.assertEqual(self.text("h1"), "All goroutines are asleep")
        self.assertEqual([self.lane(1), self.lane(2)], ["asleep at line 4", "asleep at line 4"])
        self.shows("G1 runs line 4 and blocks; all goroutines are asleep; the run ended.", self.now())
        self.shows("All goroutines are asleep.", self.reasons()[0])
        self.assertEqual([each[:20] for each in self.reasons()[1:]], ["G1blocked at line 4s", "G2chan receive at li"])


class Use(InBrowser):
    """Keys, pointer, address, screen reader, print."""

    def test_address(self):
        self.open(example("worker_pool"), fragment="#t=200&g=2")
        self.shows("turn 200 of 788", self.now())
        self.assertEqual(self.value("document.querySelector('.lane.selected').dataset.g"), "2")
        self.value("location.hash = '#t=300'; new Promise(done => setTimeout(done, 300))")
        self.shows("turn 300 of 788", self.now())
        self.browser.press("ArrowRight")
        self.value("new Promise(done => setTimeout(done, 300))")
        self.assertEqual(self.value("location.hash"), "#t=301&g=2")

    def test_links_of_output_and_report(self):
        self.open(example("worker_pool"))
        self.value("document.querySelector('#output a').click(); new Promise(done => setTimeout(done, 100))")
        self.shows("turn 329 of 788", self.now())
        self.value("document.querySelector('#report a.of').click(); new Promise(done => setTimeout(done, 100))")
        self.shows("turn 786 of 788", self.now())
        self.assertEqual(self.value("selected"), 2)

    def test_all_is_reached_by_keys(self):
        self.open(example("leak"))
        reached = self.value("[...document.querySelectorAll('a[href], button, input, [tabindex]')]"
                             ".filter(each => each.tabIndex >= 0).map(each => each.id || each.className).join(' ')")
        for name in ("source", "slider", "b-previous", "b-play", "who", "chip", "graph", "output", "report", "of",
                     "theme"):
            self.shows(name, reached)
        self.value("document.querySelector('.lane[data-g=\"2\"] .who').focus()")
        self.browser.press("Enter")
        self.assertEqual(self.value("selected"), 2)

    def test_the_focus_stays(self):
        self.open(example("leak"))
        for selector in ("#reasons .g", "#source .chip"):
            self.value(f"document.querySelector('{selector}').focus()")
            self.browser.press("Enter")
            self.browser.press("ArrowLeft")
            self.assertEqual(self.value(f"document.activeElement === document.querySelector('{selector}')"), True)
            self.browser.press("ArrowRight")

    def test_slider(self):
        self.open(example("leak"))
        self.value("$('slider').value = 4; $('slider').dispatchEvent(new Event('input'))")
        self.shows("turn 4 of 15", self.now())

    def test_space_plays(self):
        self.open(example("leak"))
        self.browser.press("Home")
        self.browser.press(" ")
        self.assertEqual(self.value("$('b-play').getAttribute('aria-label')"), "stop")
        self.value("new Promise(done => { const wait = () => now > 2 ? done(1) : setTimeout(wait, 50); wait(); })")
        self.browser.press(" ")
        self.assertEqual(self.value("$('b-play').getAttribute('aria-label')"), "play")

    def test_zoom(self):
        self.open(example("worker_pool"), fragment="#t=500")
        self.browser.press("z")
        self.assertEqual(self.value("[view.from, view.to]"), [400, 600])
        self.browser.press("End")
        self.assertEqual(self.value("[view.from, view.to]"), [589, 789])
        self.browser.press("z")
        self.assertEqual(self.value("[view.from, view.to]"), [0, 789])

    def test_headings_and_labels(self):
        self.open(example("leak"))
        found = self.value("[...document.querySelectorAll('h1, h2')].map(each => each.firstChild.textContent.trim())")
        self.assertEqual(found, ["1 goroutine can never run again", "Source", "Output", "Goroutines over the turns",
                                 "Why", "Report"])
        unnamed = self.value("[...document.querySelectorAll('button, input, [tabindex], section')].filter(each => "
                             "!(each.textContent.trim() || each.getAttribute('aria-label') || "
                             "each.getAttribute('aria-labelledby'))).length")
        self.assertEqual(unnamed, 0)
        self.assertEqual(self.value("document.documentElement.lang"), "en")
        self.assertEqual(self.value("$('now').getAttribute('aria-live')"), "polite")

    def test_dark(self):
        self.open(example("leak"), dark=True)
        self.assertEqual(self.value("getComputedStyle(document.documentElement).backgroundColor"), "rgb(13, 16, 21)")
        self.value("$('theme').click()")
        self.assertEqual(self.value("getComputedStyle(document.documentElement).backgroundColor"), "rgb(243, 244, 246)")

    def test_contrast(self):
        for dark in (False, True):
            self.open(example("worker_pool"), dark=dark, fragment="#t=200")
            for selector in (".now", ".who small", "#reasons .what", ".lines code", ".no", ".foot", ".card > h2 small"):
                with self.subTest(f"{selector} {dark}"):
                    self.assertGreater(self.value(CONTRAST % json.dumps(selector)), 4)

    def test_print(self):
        self.open(example("worker_pool"))
        self.assertTrue(self.browser.pdf().startswith(b"%PDF"))

    def test_needs_no_network(self):
        self.open(example("leak"))
        self.assertEqual(self.value("performance.getEntriesByType('resource').length"), 0)

    def test_divided_collections_are_told(self):
        self.open(example("leak"), "--recover")
        self.value("data.divided = [1]; show(last, true)")
        self.shows("Collection 1 took some of the dead back and kept others. The program does not tell which.",
                   self.reasons())


# The contrast of the text of an element with what is behind it.
CONTRAST = """(selector => {
  const one = Object.assign(document.createElement("canvas"), { width: 1, height: 1 });
  const canvas = one.getContext("2d", { willReadFrequently: true });
  const linear = part => part <= .04045 ? part / 12.92 : ((part + .055) / 1.055) ** 2.4;
  const light = colours => {
    canvas.clearRect(0, 0, 1, 1);
    for (const colour of colours) { canvas.fillStyle = colour; canvas.fillRect(0, 0, 1, 1); }
    const parts = [...canvas.getImageData(0, 0, 1, 1).data].slice(0, 3).map(each => linear(each / 255));
    return .2126 * parts[0] + .7152 * parts[1] + .0722 * parts[2];
  };
  const found = document.querySelector(selector), behind = [];
  for (let each = found; each; each = each.parentElement) behind.unshift(getComputedStyle(each).backgroundColor);
  const values = [light(behind), light([...behind, getComputedStyle(found).color])].sort();
  return (Math.max(...values) + .05) / (Math.min(...values) + .05);
})(%s)"""


class Large(InBrowser):
    """Long runs and many goroutines. A page opens in two seconds of processor time."""

    def open_soon(self, path):
        self.open(path)
        self.assertLess(self.browser.processor_seconds(), 2)

    def test_thousand_goroutines(self):
        self.open_soon(sample("thousand"))
        self.assertLess(self.value("document.querySelectorAll('.lane').length"), 10)
        self.assertEqual(self.value("[...document.querySelectorAll('.fold .who b')].map(each => each.textContent)"),
                         ["600 × handle", "300 × lost", "100 × idle"])
        self.value("document.querySelector('.fold .who').click()")
        self.assertEqual(self.value("document.querySelectorAll('.fold.open').length"), 1)
        self.assertGreater(self.value("document.querySelectorAll('.lane').length"), 200)
        self.value("document.querySelector('.fold .who').click()")
        self.assertLess(self.value("document.querySelectorAll('.lane').length"), 10)
        if SHOTS:
            self.browser.shot(os.path.join(SHOTS, "thousand.png"))

    def test_generated_goroutines_are_one_lane(self):
        path = self.file(LOWERED)
        lines = path + ".lines"
        with open(lines, "w", encoding="utf-8") as file:
            file.write(LINES)
        self.open_page(path, lowered_page_of(path, lines, path))
        self.assertEqual(self.value("[...document.querySelectorAll('.lane .who b')].map(each => each.textContent)"),
                         ["G1 main", "G4 the clock", "2 × the clock"])

    def test_100_000_turns(self):
        self.open_soon(self.file(MANY_TURNS))
        self.shows("of 100,000", self.now())
        self.value("show(50000)")
        self.browser.press("z")
        self.browser.press("ArrowRight")
        self.shows("turn 50,001 of 100,000", self.now())
        self.assertEqual(self.value("[view.from, view.to]"), [49_900, 50_100])

    def test_many_goroutines(self):
        self.open_soon(self.file(MANY_GOROUTINES))
        self.shows("goroutines left out", self.text("#legend"))

    def test_a_file_of_1_megabyte(self):
        text = many_functions()
        self.open_soon(self.file(text))
        line = text[:text.index("<-c")].count("\n") + 1
        self.assertEqual(self.mark(line), "hit dead: G2")


if __name__ == "__main__":
    if browser_program():
        unittest.main()
    print("tools/golf-page: its browser tests are left out, since no Chromium is installed")
