#!/usr/bin/env python3
"""Compares blocked goroutines with those of Go's own runtime.

It makes COUNT files of many goroutines: pipelines, pools, mutexes, groups, conditions, `select`, nil channels. What
they print and who is blocked at rest does not depend on the schedule. Each file comes to rest twice, and collects
there. In the copy that `go build` gets, a function stands for the collection that waits until nothing runs and prints
all stacks. By these it asks of both collections:

- The goroutines that are blocked in Go are those that the program has reported so far, or tells as live with `--why`:
  each with the same kind of wait on the same line.
- Each goroutine that is reported was started on the line that the program names, and one that the first collection
  reports is blocked there in Go at the second one too.

Output, status and the text and line of a panic or fatal error are to be the same by each schedule that is tried, with
`--recover` and without. It needs `go` on the path.
"""

import collections
import os
import random
import re
import subprocess
import sys
import tempfile

from shared import REACHED, REPORTED, Words, run

HELPER = """package main

import (
	"os"
	"runtime"
	"strings"
	"time"
)

// atRest waits until no goroutine but this one runs, and prints all stacks.
func atRest() {
	text := make([]byte, 1<<20)
	last := ""
	for same := 0; same < 3; {
		time.Sleep(2 * time.Millisecond)
		now := string(text[:runtime.Stack(text, true)])
		if now == last && strings.Count(now, "[run") == 1 {
			same++
		} else {
			same = 0
		}
		last = now
	}
	os.Stderr.WriteString("== at rest\\n" + last + "\\n\\n== on\\n")
}
"""
KINDS = {
    "sync.(*Mutex).Lock": "sync.Mutex.Lock",
    "sync.(*WaitGroup).Wait": "sync.WaitGroup.Wait",
    "sync.(*RWMutex).RLock": "sync.RWMutex.RLock",
    "sync.(*RWMutex).Lock": "sync.RWMutex.Lock",
    "sync.(*Cond).Wait": "sync.Cond.Wait",
}

OVERFLOW = "fatal error: stack overflow at line "
RECOVERS = ["--recover", "--markers", "3", "--schedule"]


class Part:
    """What one construct adds to a file: declarations, and lines of `main`.

    The lines stand before the first collection, before the second one, and after it.
    """

    def __init__(self, number, chance):
        self.n, self.chance, self.declared, self.first, self.second, self.last = number, chance, [], [], [], []

    def function(self, head, *lines):
        self.declared += [f"func {head} {{", *("\t" + line for line in lines), "}", ""]

    def maybe(self, *lines):
        return lines if self.chance.random() < 0.5 else ()


def pipeline(p):
    n, chance = p.n, p.chance
    stages, items = chance.randint(1, 3), chance.randint(1, 6)
    taken = chance.randint(0, items)
    sends = ["for i := 0; i < n; i++ {", "\tout <- i", "}"]
    p.function(f"source{n}(out chan<- int, n int)", *sends, *p.maybe("close(out)"))
    body = ["for v := range in {", "\tout <- v*3 + 1", "}"] if chance.random() < 0.5 else [
        "for {", "\tv, ok := <-in", "\tif !ok {", "\t\tbreak", "\t}", "\tout <- v - 1", "}"]
    p.function(f"stage{n}(in <-chan int, out chan<- int)", *body, *p.maybe("close(out)"))
    p.first += [f'p{n}x{k} := make(chan int{chance.choice(["", "", ", 1", ", 2"])})' for k in range(stages + 1)]
    p.first += [f"go source{n}(p{n}x0, {items})"] + [f"go stage{n}(p{n}x{k}, p{n}x{k + 1})" for k in range(stages)]
    p.first += [f"s{n} := 0", f"for i := 0; i < {taken}; i++ {{", f"\ts{n} += <-p{n}x{stages}", "}"]
    p.first += [f'fmt.Println("pipeline", s{n})']
    if items > taken:
        p.second += p.maybe(f'fmt.Println("next", <-p{n}x{stages})')


def pool(p):
    n, chance = p.n, p.chance
    workers, jobs = chance.randint(1, 4), chance.randint(0, 5)
    p.function(f"work{n}(jobs chan int, results chan int)", "for j := range jobs {", "\tresults <- j * j", "}")
    p.first += [f"jobs{n} := make(chan int{chance.choice(['', ', 3'])})", f"results{n} := make(chan int)"]
    p.first += [f"for w := 0; w < {workers}; w++ {{", f"\tgo work{n}(jobs{n}, results{n})", "}", f"t{n} := 0"]
    p.first += [f"for j := 0; j < {jobs}; j++ {{", f"\tjobs{n} <- j", f"\tt{n} += <-results{n}", "}"]
    p.first += [f'fmt.Println("pool", t{n})']
    p.second += p.maybe(f"close(jobs{n})")


def mutex(p):
    n, chance = p.n, p.chance
    p.declared += [f"type Count{n} struct {{", "\tn int", "}", ""]
    p.function(f"hold{n}(m *sync.Mutex, told chan bool)", "m.Lock()", "told <- true")
    unlocks = ["m.Unlock()"] if chance.random() < 0.7 else []
    p.function(f"add{n}(m *sync.Mutex, c *Count{n})", "m.Lock()", "c.n++", *unlocks)
    p.first += [f"m{n} := &sync.Mutex{{}}", f"told{n} := make(chan bool)", f"c{n} := &Count{n}{{}}",
                f"go hold{n}(m{n}, told{n})", f"<-told{n}",
                f"for w := 0; w < {chance.randint(1, 3)}; w++ {{", f"\tgo add{n}(m{n}, c{n})", "}"]
    if chance.random() < 0.5:
        p.second += [f"m{n}.Unlock()"]
        p.last += [f'fmt.Println("mutex", c{n}.n)']


def group(p):
    n, chance = p.n, p.chance
    count, missing = chance.randint(1, 4), chance.choice([0, 1])
    p.function(f"finish{n}(g *sync.WaitGroup)", *chance.choice([["g.Done()"], ["defer g.Done()"]]))
    p.function(f"await{n}(g *sync.WaitGroup, done chan int)", "g.Wait()", "done <- 1")
    p.first += [f"g{n} := &sync.WaitGroup{{}}", f"d{n} := make(chan int)", f"g{n}.Add({count + missing})",
                f"for w := 0; w < {count}; w++ {{", f"\tgo finish{n}(g{n})", "}", f"go await{n}(g{n}, d{n})"]
    if chance.random() < 0.5:
        p.second += [f"g{n}.Done()"] * missing + [f'fmt.Println("group", <-d{n})']


def condition(p):
    n, chance = p.n, p.chance
    count = chance.randint(1, 3)
    p.declared += [f"type Room{n} struct {{", "\tm *sync.Mutex", "\tc *sync.Cond", "\tn int", "}", ""]
    p.function(f"enter{n}(r *Room{n})", "r.m.Lock()", "r.n++", "r.c.Wait()", "r.n--", "r.m.Unlock()")
    p.first += [f"q{n} := new(sync.Mutex)", f"r{n} := &Room{n}{{m: q{n}, c: sync.NewCond(q{n})}}",
                f"for w := 0; w < {count}; w++ {{", f"\tgo enter{n}(r{n})", "}"]
    wake = chance.choice([[], ["Signal"], ["Signal"] * count, ["Broadcast"]])
    if wake:
        p.second += [f"r{n}.m.Lock()", *(f"r{n}.c.{it}()" for it in wake), f"r{n}.m.Unlock()"]
        p.last += [f'fmt.Println("condition", r{n}.n)']


def choice(p):
    n, chance = p.n, p.chance
    cases = ["select {", "case v := <-a:", "\tout <- v", "case b <- true:", "\tout <- 7", "}"]
    p.function(f"choose{n}(a chan int, b chan bool, out chan int)", *cases)
    p.first += [f"a{n} := make(chan int)", f"b{n} := make(chan bool)",
                f"o{n} := make(chan int{chance.choice(['', ', 1'])})",
                f"go choose{n}(a{n}, b{n}, o{n})"]
    prints = f'fmt.Println("choice", <-o{n})'
    p.second += chance.choice([[], [f"a{n} <- 3"], [f"a{n} <- 4", prints], [f"<-b{n}", prints], [f"close(a{n})"]])


def nils(p):
    n = p.n
    kind = p.chance.choice(["receive", "send", "none", "both", "range"])
    bodies = {"receive": ["<-c"], "send": ["c <- 1"], "none": ["select {}"],
              "both": ["select {", "case <-c:", "case c <- 2:", "}"],
              "range": ["for v := range c {", "\tfmt.Println(v)", "}"]}
    p.function(f"stop{n}(c chan int)", *bodies[kind])
    p.first += [f"go stop{n}(nil)"]


def readers(p):
    n, chance = p.n, p.chance
    p.function(f"read{n}(m *sync.RWMutex, told chan bool)", "m.RLock()", "told <- true")
    p.function(f"write{n}(m *sync.RWMutex)", "m.Lock()", "m.Unlock()")
    p.function(f"look{n}(m *sync.RWMutex)", "m.RLock()", "m.RUnlock()")
    p.first += [f"w{n} := new(sync.RWMutex)", f"e{n} := make(chan bool, {chance.randint(0, 2)})",
                f"go read{n}(w{n}, e{n})", f"<-e{n}", f"go write{n}(w{n})"]
    looks = f"go look{n}(w{n})"
    p.second += chance.choice([[], [looks], [f"w{n}.RUnlock()"], [looks, f"go write{n}(w{n})"]])


def globals_(p):
    n, chance = p.n, p.chance
    p.declared += [f"var held{n} chan int = make(chan int)", ""]
    p.function(f"serve{n}(out chan int)", f"v := <-held{n}", "out <- v + 1")
    p.first += [f"h{n} := make(chan int)", f"go serve{n}(h{n})"]
    prints = f'fmt.Println("global", <-h{n})'
    p.second += chance.choice([[], [f"held{n} = nil"], [f"held{n} <- 5"], [f"held{n} <- 6", prints]])


def chain(p):
    n, chance = p.n, p.chance
    length = chance.randint(2, 4)
    p.declared += [f"type Node{n} struct {{", "\tc    chan int", f"\tnext *Node{n}", "}", ""]
    p.function(f"pass{n}(k *Node{n})", "v := <-k.c", "if k.next != nil {", "\tk.next.c <- v + 1", "}",
               *p.maybe("<-k.c"))
    p.function(f"link{n}(count int) *Node{n}", f"var k *Node{n}", "for i := 0; i < count; i++ {",
               f"\tk = &Node{n}{{c: make(chan int), next: k}}",
               f"\tgo pass{n}(k)", "}", "return k")
    p.first += [f"k{n} := link{n}({length})", f'fmt.Println("chain", k{n} == nil)']
    p.second += p.maybe(f"k{n}.c <- 1")


def deferred(p):
    n, chance = p.n, p.chance
    p.function(f"close{n}(c chan int, d chan int)", "defer close(d)", "for i := 0; i < 2; i++ {", "\td <- <-c", "}")
    p.first += [f"c{n} := make(chan int, 1)", f"d{n} := make(chan int, 2)", f"go close{n}(c{n}, d{n})", f"c{n} <- 8"]
    more = [f"c{n} <- 9", f"for v := range d{n} {{", '\tfmt.Println("deferred", v)', "}"]
    p.second += chance.choice([[], more, [f"close(c{n})"]])


PARTS = [pipeline, pool, mutex, group, condition, choice, nils, readers, globals_, chain, deferred]


CRASHES = [
    ["close(c)", "close(c)"], ["close(c)", "c <- 1"], ["m.Unlock()"], ["w.RUnlock()"], ["g.Done()"], ["s[len(s)] = 1"],
    ["c = nil", "close(c)"], ["fmt.Println(1 / len(s))"], ["c = make(chan int, len(s)-1)", "c <- 1"],
    ["var p *Crash", "p.n = 1"], ['panic("crash")'], ["crash(c, m, w, g, s)"],
]
STARTED = "go crash(make(chan int), new(sync.Mutex), new(sync.RWMutex), new(sync.WaitGroup), make([]int, 0))"


def ending(chance):
    """Returns declarations and the last lines of `main`: it returns, waits for ever, or panics, or a goroutine does."""
    kind = chance.choice(["returns"] * 6 + ["panics", "waits", "index", "crash", "crash", "crash"])
    waits = ["var never chan int", "<-never"]
    if kind != "crash":
        return [], {"returns": ['fmt.Println("end")'], "panics": ['panic("end")'], "waits": waits,
                    "index": ["var s []int", "s[len(s)] = 1"]}[kind]
    lines = chance.choice(CRASHES)
    declared = ["type Crash struct {", "\tn int", "}", "", "func told(n int) {", '\tfmt.Println("left", n)', "}", "",
                "func crash(c chan int, m *sync.Mutex, w *sync.RWMutex, g *sync.WaitGroup, s []int) {"]
    declared += ["\tdefer told(len(s))"] if "crash(" not in lines[0] else []
    return [*declared, *("\t" + line for line in lines), "}", ""], [STARTED, *waits]


def without_unread(lines):
    """Returns the lines with `_` in place of a variable that nothing reads, which Go refuses."""
    lines = list(lines)
    for at, line in enumerate(lines):
        name, sign, value = line.partition(" := ")
        if sign and name.isalnum() and sum(bool(re.search(rf"\b{name}\b", it)) for it in lines) == 1:
            lines[at] = f"_ = {value}"
    return lines


def made(seed):
    """Returns a file."""
    chance = random.Random(seed)
    parts = []
    for number in range(chance.randint(2, 6)):
        part = Part(number, chance)
        chance.choice(PARTS)(part)
        parts.append(part)
    rest = ["for i := 0; i < 4000; i++ {", "}", "runtime.GC()"]
    declared, end = ending(chance)
    lines = [line for part in parts for line in part.first] + rest
    lines += [line for part in parts for line in part.second] + rest
    lines = without_unread(lines + [line for part in parts for line in part.last] + end)
    body = [line for part in parts for line in part.declared] + declared
    body += ["func main() {", *("\t" + line for line in lines), "}", ""]
    used = [name for name in ("fmt", "runtime", "sync") if any(f"{name}." in line for line in body)]
    return "\n".join(["package main", "", "import (", *(f'\t"{name}"' for name in used), ")", "", *body])


# The line that started a goroutine; Go 1.21 and newer says which goroutine did.
STARTED_AT = re.compile(r"\ncreated by main\.\S+(?: in goroutine \d+)?\n\t\S*/made\.go:(\d+)")
# The line at which a goroutine of the file is, and the function that is called there.
BLOCKED_AT = re.compile(r"(?:\n([^\t\n]+)\([^()\n]*\)\n\t[^\n]*)?\nmain\.[^\n]*\n\t\S*/made\.go:(\d+)")


def stacks(told):
    """Returns for each rest who is blocked: kind, line, and the line that started it."""
    rests = []
    for dump in re.findall(r"^== at rest\n(.*?)^== on$", told, re.M | re.S):
        here = collections.Counter()
        for block in dump.split("\n\n"):
            head = re.match(r"goroutine \d+ \[([^\],]+)", block)
            started = STARTED_AT.search(block)
            at = BLOCKED_AT.search(block)
            if head and started:
                # BLOCKED_AT has the function of package sync right above the first one of the file.
                here[KINDS.get(at[1], head[1]), int(at[2]), int(started[1])] += 1
        rests.append(here)
    return rests


def last_of_go(told):
    """Returns the text of a panic or fatal error, with its line if a goroutine of the file stands there."""
    text = re.search(r"^(?:panic|fatal error): .*$", told, re.M)
    if not text:
        return ""
    at = re.search(r"\n\ngoroutine \d+ \[running\]:\n(?:.*\n)*?\t\S*/made\.go:(\d+)", told[text.end():])
    return f"{text[0]} at line {at[1]}" if at else text[0]


def by_go(text):
    """Returns output, status, who was blocked at each rest, and the end; or None if Go refuses the file."""
    with tempfile.TemporaryDirectory() as folder:
        copy = text.replace("runtime.GC()", "atRest()").replace('\t"runtime"\n', '\t_ "runtime"\n')
        for name, words in (("made.go", copy), ("helper.go", HELPER)):
            with open(f"{folder}/{name}", "w", encoding="utf-8") as file:
                file.write(words)
        environment = dict(os.environ, GO111MODULE="off")
        command = ["go", "build", "-gcflags=-N -l", "-o", "made", "made.go", "helper.go"]
        build = subprocess.run(command, capture_output=True, env=environment, cwd=folder)
        if build.returncode:
            print(build.stderr.decode())
            return None
        done = run([f"{folder}/made"], "", 60)
    told = done.stderr.decode()
    return done.stdout, done.returncode, stacks(told), last_of_go(told.rpartition("== on\n")[2])


def by_program(program, text, words):
    """Returns output, status, for each collection who is reported and who is told as live, and the end."""
    done = run([program, "run", "--turns", "10000000", *words], text, 120)
    collected, last = [], ""
    for line in done.stderr.decode().splitlines():
        if line.startswith("collection "):
            collected.append((collections.Counter(), collections.Counter()))
        elif found := REPORTED.fullmatch(line):
            collected[-1][0][found[2], int(found[3]), int(found[4])] += 1
        elif found := REACHED.fullmatch(line):
            collected[-1][1][found[2], int(found[3])] += 1
        elif line.startswith(("panic: ", "fatal error: ")):
            last = re.sub(r" \(goroutine \d+, line (\d+)\)$", r" at line \1", line)
    return done.stdout, done.returncode, collected, last


def without_start(counter):
    """Returns the counts by kind and line alone."""
    short = collections.Counter()
    for (kind, line, _), count in counter.items():
        short[kind, line] += count
    return short


def faults_of_rests(rests, collected):
    """Yields what differs in who is blocked."""
    reported = collections.Counter()
    if len(collected) != len(rests):
        yield f"{len(collected)} collections"
    for number, (here, (new, live)) in enumerate(zip(rests, collected), 1):
        reported += new
        if reported - here:
            yield f"collection {number}: reported so far, and not blocked so in Go: {dict(reported - here)}"
        blocked = without_start(reported) + live
        if blocked != without_start(here):
            yield f"collection {number}: blocked here {dict(blocked)}, in Go {dict(without_start(here))}"


def faults(wanted, got, told):
    """Yields what differs, in words."""
    ends = {0: 0, 1: 0, 2: 2}
    if got[0] != wanted[0]:
        yield "output"
    if ends.get(got[1]) != wanted[1]:
        yield f"status {got[1]}"
    # A stack overflow is told with the line of the call, in Go with that of the function (docs/LANGUAGE.md).
    if got[3] != wanted[3] and not (got[3].startswith(OVERFLOW) and wanted[3].startswith(OVERFLOW)):
        yield f"end: {got[3]!r} here, in Go {wanted[3]!r}"
    if told:
        yield from faults_of_rests(wanted[2], got[2])


class Counts:
    """How many files are alike, and who is blocked and reported in them."""

    def __init__(self):
        self.alike = self.differing = self.refused = self.goroutines = self.dead = 0
        self.kinds = collections.Counter()

    def add(self, rests, collected):
        """Counts the goroutines of a file."""
        self.goroutines += sum(sum(here.values()) for here in rests)
        for new, _ in collected:
            self.dead += sum(new.values())
            for (kind, _, _), times in new.items():
                self.kinds[kind] += times

    def look_at(self, program, number):
        """Makes a file, compares it, and prints it if it differs."""
        text = made(number)
        wanted, wrong, seed = by_go(text), [], f"seed:{number}"
        if wanted is None:
            self.refused += 1
            print(f"== {number}: refused by Go\n{text}")
            return
        for words in (["--why"], ["--why", "--schedule", seed], [*RECOVERS, f"seed:{number + 1}"]):
            got = by_program(program, text, words)
            wrong += [f"{' '.join(words)}: {fault}" for fault in faults(wanted, got, "--why" in words)]
            if words == ["--why"]:
                self.add(wanted[2], got[2])
        self.alike += not wrong
        self.differing += bool(wrong)
        if wrong:
            print(f"== {number}", *wrong, text, sep="\n")


def main():
    options = Words(__doc__)
    options.add_program()
    options.add_made(100)
    given, counts = options.parse_args(), Counts()
    for number in range(given.seed, given.seed + given.count):
        counts.look_at(given.program, number)
    print(f"{counts.alike} alike, {counts.differing} differing, {counts.refused} refused by Go; "
          f"{counts.goroutines} blocked at a rest, {counts.dead} reported: {dict(counts.kinds)}")
    return 1 if counts.differing or counts.refused else 0


if __name__ == "__main__":
    sys.exit(main())
