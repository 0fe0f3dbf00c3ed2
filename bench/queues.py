#!/usr/bin/env python3
"""Prints what a turn costs as queues, buffers and lists of goroutines grow.

It runs files that it makes by a program `golf`, and measures processor time. Some rows can go on for ever: it runs
them at N, 2N and 4N for 5,000,000 and for 10,000,000 turns and takes the difference, so that the start does not
count. Other rows end by themselves: it takes the time of the whole run for each goroutine. Behind a row stands the
time at 4N over that at N, which is to be at most 1.3, and the processor time of the largest run, which is to be under
5 s: 10,000,000 turns at 100,000 goroutines (the full channel has 65,536 values, the select 20,000 goroutines), or the
whole run of 400,000. Each time is the least of three runs, with huge pages and one arena, as `./golf` asks the C
library for. The status is 1 if a row is over.
"""

import os
import resource
import sys

from shared import ENVIRONMENT, Words, give_up, measured

RUNS = 3
TURNS = (5_000_000, 10_000_000)
MOST_RATIO = 1.3
MOST_SECONDS = 5.0
HEAD = 'package main\n\nimport (\n\t"fmt"\n\t"runtime"\n\t"sync"\n)\n\n'
# A loop does four in each round, so that a run of 400,000 ends before 10,000,000 turns.
ROUND = "\tfor i := 0; i < %d; i++ {\n%s\t}\n"
CONDITION = "func wait(c *sync.Cond, mu *sync.Mutex) {\n\tmu.Lock()\n\tfor {\n\t\tc.Wait()\n\t}\n}\n\n"
FIGHT = "func fight(mu *sync.Mutex) {\n\tfor {\n\t\tmu.Lock()\n\t\tmu.Unlock()\n\t}\n}\n\n"
READ = "func read(mu *sync.RWMutex) {\n\tfor {\n\t\tmu.RLock()\n\t\tmu.RUnlock()\n\t}\n}\n\n"
WRITE = "func write(mu *sync.RWMutex) {\n\tfor {\n\t\tmu.Lock()\n\t\tmu.Unlock()\n\t}\n}\n\n"
EITHER = "func wait(c chan int, d chan int) {\n\tfor {\n\t\tselect {\n\t\tcase <-c:\n\t\tcase <-d:\n\t\t}\n\t}\n}\n\n"
SEND = "func send(c chan int) {\n\tc <- 1\n}\n\n"
RECEIVE = "func receive(c chan int) {\n\t<-c\n}\n\n"
AWAIT = "func wait(wg *sync.WaitGroup, done chan int) {\n\twg.Wait()\n\tdone <- 1\n}\n\n"
TELL = "func receive(c chan int, done chan int) {\n\t<-c\n\tdone <- 1\n}\n\n"
NODE = "type node struct {\n\tnext *node\n}\n\nfunc last(n *node) {\n}\n\n"
END = "func end(c chan int) {\n\t<-c\n}\n\n"
FOREVER = "\t<-make(chan int)\n"
A_WHILE = "\tfor i := 0; i < 40; i++ {\n\t}\n"


def main_of(*lines):
    return f"func main() {{\n{''.join(lines)}}}\n"


def start(count, call):
    return ROUND % (count // 4, f"\t\t{call}\n" * 4)


def full_channel(n):
    return main_of(f"\tc := make(chan int, {n})\n", start(n, "c <- i"), "\tfor {\n\t\tv := <-c\n\t\tc <- v\n\t}\n")


def mutex(n):
    return FIGHT + main_of("\tmu := &sync.Mutex{}\n", start(n, "go fight(mu)"), FOREVER)


def condition(n, call):
    head = "\tmu := &sync.Mutex{}\n\tc := sync.NewCond(mu)\n"
    return CONDITION + main_of(head, start(n, "go wait(c, mu)"), f"\tfor {{\n\t\t{call}\n\t}}\n")


def signals(n):
    return condition(n, "c.Signal()")


def broadcasts(n):
    return condition(n, "c.Broadcast()")


def readers_writers(n):
    both = "go read(mu)\n\t\tgo write(mu)"
    return READ + WRITE + main_of("\tmu := &sync.RWMutex{}\n", start(n // 2, both), FOREVER)


def select(n):
    head = "\tcs := make([]chan int, 100)\n\tfor i := range cs {\n\t\tcs[i] = make(chan int)\n\t}\n"
    tail = "\ti := 0\n\tfor {\n\t\tcs[i] <- 1\n\t\ti = (i + 1) % 100\n\t}\n"
    return EITHER + main_of(head, start(n, "go wait(cs[i%100], cs[(i+1)%100])"), tail)


def senders_receivers(n):
    both = start(n // 2, "go send(c)") + start(n // 2, "go receive(c)")
    return SEND + RECEIVE + main_of("\tc := make(chan int)\n", both, A_WHILE, "\tfmt.Println(1)\n")


def group(n):
    head = "\twg := &sync.WaitGroup{}\n\tdone := make(chan int, 1)\n\twg.Add(1)\n"
    return AWAIT + main_of(head, start(n, "go wait(wg, done)"), "\twg.Done()\n", start(n, "<-done"))


def close(n):
    head = "\tc := make(chan int)\n\tdone := make(chan int, 1)\n"
    return TELL + main_of(head, start(n, "go receive(c, done)"), "\tclose(c)\n", start(n, "<-done"))


def finalisers(n):
    each = "end.next = &node{}\n\t\tend = end.next\n\t\truntime.SetFinalizer(end, last)"
    tail = "\tfor n := first.next; n != nil; n = n.next {\n\t\truntime.SetFinalizer(n, nil)\n\t}\n"
    return NODE + main_of("\tfirst := &node{}\n\tend := first\n", start(n, each), tail)


def ends(n):
    return END + main_of("\tc := make(chan int)\n", start(n, "go end(c)"), start(n, "c <- 1"), A_WHILE)


# For each row what makes the file, the largest N, and whether it goes on for ever.
ROWS = {
    "full channel": (full_channel, 65_536, True),
    "mutex": (mutex, 100_000, True),
    "condition, signals": (signals, 100_000, True),
    "condition, broadcasts": (broadcasts, 100_000, True),
    "readers and writers": (readers_writers, 100_000, True),
    "select of 100 channels": (select, 20_000, True),
    "senders and receivers": (senders_receivers, 400_000, False),
    "group": (group, 400_000, False),
    "close": (close, 400_000, False),
    "finalisers, oldest first": (finalisers, 400_000, False),
    "ends, oldest first": (ends, 400_000, False),
}


def seconds(program, text, turns, statuses):
    """Returns the least processor time of the runs of a file, in seconds."""
    runs = [measured([program, "run", "--turns", str(turns)], text) for _ in range(RUNS)]
    wrong = [it.status for it in runs if it.status not in statuses]
    if wrong:
        give_up(f"status {wrong[0]} of a file that begins with {text[:80]!r}")
    return min(it.seconds for it in runs)


def is_over(program, name):
    """Prints a row, and returns whether it is over."""
    make, most, goes_on = ROWS[name]
    times = []
    for n in (most // 4, most // 2, most):
        text = HEAD + make(n)
        if goes_on:
            short, whole = (seconds(program, text, turns, (3,)) for turns in TURNS)
            times.append((whole - short) / (TURNS[1] - TURNS[0]) * 1e9)
        else:
            whole = seconds(program, text, TURNS[1], (0, 1))
            times.append(whole / n * 1e9)
    ratio = times[2] / times[0]
    over = ratio > MOST_RATIO or whole > MOST_SECONDS
    each = f"{', '.join(f'{time:.0f}' for time in times)} ns a {'turn' if goes_on else 'goroutine'}"
    print(f"{name:<26} {most:7}: {each}, ratio {ratio:.2f}, largest run {whole:.2f} s{'  OVER' * over}", flush=True)
    return over


def main():
    options = Words(__doc__)
    options.add_program()
    options.add_argument("rows", nargs="*", metavar="ROW", help=f"only these rows, of: {'; '.join(ROWS)}")
    given = options.parse_args()
    if strange := [name for name in given.rows if name not in ROWS]:
        options.error(f"no row {strange[0]}")
    os.environ.setdefault("GLIBC_TUNABLES", ENVIRONMENT["GLIBC_TUNABLES"])
    resource.setrlimit(resource.RLIMIT_CPU, (3600, 3600))
    return 1 if any([is_over(given.program, name) for name in given.rows or ROWS]) else 0


if __name__ == "__main__":
    sys.exit(main())
