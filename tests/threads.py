#!/usr/bin/env python3
"""Compares a run by threads with the run by the numbers that it told.

It runs the worker pool of examples/worker_pool.go and COUNT made files, in which workers share channels, mutexes and
wait groups, by four threads, then by `--schedule choices:` with the numbers that the first run printed. Output,
status and the lines before the history must be the same. A file whose history has more than 4,096 numbers, as many as
a line can have, is left out and another one is made in its place.
"""

import random
import sys

from shared import ROOT, Words, give_up, run, text_of

POOL = ROOT / "examples" / "worker_pool.go"
MOST = 4096
HEAD = 'package main\n\nimport (\n\t"fmt"\n\t"runtime"\n\t"sync"\n)\n\n'
WORKERS = """func send(c chan int, n int) {
	for i := 0; i < n; i++ {
		c <- i
	}
}

func take(c chan int, n int) {
	for i := 0; i < n; i++ {
		fmt.Println("take", <-c)
	}
}

func pick(a chan int, b chan int) {
	select {
	case v := <-a:
		fmt.Println("first", v)
	case v := <-b:
		fmt.Println("second", v)
	}
}

func hold(mu *sync.Mutex, wg *sync.WaitGroup, c chan int, n int) {
	defer wg.Done()
	mu.Lock()
	defer mu.Unlock()
	fmt.Println("hold", n, len(c))
}

"""


def started(at_random, channels):
    """Returns the lines that start a worker, and now and then a collection."""
    kind = at_random.choice(["send", "take", "pick", "hold"])
    a, b = (f"c{at_random.randrange(channels)}" for _ in range(2))
    n = at_random.randint(1, 4)
    calls = {"pick": [f"go pick({a}, {b})"], "hold": ["wg.Add(1)", f"go hold(mu, wg, {a}, {n})"]}
    collects = ["runtime.GC()"] if at_random.random() < 0.3 else []
    return calls.get(kind, [f"go {kind}({a}, {n})"]) + collects


def made(at_random):
    """Returns a file with some workers over some channels, which ends by itself, asleep or by a panic."""
    channels = at_random.randint(1, 3)
    lines = ["mu := &sync.Mutex{}", "wg := &sync.WaitGroup{}"]
    lines += [f"c{k} := make(chan int, {at_random.randint(0, 3)})" for k in range(channels)]
    for _ in range(at_random.randint(2, 6)):
        lines += started(at_random, channels)
    lines += at_random.choice([["wg.Wait()"], ["close(c0)"], ['fmt.Println("end")']])
    lines += [f"for i := 0; i < {at_random.randint(1, 60)}; i++ {{", "}", "runtime.GC()", 'fmt.Println("len", len(c0))']
    return HEAD + WORKERS + "func main() {\n" + "".join(f"\t{line}\n" for line in lines) + "}\n"


def differs(program, text):
    """Whether a second run by the numbers of the first differs, None if they are too many; and how many they are."""
    first = run([program, "run", "--threads", "4"], text)
    before, mark, numbers = first.stderr.rpartition(b"history: ")
    if not mark:
        give_up(f"no history: status {first.returncode}, {first.stderr[:300]!r}\n{text}")
    count = numbers.count(b",") + 1
    if count > MOST:
        return None, count
    again = run([program, "run", "--schedule", "choices:" + numbers.decode().strip()], text)
    return (again.returncode, again.stdout, again.stderr) != (first.returncode, first.stdout, before), count


def main():
    options = Words(__doc__)
    options.add_program()
    options.add_made(20)
    given = options.parse_args()
    at_random, texts, turns, bad = random.Random(given.seed), [text_of(POOL)], [], 0
    while len(turns) < given.count + 1:
        text = texts.pop() if texts else made(at_random)
        other, count = differs(given.program, text)
        if other is None:
            continue
        turns.append(count)
        if other:
            bad += 1
            print("the second run differs:\n" + text)
    print(f"{len(turns) - bad} the same, {bad} differ; {min(turns)} to {max(turns)} turns")
    return 1 if bad else 0


if __name__ == "__main__":
    sys.exit(main())
