#!/usr/bin/env python3
"""Prints what `--why` costs.

It runs a chain of 2,000 goroutines, and 100,000 goroutines on channels that a global holds, with `--why` and without.
It prints seconds by the clock, the peak memory, and how much was written.
"""

import subprocess
import tempfile
import time

from shared import Words, measured

CHAIN = """package main
import "runtime"
var first = make(chan int)
func pass(a, b chan int) {
	v := <-a
	b <- v
}
func start() {
	c := first
	for i := 0; i < 2000; i++ {
		d := make(chan int)
		go pass(c, d)
		c = d
	}
}
func main() {
	start()
	for i := 0; i < 20000; i++ {
	}
	runtime.GC()
}
"""
HELD = """package main
import "runtime"
var all = make(chan chan int, 65536)
var more = make(chan chan int, 65536)
func recv(c chan int) {
	<-c
}
func start() {
	for i := 0; i < 100000; i++ {
		c := make(chan int)
		if i < 60000 {
			all <- c
		} else {
			more <- c
		}
		go recv(c)
	}
}
func main() {
	start()
	for i := 0; i < 300000; i++ {
	}
	runtime.GC()
}
"""
FILES = (("a chain of 2,000", CHAIN), ("100,000 on channels that a global holds", HELD))


def row(program, name, text, words):
    """Prints what a run takes."""
    command = [program, "run", "--turns", "10000000", *words]
    with tempfile.TemporaryFile() as errors:
        begun = time.monotonic()
        took = measured(command, text, subprocess.DEVNULL, errors)
        clock, size = time.monotonic() - begun, errors.seek(0, 2)
        errors.seek(0)
        first = errors.readline().decode().rstrip()
    print(f"{name:<40} {' '.join(words):<6} {clock:6.2f} s, {took.megabytes:5.0f} MB at the peak, "
          f"{size:9} bytes of errors, status {took.status}, {first}")


def main():
    options = Words(__doc__)
    options.add_program()
    program = options.parse_args().program
    for name, text in FILES:
        for words in ([], ["--why"]):
            row(program, name, text, words)


if __name__ == "__main__":
    main()
