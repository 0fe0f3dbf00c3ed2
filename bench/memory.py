#!/usr/bin/env python3
"""Prints whether a run gives memory back, and what a blocked goroutine takes.

It runs files that make slices of 65,536 elements over and over, 100 and 800 of them, drop them, and collect after each
tenth one, or at the end alone. It prints the peak memory of each, and fails if the file that collects on the way takes
more than twice as much for 800 as for 100.

Then it runs a file that starts 400,000 goroutines, each of which waits on a channel of its own that no other
goroutine has, and collects, which reports them all. It prints the peak memory, and what it is for each goroutine,
that of the run of 1,000 taken off.

At last it counts by valgrind, if that is there, how many requests for memory two goroutines make that send to each
other: the difference of a run of 6,100,000 turns, in which there are a million operations on channels, and of one of
100,000. It fails if there are any.
"""

import re
import shutil

from shared import ROOT, Words, give_up, measured, run, text_of

LOOP = """package main
import "runtime"
func main() {
	for i := 0; i < %d; i++ {
		a := make([]int, 65536)
		a[0] = i
		if i %% 10 == %d {
			runtime.GC()
		}
	}
	runtime.GC()
}
"""
BLOCKED = """package main
import "runtime"
func recv(c chan int) {
	<-c
}
func main() {
	for i := 0; i < %d; i++ {
		go recv(make(chan int))
	}
	for i := 0; i < 10; i++ {
	}
	runtime.GC()
}
"""
PING_PONG = ROOT / "bench" / "rounds" / "ping_pong.go"
# How a file collects, and after which slices of ten: after none if it is over 9.
WAYS = (("collected after each tenth", 9), ("at the end alone", 10))


def peak(program, text, words, wanted):
    """Returns the peak memory of a run that ends with this status, in MB."""
    took = measured([program, "run", *words], text)
    if took.status != wanted:
        give_up(f"status {took.status}")
    return took.megabytes


def of_goroutines(program):
    """Prints what blocked goroutines take at the peak, with their reports."""
    few, many = (peak(program, BLOCKED % count, ["--turns", "10000000"], 1) for count in (1_000, 400_000))
    each = (many - few) * 1024 * 1024 / 399_000
    print(f"400,000 goroutines, each on a channel of its own, reported: {many:.0f} MB, {each:.0f} bytes each")


def requests(program, turns):
    """Returns how many requests for memory a run of so many turns makes."""
    command = ["valgrind", "--leak-check=no", program, "run", "--turns", str(turns)]
    found = re.search(r"total heap usage: ([\d,]+) allocs", run(command, text_of(PING_PONG)).stderr.decode())
    if not found:
        give_up("valgrind counted nothing")
    return int(found[1].replace(",", ""))


def of_operations(program):
    """Prints how many requests for memory operations on channels make, and fails if there are any."""
    if not shutil.which("valgrind"):
        print("requests for memory: left out, since valgrind is not installed: apt install valgrind")
        return
    few, many = (requests(program, turns) for turns in (100_000, 6_100_000))
    print(f"two goroutines that send to each other: {many - few} requests for memory in 6,000,000 turns")
    if many != few:
        give_up("an operation asks for memory")


def main():
    options = Words(__doc__)
    options.add_program()
    program, peaks = options.parse_args().program, {}
    for name, place in WAYS:
        for count in (100, 800):
            peaks[place, count] = peak(program, LOOP % (count, place), [], 0)
            print(f"{count:4} slices of 65,536 elements, {name}: {peaks[place, count]:.0f} MB")
    if peaks[9, 800] > 2 * peaks[9, 100]:
        give_up("memory is not given back")
    of_goroutines(program)
    of_operations(program)


if __name__ == "__main__":
    main()
