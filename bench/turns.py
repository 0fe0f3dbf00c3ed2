#!/usr/bin/env python3
"""Prints the time of a turn, side by side.

It runs a program `golf` on generated files that end by their 1,000,000 turns, with 10, 1,000 and 10,000 goroutines
blocked on channels of their own, and prints nanoseconds a turn by the clock:

- no channel: each goroutine starts the next one and ends;
- send and receive: two goroutines, each one deep recursion, send to each other in turn;
- lock and unlock: two goroutines hand a mutex to each other;
- close: a channel is made, received from and closed.

The time of a file that ends once its goroutines are blocked is taken off, and so are its turns.
"""

from shared import Words, best_time

TURNS = 1_000_000
RUNS = 3
RECV = "func recv(c chan int) {\n\t<-c\n}\n"
SPIN = "func spin() {\n\tgo spin()\n}\n"
PING = "func ping(a chan int, b chan int) {\n%s\tping(a, b)\n}\n" % ("\ta <- 1\n\t<-b\n" * 20)
PONG = "func pong(a chan int, b chan int) {\n%s\tpong(a, b)\n}\n" % ("\t<-a\n\tb <- 1\n" * 20)
LOCK = "func lock(m *sync.Mutex) {\n%s\tlock(m)\n}\n" % ("\tm.Lock()\n\tm.Unlock()\n" * 20)
SHUT = "func shut() {\n%s\tshut()\n}\n" % ("\tgo recv2()\n\tclose(d)\n\td = make(chan int)\n" * 10)
RECV2 = "var d chan int\nfunc recv2() {\n\t<-d\n}\n"
WAIT = "\tdone := make(chan int)\n\t<-done\n"


def file_of(head, count, *lines):
    """Returns a file that blocks so many goroutines, and then does these lines of `main`."""
    blocked = "".join("\tc%d := make(chan int)\n\tgo recv(c%d)\n" % (k, k) for k in range(count))
    return f"package main\n{head}func main() {{\n{blocked}{''.join(lines)}}}\n"


def spinning(count):
    return file_of(RECV + SPIN, count, "\tgo spin()\n", WAIT)


def talking(count):
    lines = "\ta := make(chan int)\n\tb := make(chan int)\n\tgo ping(a, b)\n\tgo pong(a, b)\n"
    return file_of(RECV + PING + PONG, count, lines, WAIT)


def handing(count):
    head = 'import "sync"\n' + RECV + LOCK
    return file_of(head, count, "\tm := new(sync.Mutex)\n\tgo lock(m)\n\tgo lock(m)\n", WAIT)


def closing(count):
    return file_of(RECV + RECV2 + SHUT, count, "\td = make(chan int)\n\tgo shut()\n", WAIT)


def setting_up(count):
    return file_of(RECV, count)


KINDS = (
    ("no channel", spinning),
    ("send and receive", talking),
    ("lock and unlock", handing),
    ("close", closing),
)


def main():
    options = Words(__doc__)
    options.add_program()
    program = options.parse_args().program
    spent = b"stopped after %d turns\n" % TURNS
    for name, make in KINDS:
        for count in (10, 1_000, 10_000):
            before = best_time([program, "run"], setting_up(count), RUNS, 0, b"")
            whole = best_time([program, "run"], make(count), RUNS, 3, spent)
            turn = (whole - before) / (TURNS - 8 * count) * 1e9
            print(f"{name:<16} {count:6} blocked: {turn:7.0f} ns a turn, "
                  f"{whole:.2f} s in all, {before:.2f} s of it before")


if __name__ == "__main__":
    main()
