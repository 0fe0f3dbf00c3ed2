"""Runs the programs, and tells which write came when.

A run of `golf-explore trace` writes the output of the file to standard output, and turns, collections and its last
line to standard error. The page must know after which turn each piece of output was written. So both streams of the
program are datagram sockets that are connected to one receiver. Each write is one message, the messages come in the
order of the writes, and the address of the sender tells the stream.
"""

import contextlib
import os
import secrets
import socket
import subprocess
import sys
import tempfile
import threading

import home

OUTPUT, ERRORS = 1, 2
MOST_BYTES_OF_A_WRITE = 1 << 22
WRITE_FAILED = 7
LAUNCHER_FAILED = 125


class Failure(Exception):
    """The sentence that is told on standard error in place of a page, and the status."""

    def __init__(self, sentence, status=1):
        super().__init__(sentence)
        self.status = status


class Written:
    """What one run wrote: (stream, bytes) of each write, and the status. `in_order` says whether writes to different
    streams are in the order in which they were written."""

    def __init__(self, writes, status, in_order):
        self.writes, self.status, self.in_order = writes, status, in_order

    def text_of(self, stream):
        return b"".join(piece for from_stream, piece in self.writes if from_stream == stream)


class Programs:
    """The programs golf and golf-explore with one file."""

    def __init__(self, golf, explore, source):
        self.golf, self.explore, self.source = golf, explore, source

    def trace(self, words):
        """Returns what `golf-explore trace` writes, in its order."""
        return self.ordered([self.explore, "trace", *words])

    def trace_again(self, words):
        """Returns what `golf-explore trace` writes, each stream by itself."""
        return by_pipes([self.explore, "trace", *words], self.source)

    def run(self, words):
        """Returns what `golf run` writes, in its order."""
        return self.ordered([self.golf, "run", *words])

    def ordered(self, command):
        """Returns what a command writes. A write that is too long for a datagram fails. Then the command is run again
        by pipes, which tell no order."""
        written = in_order(command, self.source)
        if written.status == LAUNCHER_FAILED:
            raise Failure(f"{command[0]} could not go on")
        return by_pipes(command, self.source) if written.status == WRITE_FAILED else written


def by_pipes(command, source):
    try:
        done = subprocess.run(command, input=source, capture_output=True, check=False)
    except OSError as fault:
        raise Failure(f"{command[0]}: {fault.strerror}") from fault
    return Written([(OUTPUT, done.stdout), (ERRORS, done.stderr)], done.returncode, False)


def in_order(command, source):
    """Runs a command, and returns its writes in their order."""
    with socket.socket(socket.AF_UNIX, socket.SOCK_DGRAM) as receiver, tempfile.TemporaryFile() as file:
        receiver.bind(fresh_name())
        file.write(source)
        file.seek(0)
        with sender_to(receiver) as output, sender_to(receiver) as errors, sender_to(receiver) as end:
            try:
                process = subprocess.Popen(command, stdin=file, stdout=output, stderr=errors)
            except OSError as fault:
                raise Failure(f"{command[0]}: {fault.strerror}") from fault
            # When the command has ended, all its messages are in the queue of the receiver.
            threading.Thread(target=tell_end, args=(process, end), daemon=True).start()
            streams = {output.getsockname(): OUTPUT, errors.getsockname(): ERRORS}
            try:
                writes = received(receiver, streams, os.path.basename(command[0]))
            except BaseException:
                process.kill()  # a signal ends golf-page, and nothing is left of it
                raise
        return Written(writes, process.wait(), True)


def tell_end(process, end):
    """Sends an empty message when a process has ended."""
    process.wait()
    with contextlib.suppress(OSError):
        end.send(b"")


def fresh_name():
    """Returns an address that no other socket has: in Linux's abstract namespace, so it is no file."""
    return f"\0golf-page-{secrets.token_hex(16)}"


def sender_to(receiver):
    """Returns a socket with an address of its own that sends to the receiver."""
    sender = socket.socket(socket.AF_UNIX, socket.SOCK_DGRAM)
    sender.bind(fresh_name())
    sender.setsockopt(socket.SOL_SOCKET, socket.SO_SNDBUF, MOST_BYTES_OF_A_WRITE)
    sender.connect(receiver.getsockname())
    return sender


def received(receiver, streams, launcher):
    """Returns (stream, bytes) of each message until one comes from another sender. What the launcher tells while it
    builds the program is handed on."""
    writes, buffer = [], bytearray(2 * MOST_BYTES_OF_A_WRITE)
    while True:
        length, sender = receiver.recvfrom_into(buffer)
        if sender not in streams:
            return writes
        message = bytes(memoryview(buffer)[:length])
        if streams[sender] == ERRORS and message.startswith(launcher.encode() + b": "):
            sys.stderr.buffer.write(message)
            sys.stderr.flush()
        else:
            writes.append((streams[sender], message))


def program_path(given, variable, name):
    """Returns the program that is given, or that the variable names, or the one that belongs to this tool."""
    path = given or os.environ.get(variable) or os.path.join(home.PROGRAMS, name)
    if not os.path.exists(path):
        raise Failure(f"there is no program {path}")
    return os.path.abspath(path)
