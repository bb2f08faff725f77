#!/usr/bin/env python3
"""A program of level 3 (docs/level3.md): sends the messages of its standard input, a line each in hexadecimal, in order
within each selection. Messages for level 3 go to standard output, other reports to standard error. At the end of its
input it sends what it has, and ends.

usage: attach.py ORDERS REPORTS"""
import contextlib
import os
import select
import sys
import time


class LinkSet:
    def __init__(self, orders, reports):
        self.paths = orders, reports
        self.waiting, self.given = [], {}  # messages to be given, and those without an answer, by their orders' tags
        self.attach()

    def attach(self):
        """Opens the FIFOs, which waits until a set has them open. A new set says so before an order is given."""
        self.reports, self.orders = os.open(self.paths[1], os.O_RDONLY), os.open(self.paths[0], os.O_WRONLY)
        self.rest, self.due = b"", time.monotonic() + 1

    def give(self):
        """Gives what waits, one message of a selection at a time."""
        for message in [*self.waiting]:
            if time.monotonic() >= self.due and all(it[8:9] != message[8:9] for it in self.given.values()):
                tag = f"={os.getpid()}.{time.monotonic_ns()}"
                os.write(self.orders, f"{tag} send {message}\n".encode())
                self.given[tag] = message
                self.waiting.remove(message)

    def hear(self):
        """Reads reports. If the set has ended, waits for the next one."""
        part = os.read(self.reports, 65536)
        *lines, self.rest = (self.rest + part).split(b"\n")
        for line in lines:
            self.told(line.decode())
        if not part:
            os.close(self.reports), os.close(self.orders)
            self.attach()

    def told(self, line):
        match line.split()[1:]:
            case [_, "message", message]:
                print(message, flush=True)
            case [tag, "ok", *_] if tag in self.given:
                del self.given[tag]
            case [tag, "refused", "E1" | "K1" | "K2" | "K6", *_] if tag in self.given:
                self.waiting.insert(0, self.given.pop(tag))
                self.due = time.monotonic() + 0.1
            case ["begins", *_]:  # nobody knows which of these messages the set before took
                print(line, *(f"unknown {it}" for it in self.given.values()), sep="\n", file=sys.stderr)
                self.given.clear()
            case [word, *_]:
                print(line, file=sys.stderr)
                self.given.pop(word, None)


def main(*paths):
    source, line, level3 = open(0, "rb", buffering=0), None, LinkSet(*paths)
    while line != b"" or level3.waiting or level3.given or level3.rest:
        more = line != b"" and not level3.waiting
        ready, _, _ = select.select([level3.reports] + [source] * more, [], [], 0.1)
        if level3.reports in ready:
            level3.hear()
        if source in ready and (line := source.readline()):
            level3.waiting.append(line.decode().strip())
        with contextlib.suppress(BrokenPipeError):  # the set has ended, and its reports end, too
            level3.give()


if __name__ == "__main__":
    main(*sys.argv[1:])
