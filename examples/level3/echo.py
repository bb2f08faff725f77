#!/usr/bin/env python3
"""A program of level 3 that gives each message of user 3 (SCCP) back to the point that it came from (docs/level3.md).

usage: echo.py ORDERS REPORTS"""
import contextlib
import select
import sys

from attach import LinkSet


class Echo(LinkSet):
    def told(self, line):
        super().told(line)
        match line.split()[1:]:
            case [_, "message", message] if message[1] == "3":
                label = int.from_bytes(bytes.fromhex(message[2:10]), "little")
                to, origin, selection = label & 0x3FFF, label >> 14 & 0x3FFF, label >> 28
                back = (origin + (to << 14) + (selection << 28)).to_bytes(4, "little")
                self.waiting.append(message[:2] + back.hex().upper() + message[10:])


level3 = Echo(*sys.argv[1:])
while True:
    if select.select([level3.reports], [], [], 0.1)[0]:
        level3.hear()
    with contextlib.suppress(BrokenPipeError):  # the set has ended
        level3.give()
