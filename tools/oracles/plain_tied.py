"""A plain terminal on a line, written apart from the program: to compare with `mtp2_play line`. Its terminal is that of
plain_term.py; the octets, the orders and the reports are as docs/links.md says them, on whole lists.

usage: tools/oracles/plain_tied.py MODE [--set SET] [--n1 N] [--n2 N] [--orders FILE] [--reports FILE] [--bits
low|high] [--ahead N]
                                                                      a filter, as `mtp2_play line` is; it reads all
                                                                      before it writes
       tools/oracles/plain_tied.py --two MODE MILLISECONDS FIRST SECOND
           two of them tied crosswise, by their files of orders: the reports of each, and how many octets each sent,
           with their CRC-32
       tools/oracles/plain_tied.py --tied [--check]
           examples/line/tied.txt with its lives worked out; with --check nothing is printed, and the status is 1 where
           it differs"""
import argparse
import pathlib
import re
import sys
import zlib

from tools.oracles.plain_lines import TEXT, Far
from tools.oracles.plain_play import Refused, shown
from tools.oracles.plain_term import COMMANDS, MORE, ROOT, SETS, BadLine, do, limits_over, number, octets_in
from tools.oracles.plain_units import FLAG, bits_of, check_octets, octets_of, stuffed

MOST = 600
TIED = ROOT / "examples" / "line" / "tied.txt"
DIGITS = re.compile(r"[0-9]+")
STATUSES = {"InServiceNow": "in service", "RemoteOut": "far out", "RemoteBack": "far back", "Cleared": "cleared"}
ORDERS = {**COMMANDS, **MORE}
ASKED = ("told", "accepted", "retrieve")


def turned(octet):
    return int(f"{octet:08b}"[::-1], 2)


def millisecond(word):
    """The number of a word of digits, as far as 64 bits hold it."""
    return int(word) if DIGITS.fullmatch(word) and int(word) < 2**64 else None


# The word after the millisecond of a report that is no order.
REPORTED = ("in", "down", "far", "cleared", "message", "state", "value", *ASKED, "refused", "lost", "orders")


def orders_of(stream):
    """The orders of a stream's whole lines, each with the millisecond before which it waits."""
    since = 0
    for line in stream.split(b"\n")[:-1]:
        try:
            words = [it for it in line.decode().split(" ") if it] if len(line) <= MOST else None
        except UnicodeDecodeError:
            words = None
        if words is None:
            yield since, ""
        elif not words or words[0].startswith("#"):
            continue
        elif millisecond(words[0]) is not None:
            if words[1:2] == ["ok"] and words[2:]:
                since = max(since, millisecond(words[0]))
                yield since, " ".join(words[2:])
            elif words[1:2] == [] or words[1] not in REPORTED:
                yield since, " ".join(words)
        elif words[0] == "at" and len(words) == 2 and millisecond(words[1]) is not None:
            since = max(since, millisecond(words[1]))
        else:
            yield since, " ".join(words)


class Filter:
    """One end. The octets sent and the reports are whole lists."""

    def __init__(self, mode, orders=b"", ahead=0, text=TEXT, limits=()):
        self.terminal, self.orders = Far(text, mode == "cyclic", *limits), list(orders_of(orders))
        self.sent, self.told, self.count, self.over = [255] * ahead, [], 0, False
        self.ready, self.rest, self.begun = [], [], False

    def step(self, octet):
        """An octet out, one in, and after each eighth a tick."""
        self.sent.append(self.octet_out())
        assert self.terminal.line_in(bytes([octet])) == 1
        self.tell_all(self.count // 8)
        self.count += 1
        if self.count % 8 == 0:
            self.mind(self.count // 8)

    def octet_out(self):
        if not self.ready:
            unit = self.terminal.content_out()
            if unit is None:
                bits, self.rest, self.begun = self.rest + [1] * (8 - len(self.rest)), [], False
                return octets_of(bits)[0]
            content, _ = unit
            bits = (
                self.rest
                + ([] if self.begun else list(FLAG))
                + stuffed(bits_of(content + check_octets(content)))
                + list(FLAG)
            )
            whole = len(bits) // 8 * 8
            self.ready, self.rest, self.begun = list(octets_of(bits[:whole])), bits[whole:], True
        return self.ready.pop(0)

    def tell_all(self, now):
        here = self.terminal
        self.told += [
            f"{now} " + (f"down {rest[0]}" if name == "Down" else STATUSES[name]) for name, *rest in here.statuses
        ]
        self.told += [f"{now} message {it.hex().upper()}" for it in here.messages]
        here.messages, here.statuses = [], []

    def mind(self, now):
        self.terminal.tick(1)
        self.tell_all(now)
        while self.orders and self.orders[0][0] <= now and not self.over:
            _, order = self.orders.pop(0)
            if order == "quit":
                self.told.append(f"{now} ok quit")
                self.over = True
                return
            try:
                answer = self.obey(order.split(" "))
                self.told += [f"{now} ok {order}"] + ([f"{now} {order} {answer}"] if answer is not None else [])
            except Refused as why:
                self.told.append(f"{now} refused {why}")
            except BadLine:
                self.told.append(f"{now} refused X1 BadLine")
            self.tell_all(now)

    def obey(self, words):
        """The answer to an order, if it has one."""
        book = self.terminal.book
        if words[0] == "command" and len(words) == 2 or words[0] in ORDERS and len(words) == 1:
            if words[-1] not in ORDERS:
                raise BadLine
            do(self.terminal, "command", ORDERS[words[-1]])
        elif words[0] in ASKED and (
            len(words) == 1 or words[0] == "retrieve" and len(words) == 2 and number(words[1]) < 128
        ):
            return do(self.terminal, words[0], number(words[1]) if words[1:] else None)[0]
        elif words[0] == "msu" and len(words) == 2 and 3 <= len(octets_in(words[1])) <= 273:
            self.terminal.sender.put(octets_in(words[1]))
        elif words[0] == "state" and len(words) == 2:
            actor = book.actor(words[1])
            return (
                "STOPPED"
                if actor.place is None
                else actor.place
                if actor.place == "START"
                else actor.process.states[actor.place][0]
            )
        elif words[0] == "value" and len(words) == 3:
            return shown(book.actor(words[1]).variables.get(words[2].lower()))
        else:
            raise BadLine
        return None


def set_of(word):
    """The text of a set that a word names."""
    return (ROOT / "examples" / SETS[word]).read_bytes() if word in SETS else pathlib.Path(word).read_bytes()


def two(mode, milliseconds, first, second, damaged=None, sets=("standard", "standard"), chosen=()):
    """Two ends, each of which hears what the other sent, the first of which sent a millisecond of 1s ahead; an octet of
    the second is damaged. Each has a set of its own, and both have the N1 and N2 that are chosen."""
    ends = [
        Filter(mode, orders, ahead, set_of(word), limits_over(set_of(word), mode, *chosen))
        for word, orders, ahead in zip(sets, (first, second), (8, 0))
    ]
    for now in range(milliseconds):
        for one in (1, 0):
            for octet in ends[1 - one].sent[8 * now : 8 * now + 8]:
                if not ends[one].over:
                    ends[one].step(octet)
            if one and damaged is not None and damaged // 8 == now:
                ends[1].sent[damaged] ^= 16
    for name, end in zip(("first", "second"), ends):
        yield f"{name}: {len(end.sent)} octets, {zlib.crc32(bytes(end.sent)):08X}"
        yield from end.told


def entries():
    """The lives of the table: the name, what stands before its line `--`, the words for `two`, and the lines after
    it."""
    for entry in TIED.read_text().split("\n== ")[1:]:
        given, shown = entry.split("\n--\n")
        name, text = given.strip("\n").split("\n", 1)
        line, orders = text.split("\n", 1)
        mode, milliseconds, *more = line.split(" ")
        first, second = (it.encode() for it in orders.split("..\n", 1))
        damaged = next((int(it) for it in more if it.isdigit()), None)
        sets = [it for it in more if it in SETS] or ["standard", "standard"]
        chosen = [
            next((int(it.removeprefix(name)) for it in more if it.startswith(name)), None) for name in ("n1=", "n2=")
        ]
        yield name, text, (mode, int(milliseconds), first, second, damaged, sets, chosen), shown.rstrip("\n").split(
            "\n"
        )


def tied():
    """The table of lives, with the lines that are to be shown for each."""
    yield TIED.read_text().split("\n== ")[0]
    for name, text, words, _ in entries():
        yield "\n".join([f"\n== {name}", text, "--", *two(*words), ""])


def main(words):
    if words[:1] == ["--two"] and len(words) == 5:
        print("\n".join(two(words[1], int(words[2]), *(pathlib.Path(it).read_bytes() for it in words[3:]))))
        return 0
    if words[:1] == ["--tied"]:
        made = "".join(tied())
        if words[1:] != ["--check"]:
            sys.stdout.write(made)
        return int(made != TIED.read_text())
    read = argparse.ArgumentParser()
    read.add_argument("mode", choices=["basic", "cyclic"])
    read.add_argument("--orders"), read.add_argument("--reports"), read.add_argument("--set", default="q703")
    read.add_argument("--n1", type=int), read.add_argument("--n2", type=int)
    read.add_argument("--bits", choices=["low", "high"], default="low")
    read.add_argument("--ahead", type=int, default=0)
    given = read.parse_args(words)
    end = Filter(
        given.mode,
        pathlib.Path(given.orders).read_bytes() if given.orders else b"",
        given.ahead,
        set_of(given.set),
        limits_over(set_of(given.set), given.mode, given.n1, given.n2),
    )
    turn = turned if given.bits == "high" else lambda it: it
    for octet in sys.stdin.buffer.read():
        if end.over:
            break
        end.step(turn(octet))
    sys.stdout.buffer.write(bytes(turn(it) for it in end.sent))
    told = "".join(f"{it}\n" for it in end.told)
    if given.reports:
        pathlib.Path(given.reports).write_text(told)
    else:
        sys.stderr.write(told)
    return 0


if __name__ == "__main__":
    sys.exit(main(sys.argv[1:]))
