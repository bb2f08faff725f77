"""Two plain link sets that tend themselves (plain_tending.py), over plain terminals with the processes of `standard`
(plain_term.py), on lines in memory octet by octet: plays the scripts of examples/links/rounds.txt, written apart from
the program.

usage: tools/oracles/plain_rounds [NAME ..]
           the entries whose names begin with one of these words, or all; status 1 if one reports something else
       tools/oracles/plain_rounds --loud NAME
           prints the reports of an entry, each line with its round"""
import contextlib
import functools
import sys

from tools.oracles.plain_group import Link, labelled
from tools.oracles.plain_lines import TEXT
from tools.oracles.plain_play import Refused
from tools.oracles.plain_tending import Tender
from tools.oracles.plain_term import FLAG, ROOT, bits_of, check_octets, octets_of, stuffed
from tools.oracles.plain_units import Line, decoded, unstuffed

ROUNDS = ROOT / "examples" / "links" / "rounds.txt"
# The octets ahead on a line, and those heard of a silent one.
ONES = b"\xff" * 8
SILENT = 1_000


@functools.cache
def unit_in(bits):
    """The unit between two flags, or None."""
    inside = unstuffed(bits)
    return decoded(octets_of(inside)) if len(inside) % 8 == 0 and tuple(stuffed(inside)) == bits else None


@functools.cache
def framed(content):
    return stuffed(bits_of(content + check_octets(content)))


class Heard(Line):
    """The line of plain_units.py, on the bits since the last flag."""

    def __init__(self):
        super().__init__()
        self.window, self.ones, self.flagged = 255, 0, False

    def bit(self, bit):
        self.bits.append(bit)
        self.window, self.ones = self.window >> 1 | bit << 7, self.ones + 1 if bit else 0
        events = []
        if self.counting:
            self.counted += 1
            if self.counted % 128 == 0:
                events.append(None)
        if self.window == 0x7E:
            between, flagged, self.bits, self.flagged = self.bits[:-8], self.flagged, [], True
            return events + (self.judged(between) if flagged and between else [])
        if not self.counting and (self.ones >= 7 or self.is_long()):
            self.counting, self.counted = True, 0
        return events

    def is_long(self):
        return len(self.bits) > 2224 + 7 and len(unstuffed(self.bits[:-7])) > 2224

    def judged(self, bits):
        unit, was = unit_in(tuple(bits)), self.counting
        self.counting = self.counting and unit is None
        return [unit] if unit or not was else []


class OnLine(Link):
    """A terminal of a set, by the octets of its line."""

    def __init__(self):
        super().__init__(TEXT, False)
        self.begun, self.bits, self.quiet, self.line = False, [], 0, Heard()

    def periods(self):
        """Nothing is measured here."""
        return None

    def turn(self):
        """As that of plain_term.py: an actor that waits with an empty port does nothing."""
        for actor in self.book.actors:
            if not actor.port and actor.place != "START":
                continue
            for call in (lambda it: (self.book.begin(it), self.book.finish(it)), self.book.skip):
                with contextlib.suppress(Refused):
                    call(actor)
                    return True
        return False

    def carries(self):
        return self.kind == 9 and not self.is_held

    def content_out(self):
        """The next unit without its check octets; None for silence."""
        self.rebase()
        if self.kind is None and not self.busy:
            return None
        kind, self.busy = 5 if self.busy else self.kind, False
        fsn, fib, message = self.sender.next_unit() if kind == 9 and not self.is_held else self.sender.idle()
        bsn, bib = self.backward()
        if message is not None:
            self.spare = 0
            self.offer("TXC", "MsuSent")
        body = message if message is not None else b"" if kind in (8, 9) else bytes([kind])
        return bytes([bsn | bib << 7, fsn | fib << 7, min(len(body), 63)]) + body

    def octet_out(self):
        if len(self.bits) < 8:
            content = self.content_out()
            if content is None:
                self.bits, self.begun = (self.bits + [1] * 8)[:8], False
            else:
                self.bits = self.bits + ([] if self.begun else FLAG) + framed(content) + FLAG
                self.begun = True
        octet, self.bits = octets_of(self.bits[:8]), self.bits[8:]
        return octet


class Side:
    """One end."""

    def __init__(self, name, links, own, peer):
        self.name, self.told, self.own, self.peer = name, [], own, peer
        self.tender = Tender([OnLine() for _ in range(links)], own, peer, True, self.told.append)

    def hear(self, at, octets):
        link = self.tender.set.links[at]
        while octets:
            octets = octets[link.line_in(octets) :]
            self.tender.set.see(link)
            self.tender.heed(at)

    def passed(self, at, came):
        """What goes out on a line on which this came."""
        link = self.tender.set.links[at]
        if came:
            link.quiet = 0
            self.hear(at, came)
            return b"".join(link.octet_out() for _ in came)
        link.quiet += 1
        if link.quiet >= SILENT:
            self.hear(at, ONES)
        return ONES if link.quiet % SILENT == 0 else b""

    def obey(self, order, what):
        links = range(len(self.tender.cares)) if what == "all" else [int(what)]
        try:
            if order == "send":
                self.tender.send(b"\x83" + labelled(self.peer, self.own, int(what), bytes(4)))
                return
            for at in links:
                self.tender.set.link(at)
                {
                    "power": lambda at: self.tender.power(at),
                    "start": lambda at: self.tender.stop(at, False),
                    "stop": lambda at: self.tender.stop(at, True),
                    "outage": lambda at: self.tender.outage(at, True),
                    "back": lambda at: self.tender.outage(at, False),
                }[order](at)
        except Refused as why:
            self.told.append(f"refused {why}")


class Run:
    """A script's two ends and their lines."""

    def __init__(self, links, loud=False):
        self.near, self.far = Side("near", links, 1, 2), Side("far", links, 2, 1)
        self.links, self.loud, self.now = links, loud, 0
        self.over, self.back = [ONES] * links, [ONES] * links
        self.cut, self.looped, self.told = set(), None, []

    def carry(self, at):
        """A round of a line: what goes out now comes in the next one."""
        if at == self.looped:
            self.over[at] = self.near.passed(at, self.over[at])
            self.far.passed(at, b"")
            return
        over, back = (b"", b"") if at in self.cut else (self.over[at], self.back[at])
        self.over[at], self.back[at] = self.near.passed(at, back), self.far.passed(at, over)

    def hand_over(self, side):
        self.told += [f"{side.name} {it}" for it in side.told]
        side.told.clear()

    def run(self, rounds):
        for _ in range(rounds):
            self.now += 1
            seen = [len(side.told) for side in (self.near, self.far)]
            for at in range(self.links):
                self.carry(at)
            for side in (self.near, self.far):
                side.tender.tick()
                side.tender.tend()
            if self.loud:
                for side, before in zip((self.near, self.far), seen):
                    for line in side.told[before:]:
                        print(f"{self.now:6} {side.name} {line}", flush=True)
        self.hand_over(self.near)
        self.hand_over(self.far)

    def step(self, line):
        word, rest = line.split(" ", 1)
        if word == "run":
            self.run(int(rest))
        elif word == "cut":
            self.cut.add(int(rest))
        elif word == "heal":
            self.cut.discard(int(rest))
            self.looped = None
        elif word == "loop":
            self.looped = int(rest)
        elif line == "far anew":
            self.far = Side("far", self.links, 2, 1)
        else:
            side = self.near if word == "near" else self.far
            side.obey(*rest.split(" "))
            self.hand_over(side)


def entries():
    for entry in ROUNDS.read_text().split("\n== ")[1:]:
        name, rest = entry.split("\n", 1)
        script, lines = rest.split("\n--\n")
        yield name, script.split("\n"), [it for it in lines.split("\n") if it]


def told_by(script, loud=False):
    run = Run(int(script[0].removeprefix("links ")), loud)
    for line in script[1:]:
        if loud:
            print(f"{run.now:6} {line}")
        run.step(line)
    return run.told


def main(words):
    if words[:1] == ["--loud"]:
        for name, script, _ in entries():
            if name.startswith(words[1]):
                told_by(script, True)
        return 0
    wrong = number = 0
    for name, script, lines in entries():
        if words and not name.startswith(tuple(words)):
            continue
        told, number = told_by(script), number + 1
        if told != lines:
            wrong += 1
            other = (at for at, (one, other) in enumerate(zip(told, lines)) if one != other)
            at = next(other, min(len(told), len(lines)))
            print(f"{name}: line {at + 1}: {told[at : at + 3]} for {lines[at : at + 3]}", flush=True)
    print(f"{number} scripts, {wrong} differ")
    return 1 if wrong else 0


if __name__ == "__main__":
    sys.exit(main(sys.argv[1:]))
