"""Compares `mtp2_play line` with tools/oracles/plain_tied.py on random lines: two plain ends are tied, each by orders
of its own and on a set of its own (those of
tools/oracles/random_terminals), over a channel that damages bits; then the program gets the octets that the first one
heard, and its orders, and has to send the same octets and reports.

usage: tools/oracles/random_lines [COUNT [SEED]] [-j JOBS]
           100 lines if nothing is said; ends with status 1 if one differs
       tools/oracles/random_lines [COUNT [SEED]] --only N      writes the Nth line's octets, and tells what comes of it

The orders are left in out/random_lines/, and of a line that differs both answers. MTP2_PLAY names another program than
the built one."""
import hashlib
import sys

from tools.oracles import random_terminals as terminals
from tools.oracles.plain_term import COMMANDS
from tools.oracles.plain_tied import Filter, turned
from tools.oracles.random_cases import hold
from tools.steps.built import ROOT

ROOM = ROOT / "out" / "random_lines"

# What comes along a channel before the other end's first octet.
LAG = 16


def message(dice):
    return "msu " + bytes(dice.randrange(256) for _ in range(dice.choice([3, 3, 4, 8, 20, 62, 63, 64, 273]))).hex()


def any_line(dice):
    """A line of orders that isn't one of a link in service: other orders, none, and lines that are nothing."""
    process, variable = dice.choice(terminals.VARIABLES)
    number = dice.randrange(2000)
    return dice.choice(
        [
            f"state {process}",
            f"value {process} {variable}",
            f"value {process}.1 {variable}",
            f"state {process}.2",
            dice.choice(sorted(COMMANDS)),
            f"command {dice.choice(sorted(COMMANDS))}",
            "stop",
            "start",
            "power",
            "nonsense",
            "msu 850",
            "msu 8501",
            "at",
            "at x",
            "",
            "# remark",
            "  state   LSC  ",
            f"{number} ok state LSC",
            f"{number} in service",
            "state LSC\r",
            "x" * 601,
            "value LSC " + "x" * 590,
            "out 1",
            "\tstate LSC",
        ]
    )


def orders(dice, milliseconds, is_far):
    """Lines of orders: the way into service mostly, and then what comes."""
    lines = ["power", *(["emergency"] if dice.random() < 0.9 else []), "start"] if dice.random() < 0.95 else []
    at = 0
    while at < milliseconds:
        at += dice.choice([0, 1, 3, 20, 60, 200, 500])
        lines.append(f"at {at}")
        kind = dice.random()
        if kind < 0.55:
            lines += [message(dice) for _ in range(dice.choice([1, 1, 1, 2, 5, 40]))]
        elif kind < 0.6:
            lines += [
                dice.choice(["stop", "busy", "outage"]),
                f"at {at + dice.choice([0, 5, 130, 400])}",
                dice.choice(["free", "back", "emergency"]),
                "start",
            ]
        elif not is_far or kind < 0.62:
            lines.append(any_line(dice))
    if not is_far and dice.random() < 0.3:
        lines += [f"at {dice.randrange(milliseconds + 20)}", "quit"]
    return ("\n".join(lines) + dice.choice(["", "\n", "\n"])).encode()


class Channel:
    """Bits on their way, of which some are turned round, lost or doubled."""

    def __init__(self, dice):
        self.dice, self.bits = dice, [1] * LAG
        self.rate = dice.choice([0, 0, 0, 0.0005, 0.002, 0.01])

    def passes(self, octet):
        dice = self.dice
        for place in range(8):
            bit = octet >> place & 1
            if dice.random() * 8 < self.rate:
                kind = dice.choice(["turned", "turned", "lost", "doubled", "ones", "noise"])
                if kind == "lost":
                    continue
                more = {
                    "turned": [],
                    "doubled": [bit],
                    "ones": [1] * dice.randrange(200),
                    "noise": [dice.randrange(2) for _ in range(dice.randrange(60))],
                }[kind]
                self.bits += more
                bit ^= kind == "turned"
            self.bits.append(bit)

    def octet(self):
        self.bits += [1] * (8 - len(self.bits))
        octet = sum(bit << place for place, bit in enumerate(self.bits[:8]))
        del self.bits[:8]
        return octet


def case(dice):
    mode, milliseconds, ahead = (
        dice.choice(["basic", "cyclic"]),
        dice.choice([0, 3, 100, 700, 900, 1200]),
        dice.choice([0, 0, 0, 1, 8, 100]),
    )
    (word, text), (_, other), is_high = terminals.any_set(dice), terminals.any_set(dice), dice.random() < 0.2
    given = orders(dice, milliseconds, False)
    near, far = Filter(mode, given, ahead, text), Filter(mode, orders(dice, milliseconds, True), 0, other)
    channel, come = Channel(dice), []
    for at in range(8 * milliseconds + dice.randrange(8)):
        come.append(channel.octet())
        if not near.over:
            near.step(come[-1])
        far.step(near.sent[at] if at < len(near.sent) else 255)
        channel.passes(far.sent[at])
    ROOM.mkdir(parents=True, exist_ok=True)
    path = ROOM / f"{hashlib.sha256(given).hexdigest()[:16]}.orders"
    path.write_bytes(given)
    words = (
        ["line", mode, "--orders", str(path)]
        + (["--ahead", str(ahead)] if ahead else [])
        + (["--bits", "high"] if is_high else [])
    )
    words += ["--set", word] if word != "q703" or dice.random() < 0.1 else []
    turn = turned if is_high else int
    told = "".join(f"{it}\n" for it in near.told).encode()
    return (
        words,
        bytes(map(turn, come)),
        (bytes(map(turn, near.sent)), 0, told),
        f"{' '.join(words)}, {len(come)} octets",
    )


if __name__ == "__main__":
    sys.exit(hold("random_lines", case, sys.argv[1:], 100))
