"""Compares `mtp2_play play` with tools/oracles/plain_term.py on random scripts of terminals: a third of them on
`standard`, the others on `q703`, on copies of `standard` with other numbers and on the texts of examples/links.

usage: tools/oracles/random_terminals [COUNT [SEED]] [-j JOBS]
           100 scripts if nothing is said; ends with status 1 if one differs
       tools/oracles/random_terminals [COUNT [SEED]] --only N      prints the Nth script and what comes of it
       tools/oracles/random_terminals --plain COUNT
           plays them only by the plain player, and prints the states seen

A script is made while the plain player plays it, so its units are mostly such as the other end could send just then.
One that differs is left in out/random_terminals/, with both answers; the copies are left there too. MTP2_PLAY names
another program than the built one."""
import collections
import hashlib
import random
import re
import sys

from tools.oracles.plain_check import Refusal, check
from tools.oracles.plain_play import Refused
from tools.oracles.plain_term import COMMANDS, MORE, PROCESSES, ROOT, USUAL, Terminal, command, do, play_text
from tools.oracles.random_cases import hold

TEXT = (ROOT / "examples" / "standard.sdl").read_bytes()
TEXTS = [f"examples/links/{it}.sdl" for it in ("strict", "counted", "least", "twofold", "orders", "counts")]
NUMBER = re.compile(rb"\b\d+\b")
ROOM = ROOT / "out" / "random_terminals"
VARIABLES = [
    ("LSC", "r"),
    ("LSC", "em"),
    ("LSC", "lpo"),
    ("LSC", "rpo"),
    ("IAC", "cp"),
    ("IAC", "more"),
    ("AERM", "n"),
    ("SUERM", "c"),
    ("SUERM", "n"),
    ("SUERM", "octets"),
    ("SUERM", "said"),
    ("AERM", "said"),
    ("TXC", "run"),
    ("TXC", "cong"),
    ("RC", "k"),
    ("RC", "nosuch"),
    ("Nobody", "x"),
]


class Far:
    """What the other end could say: heads by the terminal's own numbers."""

    def __init__(self, dice, terminal):
        self.dice, self.terminal = dice, terminal

    def head(self, fsn):
        sender, receiver, dice = self.terminal.sender, self.terminal.receiver, self.dice
        out = sender.sent - sender.acknowledged
        bsn = (sender.acknowledged - sender.origin - 1 + dice.choice([0, 0, out, dice.randrange(out + 1)])) % 128
        bib, fib = sender.fib ^ (dice.random() < 0.06), receiver.bib ^ (dice.random() < 0.03)
        if dice.random() < 0.02:
            bsn = dice.randrange(128)
        return f"{bsn | bib << 7:02X}{fsn % 128 | fib << 7:02X}"

    def status(self, codes):
        return self.head(self.terminal.receiver.last) + f"01{self.dice.choice(codes):02X}"

    def fill_in(self):
        return self.head(self.terminal.receiver.last + (self.dice.random() < 0.03)) + "00"

    def message(self):
        octets = bytes(self.dice.randrange(256) for _ in range(self.dice.choice([3, 3, 4, 8, 62, 63, 64, 273])))
        fsn = self.terminal.receiver.last + self.dice.choices([1, 0, 2, self.dice.randrange(128)], [30, 1, 1, 0.5])[0]
        return self.head(fsn) + f"{min(len(octets), 63):02X}{octets.hex()}"


def errors(dice):
    return "line " + dice.choice(
        [
            "007E",
            "007E007E",
            "007E" * dice.randrange(1, 8),
            "00",
            "FF",
            "FF" * dice.randrange(1, 40),
            "7E",
            "00" * 278 + "7E",
            "00" * 279 + "7E",
            bytes(dice.randrange(256) for _ in range(dice.randrange(1, 60))).hex(),
        ]
    )


def in_service(dice, far):
    kind = dice.choices(
        ["msu", "out", "fill_in", "message", "busy", "outage", "status", "errors", "tick"],
        [10, 14, 10, 12, 2, 2, 1.5, 2, 8],
    )[0]
    if kind == "msu":
        return "msu " + bytes(dice.randrange(256) for _ in range(dice.choice([3, 4, 30, 273]))).hex()
    if kind == "out":
        return f"out {dice.choice([1, 1, 2, 3, 5, 8, 40])}"
    if kind in ("busy", "outage"):
        return "command " + dice.choice(
            ["busy", "free"] if kind == "busy" else ["outage", "back", "back", *dice.choice([["back"], MORE])]
        )
    if kind == "status":
        return "unit " + far.status([4, 4, 5, 5, 5, 0, 1, 2, 3, 6, 7])
    if kind == "errors":
        return errors(dice)
    if kind == "tick":
        return f"tick {dice.choice([0, 1, 50, 99, 100, 100, 250, 400, 499, 999, 1000])}"
    return f"unit {getattr(far, kind)()}"


def under_way(dice, place, far):
    if place == "poweroff" and dice.random() < 0.7:
        return "command power"
    if place == "outofservice" and dice.random() < 0.6:
        return "command start"
    if dice.random() < 0.1:
        return errors(dice)
    if dice.random() < 0.1:
        return "out " + dice.choice(["0", "1", "2"])
    if dice.random() < 0.4:
        return f"tick {dice.choice([0, 1, 499, 500, 500, 1499, 8199, 8200, 8200, 8200, 24999, 45000, 65535, 65536])}"
    ready = place in ("alignedready", "alignednotready")
    return "unit " + (
        far.fill_in()
        if ready and dice.random() < 0.7
        else far.status([4, 3, 0, 5] if ready else [0, 0, 1, 1, 1, 1, 2, 3, 4, 5])
    )


def called(dice, process):
    """A word for an actor: its process, or that with the number of an instance, which there may be none of."""
    return process + dice.choice(["", "", "", ".1", ".01", ".2", ".0", "."])


def next_line(dice, terminal):
    far, place = Far(dice, terminal), (terminal.book.actor("LSC").place or "").lower()
    if dice.random() < 0.04:
        return "command " + dice.choice(["emergency", "calm", "outage", "back", "busy", "free", *COMMANDS, *MORE])
    if dice.random() < 0.12:
        process, variable = dice.choice(VARIABLES)
        return dice.choice(
            [f"state {called(dice, dice.choice(PROCESSES))}", f"value {called(dice, process)} {variable}"]
        )
    if dice.random() < 0.06:
        return dice.choice(
            [
                "accepted",
                "retrieve",
                f"retrieve {dice.choice([terminal.receiver.last, dice.randrange(128)])}",
                f"errors {dice.choice([1, 2, 4, 63, 64])}",
                f"units {dice.choice([1, 2, 3, 300])} {far.fill_in()}",
                f"units {dice.choice([1, 2, 3])} {far.message()}",
                *["told"] * (4 if terminal.keeps else 0),
            ]
        )
    if dice.random() < 0.01:
        return dice.choice(
            ["unit " + far.message(), "line 7E", "# remark", "", f"expect {dice.choice(['ok', 'silent'])}"]
        )
    return in_service(dice, far) if place in ("inservice", "procoutage") else under_way(dice, place, far)


def changed(dice):
    """A copy of `standard` or `q703` of which a few numbers are others, and that is accepted, in a file of its own."""
    while True:
        text = TEXT if dice.random() < 0.7 else (ROOT / "examples" / "q703.sdl").read_bytes()
        for _ in range(dice.choice([1, 1, 2, 3])):
            at = dice.choice(list(NUMBER.finditer(text)))
            number = max(
                0, dice.choice([int(at[0]) + 1, int(at[0]) - 1, int(at[0]) * 2, int(at[0]) // 2, dice.randrange(12)])
            )
            text = text[: at.start()] + b"%d" % number + text[at.end() :]
        try:
            check(text)
        except Refusal:
            continue
        ROOM.mkdir(parents=True, exist_ok=True)
        path = ROOM / f"{hashlib.sha256(text).hexdigest()[:16]}.sdl"
        path.write_bytes(text)
        return str(path), text


def any_set(dice):
    """A word for a set that has a terminal's names, and its text."""
    kind = dice.random()
    if kind < 0.3:
        return "standard", TEXT
    if kind < 0.5:
        return "q703", (ROOT / "examples" / "q703.sdl").read_bytes()
    if kind < 0.7:
        path = dice.choice(TEXTS)
        return path, (ROOT / path).read_bytes()
    return changed(dice)


def usual(text, mode):
    """N1 and N2 over a text if none are chosen; those of a sender if the text's are out of their ranges."""
    try:
        return limits_over(text, mode)
    except OutOfRange:
        return []


def script(dice, text=TEXT):
    """A random script on a set."""
    mode, chosen = dice.choice(["basic", "cyclic"]), []
    if mode == "cyclic" and dice.random() < 0.5:
        chosen = [dice.choice([1, 2, 3, 7, 126, 127]), dice.choice([300, 301, 600, 2999, 8191, 8192])]
    terminal, lines = Terminal(text, mode == "cyclic", *(chosen or usual(text, mode))), [
        " ".join(["terminal", mode, *map(str, chosen)])
    ]
    terminal.keeps = dice.random() < 0.5
    if dice.random() < 0.6:
        lines += ["command power", "command start", "unit FFFF0100", "unit FFFF0101", "tick 8200", "unit FFFF00"]
    made = len(lines) + dice.randrange(5, 120)
    at = 1
    while len(lines) < made or at < len(lines):
        if at == len(lines):
            lines.append(next_line(dice, terminal))
        words = lines[at].split(" ")
        at += 1
        if words[0] not in ("", "#", "expect"):
            try:
                do(terminal, *command(words))
            except Refused:
                pass
    if terminal.keeps:
        lines += ["told"] * dice.randrange(1, 4)
    if dice.random() < 0.02:
        lines.insert(
            dice.randrange(1, len(lines)),
            dice.choice(
                [
                    "rest",
                    "unit FF",
                    "command go",
                    "msu 8001",
                    "tick -1",
                    "errors 0",
                    "units 1 FFFF",
                    "units 1000001 FFFF00",
                    "told 1",
                    "retrieve 128",
                    "offer LSC PowerOn",
                    "out",
                ]
            ),
        )
    if dice.random() < 0.02:
        lines[0] = dice.choice(
            [
                "terminal basic 5 300",
                "terminal cyclic 0 300",
                "terminal cyclic 128 300",
                "terminal cyclic 1 299",
                "terminal cyclic 1 8193",
                "terminal cyclic 5",
            ]
        )
    lines += [f"state {it}" for it in PROCESSES]
    return "\n".join(lines) + dice.choice(["", "\n"])


def plain(count, dice):
    seen = collections.Counter()
    for _ in range(count):
        said = []
        seen[f"status {play_text(TEXT, script(dice).encode(), said.append)}"] += 1
        seen.update(it.split(" ")[0] for it in said)
    print(", ".join(f"{name} {number}" for name, number in seen.most_common()))
    return 0


def case(dice):
    word, text = any_set(dice)
    made, said = script(dice, text).encode(), []
    status = play_text(text, made, said.append)
    return ["play", word, "stdin"], made, (said, status), f"on {word}"


if __name__ == "__main__":
    if sys.argv[1:2] == ["--plain"]:
        sys.exit(plain(int(sys.argv[2]), random.Random(1)))
    sys.exit(hold("random_terminals", case, sys.argv[1:], 100))
