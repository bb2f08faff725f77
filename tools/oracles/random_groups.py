"""Compares `mtp2_play play` with tools/oracles/plain_group.py on random scripts of link sets, on the sets of
tools/oracles/random_terminals.

usage: tools/oracles/random_groups [COUNT [SEED]] [-j JOBS]
           100 scripts if nothing is said; ends with status 1 if one differs
       tools/oracles/random_groups [COUNT [SEED]] --only N      prints the Nth script and what comes of it
       tools/oracles/random_groups --plain COUNT
           plays them only by the plain player, and prints the kinds seen

A script is made while the plain player plays it, so that its messages of changeover are mostly such as the other end
could send just then. One that differs is left in out/random_groups/, with both answers. MTP2_PLAY names another program
than the built one."""
import collections
import random
import sys

from tools.oracles import random_terminals as terminals
from tools.oracles.plain_group import (
    ALONE,
    COA,
    COO,
    ECA,
    ECO,
    OTHER,
    OWN,
    Player,
    command,
    is_bound,
    labelled,
    play_text,
)
from tools.oracles.plain_term import Refused
from tools.oracles.random_cases import hold

OF_TERMINALS = ["accepted", "errors", "retrieve", "told", "units"]
UP = ["command power", "command start", "unit FFFF0100", "unit FFFF0101", "tick 8200", "unit FFFF00"]


def order(dice, links, at):
    """A message of changeover for a link, as the other end could send it; now and then one that it couldn't."""
    link = links[at]
    sender, heading = link.sender, dice.choice([COO, COA, COA, COA, ECO, ECA])
    fsn = (
        sender.acknowledged - sender.origin - 1 + dice.choice([0, link.sent(), dice.randrange(link.sent() + 1)])
    ) % 128
    if dice.random() < 0.05:
        fsn = dice.randrange(128)
    rest = [heading] if heading in (ECO, ECA) else [heading, fsn]
    if dice.random() < 0.04:
        rest = dice.choice([[heading], [heading, 128 + fsn], [0x13, fsn], [*rest, 0], []])
    elif heading in (COO, COA) and dice.random() < 0.1:
        rest = [heading, 128 + fsn]
    points = (OTHER, OWN) if dice.random() < 0.03 else (OWN, OTHER)
    return "message " + labelled(*points, dice.randrange(16) if dice.random() < 0.03 else at, rest).hex()


def sending(dice):
    selection = dice.choice([0, 1, 2, 3, dice.randrange(16)])
    more = bytes(dice.randrange(256) for _ in range(dice.choice([0, 1, 1, 2, 60, 268])))
    return f"send 8{dice.randrange(16):X}{labelled(OTHER, OWN, selection, more).hex()}"


def bound(dice):
    """A message that is bound to a link, or now and then one that isn't quite."""
    indicator, rest = dice.choice(
        [
            (0, [0x11, dice.randrange(256)]),
            (0, [0x21, dice.randrange(256)]),
            (0, [0x12]),
            (0, [0x22]),
            (0, [0x51, 3]),
            (0, [0x61, 3]),
            (0, [0x17]),
            (1, None),
        ]
    )
    if rest is None:
        length = dice.choice([1, 4, 15])
        rest = [dice.choice([0x11, 0x21]), length * 16 + dice.randrange(16), *dice.randbytes(length)]
    points = (OTHER, OWN) if dice.random() < 0.95 else (OWN, OTHER)
    return f"{dice.randrange(16):X}{indicator}{labelled(*points, dice.randrange(16), rest).hex()}"


def steps(dice, player):
    """What may come next in a changeover of the current link."""
    link = player.group.links[player.on]
    if link.out:
        return dice.choice(
            [
                "divert",
                "divert",
                "divert",
                "retrieve",
                "abandon",
                "command start",
                order(dice, player.group.links, player.on),
            ]
        )
    if link.changing:
        return dice.choice(
            ["retrieve", "retrieve", "abandon", order(dice, player.group.links, player.on)]
            if link.answered
            else [order(dice, player.group.links, player.on), "retrieve", "tick 700", "command start"]
        )
    return dice.choice(["fail", "fail", "rebalance", "retrieve", "divert", order(dice, player.group.links, player.on)])


def next_lines(dice, player):
    """The next line, or the lines that take a link into service."""
    links = player.group.links
    if player.on >= len(links) or dice.random() < 0.15:
        return [f"on {dice.randrange(len(links)) if dice.random() < 0.98 else len(links) + dice.randrange(3)}"]
    link = links[player.on]
    if not link.serves and dice.random() < 0.15:
        return UP[dice.choice([0, 1]) :]
    if link.is_held and link.serves and dice.random() < 0.1:
        return ["command stop"]
    kinds = ["send", "out", "fill_in", "steps", "shown", "busy", "down", "terminal", "any", "admit", "bound"]
    kind = dice.choices(kinds, [12, 7, 7, 8, 5, 1, 0.7, 3, 0.5, 0.7, 2])[0]
    if kind == "send":
        return [sending(dice) for _ in range(dice.choice([1, 1, 1, 3, 30]))]
    if kind == "out":
        return [f"out {dice.choice([0, 1, 1, 2, 3, 5, 40])}"]
    if kind == "fill_in":
        return ["unit " + terminals.Far(dice, link).fill_in()]
    if kind == "steps":
        return [steps(dice, player)]
    if kind == "shown":
        return [
            dice.choice(
                [
                    "table",
                    "table",
                    "held",
                    "unsure",
                    "link",
                    "link",
                    "state LSC",
                    "value LSC.1 r",
                    "state LSC.2",
                    "state Nobody",
                ]
            )
        ]
    if kind == "busy":
        return [f"tick {dice.choice([0, 1, 100, 700, 999, 1399, 1400, 65536])}"]
    if kind == "down":
        return [dice.choice(["command stop", "unit FFFF0103", "unit FFFF0100"])]
    if kind == "bound":
        message = bound(dice)
        return [
            f"{'bound' if is_bound(bytes.fromhex(message), OWN, OTHER) and dice.random() < 0.9 else 'send'} {message}"
        ]
    if kind == "admit":
        return [f"admit {dice.choice(['yes', 'yes', 'no'])}"]
    if kind == "terminal":
        line = terminals.next_line(dice, link)
        # (what only a terminal's script knows becomes a remark)
        return [
            sending(dice) if line.startswith("msu") else f"# {line}" if line.split(" ")[0] in OF_TERMINALS else line
        ]
    return [dice.choice([*ALONE, order(dice, links, player.on), "# remark", "", "expect ok"])]


def script(dice, text):
    """A random script on a set."""
    mode, links = dice.choice(["basic", "cyclic"]), dice.choice([1, 2, 2, 3, 3, 4, 16])
    player, lines = Player(text, mode == "cyclic", links), [f"group {mode} {links}"]
    for at in range(links):
        if dice.random() < 0.85:
            lines += [f"on {at}", *UP[:4]]
    lines += ["tick 8200", *(it for at in range(links) for it in (f"on {at}", "unit FFFF00"))]
    made, at = len(lines) + dice.randrange(5, 100), 1
    while len(lines) < made or at < len(lines):
        if at == len(lines):
            lines += next_lines(dice, player)
        words = lines[at].split(" ")
        at += 1
        if words[0] not in ("", "#", "expect"):
            try:
                player.do(*command(words))
            except Refused:
                pass
    if dice.random() < 0.02:
        lines.insert(
            dice.randrange(1, len(lines)),
            dice.choice(
                [
                    "rest",
                    "unit FF",
                    "admit",
                    "link 1",
                    "command go",
                    "msu 800102",
                    "tick -1",
                    "fail 1",
                    "on",
                    "send 80024000",
                    "bound 800240000011",
                    "bound",
                ]
            ),
        )
    lines += ["table", "unsure", *(it for at in range(links) for it in (f"on {at}", "held", "link", "state LSC"))]
    return "\n".join(lines) + dice.choice(["", "\n"])


def plain(count, dice):
    seen = collections.Counter()
    for _ in range(count):
        said = []
        seen[f"status {play_text(terminals.TEXT, script(dice, terminals.TEXT).encode(), said.append)}"] += 1
        seen.update(" ".join(it.split(" ")[:3]) if it.startswith("refused") else it.split(" ")[0] for it in said)
    print(", ".join(f"{name} {number}" for name, number in seen.most_common()))
    return 0


def case(dice):
    word, text = terminals.any_set(dice)
    made, said = script(dice, text).encode(), []
    status = play_text(text, made, said.append)
    return ["play", word, "stdin"], made, (said, status), f"on {word}"


if __name__ == "__main__":
    if sys.argv[1:2] == ["--plain"]:
        sys.exit(plain(int(sys.argv[2]), random.Random(1)))
    sys.exit(hold("random_groups", case, sys.argv[1:], 100))
