"""Compares the place that `mtp2_play check` points at in a refused text, and its message, with
tools/oracles/plain_point.py and plain_reasons.py: each text is an accepted one, of examples/ or made by the grammar, in
which one word was changed: another of its kind, one of any kind, one left out, one more.

usage: tools/oracles/random_points [COUNT [SEED]] [-j JOBS]
           300 refused texts if nothing is said; ends with status 1 if one differs
       tools/oracles/random_points [COUNT [SEED]] --only N      prints the Nth text and what comes of it

A text that differs is left in out/random_points/, with both answers. MTP2_PLAY
names another program than the built one."""
import functools
import sys

from tools.oracles import random_texts as texts
from tools.oracles.plain_commands import check_says
from tools.oracles.plain_point import differs, ends, refusal
from tools.oracles.plain_reader import lex
from tools.oracles.random_cases import hold

# Words that stand in texts seldom.
POOL = [
    b"ENV",
    b"SENDER",
    b"NOW",
    b"STOP",
    b"JOIN",
    b"ELSE",
    b"SAVE",
    b"-",
    b"MOD",
    b"'it''s'",
    b"(",
    b")",
    b";",
    b",",
    b":=",
    b":",
    b"0",
    b"2147483647",
    b"START",
    b"TRUE",
    b"NOT",
    b"TIMER",
    b"CONNECTION",
    b"Nosuch",
    b"Integer",
    b"Boolean",
    b"TASK",
    b"OUTPUT",
    b"NEXTSTATE",
    b"=",
    b"<",
    b"IN",
    b"33",
    b"TO",
]


def is_accepted(text):
    return refusal(text) is None


def words(text):
    """Where each token of a text begins and ends, with its kind."""
    return [(kind, at, ends(text, at)) for kind, _, at in lex(text)]


def changed(dice, text):
    """The text with one word changed: one of its kind in its place, one of any kind, none, the same once more, or one
    in front."""
    found = words(text)
    kind, at, end = dice.choice(found)
    own, other = text[at:end], dice.choice(POOL)
    alike = dice.choice([text[start:stop] for another, start, stop in found if another == kind])
    put = dice.choice([alike, alike, alike, other, other, b"", own + b" " + own, other + b" " + own])
    return text[:at] + b" " + put + b" " + text[end:]


def base(dice):
    """A text that is accepted."""
    for _ in range(200):
        text = dice.choice(SEEN) if dice.random() < 0.4 else texts.Text(dice).made()
        if is_accepted(text):
            return text
    return SEEN[0]


def refused(dice):
    """A text that is refused for one changed word: two times in three by a rule, else as it comes."""
    kinds = dice.choice(["S", "S", "LPS"])
    while True:
        text = base(dice)
        for _ in range(20):
            made = changed(dice, text)
            why = refusal(made)
            if why is not None and str(why)[0] in kinds:
                return made


SEEN = [it for it in texts.BASES[0] if is_accepted(it)]


def case(dice):
    text = refused(dice)
    return (
        ["check", "stdin"],
        text,
        (*check_says(text), functools.partial(differs, "stdin", text)),
        f"{len(text)} octets, {refusal(text)}",
    )


if __name__ == "__main__":
    sys.exit(hold("random_points", case, sys.argv[1:], 300))
