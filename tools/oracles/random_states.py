"""Compares `mtp2_play draw SET PROCESS --states` with tools/oracles/plain_states.py on a process of accepted process
texts: those of examples/ and such as are made by the grammar.

usage: tools/oracles/random_states [COUNT [SEED]] [-j JOBS]
           300 diagrams if nothing is said; ends with status 1 if one differs
       tools/oracles/random_states [COUNT [SEED]] --only N      prints the Nth text and what comes of it

A text whose diagram differs is left in out/random_states/, with both answers. MTP2_PLAY names another program than the
built one."""
import sys

from tools.oracles import random_texts as texts
from tools.oracles.plain_point import refusal
from tools.oracles.plain_reader import P, lex
from tools.oracles.plain_states import TooMany, draw
from tools.oracles.random_cases import hold


def processes(text):
    """The names of the processes of an accepted text."""
    return [it[1][0][0] for it in P(text, lex(text)).block() if it[0] == "process"]


def serves(text):
    """Whether a text is accepted and has a process."""
    return refusal(text) is None and bool(processes(text))


SEEN = [it for it in texts.BASES[0] + texts.BASES[1] if serves(it)]


def base(dice):
    """A text that serves."""
    for _ in range(200):
        text = dice.choice(SEEN) if dice.random() < 0.2 else texts.Text(dice).made()
        if serves(text):
            return text
    return SEEN[0]


def case(dice):
    text = base(dice)
    name = dice.choice(processes(text))
    name = dice.choice([name, name.lower(), name.upper()])
    try:
        said = draw(text, name).encode(), 0
    except TooMany:
        said = None
    return ["draw", "stdin", name, "--states"], text, said, f"{len(text)} octets, {name}"


if __name__ == "__main__":
    sys.exit(hold("random_states", case, sys.argv[1:], 300))
