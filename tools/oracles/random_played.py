"""Compares captures of `mtp2_play play` with tools/oracles/plain_capture.py on random scripts, those of
random_terminals and of random_groups, each with `--every` or without.

usage: tools/oracles/random_played [COUNT [SEED]] [-j JOBS]
           300 scripts if nothing is said; ends with status 1 if one differs
       tools/oracles/random_played [COUNT [SEED]] --only N      prints the Nth script and what comes of it

A script that differs is left in out/random_played/, with both answers. MTP2_PLAY names another program than the built
one."""
import sys

from tools.oracles import plain_capture, plain_term
from tools.oracles.random_cases import hold
from tools.oracles.random_groups import case as of_group
from tools.oracles.random_terminals import case as of_terminal
from tools.steps.built import ROOT


def text_of(word):
    return plain_term.text_of(word).encode() if word in plain_term.SETS else (ROOT / word).read_bytes()


def is_otherwise(wanted):
    """What is wrong with a capture on standard error, if something is."""

    def look(found):
        return None if found == wanted else f"{wanted!r}\nand not\n{found!r}"

    return look


def case(dice):
    every = dice.random() < 0.5
    words, script, (said, status), shown = (of_terminal if dice.random() < 0.5 else of_group)(dice)
    told = []
    if status in (0, 1):
        wanted, _ = plain_capture.script_capture(text_of(words[1]), script, every)
        told = [is_otherwise(wanted)]
    options = ["--capture", "/dev/stderr", *(["--every"] if every else [])]
    return [*words, *options], script, (said, status, *told), f"{shown}, {' '.join(options)}"


if __name__ == "__main__":
    sys.exit(hold("random_played", case, sys.argv[1:], 300))
