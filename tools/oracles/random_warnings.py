"""Holds what `mtp2_play check --warn` tells of accepted process texts against tools/oracles/plain_warnings.py: texts
made by the grammar, and texts of examples/ in which a word was changed.

usage: tools/oracles/random_warnings [COUNT [SEED]] [-j JOBS]
           300 accepted texts where nothing is said; ends with status 1 where one differs
       tools/oracles/random_warnings [COUNT [SEED]] --only N      prints the Nth text and what comes of it

Each text is checked with --warn or --warn=error. A text that differs is left in out/random_warnings/, with both
answers. MTP2_PLAY names another program than the built one."""
import sys

from tools.oracles import random_points as points
from tools.oracles.plain_commands import check_says
from tools.oracles.plain_warnings import lines
from tools.oracles.random_cases import hold


def accepted(dice):
    """An accepted text; one of three times another one with one word changed, if that is accepted too."""
    text = points.base(dice)
    for _ in range(20 if dice.random() < 0.35 else 0):
        made = points.changed(dice, text)
        if points.is_accepted(made):
            return made
    return text


def case(dice):
    text = accepted(dice)
    counts = dice.random() < 0.3
    found = lines("stdin", text)
    said = "".join(f"{it}\n" for it in found).encode()
    status = 1 if counts and found else 0
    return (
        ["check", "--warn=error" if counts else "--warn", "stdin"],
        text,
        (check_says(text)[0], status, said),
        f"{len(text)} octets, {len(found)} lines",
    )


if __name__ == "__main__":
    sys.exit(hold("random_warnings", case, sys.argv[1:], 300))
