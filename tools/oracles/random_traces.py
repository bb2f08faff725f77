"""Compares `mtp2_play play` with `--trace`, `--chart`, `--coverage` or `--thrown` with tools/oracles/plain_trace.py on
random scripts: those of random_scripts, of random_terminals, some of which ask for measurements too, and of
random_groups, of which there are only traces; a trace with `--every` or without, a chart of all turns or of some.

usage: tools/oracles/random_traces [COUNT [SEED]] [-j JOBS]
           300 scripts if nothing is said; ends with status 1 if one differs
       tools/oracles/random_traces [COUNT [SEED]] --only N      prints the Nth script and what comes of it
With one of the four options itself, as in `random_traces 300 --coverage`, each script is held with that one.

A script that differs is left in out/random_traces/, with both answers. MTP2_PLAY names another program than the built
one."""
import sys

from tools.oracles import plain_term, plain_trace
from tools.oracles.random_cases import hold
from tools.oracles.random_groups import case as of_group
from tools.oracles.random_scripts import case as of_book
from tools.oracles.random_terminals import case as of_terminal
from tools.steps.built import ROOT


def text_of(word):
    return plain_term.text_of(word).encode() if word in plain_term.SETS else (ROOT / word).read_bytes()


def lines(texts):
    return "".join(f"{it}\n" for it in texts).encode()


def measured(dice, script):
    """A terminal's script that asks here and there what was measured."""
    made = script.split(b"\n")
    for _ in range(dice.randrange(1, 8)):
        name = "reset" if dice.random() < 0.2 else dice.choice(plain_term.MEASURES)
        made.insert(dice.randrange(1, len(made)), f"measure {name}".encode())
    return b"\n".join(made)


def is_otherwise(told, ordered):
    """What is wrong with what is told on standard error, where lines of its own may stand too, as of a signal that no
    route brings; whether their order is told."""

    def look(said):
        found = b"".join(it for it in said.splitlines(True) if not it.startswith(b"mtp2_play:"))
        return (
            None
            if found == told or not ordered and sorted(found.splitlines()) == sorted(told.splitlines())
            else f"{told!r}\nand not\n{found!r}"
        )

    return look


WANTED = [["--trace"], ["--every", "--trace"], ["--chart"], ["--turns", "", "--chart"], ["--coverage"], ["--thrown"]]


def wanted_of(seen, how, word):
    if "--coverage" in how:
        return seen.taken.lcov(word)
    if "--chart" not in how:
        return seen.thrown() if "--thrown" in how else seen.lines
    return plain_trace.chart(seen, *map(int, how[1].split("..")) if "--turns" in how else ())


def case(dice):
    how, said = list(dice.choice(WANTED)), []
    cases = dice.choice([of_book, of_terminal, of_group] if "--trace" in how else [of_book, of_terminal])
    if "--turns" in how:
        first = dice.randrange(20)
        how[1] = f"{first}..{first + dice.randrange(40)}"
    words, script, (lines_said, status), shown = cases(dice)
    if script.startswith(b"terminal ") and status in (0, 1) and dice.random() < 0.5:
        script, lines_said = measured(dice, script), []
        status = plain_term.play_text(text_of(words[1]), script, lines_said.append)
    told = b""
    if status in (0, 1):
        seen, _ = plain_trace.seen_of(text_of(words[1]), script, "--every" in how, said.append)
        told = lines(wanted_of(seen, how, words[1]))
    options = [*how, "/dev/stderr"]
    return (
        [*words, *options],
        script,
        (lines_said, status, is_otherwise(told, "--coverage" not in how)),
        f"{shown}, {' '.join(options)}",
    )


def main(words):
    options = {it for how in WANTED for it in how if it.startswith("--") and it not in ("--every", "--turns")}
    asked = options.intersection(words)
    if asked:
        WANTED[:] = [how for how in WANTED if asked.intersection(how)]
    return hold("random_traces", case, [it for it in words if it not in options], 300)


if __name__ == "__main__":
    sys.exit(main(sys.argv[1:]))
