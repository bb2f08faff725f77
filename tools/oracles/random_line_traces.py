"""Compares `mtp2_play line --trace` with tools/oracles/plain_trace.py on the lines of tools/oracles/random_lines: the
trace, and that output and reports are as without a trace.

usage: tools/oracles/random_line_traces [COUNT [SEED]] [-j JOBS]
           100 lines if nothing is said; ends with status 1 if one differs
       tools/oracles/random_line_traces [COUNT [SEED]] --only N
           writes the Nth line's octets, and tells what comes of it

The orders and the traces are left in out/random_lines/, and of a line that differs both answers. MTP2_PLAY names
another program than the built one."""
import pathlib
import sys

from tools.oracles import plain_term, plain_trace
from tools.oracles.plain_tied import orders_of, turned
from tools.oracles.random_cases import hold
from tools.oracles.random_lines import case as of_line
from tools.steps.built import ROOT, differs


def text_of(word):
    return plain_term.text_of(word).encode() if word in plain_term.SETS else (ROOT / word).read_bytes()


def case(dice):
    words, come, (sent, status, told), shown = of_line(dice)
    every, path = dice.random() < 0.5, pathlib.Path(words[words.index("--orders") + 1])
    word = words[words.index("--set") + 1] if "--set" in words else "q703"
    octets = bytes(map(turned, come)) if "high" in words else come
    seen = plain_trace.line_seen(text_of(word), words[1] == "cyclic", octets, orders_of(path.read_bytes()), every)
    whole, trace = "".join(f"{it}\n" for it in seen.lines).encode(), path.with_suffix(".every" if every else ".trace")

    def is_otherwise(said):
        return f"{said!r} is told" if said != told else differs(whole, trace.read_bytes())

    return (
        [*words, "--trace", str(trace), *(["--every"] if every else [])],
        come,
        (sent, status, is_otherwise),
        f"{shown}{', every event' if every else ''}",
    )


if __name__ == "__main__":
    sys.exit(hold("random_line_traces", case, sys.argv[1:], 100))
