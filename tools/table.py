"""Writes the input and the required output of the program trials: crates/trials/stdin and stdout. Its trials are, with
their lines, in examples/heard.txt, ports.txt, wheels.txt, events.txt, pools.txt and rounds.txt, and in
examples/links/runs.txt, reports.txt, pairs.txt, tended.txt, rounds.txt and calls.txt. Likewise the streams of
examples/m3ua/frames.txt and the lives of gateways of examples/m3ua/gateway.txt for the program trials_m3ua.

usage: tools/table [--check]     with --check it writes nothing, and ends with status 1 if the files differ

In a table `== NAME` begins an entry, and a line `--` parts its trial from the lines that are printed for it. In a trial
of events `%N{..}` stands for N copies of what is in the braces, in which `#` is the number of the copy, from 1; a last
line `@FILE` for the text of a file of examples/."""
import sys

from tools.steps import examples
from tools.steps.built import ROOT

# The tables, by the kind of their trials.
TRIALS = {
    "heard": "heard.txt",
    "ports": "ports.txt",
    "wheels": "wheels.txt",
    "events": "events.txt",
    "runs": "links/runs.txt",
    "reports": "links/reports.txt",
    "sets": "links/pairs.txt",
    "tended": "links/tended.txt",
    "set_rounds": "links/rounds.txt",
    "set_calls": "links/calls.txt",
    "pools": "pools.txt",
    "rounds": "rounds.txt",
}


def written_out(trial, copied):
    """A trial of events with its copies, and with the text of the file of examples/ that its last line names."""
    before, mark, name = copied(trial).rpartition("\n@")
    return before + "\n" + (ROOT / "examples" / name).read_text().rstrip("\n") if mark else copied(trial)


def trials():
    """The kind, the name, the trial and the lines of each entry."""
    for kind, path in TRIALS.items():
        for name, trial, lines in examples.parted(path):
            yield kind, name, written_out(trial, examples.copied) if kind == "events" else trial, lines


def streams():
    """A stream of M3UA with the lines of its messages, and the life of a gateway, written as one line."""
    found = [(stream, lines) for _, stream, lines in examples.parted("m3ua/frames.txt")]
    for _, life, lines in examples.parted("m3ua/gateway.txt"):
        found.append(("gateway " + " ".join(examples.copied(life).split()), lines))
    return found


def main(words):
    table, wrong = list(trials()), 0
    made = {
        "trials/stdin": "".join(f"\n== {name}\n{kind}\n{trial}" for kind, name, trial, _ in table),
        "trials/stdout": "".join(f"{name}\n{lines}\n\n" for _, name, _, lines in table),
        "trials_m3ua/stdin": "".join(f"{stream}\n" for stream, _ in streams()),
        "trials_m3ua/stdout": "".join(f"{lines}\n--\n" if lines else "--\n" for _, lines in streams()),
    }
    for name, text in made.items():
        file = ROOT / "crates" / name
        if words != ["--check"]:
            file.write_bytes(text.encode())
        elif not file.is_file() or file.read_bytes() != text.encode():
            print(f"{file.relative_to(ROOT)} differs")
            wrong += 1
    kinds = [kind for kind, *_ in table]
    print(", ".join(f"{kinds.count(kind)} {kind}" for kind in dict.fromkeys(kinds)))
    return 1 if wrong else 0


if __name__ == "__main__":
    sys.exit(main(sys.argv[1:]))
