"""Runs the built program's `play --trace` on the scripts of the repository, each with `--every` and without, with
`--chart`, with `--coverage` and with `--thrown`, and compares its trace or report, its output and the status with
tools/oracles/plain_trace.py, which is written apart from it; and `line --trace` likewise.

usage: tools/steps/traces [NAME ..]
           the scripts whose names begin so (and FIFOs, `FIFO`, a long run, `long`, and ends on lines, `line`), all if
           none is named; of crates/mtp2_play/out/mtp2_play, or of the program that MTP2_PLAY names

These are the scripts of the `play` cases of tools/steps/examples (those of link sets only with `--trace`: the other
options refuse them), and those of examples/q781 on `standard` and on `q703`; FIFOs whose reader reads, comes late or
closes; and a run so long that the terminal's journal begins anew within a command. Of lines these are the short lives
of examples/line/lives.txt, lines with errors, and files and FIFOs that take no trace. The last line is `N passed, M
failed`, and the status 1 if one failed."""
import os
import pathlib
import random
import shutil
import subprocess
import sys
import tempfile
import threading
import time

from tools.oracles import plain_filter, plain_term, plain_trace
from tools.oracles.plain_check import Refusal
from tools.steps import examples
from tools.steps.built import PLAY, ROOT, Count, Run, differs, missing

# The most characters of a script that the plain players, which are slow, are asked, and the longest life of a line, in
# milliseconds.
LONGEST = 2_000
MOST = 1_500
CUT = (3, 40)
HOW = {
    "": ["--trace"],
    "every event": ["--every", "--trace"],
    "chart": ["--chart"],
    "cut": ["--turns", "..".join(map(str, CUT)), "--chart"],
    "coverage": ["--coverage"],
    "thrown away": ["--thrown"],
}
# Where the plain players count so many events (signals that the environment takes aside) the journal of a terminal, or
# of a link, may begin anew, and the trace ends where that is within a command.
MANY = 16_384
FIRST = (ROOT / "examples" / "links" / "first.script").read_bytes()


def scripts(folder):
    """The name of each script, the word or the file of its set, and its octets."""
    for name, words, given, _, _ in examples.cases(folder):
        if words[0] == "play":
            yield name.removeprefix("play: "), words[1], given
    for path in sorted((ROOT / "examples" / "q781").glob("*.script")):
        for word in ("standard", "q703"):
            yield f"{path.name} on {word}", word, path.read_bytes()


def lines(texts):
    return "".join(f"{it}\n" for it in texts).encode()


def is_of_links(script):
    spoken = list(plain_term.spoken(script))
    return bool(spoken) and spoken[0][1][0] == "group"


def pages_by(word, path, room):
    """The messages of genhtml about coverage, if it is installed."""
    if not shutil.which("genhtml") or word not in plain_term.SETS:
        return None
    pathlib.Path(room, word).write_text(plain_term.text_of(word))
    done = subprocess.run(
        ["genhtml", "--branch-coverage", "-q", "-o", f"{room}/pages", path], capture_output=True, cwd=room
    )
    return f"genhtml: {done.stderr[-200:]!r}" if done.returncode else None


def sorted_lines(octets):
    return b"\n".join(sorted(octets.split(b"\n")))


def read_by(drawn, path, room):
    """The messages of mscgen about a chart, if it is installed."""
    if drawn is None or not shutil.which("mscgen"):
        return None
    done = subprocess.run(["mscgen", "-T", "svg", "-o", f"{room}/chart.svg", "-i", path], capture_output=True)
    return f"mscgen: {done.stderr[-200:]!r}" if done.returncode or done.stderr else None


def fault(word, script, how):
    """What is wrong with the trace of a script, or with what is told of what it throws away, if something is."""
    try:
        if is_of_links(script) and "--trace" not in HOW[how]:
            return None
        said = []
        text = plain_term.text_of(word) if word in plain_term.SETS else pathlib.Path(word).read_text()
        seen, status = plain_trace.seen_of(text.encode(), script, how == "every event", said.append)
    except (plain_term.BadLine, plain_term.OutOfRange, ValueError, KeyError, UnicodeDecodeError, Refusal):
        # (a script that is refused has no trace)
        return None
    with tempfile.TemporaryDirectory() as room:
        path = pathlib.Path(room) / "trace"
        run = Run(["play", word, "stdin", *HOW[how], str(path)], script)
        found = path.read_bytes()
        drawn = {"chart": (), "cut": CUT}.get(how)
        at_end = {"thrown away": seen.thrown, "coverage": lambda: seen.taken.lcov(word)}.get(how)
        told = at_end() if at_end else seen.lines if drawn is None else plain_trace.chart(seen, *drawn)
        # (of a set that lacks a name nothing runs, and nothing is told)
        whole = lines(told if status != 2 else [])
        if (
            run.status == 4
            and seen.book.events > MANY
            and (not found if at_end or drawn is not None else whole.startswith(found))
        ):
            # (a journal began anew within a command)
            return None
        if run.status != status:
            return f"status {run.status} and not {status}; {run.said[-200:].decode(errors='replace')!r}"
        wrong = differs("".join(f"{it}\n" for it in said).encode(), run.wrote)
        if wrong:
            return f"of standard output {wrong}"
        if how == "coverage":
            # (lcov heeds no order; of a set that is refused there are no records, which genhtml doesn't take)
            return differs(sorted_lines(whole), sorted_lines(found)) or (pages_by(word, path, room) if found else None)
        # (nothing is drawn of a set that is refused)
        return differs(whole, found) or read_by(drawn if found else None, path, room)


def into_pipe(path, late):
    """Runs the program with a FIFO, whose reader comes late or not. The status, and what was read."""
    found = []
    os.mkfifo(path)
    reader = threading.Thread(target=lambda: (time.sleep(late), found.append(path.read_bytes())))
    reader.start()
    run = Run(["play", "standard", "stdin", "--trace", str(path)], FIRST)
    reader.join()
    return run.status, found[0]


def closed(path):
    """The status where a FIFO's reader is gone before the script comes, which is read after the FIFO's opening."""
    os.mkfifo(path)
    how = {"stdin": subprocess.PIPE, "stdout": subprocess.DEVNULL, "stderr": subprocess.DEVNULL}
    program = subprocess.Popen([PLAY, "play", "standard", "stdin", "--trace", path], **how)
    with open(path, "rb"):
        pass
    program.communicate(FIRST)
    return program.returncode


def pipe_fault(kind):
    """What is wrong with a trace that goes to a FIFO, if something is."""
    with tempfile.TemporaryDirectory() as name:
        path = pathlib.Path(name) / "pipe"
        if kind == "closes":
            status = closed(path)
            return None if status == 4 else f"status {status}"
        seen, _ = plain_trace.seen_of(plain_term.text_of("standard").encode(), FIRST)
        status, found = into_pipe(path, 0.3 if kind == "comes late" else 0)
        return f"status {status}" if status else differs("".join(f"{it}\n" for it in seen.lines).encode(), found)


def long_fault(kind):
    """What is wrong with the trace of a terminal whose journal begins anew within a command, if something is: it ends
    there, and has all events before that command."""
    script = b"terminal basic\ncommand power\n" + b"unit FFFF00\n" * 7_000
    seen, _ = plain_trace.seen_of(plain_term.text_of("standard").encode(), script)
    whole = "".join(f"{it}\n" for it in seen.lines).encode()
    with tempfile.TemporaryDirectory() as room:
        path = pathlib.Path(room) / "trace"
        run = Run(["play", "standard", "stdin", "--trace", str(path)], script)
        found = path.read_bytes()
        is_part = whole.startswith(found) and found.count(b"> unit") > 5_000
        return (
            None
            if run.status == 4 and is_part and len(found) < len(whole)
            else f"status {run.status}, {len(found)} octets of {len(whole)}; it ends with {found[-80:]!r}"
        )


# Ends on lines.


def on_line(room, octets, orders, *words):
    """Runs the program's `line` with these orders."""
    (room / "orders").write_text("".join(f"{it}\n" for it in orders))
    return Run(["line", *words, "--set", "standard", "--orders", "orders"], octets, folder=room)


def line_fault(mode, octets, orders, every):
    """What is wrong with the trace of a line, or with what goes out and is told, if something is."""
    seen = plain_trace.line_seen(
        plain_term.text_of("standard").encode(), mode == "cyclic", octets, plain_filter.said(orders), every
    )
    with tempfile.TemporaryDirectory() as name:
        room = pathlib.Path(name)
        plain = on_line(room, octets, orders, mode)
        run = on_line(room, octets, orders, mode, "--trace", "trace", *(["--every"] if every else []))
        if (run.status, run.wrote, run.said) != (plain.status, plain.wrote, plain.said):
            return (
                f"status {run.status}, {len(run.wrote)} octets, {run.said[-200:]!r}; without a trace "
                f"{plain.status}, {len(plain.wrote)}, {plain.said[-200:]!r}"
            )
        return differs(lines(seen.lines), (room / "trace").read_bytes())


def short_lives():
    for name, mode, schedule, orders, _ in plain_filter.lives():
        if schedule[-1][0] <= MOST:
            yield name, mode, plain_filter.incoming(schedule), orders


# (after 32,768 events its journal begins anew)
LONG = 120_000
# (its trace has less than a FIFO waits with)
SHORT = 4_000
WAY = ["power", "emergency", "start"]


def noise(seed, count=4_000):
    """Octets of a line with units and errors."""
    draw, other = random.Random(seed), plain_filter.End(plain_term.text_of("standard").encode(), False)
    octets = plain_filter.run(
        None, False, b"\xff" * count, plain_filter.said([*WAY, "at 20", "msu 8501020304"]), lambda _: None, other
    )
    return bytes(it ^ (1 << draw.randrange(8) if draw.random() < 0.01 else 0) for it in octets)


def lined():
    """The lines that are traced: a name, the mode, the octets, the orders."""
    yield from short_lives()
    yield "a long one", "basic", b"\xff" * LONG, WAY
    for seed, mode in enumerate(("basic", "cyclic", "basic", "cyclic")):
        orders = [
            *WAY,
            "at 30",
            "state LSC",
            "msu 85010203",
            "  measure   reset",
            "measure",
            "measure sus",
            "nonsense",
            "at 40",
            "command  stop",
            "value LSC r",
            "at 60",
            *WAY,
            "at 480",
            "quit",
        ]
        yield f"errors {seed}", mode, noise(seed), orders


def drained(room, octets):
    """The trace of a FIFO that is read as it fills, and the run."""
    got, over, reader = [], threading.Event(), os.open(room / "fifo", os.O_RDONLY | os.O_NONBLOCK)

    def drain():
        while True:
            try:
                part = os.read(reader, 65_536)
            except BlockingIOError:
                part = b""
            got.append(part)
            if not part and over.is_set():
                return

    side = threading.Thread(target=drain)
    side.start()
    run = on_line(room, octets, WAY, "basic", "--every", "--trace", "fifo")
    over.set()
    side.join()
    os.close(reader)
    return b"".join(got), run


def taken_up(room):
    """Traces that are read by no process, or not for long: a name, and what is wrong."""
    come, words = b"\xff" * LONG, ("basic", "--every", "--trace")
    full = on_line(room, come, WAY, *words, "/dev/full")
    yield "a full device", None if full.status == 4 and b"/dev/full" in full.said else (
        f"status {full.status}, " f"{full.said[-200:]!r}"
    )
    none = on_line(room, come, WAY, *words, "none/trace")
    yield "no folder", None if (none.status, none.wrote) == (
        4,
        b"",
    ) and b"none/trace" in none.said else f"status {none.status}, {none.said!r}"
    plain = on_line(room, come, WAY, "basic")
    os.mkfifo(room / "fifo")
    run = on_line(room, come, WAY, *words, "fifo")
    told = run.said.removeprefix(plain.said).decode().split()
    yield "a FIFO that nobody reads", None if (run.status, run.wrote) == (0, plain.wrote) and len(told) == 4 and (
        told[:2],
        told[3:],
    ) == ([str(LONG // 8), "lost"], ["trace"]) else (f"status {run.status}, {run.said[-200:]!r}")
    seen = plain_trace.line_seen(
        plain_term.text_of("standard").encode(), False, come[:SHORT], plain_filter.said(WAY), True
    )
    found, run = drained(room, come[:SHORT])
    yield "a FIFO that is read", f"status {run.status}" if run.status else differs(lines(seen.lines), found)
    end = os.open(room / "fifo", os.O_RDONLY | os.O_NONBLOCK)
    os.close(end)
    run = on_line(room, come[:800], WAY, *words, "fifo")
    yield "a FIFO whose reader closed", None if run.status == 0 else f"status {run.status}, {run.said[-200:]!r}"
    (room / "whole").symlink_to("trace")
    both = on_line(room, come[:SHORT], WAY, "basic", "--every", "--trace", "whole", "--capture", "capture")
    yield "a trace beside a capture", f"status {both.status}" if both.status else differs(
        lines(seen.lines), (room / "trace").read_bytes()
    )


def main(names):
    if missing(PLAY):
        return 2
    plain_term.ALL_WORDS = True
    count = Count("traces")
    with tempfile.TemporaryDirectory() as room:
        chosen = [
            it
            for it in scripts(pathlib.Path(room))
            if len(it[2]) <= LONGEST and (not names or it[0].startswith(tuple(names)))
        ]
        count.all(
            [(f"{name}{how and ', '}{how}", word, script, how) for name, word, script in chosen for how in HOW], fault
        )
    if not names or "FIFO".startswith(tuple(names)):
        count.all([(f"FIFO whose reader {kind}", kind) for kind in ("reads", "comes late", "closes")], pipe_fault)
    if not names or "long".startswith(tuple(names)):
        count.all([("a run that is too long", "long")], long_fault)
    if not names or "line".startswith(tuple(names)):
        count.all(
            [
                (f"line: {name}{', every event' if every else ''}", *it, every)
                for name, *it in lined()
                for every in (False, True)
            ],
            line_fault,
        )
        with tempfile.TemporaryDirectory() as room:
            for name, wrong in taken_up(pathlib.Path(room)):
                count.case(f"line: {name}", wrong)
    return count.end()


if __name__ == "__main__":
    sys.exit(main(sys.argv[1:]))
