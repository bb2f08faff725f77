"""Runs the built program's `line --capture` and `play --capture` and compares their captures with
tools/oracles/plain_capture.py, which is written apart from them.

usage: tools/steps/captures [PART ..]
           the parts whose names begin so, all if none is named; of crates/mtp2_play/out/mtp2_play, or of the program
           that MTP2_PLAY names

The last line is `N passed, M failed`, and the status 1 if one failed."""
import os
import pathlib
import random
import subprocess
import sys
import tempfile
import threading
import time

from tools.oracles import plain_capture, plain_term, plain_tied
from tools.oracles.plain_term import limits_over
from tools.oracles.plain_tied import Filter, set_of, turned
from tools.steps import examples
from tools.steps.built import LIMIT, PLAY, ROOT, Count, Run, differs, missing

# The longest life, in milliseconds: the plain filters take a second for each hundred.
MOST = 1500
# The most characters of a script that the plain players, which are slow, are asked.
LONGEST = 2_000
FIRST = (ROOT / "examples" / "links" / "first.script").read_bytes()


def run(room, given, *words):
    """The status, what was written and what was told on standard error."""
    try:
        done = subprocess.run([PLAY, "line", *words], input=given, capture_output=True, timeout=LIMIT, cwd=room)
    except subprocess.TimeoutExpired:
        return "too slow", b"", b""
    return done.returncode, done.stdout, done.stderr


def ended(one):
    """The two ends of a life of examples/line/tied.txt: the mode, what each sent, its orders, and its set and limits as
    words."""
    _, _, (mode, milliseconds, first, second, damaged, sets, chosen), _ = one
    ends = [
        Filter(mode, orders, ahead, set_of(word), limits_over(set_of(word), mode, *chosen))
        for word, orders, ahead in zip(sets, (first, second), (8, 0))
    ]
    for now in range(milliseconds):
        for here in (1, 0):
            for octet in ends[1 - here].sent[8 * now : 8 * now + 8]:
                if not ends[here].over:
                    ends[here].step(octet)
            if here and damaged is not None and damaged // 8 == now:
                ends[1].sent[damaged] ^= 16
    limits = [it for name, number in zip(("--n1", "--n2"), chosen) if number is not None for it in (name, str(number))]
    over = [["--set", word, *limits] for word in sets]
    return mode, [bytes(it.sent) for it in ends], [first, second], over


def differ(wanted, path):
    got = path.read_bytes() if path.is_file() else b""
    if got == wanted:
        return None
    try:
        records, others = plain_capture.read(got), plain_capture.read(wanted)
    except ValueError as why:
        return f"{len(got)} octets, {len(wanted)} wanted: {why}"
    place = next(
        (at for at, (one, other) in enumerate(zip(records, others)) if one != other), min(len(records), len(others))
    )
    return (
        f"record {place} of {len(records)}, {len(others)} wanted: {records[place:place + 1]}, "
        f"{others[place:place + 1]} wanted"
    )


def lives(room):
    """The short lives of two ends: the octets that one heard of the other and those that it sent."""
    for one in plain_tied.entries():
        if one[2][1] > MOST:
            continue
        mode, sent, orders, over = ended(one)
        for here in (0, 1):
            (room / "orders").write_bytes(orders[here])
            ahead = 8 if here == 0 else 0
            words = (mode, *over[here], "--ahead", str(ahead), "--orders", "orders", "--capture", "capture")
            for every in (False, True):
                done = run(room, sent[1 - here], *words, *(["--every"] if every else []))
                wanted = plain_capture.capture(sent[1 - here], done[1][ahead:], every)
                name = f"{one[0]}, end {here + 1}{', every' if every else ''}"
                yield name, f"status {done[0]}, {done[2][-200:]!r}" if done[0] else differ(wanted, room / "capture")
            high = run(room, bytes(map(turned, sent[1 - here])), *words, "--bits", "high")
            wanted = plain_capture.capture(sent[1 - here], bytes(map(turned, high[1]))[ahead:])
            yield f"{one[0]}, end {here + 1}, high bits", f"status {high[0]}" if high[0] else differ(
                wanted, room / "capture"
            )


def noise(room):
    """Lines with units and errors."""
    for seed in range(6):
        draw, other, octets = (
            random.Random(seed),
            Filter("basic", b"power\nemergency\nstart\nat 20\nmsu 8501020304\n"),
            [],
        )
        while len(octets) < 4000:
            other.step(255)
            octets.append(other.sent[-1] ^ (1 << draw.randrange(8) if draw.random() < 0.01 else 0))
        (room / "orders").write_bytes(b"power\nemergency\nstart\n")
        plain = run(room, bytes(octets), "basic", "--orders", "orders")
        for every in (False, True):
            done = run(
                room,
                bytes(octets),
                "basic",
                "--orders",
                "orders",
                "--capture",
                "capture",
                *(["--every"] if every else []),
            )
            wanted = plain_capture.capture(bytes(octets), done[1], every)
            yield f"noise {seed}{', every' if every else ''}", "another line" if done != plain else differ(
                wanted, room / "capture"
            )


def quits(room):
    """An order that ends the run: octets after it aren't captured."""
    (room / "orders").write_bytes(b"power\nemergency\nstart\nat 100\nquit\n")
    other = Filter("basic", b"power\nemergency\nstart\n")
    for _ in range(4000):
        other.step(255)
    done = run(room, bytes(other.sent), "basic", "--orders", "orders", "--capture", "capture", "--every")
    wanted = plain_capture.capture(bytes(other.sent)[: len(done[1])], done[1], True)
    yield "quit", f"status {done[0]}" if done[0] else differ(wanted, room / "capture")


def failing(room):
    """A full device, what can't be opened, and FIFOs."""
    (room / "orders").write_bytes(b"power\nemergency\nstart\n")
    come = b"\xff" * 80_000
    words = ("basic", "--orders", "orders", "--every", "--capture")
    full = run(room, come, *words, "/dev/full")
    yield "a full device", None if full[0] == 4 else f"status {full[0]}"
    none = run(room, come, *words, "none/capture")
    yield "no folder", None if (none[0], none[1]) == (4, b"") and b"none/capture" in none[
        2
    ] else f"status {none[0]}, {none[2]!r}"
    os.mkfifo(room / "fifo")
    lost = run(room, come, *words, "fifo")
    told = lost[2].split(b"\n")[-2:] == [lost[2].split(b"\n")[-2], b""] and lost[2].rstrip(b"\n").rpartition(b"\n")[
        2
    ].split(b" ")
    yield "a FIFO that nobody reads", None if lost[0] == 0 and len(lost[1]) == len(come) and told and told[
        0
    ] == b"10000" and told[1] == b"lost" and told[3:] == [b"capture"] else f"status {lost[0]}, {lost[2][-200:]!r}"
    got, reader = [], os.open(room / "fifo", os.O_RDONLY | os.O_NONBLOCK)
    over = threading.Event()

    def drain():
        while True:
            try:
                part = os.read(reader, 65536)
            except BlockingIOError:
                part = b""
            got.append(part)
            if not part and over.is_set():
                return

    side = threading.Thread(target=drain)
    side.start()
    done = run(room, come[:8_000], *words, "fifo")
    over.set()
    side.join()
    os.close(reader)
    (room / "drained").write_bytes(b"".join(got))
    yield "a FIFO that is read", f"status {done[0]}" if done[0] else differ(
        plain_capture.capture(come[:8_000], done[1], True), room / "drained"
    )


def scripts(folder):
    """The scripts of terminals and of link sets of the `play` cases of tools/steps/examples, and those of examples/q781
    on `standard` and on `q703`: name, set and script."""
    found = [
        (name.removeprefix("play: "), words[1], given)
        for name, words, given, _, _ in examples.cases(folder)
        if words[0] == "play"
    ]
    found += [
        (f"{path.name} on {word}", word, path.read_bytes())
        for path in sorted((ROOT / "examples" / "q781").glob("*.script"))
        for word in ("standard", "q703")
    ]
    return [it for it in found if len(it[2]) <= LONGEST and (plain_term.is_terminal(it[2]) or is_of_links(it[2]))]


def is_of_links(script):
    spoken = list(plain_term.spoken(script))
    return bool(spoken) and spoken[0][1][0] == "group"


def script_fault(word, script, every):
    """What is wrong with the capture of a script, if something is."""
    said = []
    try:
        wanted, status = plain_capture.script_capture(set_text(word), script, every, said.append)
    except (plain_term.BadLine, plain_term.OutOfRange, ValueError, KeyError, UnicodeDecodeError):
        # (a refused script has no capture)
        return None
    with tempfile.TemporaryDirectory() as room:
        path = pathlib.Path(room) / "capture"
        done = Run(["play", word, "stdin", "--capture", str(path), *(["--every"] if every else [])], script)
        if done.status != status:
            return f"status {done.status} and not {status}; {done.said[-200:]!r}"
        return differs("".join(f"{it}\n" for it in said).encode(), done.wrote) or (
            differ(wanted, path) if status in (0, 1) else None
        )


def set_text(word):
    return (plain_term.text_of(word) if word in plain_term.SETS else pathlib.Path(word).read_text()).encode()


def piped(room):
    """A capture of a script that goes to a FIFO, whose reader is there, comes late or closes."""
    wanted = plain_capture.script_capture(set_text("standard"), FIRST)[0]
    for kind, late in (("that is there", 0), ("that comes late", 0.3)):
        path, found = room / f"pipe{late}", []
        os.mkfifo(path)
        reader = threading.Thread(
            target=lambda path=path, late=late, found=found: (time.sleep(late), found.append(path.read_bytes()))
        )
        reader.start()
        done = Run(["play", "standard", "stdin", "--capture", str(path)], FIRST)
        reader.join()
        yield f"a script to a FIFO with a reader {kind}", f"status {done.status}" if done.status else differs(
            wanted, found[0]
        )
    path = room / "closed"
    os.mkfifo(path)
    program = subprocess.Popen(
        [PLAY, "play", "standard", "stdin", "--capture", path],
        stdin=subprocess.PIPE,
        stdout=subprocess.DEVNULL,
        stderr=subprocess.DEVNULL,
    )
    with open(path, "rb"):
        pass
    program.communicate(FIRST)
    yield (
        "a script to a FIFO with a reader that " "closes"
    ), None if program.returncode == 4 else f"status {program.returncode}"


def main(words):
    if missing(PLAY):
        return 1
    count = Count("captures")
    plain_term.ALL_WORDS = True
    if not words or any("played".startswith(word) for word in words):
        with tempfile.TemporaryDirectory() as room:
            chosen = scripts(pathlib.Path(room))
            count.all(
                [
                    (f"{name}{', every' if every else ''}", word, script, every)
                    for name, word, script in chosen
                    for every in (False, True)
                ],
                script_fault,
            )
    for part in (lives, noise, quits, failing, piped):
        if not words or any(part.__name__.startswith(word) for word in words):
            with tempfile.TemporaryDirectory() as room:
                for name, fault in part(pathlib.Path(room)):
                    count.case(name, fault)
    return count.end()


if __name__ == "__main__":
    sys.exit(main(sys.argv[1:]))
