"""Runs two ends of a set on channels that behave as those of an E1 card do, and by sockets, as docs/sets.md has it step
by step. A channel is a pseudoterminal at whose other side this tool plays the card: each millisecond 8 octets go each
way; a read gets whole blocks of so many octets, and at most two blocks wait each way; where the program has given
nothing the card sends octets of 1s. The socket is one of this machine, and `socat` ties the FIFOs of each end to it.

usage: tools/steps/cards [NAME ..]
           the cases whose names begin so, all if none is named; of crates/mtp2_play/out/mtp2_play, or of the program
           that MTP2_PLAY names

No card is needed, so nothing of this was tried on one. Without socat it says what it skips. The last line is `N passed,
M failed`, and the status 1 if one failed."""
import collections
import contextlib
import os
import pathlib
import shutil
import socket
import subprocess
import sys
import tempfile
import threading
import time
import tty

from tools.steps.built import LIMIT, PLAY, Count, missing
from tools.steps.tied_ends import PYTHON, Program, SetEnd, faults_of, until

PACE = 8  # octets a millisecond
MESSAGES, RATE = 400, 40  # each way, a second
BLOCKS = 2  # that wait each way, as with DAHDI
LATE = 3  # milliseconds of the line that pass at once at most


class Channel:
    """A channel of a card: the program's side is a pseudoterminal at a path."""

    def __init__(self, path, block):
        self.path, self.block = path, block
        self.send, self.come, self.part = collections.deque(), collections.deque(), b""
        self.lacked, self.dropped = 0, 0
        self.open()

    def open(self):
        """Makes the pseudoterminal, and its path leads there."""
        self.card, self.kept = os.openpty()
        tty.setraw(self.kept)
        os.set_blocking(self.card, False)
        self.path.unlink(missing_ok=True)
        self.path.symlink_to(os.ttyname(self.kept))

    def close(self):
        os.close(self.card), os.close(self.kept)

    def take(self, count):
        """The octets that the card sends now: 1s where the program gave none."""
        octets = b""
        with contextlib.suppress(BlockingIOError):
            while len(self.send) < BLOCKS:
                self.send.append(os.read(self.card, self.block))
        while len(octets) < count and self.send:
            block = self.send.popleft()
            octets, rest = octets + block[: count - len(octets)], block[count - len(octets) :]
            if rest:
                self.send.appendleft(rest)
        self.lacked += count - len(octets)
        return octets + b"\xff" * (count - len(octets))

    def give(self, octets):
        """Octets that come on the line: the program gets them once a block is whole."""
        self.part += octets
        while len(self.part) >= self.block:
            block, self.part = self.part[: self.block], self.part[self.block :]
            if len(self.come) < BLOCKS:
                self.come.append(block)
            else:
                self.dropped += len(block)
        with contextlib.suppress(BlockingIOError):
            while self.come:
                written = os.write(self.card, self.come[0])
                self.come[0] = self.come[0][written:]
                if not self.come[0]:
                    self.come.popleft()


class Span(threading.Thread):
    """Two channels whose lines lead to each other, at the line's pace."""

    def __init__(self, room, block):
        super().__init__(daemon=True)
        self.channels, self.over, self.lock = (
            [Channel(room / f"channel{at}", block) for at in (1, 2)],
            False,
            threading.Lock(),
        )
        self.start()

    def run(self):
        since, passed = time.monotonic(), 0
        while not self.over:
            time.sleep(0.001)
            now = int((time.monotonic() - since) * 1000)
            # (if this tool comes late the line stands still meanwhile: a card never does, and no octet is lost by it)
            passed = max(passed, now - LATE)
            while passed < now:
                passed += 1
                self.pass_millisecond()

    def pass_millisecond(self):
        with self.lock:
            one, other = self.channels
            octets = one.take(PACE), other.take(PACE)
            one.give(octets[1])
            other.give(octets[0])

    def alarm(self):
        """The first channel fails, and is there again after three seconds, as after an alarm of the span."""
        with self.lock:
            self.channels[0].close()
            self.channels[0].open()

    def end(self):
        self.over = True
        self.join()
        for it in self.channels:
            it.close()


class Ends:
    """Two ends of a set of one link, each with a program of level 3 (examples/level3)."""

    def __init__(self, room, lines, *words):
        self.ends = [SetEnd(room, at + 1, [line], ["basic", *words]) for at, line in enumerate(lines)]
        self.programs = []

    def __enter__(self):
        for it in self.ends:
            it.start()
            self.programs.append(Program(PYTHON, it))
        return self

    def __exit__(self, *_fault):
        for it in self.programs:
            it.ends()
        for it in self.ends:
            it.process.kill()
            it.process.wait()

    def count(self, text):
        """How often each end reported it."""
        return [it.said.count(text) for it in self.programs]

    def have_told(self, text, times=1):
        return until(lambda: all(it >= times for it in self.count(text)), LIMIT)

    def exchange(self):
        """Messages both ways. Returns what is wrong with those that came."""
        for number in range(MESSAGES):
            for it in self.programs:
                it.send(number)
            time.sleep(1 / RATE)
        until(lambda: not self.faults(), 60)
        return "; ".join(self.faults()) or None

    def faults(self):
        ways = zip(self.programs, self.programs[::-1])
        found = [faults_of(range(MESSAGES), other.numbers(), one.unsure()) for one, other in ways]
        return list(filter(None, found))

    def quit(self):
        return [it.end("quit") for it in self.ends]


def lost_line(ends):
    """Whether the first end told that its line was lost. A read that waits fails then; one that begins only after the
    channel is gone comes to its end."""
    return any(ends.count(it)[0] for it in ("0 line failed", "0 line ended"))


def on_card(block, *words, alarm=False):
    """The fault of a link on two channels of a card whose blocks are so long."""
    with tempfile.TemporaryDirectory() as name:
        span = Span(pathlib.Path(name), block)
        with Ends(pathlib.Path(name), [str(it.path) for it in span.channels], "--bits", "high", *words) as ends:
            fault = None if ends.have_told("0 tested") else "the link doesn't come into service"
            if alarm and not fault:
                span.alarm()
                right = ends.have_told("0 tested", 2) and lost_line(ends)
                fault = None if right and ends.count("0 line open")[0] else "the link doesn't come back"
            fault = fault or ends.exchange()
            downs, statuses = ends.count("0 down"), ends.quit()
        span.end()
    if not alarm and any(downs):
        fault = fault or f"the link goes down, {downs} times"
    return fault or (None if statuses == [0, 0] else f"statuses {statuses}")


def free_port():
    with socket.socket() as it:
        it.bind(("127.0.0.1", 0))
        return it.getsockname()[1]


def rooms_of_fifos(folder):
    """A folder for each end, with the two FIFOs that are its line."""
    rooms = [folder / it for it in ("near", "far")]
    for room in rooms:
        room.mkdir()
        os.mkfifo(room / "in"), os.mkfifo(room / "out")
    return rooms


def tied_by_socat(room, address, *words):
    """An end's FIFOs, tied to an address."""
    words = ["socat", *words, f"OPEN:{room}/out,rdonly!!OPEN:{room}/in,wronly", address]
    return subprocess.Popen(words, stderr=subprocess.DEVNULL)


def on_tied_card(block):
    """The fault of a link whose FIFOs socat ties to a channel of a card at each end."""
    with tempfile.TemporaryDirectory() as name:
        span, rooms = Span(pathlib.Path(name), block), rooms_of_fifos(pathlib.Path(name))
        channels = [f"OPEN:{it.path},rdwr" for it in span.channels]
        lines = [f"{it}/in,{it}/out" for it in rooms]
        with Ends(pathlib.Path(name), lines, "--bits", "high", "--ahead", "0") as ends:
            ties = [tied_by_socat(*it, "-b", str(block)) for it in zip(rooms, channels)]
            fault = ends.exchange() if ends.have_told("0 tested") else "the link doesn't come into service"
            ends.quit()
            for it in ties:
                it.kill(), it.wait()
        span.end()
    return fault


def by_sockets():
    """The fault of a link by a socket whose connection breaks, and is there again."""
    with tempfile.TemporaryDirectory() as name:
        rooms, port = rooms_of_fifos(pathlib.Path(name)), free_port()
        addresses = [
            f"TCP-LISTEN:{port},bind=127.0.0.1,reuseaddr,nodelay",
            f"TCP:127.0.0.1:{port},nodelay,retry=50,interval=0.1",
        ]
        with Ends(pathlib.Path(name), [f"{it}/in,{it}/out" for it in rooms]) as ends:
            tie = lambda: [tied_by_socat(*it) for it in zip(rooms, addresses)]
            ties = tie()
            fault = None if ends.have_told("0 tested") else "the link doesn't come into service"
            for it in ties:
                it.kill(), it.wait()
            if not fault and not (ends.have_told("0 line silent") and ends.have_told("0 down")):
                fault = "nobody notices"
            ties = tie()
            fault = fault or (None if ends.have_told("0 tested", 2) else "the link doesn't come back")
            fault = fault or ends.exchange()
            ends.quit()
            for it in ties:
                it.kill(), it.wait()
    return fault


CASES = {
    "blocks of 1,024 octets": lambda: on_card(1024, "--ahead", "0"),
    "blocks of 80 octets": lambda: on_card(80, "--ahead", "0"),
    "an alarm": lambda: on_card(80, "--ahead", "0", alarm=True),
    "a card tied by socat": lambda: on_tied_card(80),
    "sockets": by_sockets,
}
WITH_SOCAT = ["a card tied by socat", "sockets"]


def main(words):
    if missing(PLAY):
        return 2
    count = Count("cards")
    for name, case in CASES.items():
        if words and not any(name.startswith(it) for it in words):
            continue
        if name in WITH_SOCAT and not shutil.which("socat"):
            count.skip(1, "no socat")
        else:
            count.case(name, case())
    return count.end()


if __name__ == "__main__":
    sys.exit(main(sys.argv[1:]))
