"""Code for the steps that run two ends of a set of links, whose FIFOs are tied directly, each with a program of level 3
or a reader of its own."""
import array
import contextlib
import fcntl
import os
import pathlib
import signal
import subprocess
import sys
import termios
import threading
import time

from tools.steps.built import LIMIT, PLAY

EXAMPLES = pathlib.Path(__file__).resolve().parents[2] / "examples" / "level3"
PYTHON = [sys.executable, str(EXAMPLES / "attach.py")]
AHEAD = "8"


def until(wanted, seconds):
    """Waits until a condition holds. Returns whether it does."""
    end = time.monotonic() + seconds
    while not (done := wanted()) and time.monotonic() < end:
        time.sleep(0.1)
    return done


def message(own, peer, number, user=0x83):
    """A message of a number, in hexadecimal; its selection is the number's last digit in base 16."""
    label = (peer + own * 2**14 + number % 16 * 2**28).to_bytes(4, "little")
    return (bytes([user]) + label + number.to_bytes(4, "big")).hex().upper()


def number_of(text):
    """The number of a message."""
    return int(text[10:18], 16)


class Reader(threading.Thread):
    """Keeps the lines that come from a file descriptor."""

    def __init__(self, source):
        super().__init__(daemon=True)
        self.source, self.lines = source, []
        self.start()

    def run(self):
        with contextlib.suppress(OSError, ValueError):
            for line in self.source:
                self.lines.append(line.rstrip("\n"))

    def count(self, text):
        return sum(text in it for it in list(self.lines))


class SetEnd:
    """One end: a process of `set` on these lines, which may be run again on the same FIFOs of orders and reports."""

    def __init__(self, room, own, lines, words):
        self.room, self.own, self.peer, self.process = room, own, 3 - own, None
        self.orders, self.reports = room / f"orders{own}", room / f"reports{own}"
        for it in (self.orders, self.reports):
            os.mkfifo(it)
        links = [word for it in lines for word in ("--link", it)]
        files = ["--orders", str(self.orders), "--reports", str(self.reports)]
        self.words = ["mtp2", "set", *words, *links, "--own", str(own), "--peer", str(self.peer), *files]

    def start(self):
        self.process = subprocess.Popen(self.words, executable=str(PLAY), stdin=subprocess.DEVNULL)
        self.order("on all", "power", "start")

    def order(self, *orders):
        with open(self.orders, "w") as file:
            file.write("".join(f"{it}\n" for it in orders))

    def end(self, how="leave", seconds=60):
        """Ends the process, by an order or a signal. Returns its status."""
        if isinstance(how, str):
            self.order(how)
        else:
            self.process.send_signal(how)
        try:
            return self.process.wait(seconds)
        except subprocess.TimeoutExpired:
            self.process.kill()
            return "too slow"


class Tied:
    """Two ends on the same FIFOs. After a `with` nothing of them runs."""

    def __init__(self, room, links, *words):
        self.room, self.kept = room, []
        for name in ("a", "b"):
            for at in range(links):
                os.mkfifo(room / f"{name}{at}")
                # (an octet is lost if neither end has the FIFO open)
                self.kept.append(os.open(room / f"{name}{at}", os.O_RDWR))
        named = [[f"{room}/{come}{at},{room}/{go}{at}" for at in range(links)] for come, go in ("ab", "ba")]
        self.ends = [SetEnd(room, at + 1, lines, [*words, "--ahead", AHEAD]) for at, lines in enumerate(named)]

    def __enter__(self):
        for it in self.ends:
            it.start()
        return self

    def __exit__(self, *_fault):
        for it in self.ends:
            if it.process and it.process.poll() is None:
                it.process.send_signal(signal.SIGKILL)
                it.process.wait()
        for it in self.kept:
            os.close(it)


class Program:
    """A program of level 3 at an end."""

    def __init__(self, command, end):
        self.command, self.end, self.lives = command, end, []
        self.start()

    def start(self):
        words = [*self.command, str(self.end.orders), str(self.end.reports)]
        pipes = dict.fromkeys(["stdin", "stdout", "stderr"], subprocess.PIPE)
        self.process = subprocess.Popen(words, text=True, bufsize=1, **pipes)
        self.came, self.said = Reader(self.process.stdout), Reader(self.process.stderr)
        self.lives.append((self.came, self.said))

    def send(self, number):
        """Gives it a message; it takes it when it has none without an answer."""
        self.process.stdin.write(message(self.end.own, self.end.peer, number) + "\n")

    def waiting(self):
        """How many messages wait in its input."""
        octets = array.array("i", [0])
        fcntl.ioctl(self.process.stdin, termios.FIONREAD, octets)
        return octets[0] // (len(message(1, 2, 0)) + 1)

    def stop(self, hard=False):
        """Ends it, at its input's end or by force. Returns its status."""
        self.process.kill() if hard else self.process.stdin.close()
        status = self.process.wait(LIMIT)
        for it in (self.came, self.said):
            it.join()
        return status

    def restart(self, hard=False):
        status = self.stop(hard)
        self.start()
        return status

    def all(self, which):
        """All lines of its output (0) or its errors (1), over all its lives."""
        return [it for life in self.lives for it in list(life[which].lines)]

    def numbers(self):
        """The numbers of the messages that came; those of the other end's routes are no user's."""
        return [number_of(it) for it in self.all(0) if it.startswith("83")]

    def unknown(self):
        """The numbers of the messages of which it doesn't know whether the set took them."""
        return {number_of(it.split()[1]) for it in self.all(1) if it.startswith("unknown ")}

    def unsure(self):
        """How many messages the set reported as unsure."""
        return sum(int(it.split()[3]) for it in self.all(1) if it.split()[2:3] == ["unsure"])

    def ends(self):
        self.process.kill()
        self.process.wait()


def faults_of(sent, came, most):
    """What is wrong with the numbers that came of those sent, if something is: so many may be missing."""
    if len(set(came)) < len(came):
        return f"{len(came) - len(set(came))} came twice"
    for selection in range(16):
        numbers = [it for it in came if it % 16 == selection]
        if numbers != sorted(numbers):
            return f"selection {selection} came out of order"
    lacking = set(sent) - set(came)
    return (
        f"{len(lacking)} of {len(sent)} missing, from {min(lacking)} on; {most} may be" if len(lacking) > most else None
    )
