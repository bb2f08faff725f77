#!/usr/bin/env python3
"""Two ends of a set of links, each a process of `mtp2_play set`, tied by FIFOs at 64 kbit/s, with faults by order. `two_ends` beside this file, bench/set_faults
and bench/set_ss7 drive them.

usage: none of its own; of bin/mtp2, of the installed `mtp2` if there is no such file, or of the program that MTP2_PLAY names"""
import os
import pathlib
import random
import signal
import subprocess
import sys
import threading
import time

HERE = pathlib.Path(__file__).resolve().parent
NEAR = HERE.parents[1] / "bin" / "mtp2"
PLAY = os.environ.get("MTP2_PLAY", str(NEAR) if NEAR.exists() else "mtp2")

PACE = 8  # octets a millisecond on each way
BEAT = 0.002  # seconds between two looks at the lines
LATE = 0.1  # the most seconds that a line makes up for a look that came late
ROOM = 65_536  # what a FIFO holds
OUT = 256  # how many messages may wait for their answers
PART = 64  # how many refused messages go once more at once


class Way:
    """One way of a line, from one FIFO to another: octets pass while the weather is fair (False), none while it is `cut`, late and all at once after `stall`; a number is how
    many octets go by on average before one is garbled."""

    def __init__(self, source, sink, dice):
        self.source, self.sink = (os.open(it, os.O_RDWR | os.O_NONBLOCK) for it in (source, sink))
        self.weather, self.dice, self.late = False, dice, b""

    def take(self, count):
        try:
            return os.read(self.source, count)
        except BlockingIOError:
            return b""

    def carry(self, count):
        """So many octets may pass."""
        weather = self.weather
        if weather == "stall":
            self.late += self.take(ROOM)
            return
        octets, self.late = self.late + self.take(ROOM if weather == "cut" else count), b""
        if octets and weather != "cut":
            self.give(self.garbled(octets, weather) if weather else octets)

    def garbled(self, octets, between):
        return bytes(it ^ 1 << self.dice.randrange(8) if self.dice.random() < 1 / between else it for it in octets)

    def give(self, octets):
        """Octets that no end reads are lost."""
        try:
            os.write(self.sink, octets)
        except BlockingIOError:
            pass


class Lines(threading.Thread):
    """Has octets pass on all ways, by the clock."""

    def __init__(self, ways):
        super().__init__(daemon=True)
        self.ways, self.over = ways, False

    def run(self):
        since, rest = time.monotonic(), 0.0
        while not self.over:
            time.sleep(max(0.0, since + BEAT - time.monotonic()))
            now = time.monotonic()
            count, rest = divmod(1000 * PACE * min(now - since, LATE) + rest, 1)
            since = now
            for way in self.ways:
                way.carry(int(count))

    def end(self):
        self.over = True
        self.join()
        for way in self.ways:
            os.close(way.source)
            os.close(way.sink)


class Ended(Exception):
    """A process has ended that was to go on."""


class End:
    """One end: its process, its orders and its reports. While it is `stopped`, nobody reads its reports."""

    stopped = False

    def __init__(self, room, name, own, peer, links, more, user):
        self.name, self.own, self.peer, self.room, self.user = name, own, peer, room, user
        self.told, self.came, self.sent, self.refused = [], [], [], 0
        self.asked, self.again, self.held = {}, [], None
        self.burst, self.seen = 1, 0
        self.orders, self.reports = room / f"{name}.orders", room / f"{name}.reports"
        for path in (self.orders, self.reports):
            os.mkfifo(path)
        self.to, self.back = os.open(self.orders, os.O_RDWR | os.O_NONBLOCK), os.open(self.reports, os.O_RDWR)
        lines = [f"{room}/{name}.in{at},{room}/{name}.out{at}" for at in range(links)]
        words, said = self.words(lines, own, peer, more), {**os.environ, "MTP2_SAID": "1"}
        self.process = subprocess.Popen(words, stdin=subprocess.DEVNULL, env=said, process_group=0)
        self.listener = threading.Thread(target=self.listen, daemon=True)
        self.listener.start()

    def words(self, lines, own, peer, more):
        """The words of its command."""
        links = [word for line in lines for word in ("--link", line)]
        return [PLAY, "set", "basic", *links, "--own", str(own), "--peer", str(peer), "--orders", str(self.orders), "--reports", str(self.reports), *more]

    def listen(self):
        """Reads its reports, up to an empty line, which `end` puts after all others."""
        rest = b""
        while True:
            while self.stopped:
                time.sleep(0.01)
            *lines, rest = (rest + os.read(self.back, ROOM)).split(b"\n")
            for line in lines:
                if not line:
                    return
                self.hear(line.decode())

    def hear(self, line):
        words = line.split(" ")
        if words[2:3] == ["message"] and words[3][1] != "0":
            self.came.append(bytes.fromhex(words[3]))
        elif words[1] == "ok" and words[2] == "send":
            self.sent.append(bytes.fromhex(words[3]))
            self.asked.pop(words[3])
        elif words[1] == "refused":
            # (its last word is the message, by which its order is known: answers of several selections come in any order)
            self.refused += 1
            self.again.append(self.asked.pop(words[-1]))
        elif words[1] == "ok":
            pass
        elif words[2:3] == ["held"]:
            self.held[int(words[1])] = int(words[3])
        else:
            self.told.append(line)

    def order(self, *lines):
        if self.process.poll() is not None:
            raise Ended(f"{self.name} has ended with status {self.process.returncode}")
        os.write(self.to, "".join(f"{line}\n" for line in lines).encode())

    def send(self, number):
        """A message of this number; those that were refused go first, and this one waits with them."""
        self.again.append(number)
        for _ in range(min(2, len(self.again))):
            self.send_now()

    def is_through(self):
        """Whether all that it was given was taken. Refused messages are given once more: twice as many at once as before, or one if one of those was refused again."""
        if not self.asked:
            self.burst = min(PART, 2 * self.burst) if self.refused == self.seen else 1
            self.seen = self.refused
            for _ in range(min(self.burst, len(self.again))):
                self.send_now()
        return not self.asked and not self.again

    def send_now(self):
        """Sends the first that waits, if not too many are without an answer. Returns whether it does."""
        if len(self.asked) >= OUT:
            return False
        number = self.again.pop(0)
        message = self.message(number).hex().upper()
        self.asked[message] = number
        self.order(f"send {message}")
        return True

    def message(self, number):
        """The message of a number: its selection is the number's rest by 16."""
        label = (self.peer + self.own * 2**14 + number % 16 * 2**28).to_bytes(4, "little")
        return bytes([self.user]) + label + number.to_bytes(4, "big")

    def has_told(self, text, times=1):
        return sum(line.split(" ", 1)[1] == text for line in self.told) >= times

    def is_whole(self, links):
        """Whether its last report of each link is that it carries messages."""
        last = {}
        for line in self.told:
            _, link, *words = line.split(" ")
            if words[:1] in (["tested"], ["down"]):
                last[link] = words[0]
        return all(last.get(str(at)) == "tested" for at in links)

    def shares(self, link):
        """Whether a selection goes by this link."""
        tables = [it for it in (line.split(" ") for line in self.told) if it[1] == "shared"]
        return str(link) in (tables[-1][2:] if tables else [])

    def is_empty(self, links):
        """Whether it answers that no link holds a message. It is asked where it answered before, or wasn't asked."""
        if self.held is None:
            self.held = {}
            self.order("on all", "held")
        if len(self.held) < len(links):
            return False
        empty, self.held = not any(self.held.values()), None
        return empty

    def unsure(self):
        """How many messages it reported as unsure."""
        return sum(int(line.split(" ")[3]) for line in self.told if line.split(" ")[2:3] == ["unsure"])

    def end(self):
        """Ends its process, if that didn't end by itself."""
        if self.process.poll() is None:
            os.killpg(self.process.pid, signal.SIGKILL)
            self.process.wait()
        self.stopped = False
        os.write(self.back, b"\n\n")
        self.listener.join()
        os.close(self.to)
        os.close(self.back)


def until(wanted, seconds):
    end = time.monotonic() + seconds
    while not (done := wanted()) and time.monotonic() < end:
        time.sleep(0.05)
    return done


def by_selection(messages):
    return {at: [it for it in messages if it[4] // 16 == at] for at in range(16)}


def lacking(one, other):
    """How many messages of one end came to the other twice or out of order, and how many are lacking."""
    wrong = short = 0
    for sent, came in zip(by_selection(one.sent).values(), by_selection(other.came).values()):
        places = {it: at for at, it in enumerate(sent)}
        order = [places.get(it, -1) for it in came]
        wrong += sum(b <= a for a, b in zip(order, order[1:])) + order.count(-1)
        short += len(sent) - len(set(came))
    return wrong, short


def stopped(number, _frame):
    """Called by a signal that ends the script: ends all that the script began."""
    sys.exit(128 + number)


class Pair:
    """Both ends and the lines between them: of each link the way from near to far, and back. The FIFOs lie in a folder. The ends are of these kinds, and send messages with this service
    information octet. After a `with` nothing of it runs any more."""

    def __init__(self, room, links, *words, seed=1, kinds=(End, End), user=0x83):
        room, self.dice = pathlib.Path(room), random.Random(seed)
        for name in ("near", "far"):
            for at in range(links):
                os.mkfifo(room / f"{name}.in{at}")
                os.mkfifo(room / f"{name}.out{at}")
        there = [Way(room / f"near.out{at}", room / f"far.in{at}", self.dice) for at in range(links)]
        back = [Way(room / f"far.out{at}", room / f"near.in{at}", self.dice) for at in range(links)]
        self.ways, self.links, self.ends = list(zip(there, back)), range(links), []
        self.lines = Lines(there + back)
        self.plans = [(kinds[0], room, "near", 1, 2, links, words, user), (kinds[1], room, "far", 2, 1, links, words, user)]

    def __enter__(self):
        for it in (signal.SIGTERM, signal.SIGHUP):
            signal.signal(it, stopped)
        self.lines.start()
        try:
            for kind, *plan in self.plans:
                self.ends.append(kind(*plan))
        except BaseException:
            self.end()
            raise
        return self

    def __exit__(self, *_fault):
        self.end()

    def end(self):
        for it in self.ends:
            it.end()
        self.lines.end()

    def until(self, wanted, seconds):
        """Waits until the condition holds, for so many seconds at most, while both ends go on."""
        return until(lambda: "so" if wanted() else any(it.process.poll() is not None for it in self.ends), seconds) == "so"

    def befall(self, link, over, back=None):
        for way, weather in zip(self.ways[link], (over, back if back is not None else over)):
            way.weather = weather

    def have_told(self, links, text, times=1):
        return all(it.has_told(f"{at} {text}", times) for it in self.ends for at in links)

    def are_whole(self):
        return all(it.is_whole(self.links) for it in self.ends)

    def are_empty(self):
        return all([it.is_empty(self.links) for it in self.ends])

    def traffic(self, seconds, number, rate, wanted=None):
        """Messages both ways, so many a second, for so many seconds, or until the condition holds; returns the number of the next one."""
        begin, sent = time.monotonic(), 0
        while sent < int(seconds * rate) and not (wanted and wanted()):
            for it in self.ends:
                it.send(number + sent)
            sent += 1
            time.sleep(max(0, begin + sent / rate - time.monotonic()))
        return number + sent

    def settle(self, seconds):
        """Waits until all that both ends were given was taken, for so many seconds at most."""
        return until(lambda: all([it.is_through() for it in self.ends]), seconds)

    def quit(self, seconds=10):
        """The exit status of each process after `quit`; none for one that doesn't end in so many seconds."""
        for it in self.ends:
            it.order("quit")
        until(lambda: all(it.process.poll() is not None for it in self.ends), seconds)
        return [it.process.poll() for it in self.ends]
