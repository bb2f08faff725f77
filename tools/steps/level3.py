"""Attaches the programs of examples/level3 to two ends of a set of links, as docs/level3.md says: messages at a rate of
1,000 a second, a reader that stops for ten seconds, a program that ends and comes again, one that is killed, a set that
leaves and runs again, one that is killed, a link that goes down, and all of them. What is lost each time is what the
table of that page says. And examples/level3/echo.py gives back what it gets.

usage: tools/steps/level3 [NAME ..]
           the cases whose names begin so, all if none is named; of crates/mtp2_play/out/mtp2_play, or of the program
           that MTP2_PLAY names

The last line is `N passed, M failed`, and the status 1 if one failed."""
import pathlib
import shutil
import signal
import subprocess
import sys
import tempfile
import threading
import time

from tools.steps.built import LIMIT, PLAY, Count, missing
from tools.steps.tied_ends import EXAMPLES, PYTHON, Program, Tied, faults_of, until

LINKS = 4
RATE = 1000  # messages a second from the first end, and a tenth of it back
STOPPED = 10  # seconds
# A link takes this many messages before it refuses one (docs/sets.md), and a program reads this much at once.
HELD, PART = 256, 65536
SETTLED = 60  # seconds until all has come
GIVEN_BACK = 200  # messages


class Traffic(threading.Thread):
    """Messages both ways at a rate, until it is ended."""

    def __init__(self, near, far):
        super().__init__(daemon=True)
        self.sides, self.sent, self.over = (near, far), [0, 0], False
        # Held while messages are given, and while a program restarts.
        self.hold = threading.Lock()
        self.start()

    def run(self):
        begin, count = time.monotonic(), 0
        while not self.over:
            with self.hold:
                for at in [0, 1] if count % 10 == 0 else [0]:
                    self.sides[at].send(self.sent[at])
                    self.sent[at] += 1
            count += 1
            time.sleep(max(0, begin + count / RATE - time.monotonic()))
            # (a program that takes nothing for a while isn't given more afterwards)
            begin = max(begin, time.monotonic() - count / RATE - 0.1)

    def end(self):
        self.over = True
        self.join()


def stops(_traffic, _near, far):
    """The reader of the second end stops, and goes on."""
    far.process.send_signal(signal.SIGSTOP)
    time.sleep(STOPPED)
    far.process.send_signal(signal.SIGCONT)
    return 0, 0


def comes_again(traffic, near, far):
    """Both programs end at their input's end, one after the other, and are run again."""
    for it in (far, near):
        with traffic.hold:
            it.restart()
        time.sleep(1)
    return 0, 0


def is_killed(traffic, _near, far):
    """The second program is killed, and run again: what it had read and not handed on is lost, and what it had to send
    (one message of each selection without an answer, the next one, and those that waited in its input)."""
    with traffic.hold:
        unsent = 16 + 1 + far.waiting()
        far.restart(hard=True)
    return PART // len("1000 0 message ") + 1, unsent


def leaves(_traffic, near, _far):
    """The first set leaves, and runs again."""
    near.end.end("leave")
    near.end.start()
    return 0, 0


def dies(_traffic, near, _far):
    """The first set is killed, and run again: what it held is lost, and what it had for its reader."""
    near.end.end(signal.SIGKILL)
    near.end.start()
    return LINKS * HELD, LINKS * HELD


def loses_a_link(_traffic, near, _far):
    """A link of the first set goes down, and starts again: its messages go by the others."""
    near.end.order("stop 0")
    time.sleep(3)
    near.end.order("start 0")
    return 0, 0


def loses_all_links(_traffic, _near, far):
    """All links go down, and start again: messages are refused meanwhile, and given again."""
    far.end.order("stop all")
    time.sleep(3)
    far.end.order("start all")
    return 0, 0


CASES = [("1,000 a second", lambda *_: (0, 0)), ("a reader that stops", stops), ("a program that ends", comes_again)]
CASES += [("a program that is killed", is_killed), ("a set that leaves", leaves), ("a set that is killed", dies)]
CASES += [("a link that goes down", loses_a_link), ("all links go down", loses_all_links)]


def tried(command, befall):
    """The fault of a run in the middle of which something befalls an end."""
    with tempfile.TemporaryDirectory() as name, Tied(pathlib.Path(name), LINKS, "basic") as tied:
        near, far = (Program(command, it) for it in tied.ends)
        try:
            return life(near, far, befall)
        finally:
            for it in (near, far):
                it.process.kill()


def life(near, far, befall):
    if not until(lambda: all(it.said.count(" tested") >= LINKS for it in (near, far)), LIMIT):
        return "the links don't come into service"
    traffic = Traffic(near, far)
    time.sleep(2)
    bounds = befall(traffic, near, far)
    time.sleep(3)
    traffic.end()

    def faults():
        """What is wrong, each way: what the sender doesn't know of, or its set isn't sure of, may be missing."""
        for one, other, sent, most in zip((near, far), (far, near), traffic.sent, bounds):
            known = set(range(sent)) - one.unknown()
            if fault := faults_of(known, other.numbers(), most + one.unsure()):
                yield f"from end {one.end.own}: {fault}"

    until(lambda: not list(faults()), SETTLED)
    statuses = [it.stop() for it in (near, far)]
    return "; ".join([*faults(), *([f"statuses {statuses}"] if any(statuses) else [])]) or None


def echoed():
    """The fault of a run in which the second end's program gives each message back."""
    with tempfile.TemporaryDirectory() as name, Tied(pathlib.Path(name), 1, "basic") as tied:
        commands = PYTHON, [sys.executable, str(EXAMPLES / "echo.py")]
        near, far = map(Program, commands, tied.ends)
        try:
            if not until(lambda: near.said.count(" tested"), LIMIT):
                return "the link doesn't come into service"
            for number in range(GIVEN_BACK):
                near.send(number)
            fault = lambda: faults_of(range(GIVEN_BACK), near.numbers(), 0)
            until(lambda: not fault(), SETTLED)
            return fault()
        finally:
            near.ends(), far.ends()


def commands(room):
    """The programs, by their language; that in C if there is a compiler."""
    yield "Python", PYTHON
    compiler = next(filter(None, map(shutil.which, ["cc", "gcc", "clang"])), None)
    if compiler:
        subprocess.run([compiler, "-O2", "-Wall", "-o", f"{room}/attach", str(EXAMPLES / "attach.c")], check=True)
        yield "C", [f"{room}/attach"]


def main(words):
    if missing(PLAY):
        return 2
    count = Count("level3")
    with tempfile.TemporaryDirectory() as room:
        languages = dict(commands(room))
        for name, befall in CASES:
            for language in languages:
                if not words or any(f"{name}: {language}".startswith(it) for it in words):
                    count.case(f"{name}: {language}", tried(languages[language], befall))
        if not words or any("an echo".startswith(it) for it in words):
            count.case("an echo", echoed())
    if "C" not in languages:
        count.skip(len(CASES), "no C compiler for examples/level3/attach.c")
    return count.end()


if __name__ == "__main__":
    sys.exit(main(sys.argv[1:]))
