"""Runs one end of a line with streams of orders and reports that fail, come in pieces, are interrupted, come late or
are drained late, and with a closed standard stream.

usage: tools/steps/ends [--wait SECONDS] [PART ..]
           the parts whose names begin so, all if none is named; of crates/mtp2_play/out/mtp2_play, or of the program
           that MTP2_PLAY names

It waits for a report that doesn't come for so many seconds (120 if none are said), and for a run ten times as long, at
most ten minutes: a few are enough for a program that is known to be wrong, on a machine that does nothing else. The
last line is `N passed, M failed`, and the status 1 if one failed. If no C compiler is there, the tests by
tools/c/streams.c and tools/c/rests.c are skipped."""
import argparse
import contextlib
import fcntl
import os
import pathlib
import platform
import subprocess
import sys
import tempfile
import threading
import time

from tools.steps import lines
from tools.steps.built import LIMIT, PLAY, ROOT, Count, differs, library, missing, side_by_side

# Seconds for which a report is waited for, and that a run may take: a report that comes takes milliseconds.
PATIENCE, LONGEST = 120, LIMIT
ONES = b"\xff" * 8
# Orders that are obeyed in milliseconds 1 to 6, and the reports for them.
ORDERS = b"power\nstate LSC\nat 3\nmsu 850102\nat 5\nstate IAC\n"
TOLD = b"1 ok power\n1 ok state LSC\n1 state LSC OutOfService\n3 ok msu 850102\n5 ok state IAC\n5 state IAC Idle\n"
# Orders that are reported by one line each.
ONE_BY_ONE = [b"power\n", b"calm\n", b"calm\nquit\n"]
# Of a pipe that holds little.
SMALL = 4096
# How many reports come to a thread that rests, and in how many seconds.
RESTS, SPELL = 1000, 20


class Drain:
    """The other side of a FIFO, open from its beginning on."""

    def __init__(self, path, size=None):
        self.file, self.got = os.open(path, os.O_RDONLY | os.O_NONBLOCK), b""
        if size:
            fcntl.fcntl(self.file, fcntl.F_SETPIPE_SZ, size)

    def takes(self, count=65536):
        """Takes the octets that are there, so many at most. Returns whether there were any."""
        with contextlib.suppress(BlockingIOError):
            part = os.read(self.file, count)
            self.got += part
            return bool(part)
        return False

    def all(self):
        while self.takes():
            pass
        return self.got


class Line:
    """A run of `line` that is held from outside: it gets line octets, and its reports are read as it goes."""

    def __init__(self, room, orders, reports, *words, given=ORDERS, size=None, **variables):
        self.orders, self.reports, self.kind = room / "orders", room / "reports", reports
        self.drain, self.writer, self.heard = None, None, b""
        for path in (self.orders, self.reports):
            with contextlib.suppress(FileNotFoundError):
                path.unlink()
        if orders == "FIFO":
            os.mkfifo(self.orders)
            self.writer = os.open(self.orders, os.O_RDWR)
            os.write(self.writer, given)
        else:
            self.orders.write_bytes(given)
        if reports == "FIFO":
            os.mkfifo(self.reports)
            self.drain = Drain(self.reports, size)
        words = [
            "basic",
            "--orders",
            str(self.orders),
            *(() if reports == "errors" else ("--reports", str(self.reports))),
            *words,
        ]
        how = {
            "stdin": subprocess.PIPE,
            "stdout": subprocess.PIPE,
            "stderr": subprocess.PIPE,
            "env": {**os.environ, **variables},
        }
        self.run = subprocess.Popen([PLAY, "line", "--set", "standard", *words], **how)
        os.set_blocking(self.run.stderr.fileno(), False)
        self.limit = threading.Timer(LONGEST, self.run.kill)
        self.limit.daemon = True
        self.limit.start()

    def is_told(self, orders):
        """Gives it orders after those that it has."""
        if self.writer is not None:
            os.write(self.writer, orders)
        else:
            with self.orders.open("ab") as file:
                file.write(orders)

    def lives(self):
        return self.run.poll() is None

    def gives(self, octets=ONES):
        """Whether as many octets went out as came in."""
        try:
            self.run.stdin.write(octets)
            self.run.stdin.flush()
        except BrokenPipeError:
            return False
        return len(self.run.stdout.read(len(octets))) == len(octets)

    def told(self):
        """The reports so far."""
        if self.kind == "errors":
            self.heard += self.run.stderr.read() or b""
            return self.heard
        if self.kind == "FIFO":
            return self.drain.all()
        return self.reports.read_bytes() if self.reports.is_file() else b""

    def ends(self):
        """Ends the line, and waits for the run's end. Returns the status."""
        with contextlib.suppress(BrokenPipeError):
            self.run.stdin.close()
        self.run.stdout.read()
        status = self.run.wait()
        self.limit.cancel()
        return status

    def closes(self):
        self.told()
        for it in (self.writer, self.drain and self.drain.file):
            if it is not None:
                os.close(it)


def until(line, count):
    """Gives a line milliseconds until so many lines were told, or it ends."""
    until = time.monotonic() + PATIENCE
    while line.lives() and line.told().count(b"\n") < count and time.monotonic() < until:
        if not line.gives():
            return
        # (a thread has the orders come, or the reports go on: let it)
        time.sleep(0.0005)


def stamps_gone(text):
    """Lines without their milliseconds."""
    return [it.partition(b" ")[2] for it in text.splitlines()]


def whole(room, orders, reports, **variables):
    """What is wrong where each stream does all, if something is."""
    line = Line(room, orders, reports, **variables)
    until(line, TOLD.count(b"\n"))
    status, said = line.ends(), line.told()
    line.closes()
    # (when orders come by a FIFO depends on threads)
    return f"status {status}, {said!r}" if status or stamps_gone(said) != stamps_gone(TOLD) else None


def fails(room, orders, reports, number=1, **variables):
    """What is wrong where the write or read of this number fails, if something is: the run ends with status 4, and its
    reports are a beginning of the usual ones. Each report before is seen before the next order is given, so that none
    goes by another's write, and the order `quit` follows the last one: no run goes on."""
    first = ONE_BY_ONE[: number - 1]
    line = Line(room, orders, reports, given=b"", **variables)
    for place, order in enumerate(first):
        line.is_told(order)
        until(line, place + 1)
    line.is_told(b"".join(ONE_BY_ONE[number - 1 :]))
    ended = time.monotonic() + PATIENCE
    while line.lives() and time.monotonic() < ended and line.gives():
        line.told()
        time.sleep(0.0005)
    status, said = line.ends(), line.told()
    line.closes()
    if status != 4:
        return f"status {status}, {said!r}"
    wanted, lines = [b"ok " + it for it in b"".join(ONE_BY_ONE).splitlines()], stamps_gone(said)
    # (on standard error stands, last, that it failed; a line that was cut may stand before that)
    if reports == "errors" and b"mtp2_play: failed" not in said:
        return f"{said!r} stands on standard error"
    return (
        None
        if reports == "errors"
        or (len(lines) <= len(wanted) and all(a == b or a.startswith(b) for a, b in zip(wanted, lines)))
        else repr(said)
    )


def disturbing(orders, reports):
    """The part that has reads of orders from there and writes of reports to there fail, be cut, or be interrupted: a
    file, a FIFO, or standard error."""

    def disturbed(room, loaded):
        if loaded is None:
            return
        those = {"LD_PRELOAD": loaded, "READS_OF": "/orders", "WRITES_OF": "2" if reports == "errors" else "/reports"}
        name = f"orders of a {orders}, reports to {'standard error' if reports == 'errors' else f'a {reports}'}"
        for ways in [
            {},
            {"READ_PART": "1"},
            {"WRITE_PART": "1"},
            {"INTERRUPTED": "1"},
            {"READ_PART": "3", "WRITE_PART": "2", "INTERRUPTED": "1"},
        ]:
            yield f"{name}, {ways}", whole(room, orders, reports, **those, **ways)
        for number in (1, 2, 3):
            yield f"{name}, write {number} fails", fails(
                room, orders, reports, number, **those, WRITE_FAILS=str(number)
            )
        for number in (1, 2):
            yield f"{name}, read {number} of orders fails", fails(
                room, orders, reports, **those, READ_FAILS=str(number), READ_PART="7"
            )

    return disturbed


def full(room, _):
    """Reports to standard error that is full."""
    with open("/dev/full", "wb") as nowhere:
        (room / "orders").write_bytes(b"power\n")
        done = subprocess.run(
            [PLAY, "line", "basic", "--set", "standard", "--orders", str(room / "orders")],
            input=ONES,
            stdout=subprocess.DEVNULL,
            stderr=nowhere,
            timeout=LONGEST,
        )
    yield "reports to standard error that is full", None if done.returncode == 4 else f"status {done.returncode}"


def remarked(room, _):
    """Orders after 20,000 octets of remarks, of a file and of a FIFO."""
    given = b"# a remark\n" * 1819 + ORDERS
    for orders in ("file", "FIFO"):
        yield f"20,000 octets of remarks in a {orders}", whole(room, orders, "file", given=given)


def opened(room, _):
    """How files are opened: a file of orders only to read, and reports only once the orders are there."""
    line = Line(room, "file", "file")
    line.gives()
    found = [
        pathlib.Path(f"/proc/{line.run.pid}/fdinfo/{it}").read_text()
        for it in os.listdir(f"/proc/{line.run.pid}/fd")
        if os.readlink(f"/proc/{line.run.pid}/fd/{it}") == str(line.orders)
    ]
    ways = [int(it.split()[3], 8) & os.O_ACCMODE for it in found]
    line.ends()
    yield "a file of orders is opened to read", None if ways == [os.O_RDONLY] else f"opened as {ways}"
    kept = room / "kept"
    kept.write_bytes(b"1 ok power\n")
    got = lines.run(room, ONES, "basic", "--orders", str(room / "nowhere"), "--reports", str(kept))
    yield "reports stay where the orders aren't there", None if (got[0], kept.read_bytes()) == (
        4,
        b"1 ok power\n",
    ) else f"status {got[0]}, {kept.read_bytes()!r}"
    for path in (room / "orders", kept):
        path.write_bytes(b"power\n")
    if os.geteuid() == 0 and os.access(PLAY, os.X_OK):
        yield from as_another(room)


def as_another(room):
    """A user who may only read the orders."""
    (room / "orders").chmod(0o444)
    (room / "kept").chmod(0o666)
    room.chmod(0o755)
    words = [PLAY, "line", "basic", "--set", "standard"]
    words += ["--orders", str(room / "orders"), "--reports", str(room / "kept")]
    try:
        done = subprocess.run(
            words, input=ONES, capture_output=True, timeout=LONGEST, user=65534, group=65534, extra_groups=[]
        )
    except PermissionError:
        # (that user can't come to the program here)
        return
    said = (room / "kept").read_bytes()
    yield "a user who may only read the orders", None if (done.returncode, said) == (
        0,
        b"1 ok power\n",
    ) else f"status {done.returncode}, {said!r}"


def paused(room, _):
    """Reports one at a time, each after a pause in which the thread that has them go on falls asleep: each comes
    before the next order is given."""
    line = Line(room, "FIFO", "FIFO", given=b"")
    fault = None
    for number in range(300):
        os.write(line.writer, b"power\n" if number % 3 else b"calm\n")
        ended = time.monotonic() + PATIENCE
        # (the order comes by a thread: milliseconds pass until it is there)
        while line.lives() and b"ok" not in line.drain.got and time.monotonic() < ended:
            line.gives()
            wait = time.monotonic() + 0.02
            while not line.drain.takes() and time.monotonic() < wait:
                time.sleep(0.0005)
        if b"ok" not in line.drain.got:
            fault = f"report {number + 1} doesn't come"
            break
        line.drain.got = b""
        time.sleep(0.001)
    yield "300 reports, each after a pause", fault or (f"status {line.ends()}" if line.ends() else None)
    line.closes()


def asleep(room, _):
    """A report that comes once the thread sleeps, with no octet after it: nothing else wakes it."""
    given = b"".join(b"at %d\nstate LSC\n" % it for it in range(1, 201))
    line, fault = Line(room, "file", "FIFO", given=given), None
    for number in range(1, 201):
        line.gives()
        ended, wanted = time.monotonic() + PATIENCE, b"%d state LSC PowerOff\n" % number
        while not line.drain.got.endswith(wanted) and time.monotonic() < ended:
            if not line.drain.takes():
                time.sleep(0.0002)
        if not line.drain.got.endswith(wanted):
            fault = f"report {number} doesn't come"
            break
        if number % 10 == 0:
            time.sleep(0.003)
    yield "200 reports, each awaited", fault or (f"status {line.ends()}" if line.ends() else None)
    line.closes()


def resting(room, loaded):
    """Each report comes while the thread that had the one before go on rests between two instructions of its way into
    sleep, each time between others (tools/c/rests.c), and nothing comes after it: so the thread has to find it there
    before it sleeps."""
    if loaded is None or platform.machine() != "x86_64":
        return
    given, rests = b"".join(b"at %d\ncalm\n" % it for it in range(1, RESTS + 1)), room / "rests"
    line = Line(
        room, "file", "FIFO", given=given, LD_PRELOAD=library(room, "rests"), WRITES_OF="/reports", RESTS=str(rests)
    )
    fault, until = None, time.monotonic() + SPELL
    for number in range(1, RESTS + 1):
        line.gives()
        ended, wanted = time.monotonic() + PATIENCE, b"%d ok calm\n" % number
        while not line.drain.got.endswith(wanted) and time.monotonic() < ended:
            if not line.drain.takes():
                time.sleep(0.0002)
        if not line.drain.got.endswith(wanted):
            fault = f"report {number} doesn't come"
            break
        while rests.stat().st_size < number and time.monotonic() < ended:
            time.sleep(0.0002)
        if time.monotonic() > until:
            break
    yield f"{RESTS} reports to a thread that rests, or as many as come in {SPELL} seconds", fault or (
        f"status {line.ends()}" if line.ends() else None
    )
    line.closes()


def drained(line, told, how):
    """Ends a line whose reports wait, has them drained by `how` meanwhile, and returns the status with the fault of the
    reports, if there is one."""

    def drain():
        how()
        while not over.is_set():
            if not line.drain.takes(2048):
                time.sleep(0.0005)

    over = threading.Event()
    thread = threading.Thread(target=drain)
    thread.start()
    status = line.ends()
    over.set()
    thread.join()
    said = line.drain.all()
    line.closes()
    return status, differs(told, said)


def kept_back(room, loaded):
    """Reports that wait for the other side of a small FIFO as the line ends, or fails: they go on as it is drained, by
    and by."""
    given = b"".join(b"at %d\nstate LSC\n" % it for it in range(1, 501))
    told = b"".join(b"%d ok state LSC\n%d state LSC PowerOff\n" % (it, it) for it in range(1, 501))
    line = Line(room, "file", "FIFO", given=given, size=SMALL)
    for _ in range(500):
        line.gives()
    status, fault = drained(line, told, lambda: time.sleep(0.1))
    yield "reports that wait at the end", fault or (f"status {status}" if status else None)
    if loaded is None:
        return
    line = Line(room, "file", "FIFO", given=given, size=SMALL, LD_PRELOAD=loaded, READS_OF="0", READ_FAILS="501")
    for _ in range(500):
        line.gives()
    # (the read that takes these fails)
    line.run.stdin.write(ONES)
    line.run.stdin.flush()
    status, fault = drained(line, told, lambda: time.sleep(0.1))
    yield "reports that wait where the line fails", fault or (None if status == 4 else f"status {status}")


def lost(room, _):
    """Reports that found no room: how many is told once there is room, as the line ends too, however late that is
    drained."""
    # (a line is shorter than the one that tells how many were lost: so at the end there is no room for that at once)
    given = b"".join(b"at %d\n" % it + b"calm\n" * 4 for it in range(1, 3001))
    told = b"".join(b"%d ok calm\n" % it * 4 for it in range(1, 3001)).splitlines()
    line = Line(room, "file", "FIFO", given=given, size=SMALL)
    for _ in range(30):
        line.gives(ONES * 100)
    status, _ = drained(line, b"", lambda: time.sleep(0.1))
    fault = lines.counted(told, line.drain.got.splitlines())
    yield "reports that were lost are told at the end", fault or (f"status {status}" if status else None)


def closed(room, _):
    """Runs that have a standard stream closed: no file takes its place."""
    (room / "orders").write_bytes(ORDERS)
    counter = str(ROOT / "examples" / "counter.sdl")
    bare = ["line", "basic", "--set", "standard"]
    orders, reports = ["--orders", str(room / "orders")], ["--reports", str(room / "reports")]
    words = [*bare, *orders, *reports]
    for name, shut, given, status in [
        ("line without an input", 0, words, 4),
        ("line without an output", 1, words, 4),
        ("line without an output, and no files", 1, bare, 4),
        ("line without an output, and reports", 1, [*bare, *reports], 4),
        ("line without an input, and reports", 0, [*bare, *reports], 4),
        ("line that tells nowhere", 2, [*bare, *orders], 4),
        ("line without standard error, and reports", 2, words, 0),
        ("check without an output", 1, ["check", counter], 4),
        ("check of an input that is closed", 0, ["check", "stdin"], 4),
        ("check of a file without an input", 0, ["check", counter], 0),
        ("check without standard error", 2, ["check", counter], 0),
        ("a script that is closed", 0, ["play", "standard", "stdin"], 4),
        ("soak without an output", 1, ["soak", str(room / "soak"), "--workers", "1"], 4),
    ]:
        (room / "reports").write_bytes(b"")
        (room / "soak").write_bytes(b"links 1\n")
        (room / "come").write_bytes(ONES * 9)
        files = [open(room / "come", "rb"), open(room / "went", "wb"), open(room / "said", "wb")]
        shell = f'exec "$@" {shut}>&-' if shut else 'exec "$@" <&-'
        done = subprocess.run(
            ["sh", "-c", shell, "sh", str(PLAY), *given],
            stdin=files[0],
            stdout=files[1],
            stderr=files[2],
            timeout=LONGEST,
        )
        reports, orders = (room / "reports").read_bytes(), (room / "orders").read_bytes()
        fault = None if done.returncode == status else f"status {done.returncode} and not {status}"
        if orders != ORDERS or b"\xff" in reports or (status == 4 and shut == 0 and given[0] == "line" and reports):
            fault = f"{fault or ''} {reports[:60]!r} is told"
        yield name, fault


PARTS = [
    *(disturbing(orders, reports) for orders in ("file", "FIFO") for reports in ("file", "FIFO", "errors")),
    full,
    remarked,
    opened,
    paused,
    asleep,
    resting,
    kept_back,
    lost,
    closed,
]


def tried(place, loaded):
    """The cases of a part, each with what is wrong with it. If a run ends, or doesn't, against the part's expectation,
    that is the fault of a case too."""
    cases = []
    with tempfile.TemporaryDirectory() as folder:
        try:
            for it in PARTS[place](pathlib.Path(folder), loaded):
                cases.append(it)
        except (OSError, subprocess.SubprocessError) as error:
            cases.append(("what comes then", str(error)))
    return cases


def main(words):
    global PATIENCE, LONGEST
    reader = argparse.ArgumentParser(usage="tools/steps/ends [--wait SECONDS] [PART ..]")
    reader.add_argument("--wait", type=float, default=PATIENCE)
    reader.add_argument("parts", nargs="*")
    given = reader.parse_args(words)
    PATIENCE, LONGEST, words = given.wait, min(LIMIT, 10 * given.wait), given.parts
    if missing(PLAY):
        return 2
    count = Count("ends")
    with tempfile.TemporaryDirectory() as folder:
        loaded = library(folder, "streams")
        if loaded is None:
            count.skip(62, "there is no C compiler here, or nothing that it makes can be loaded before a program")
        places = [at for at, it in enumerate(PARTS) if not words or any(it.__name__.startswith(word) for word in words)]
        for at, cases in zip(places, side_by_side(tried, [(it, loaded) for it in places])):
            for name, fault in cases:
                count.case(f"{PARTS[at].__name__}: {name}", fault)
    return count.end()


if __name__ == "__main__":
    sys.exit(main(sys.argv[1:]))
