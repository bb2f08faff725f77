"""Runs the built program's `line` on files, pipes and FIFOs, and compares its output and its reports with
tools/oracles/plain_tied.py, a filter written apart from it, and with the lives of examples/line/lives.txt.

usage: tools/steps/lines [PART ..]
           the parts whose names begin so, all if none is named; of crates/mtp2_play/out/mtp2_play, or of the program
           that MTP2_PLAY names

The last line is `N passed, M failed`, and the status 1 if one failed."""
import contextlib
import os
import pathlib
import random
import subprocess
import sys
import tempfile
import threading
import time
import zlib

from tools.oracles import plain_filter, plain_tied
from tools.oracles.plain_tied import Filter, turned, two
from tools.steps.built import LIMIT, PLAY, ROOT, Count, differs, missing, side_by_side

ORDERS = b"power\nemergency\nstart\nat 30\nstate LSC\nmsu 85010203\nmsu 850\nat 40\ncommand stop\nvalue LSC r\n"
LINE = ROOT / "examples" / "line"


def run(room, given, *words, orders=None, **how):
    """The status, what was written and what was told on standard error."""
    if orders is not None:
        (room / "orders").write_bytes(orders)
        words = (*words, "--orders", str(room / "orders"))
    if "--set" not in words:
        words = (*words, "--set", "standard")
    try:
        done = subprocess.run([PLAY, "line", *words], input=given, capture_output=True, timeout=LIMIT, **how)
    except subprocess.TimeoutExpired:
        return "too slow", b"", b""
    return done.returncode, done.stdout, done.stderr


def plain(given, mode="basic", orders=b"", ahead=0):
    """The output and the reports of the plain filter."""
    end = Filter(mode, orders, ahead)
    for octet in given:
        if not end.over:
            end.step(octet)
    return bytes(end.sent), "".join(f"{it}\n" for it in end.told).encode()


def held(got, wanted, status=0):
    if got[0] != status:
        return f"status {got[0]}, {got[2][-200:]!r}"
    return differs(wanted[0], got[1]) or differs(wanted[1], got[2])


def noise(count, seed):
    """Octets of a line with units and errors."""
    draw = random.Random(seed)
    other = Filter("basic", b"power\nemergency\nstart\nat 20\nmsu 8501020304\n")
    octets = []
    while len(octets) < count:
        other.step(255)
        octets.append(other.sent[-1] ^ (1 << draw.randrange(8) if draw.random() < 0.02 else 0))
    return bytes(octets)


def files(room):
    """Standard input and standard output are files or pipes that are read to their end."""
    ones = b"\xff" * 33
    yield "no input", held(run(room, b"", "basic"), (b"", b""))
    yield "ahead of no input", held(run(room, b"", "cyclic", "--ahead", "8000"), (b"\xff" * 8000, b""))
    yield "silence", held(run(room, ones, "basic"), (ones, b""))
    for mode in ("basic", "cyclic"):
        for seed in range(3):
            come = noise(803, seed)
            wanted = plain(come, mode, ORDERS)
            yield f"noise {seed}, {mode}", held(run(room, come, mode, orders=ORDERS), wanted)
            high = bytes(map(turned, come)), bytes(map(turned, wanted[0]))
            yield f"the same, high bits, {mode}", held(
                run(room, high[0], mode, "--bits", "high", orders=ORDERS), (high[1], wanted[1])
            )
            (room / "come").write_bytes(come)
            with open(room / "come", "rb") as given:
                yield f"the same, of a file, {mode}", held(from_file(room, given, mode), wanted)
            again = run(room, come, mode, orders=wanted[1])
            yield f"the same, by its reports, {mode}", held(again[:2] + (b"",), (wanted[0], b""))


def chosen(room):
    """All that can be chosen at once."""
    come = noise(803, 7)
    text, reports = ROOT / "examples" / "standard.sdl", room / "told"
    for mode in ("basic", "cyclic"):
        wanted = plain(come, mode, ORDERS, 24)
        got = run(
            room,
            bytes(map(turned, come)),
            mode,
            "--set",
            str(text),
            "--reports",
            str(reports),
            "--bits",
            "high",
            "--ahead",
            "24",
            orders=ORDERS,
        )
        yield f"all at once, {mode}", held(
            (got[0], got[1], reports.read_bytes()), (bytes(map(turned, wanted[0])), wanted[1])
        )


def from_file(room, given, mode):
    done = subprocess.run(
        [PLAY, "line", mode, "--set", "standard", "--orders", str(room / "orders")],
        stdin=given,
        capture_output=True,
        timeout=LIMIT,
    )
    return done.returncode, done.stdout, done.stderr


def orders(room):
    """Lines of orders that are wrong, or are cut."""
    come = b"\xff" * 160
    for name, given in {
        "600 octets": b"value LSC " + b"x" * 590 + b"\nstate LSC\n",
        "601 octets": b"value LSC " + b"x" * 591 + b"\nstate LSC\n",
        "3,000 octets": b"x" * 3000 + b"\nstate LSC\n",
        "no end": b"power\nstate LSC",
        "a long line without end": b"power\n" + b"x" * 2000,
        "bad digits": b"msu 85010G\nmsu 8501020\nmsu 8501\nmsu "
        + b"85" * 273
        + b"\nmsu "
        + b"85" * 274
        + b"\nstate LSC\n",
        "no text": b"state LSC\xff\nstate \xc3\xa4\n\nstate LSC\n",
        "blanks and comments": b"\n   \n # one\n  state   LSC  \n#state LSC\n",
        "reports": b"3 ok state LSC\n4 in service\n5 ok\n6 refused X1 BadLine\n7 lost 3\n8 message 85\nstate LSC\n"
        b"9 ok msu 850102\n",
        "a number and no report": b"5 stop\n7\n8 ok\n9 start\n12 state LSC\n10 power\n11 Lost 3\n13 lost\nstate "
        b"LSC\n14 ok power\n15 okay power\n",
        "at": b"at\nat x\nat 1 2\nat 5\nstate LSC\nat 3\nstate IAC\nat 99999999999999999999\nat 4294967296\nstate "
        b"LSC\n",
        "an earlier millisecond": b"at 5\nat 3\nstate LSC\nat 9\n7 ok state IAC\nat 0\n2 refused X1 BadLine\nat "
        b"12\nat 11\npower\n",
        "a late report": b"4294967297 ok state LSC\nstate LSC\n",
        "quit": b"at 7\nquit\nstate LSC\n",
        "other commands": b"tick 3\nout 1\nunit FFFF00\nline 7E\nexpect ok\nenv\nrest\nterminal basic\ncommand "
        b"nothing\ncommand power\nstate LSC\n",
        "words too many": b"value LSC r x\nstate LSC IAC x\npower now at once\nmsu 850102 03 04 05\nquit now\nat 5 "
        b"6 7 8\n",
        "long messages": b"".join(
            b"msu 85" + b"%02X" % it * size + b"\n" for it, size in enumerate([2, 61, 62, 63, 64, 271, 272, 273])
        ),
        "remarks of 20,000 octets": b"# a remark\n" * 1819 + b"state LSC\n",
        "capitals": b"Power\nstate lsc\nSTATE LSC\n",
        "processes that aren't there": b"state Nobody\nvalue Nobody x\nvalue LSC nothing\n",
        "a full store": b"msu 850102\n" * 1030,
    }.items():
        yield name, held(run(room, come, "basic", orders=given), plain(come, "basic", given))


def crossed(room):
    """Two ends tied crosswise by pipes."""
    done = subprocess.run(
        [LINE / "two_ends"], capture_output=True, timeout=LIMIT, env={**os.environ, "MTP2_PLAY": str(PLAY)}
    )
    shown = [
        it for it in two("basic", 2100, (LINE / "first.orders").read_bytes(), (LINE / "second.orders").read_bytes())
    ]
    wanted = "".join(f"{it.split(':')[0]}:\n" if it.startswith(("first: ", "second: ")) else f"{it}\n" for it in shown)
    yield "two ends", f"status {done.returncode}, {done.stderr[-200:]!r}" if done.returncode else differs(
        wanted.encode(), done.stdout
    )


class End:
    """One end of a link that runs: whoever holds it gives it octets, and reads those that go out for them before it
    goes on."""

    def __init__(self, *words, mode="basic"):
        text = [] if "--set" in words else ["--set", "standard"]
        self.run = subprocess.Popen(
            [PLAY, "line", mode, *text, *words],
            stdin=subprocess.PIPE,
            stdout=subprocess.PIPE,
            stderr=subprocess.DEVNULL,
        )
        self.until = time.monotonic() + LIMIT
        # (a run that goes nowhere ends so, and reading from it too)
        self.limit = threading.Timer(LIMIT, self.run.kill)
        self.limit.daemon = True
        self.limit.start()

    def has_time(self):
        return time.monotonic() < self.until and self.run.poll() is None

    def gives(self, octets):
        """What goes out for these octets: as many, unless the run ended."""
        try:
            self.run.stdin.write(octets)
            self.run.stdin.flush()
        except BrokenPipeError:
            return b""
        return self.run.stdout.read(len(octets))

    def threads(self):
        """How many threads it has."""
        return len(os.listdir(f"/proc/{self.run.pid}/task"))

    def closes(self):
        """Ends the line. All output has been read."""
        with contextlib.suppress(BrokenPipeError):
            self.run.stdin.close()

    def ends(self):
        """Ends the line, and waits for the run's end. Returns the status."""
        self.closes()
        self.run.stdout.read()
        status = self.run.wait()
        self.limit.cancel()
        return status


def told_by(path):
    """The reports so far, without the milliseconds; a line that isn't whole yet is left out."""
    return [it.partition(b" ")[2] for it in path.read_bytes().split(b"\n")[:-1]] if path.is_file() else []


def growing(room):
    """Orders from a file that grows, and from a FIFO that is opened late and closed between: milliseconds pass until
    each was obeyed."""
    for kind in ("file", "FIFO"):
        path, reports = room / f"growing.{kind}", room / "growing.told"
        path.write_bytes(b"") if kind == "file" else os.mkfifo(path)
        reports.unlink(missing_ok=True)
        end, wanted = End("--orders", str(path), "--reports", str(reports)), []
        end.gives(b"\xff" * 8)
        for order, told in [
            (b"state LSC\nvalue LSC", [b"ok state LSC", b"state LSC PowerOff"]),
            (b" r\n", [b"ok value LSC r", b"value LSC r 0"]),
            (b"state IAC\n" * 3, [b"ok state IAC", b"state IAC Idle"] * 3),
            (b"state AERM\nquit\n", [b"ok state AERM", b"state AERM Idle", b"ok quit"]),
        ]:
            # (a FIFO has been opened by the other side: octets have come back)
            more = os.open(path, os.O_WRONLY | os.O_APPEND | os.O_NONBLOCK)
            os.write(more, order)
            os.close(more)
            wanted += told
            while end.has_time() and len(told_by(reports)) < len(wanted):
                end.gives(b"\xff" * 8)
        ended, said = end.ends(), told_by(reports)
        yield f"orders of a growing {kind}", f"status {ended}" if ended else None if said == wanted else repr(said)


def told_to(end, reports, wanted):
    """Lets milliseconds pass until so many lines are reported, and returns those that are."""
    while end.has_time() and len(told_by(reports)) < len(wanted):
        end.gives(b"\xff" * 8)
    return told_by(reports)


def truncated(room):
    """A file of orders that is truncated: it is read from its beginning again, orders read and not obeyed are given up,
    and a report says so. Twice."""
    path, reports = room / "truncated", room / "truncated.told"
    path.write_bytes(b"state LSC\nat 99999999\nstate IAC\nstate A")
    end, wanted = End("--orders", str(path), "--reports", str(reports)), [b"ok state LSC", b"state LSC PowerOff"]
    told_to(end, reports, wanted)
    for order, told in [(b"state RC\n", [b"ok state RC", b"state RC Idle"]), (b"quit\n", [b"ok quit"])]:
        os.truncate(path, 0)
        wanted += [b"orders truncated"]
        told_to(end, reports, wanted)
        with open(path, "ab") as more:
            more.write(order)
        wanted += told
        told_to(end, reports, wanted)
    ended, said = end.ends(), told_by(reports)
    yield "a file of orders is truncated twice", f"status {ended}" if ended else None if said == wanted else repr(said)


def quitting(room):
    """A `quit` waits for the milliseconds of lines that were given together with it, and not for those of lines from
    before a second in which none came."""
    path, reports = room / "quitting", room / "quitting.told"
    for between, over in [(1100, True), (900, False)]:
        path.write_bytes(b"at 99999999\nstate LSC\n")
        reports.unlink(missing_ok=True)
        end = End("--orders", str(path), "--reports", str(reports))
        end.gives(b"\xff" * 8 * between)
        with open(path, "ab") as more:
            more.write(b"at 7\nstate IAC\nquit\n")
        end.gives(b"\xff" * 8 * 5)
        # (the last octet of a run that ended is never answered)
        passed = end.gives(b"\xff" * 8)
        went, said = end.ends(), told_by(reports)
        fault = (
            f"status {went}"
            if went
            else None
            if (said, passed) == (([b"ok quit"], b"") if over else ([], b"\xff" * 8))
            else f"{said}, {len(passed)} octets"
        )
        yield f"a quit {between} milliseconds after an order that waits", fault


def same(room):
    """Orders and reports in one file, by whatever names: the run is refused before the file is emptied."""
    path = room / "both"
    path.write_bytes(b"state LSC\n")
    (room / "link").symlink_to(path)
    os.link(path, room / "other")
    os.mkfifo(room / "pipe")
    refused = b": reports can't go where orders come from\n"
    for name, orders, reports in [
        ("one name", path, path),
        ("a link", path, room / "link"),
        ("the other way round", room / "link", path),
        ("a second name", path, room / "other"),
        ("a longer path", path, room / ".." / room.name / "both"),
        ("a FIFO", room / "pipe", room / "pipe"),
    ]:
        got = run(room, b"\xff" * 9, "basic", "--orders", str(orders), "--reports", str(reports))
        yield f"orders and reports in one file: {name}", held(got, (b"", f"mtp2_play: {reports}".encode() + refused), 4)
    with open(path, "rb") as file:
        number = file.fileno()
        got = run(
            room, b"\xff" * 9, "basic", "--orders", f"/dev/fd/{number}", "--reports", str(path), pass_fds=[number]
        )
        yield "orders and reports in one file: a number", held(got, (b"", f"mtp2_play: {path}".encode() + refused), 4)
    with open(path, "ab") as file:
        done = subprocess.run(
            [PLAY, "line", "basic", "--set", "standard", "--orders", str(path)],
            input=b"\xff" * 9,
            stdout=subprocess.PIPE,
            stderr=file,
            timeout=LIMIT,
        )
    wanted = b"state LSC\nmtp2_play: standard error" + refused
    yield (
        "orders and reports in one file: standard " "error"
    ), f"status {done.returncode}" if done.returncode != 4 else differs(wanted, path.read_bytes())
    apart = run(room, b"\xff" * 9, "basic", "--orders", "/dev/null", "--reports", "/dev/null")
    yield "orders and reports in a device", held(apart, (b"\xff" * 9, b""))


def relayed(room, mode, milliseconds, damaged, words):
    """Two ends, each of which is given what the other sent, a millisecond at a time; an octet of the second may be
    damaged on its way. What each sent."""
    ends = [End(*it, mode=mode) for it in words]
    sent = [ends[0].run.stdout.read(8), b""]
    for now in range(milliseconds):
        sent[1] += ends[1].gives(sent[0][8 * now : 8 * now + 8])
        if damaged is not None and damaged // 8 == now:
            sent[1] = sent[1][:damaged] + bytes([sent[1][damaged] ^ 16]) + sent[1][damaged + 1 :]
        sent[0] += ends[0].gives(sent[1][8 * now : 8 * now + 8])
    statuses = [it.ends() for it in ends]
    return sent if statuses == [0, 0] else None


def by_files(entry):
    """A life of examples/line/tied.txt: two ends by turns, held against the lines there; and then each by regular
    files, of which one has what the other sent: it sends and tells the same, the first one also with the first bit of
    an octet on top, and sends the same by its own reports."""
    name, _, (mode, milliseconds, *orders, damaged, sets, chosen), lines = entry
    limits = [it for name, number in zip(("--n1", "--n2"), chosen) if number is not None for it in (name, str(number))]

    def by_files(room):
        words = []
        for one, given in enumerate(orders):
            (room / f"orders{one}").write_bytes(given)
            over = ["--set", sets[one], *limits]
            words.append(
                [
                    *(["--ahead", "8"] if one == 0 else []),
                    *over,
                    "--orders",
                    str(room / f"orders{one}"),
                    "--reports",
                    str(room / f"told{one}"),
                ]
            )
        sent = relayed(room, mode, milliseconds, damaged, words)
        told = [(room / f"told{one}").read_bytes() for one in (0, 1)]
        shown = [
            f"{it}: {len(octets)} octets, {zlib.crc32(octets):08X}\n{text.decode()}"
            for it, octets, text in zip(("first", "second"), sent or (b"", b""), told)
        ]
        yield f"{name}: by turns", differs(
            "".join(f"{it}\n" for it in lines).encode(), "".join(shown).encode()
        ) if sent else "an end failed"
        for one in (0, 1) if sent else ():
            (room / "come").write_bytes(sent[1 - one][: 8 * milliseconds])
            wanted = bytearray(sent[one])
            if one and damaged is not None:
                wanted[damaged] ^= 16
            with open(room / "come", "rb") as given, open(room / "went", "wb") as out:
                done = subprocess.run(
                    [PLAY, "line", mode, *words[one]], stdin=given, stdout=out, stderr=subprocess.PIPE, timeout=LIMIT
                )
            got = done.returncode, (room / "went").read_bytes(), (room / f"told{one}").read_bytes()
            yield f"{name}: by files, end {one + 1}", held(got, (bytes(wanted), told[one]))
            if one == 0:
                come, ahead = (room / "come").read_bytes(), words[one][:-4]
                high = run(room, bytes(map(turned, come)), mode, *ahead, "--bits", "high", orders=orders[one])
                yield f"{name}: high bits", held(high, (bytes(map(turned, wanted)), told[one]))
                again = run(room, come, mode, *ahead, orders=told[one])
                yield f"{name}: by its reports", held(again[:2] + (b"",), (bytes(wanted), b""))

    return by_files


BY_HAND = b"""power
2 power
emergency
2 emergency
start
2 start
at 900
2 at 900
1 msu 85010203
state LSC
2 state LSC
nonsense
at 1000
2 at 1000
"""
AT_HAND = {
    b"1": b"ok power,ok emergency,ok start,in service,ok msu 85010203,ok state LSC,state LSC InService,refused X1 "
    b"BadLine,ok quit",
    b"2": b"ok power,ok emergency,ok start,in service,ok state LSC,state LSC InService,message 85010203,ok quit",
}


def by_hand(room):
    """Two ends with orders by hand, all of them there from the beginning, a thousand times as fast as a line: the
    reports of each, except the millisecond."""
    (room / "typed").write_bytes(BY_HAND)
    for mode in ("basic", "cyclic"):
        with open(room / "typed", "rb") as typed:
            done = subprocess.run(
                [LINE / "by_hand", mode, "1000"],
                stdin=typed,
                capture_output=True,
                timeout=LIMIT,
                env={**os.environ, "MTP2_PLAY": str(PLAY)},
            )
        told = {
            number: b",".join(it.split(b" ", 2)[2] for it in done.stdout.splitlines() if it.startswith(number))
            for number in AT_HAND
        }
        yield f"by hand, {mode}", (
            f"status {done.returncode}, " f"{done.stderr[-200:]!r}"
        ) if done.returncode else None if told == AT_HAND else repr(told)


class Drain:
    """The other side of a FIFO, open from its beginning on. It is emptied when it is told to."""

    def __init__(self, path):
        self.file, self.got = os.open(path, os.O_RDONLY | os.O_NONBLOCK), b""

    def drains(self):
        """Takes the octets that are there. Returns whether there were any."""
        before = len(self.got)
        with contextlib.suppress(BlockingIOError):
            while part := os.read(self.file, 65536):
                self.got += part
        return len(self.got) > before

    def comes_to(self, line):
        """Takes the octets that are there and those that come in a while. Returns whether this line is the last
        then."""
        for _ in range(20):
            if not self.drains() and not self.got.endswith(line + b"\n"):
                time.sleep(0.01)
        return self.got.endswith(line + b"\n")

    def ends(self):
        """Takes the octets that are left after the last writer is gone."""
        self.drains()
        os.close(self.file)
        return self.got


def undrained(room):
    """Reports into a FIFO: drained, drained late, or never."""
    asked = b"".join(b"at %d\nstate LSC\n" % at for at in range(1, 6001))
    come = b"\xff" * 8 * 6000
    told = b"".join(b"%d ok state LSC\n%d state LSC PowerOff\n" % (at, at) for at in range(1, 6001))
    path = room / "reports"
    os.mkfifo(path)
    never = run(room, come, "basic", "--reports", str(path), orders=asked)
    yield "never drained", held((never[0], never[1], b""), (come, b""))
    drain = Drain(path)
    drained = run(room, come[:800], "basic", "--reports", str(path), orders=asked)
    yield "drained", held((drained[0], drained[1], drain.ends()), (come[:800], b"".join(told.splitlines(True)[:200])))
    (room / "orders").write_bytes(asked)
    yield "drained late", late(room, path, told.splitlines())
    yield "drained at the end", at_the_end(room, path, told.splitlines())


def filled(room, path):
    """The other side of the FIFO, an end that reports into it, and how many milliseconds passed: it has no room for all
    their reports."""
    drain, end, passed = Drain(path), End("--reports", str(path), "--orders", str(room / "orders")), 0
    while end.has_time() and passed < 5500:
        passed += len(end.gives(b"\xff" * 8 * 100)) // 8
    return drain, end, passed


def late(room, path, told):
    """What is wrong where the FIFO is drained once it is full, if something is: it is drained while more milliseconds
    pass, until one is told as it passes, so nothing is left to go on."""
    drain, end, passed = filled(room, path)
    while end.has_time() and passed < 6000 and not drain.comes_to(told[2 * passed - 1]):
        passed += len(end.gives(b"\xff" * 8)) // 8
    ended = end.ends()
    return f"status {ended}" if ended else counted(told[: 2 * passed], drain.ends().splitlines())


def at_the_end(room, path, told):
    """What is wrong if the FIFO is drained as the line ends: the lines lost after the last line that found room are
    reported after that."""
    drain, end, passed = filled(room, path)
    end.closes()
    while end.has_time():
        if not drain.drains():
            time.sleep(0.001)
    ended = end.ends()
    return f"status {ended}" if ended else counted(told[: 2 * passed], drain.ends().splitlines())


def counted(told, got):
    """What is wrong with lines of which some are counted as lost, if something is."""
    at, lost = 0, 0
    for line in got:
        words = line.split(b" ")
        if words[1] == b"lost":
            at, lost = at + int(words[2]), lost + int(words[2])
            # (those at the end have the last millisecond)
            if told[min(at, len(told) - 1)].split(b" ")[0] != words[0]:
                return f"{line} stands before {told[at : at + 1]}"
            continue
        if at >= len(told) or told[at] != line:
            return f"{line} for {told[at : at + 1]}"
        at += 1
    return None if at == len(told) and lost else f"{at} of {len(told)}, {lost} lost"


def failing(room):
    """Statuses of files that aren't there, and of writes that fail."""
    for words, status in [
        (("basic", "--orders", "nowhere/x"), 4),
        (("basic", "--reports", "nowhere/x"), 4),
        (("basic", "--orders", str(room)), 4),
        (("basic", "--ahead", "8001"), 3),
        (("other",), 3),
        (("basic", "--bits", "x"), 3),
        (("basic", "--set", "stdin"), 3),
        (("basic", "--n1", "5"), 3),
        (("basic", "--n2", "300"), 3),
        (("cyclic", "--n1", "0"), 3),
        (("cyclic", "--n1", "128"), 3),
        (("cyclic", "--n2", "299"), 3),
        (("cyclic", "--n2", "8193"), 3),
        (("cyclic", "--n1", "x"), 3),
        (("cyclic", "--n2", "-300"), 3),
    ]:
        got = run(room, b"\xff" * 9, *words)
        yield " ".join(words), None if got[0] == status else f"status {got[0]} and not {status}"
    with open("/dev/full", "wb") as full:
        done = subprocess.run(
            [PLAY, "line", "basic"], input=b"\xff" * 9, stdout=full, stderr=subprocess.PIPE, timeout=LIMIT
        )
    yield "a full device", None if done.returncode == 4 else f"status {done.returncode}"
    yield "reports to a full device", untold(room, b"")
    yield "a report that fails, and one after the write that failed", untold(room, b"emergency\n")


def untold(room, more):
    """What is wrong where a report can't be written, if something is: the thread that writes ends, and the run does
    with a further report, or else with its line."""
    path = room / "full.orders"
    # (an order that is told by a single report: no second one after its write in the same millisecond)
    path.write_bytes(b"power\n")
    end = End("--orders", str(path), "--reports", "/dev/full")
    went = end.gives(b"\xff" * 8)
    while end.has_time() and end.threads() > 1:
        time.sleep(0.001)
    with open(path, "ab") as orders:
        orders.write(more)
    while more and end.has_time():
        went += end.gives(b"\xff" * 8)
    ended = end.ends()
    return f"status {ended}" if ended != 4 else None if went == b"\xff" * 8 else f"{len(went)} octets went out"


def lived(room):
    """The lives of examples/line/lives.txt: the input, the orders, and the expected reports, as they were worked
    out."""
    for name, mode, schedule, given, lines in plain_filter.lives():
        come, text = plain_filter.incoming(schedule), "\n".join(given).encode() + b"\n"
        sent, told = plain(come, mode, text)
        wanted = "".join(f"{it}\n" for it in lines).encode()
        got = run(room, bytes(come), mode, orders=text)
        # (the plain line of plain_tied.py measures nothing; plain_filter.py does, which plays the same lives)
        if any(it.startswith("measure ") for it in given):
            yield name, held(got, (got[1], wanted))
        else:
            yield name, differs(wanted, told) or held(got, (sent, wanted))


def measured(room):
    """The measurements of each life, at its end; and files that can't be made or written."""
    standard, file = (ROOT / "examples" / "standard.sdl").read_bytes(), room / "measures"
    for name, mode, schedule, given, _ in plain_filter.lives():
        come, text = bytes(plain_filter.incoming(schedule)), "\n".join(given).encode() + b"\n"
        wanted = plain_filter.measured(standard, mode == "cyclic", come, plain_filter.said(given))
        got = run(room, come, mode, "--measures", str(file), orders=text)
        yield name, f"status {got[0]}" if got[0] else differs(wanted.encode(), file.read_bytes())
    for path in (room / "nowhere" / "measures", room):
        got = run(room, b"\xff" * 33, "basic", "--measures", str(path))
        yield f"{path.name} can't be made", None if got[:2] == (4, b"") and path.name.encode() in got[
            2
        ] else f"status {got[0]}, {got[1:]!r}"
    got = run(room, b"\xff" * 33, "basic", "--measures", "/dev/full")
    yield "a full device", None if got[:2] == (4, b"\xff" * 33) else f"status {got[0]}"


PARTS = [
    *map(by_files, plain_tied.entries()),
    files,
    chosen,
    orders,
    crossed,
    by_hand,
    lived,
    measured,
    growing,
    truncated,
    quitting,
    same,
    undrained,
    failing,
]


def played(place):
    """The cases of a part, each with what is wrong with it. If a run ends, or doesn't, against the part's expectation,
    that is the fault of a case too."""
    cases = []
    with tempfile.TemporaryDirectory() as folder:
        try:
            for it in PARTS[place](pathlib.Path(folder)):
                cases.append(it)
        except (OSError, subprocess.SubprocessError) as error:
            cases.append(("what comes then", str(error)))
    return cases


def main(words):
    if missing(PLAY):
        return 2
    count = Count("lines")
    places = [at for at, it in enumerate(PARTS) if not words or any(it.__name__.startswith(word) for word in words)]
    for at, cases in zip(places, side_by_side(played, [(it,) for it in places])):
        for name, fault in cases:
            count.case(f"{PARTS[at].__name__}: {name}", fault)
    return count.end()


if __name__ == "__main__":
    sys.exit(main(sys.argv[1:]))
