"""Gives `set` the orders of examples/set/orders.txt on lines without input, and compares its reports, without their
milliseconds; and has it run on a line that can't be opened, and on one that ends and is taken away: ten
seconds later both runs are over. And on one whose FIFO kept 65,536 octets: few of them are answered. And by orders and
reports in one file, which are refused; by a file of orders that is truncated; and by a `quit` that comes late. And has
two ends speak to each other whose lines are crossed, or whose networks are two: no link passes its test, and units of
the other network are reported as messages.

usage: tools/steps/sets [NAME ..]
           the entries whose names begin so, all if none is named; of crates/mtp2_play/out/mtp2_play, or of the
           program that MTP2_PLAY names

The last line is `N passed, M failed`, and the status 1 if one failed."""
import os
import pathlib
import subprocess
import sys
import tempfile
import time

from tools.steps import examples
from tools.steps.built import LIMIT, PLAY, Count, Run, differs, missing


def until(holds):
    """Waits until something holds. Returns whether it does."""
    end = time.monotonic() + LIMIT
    while not (done := holds()) and time.monotonic() < end:
        time.sleep(0.1)
    return done


def is_of_run(line):
    """Whether a report, without its millisecond, tells of lines, of the run's beginning or of late rounds."""
    return line.startswith(("begins ", "late ")) or " line " in line


def told(words, orders):
    """The reports of a run, a line each without its millisecond, and its exit status."""
    with tempfile.TemporaryDirectory() as name:
        room = pathlib.Path(name)
        for fifo in ("a0", "b0", "a1", "b1"):
            os.mkfifo(room / fifo)
        (room / "orders").write_text(orders)
        mode, *others = words.split()
        lines = [word for link in "01" for word in ("--link", f"{room}/a{link},{room}/b{link}")]
        files = ["--orders", str(room / "orders"), "--reports", str(room / "reports")]
        run = Run(["set", mode, *lines, "--own", "1", "--peer", "2", *files, *others])
        reports = (room / "reports").read_text() if (room / "reports").exists() else ""
    said = [line.split(" ", 1)[-1] for line in reports.splitlines()]
    said = [line for line in said if not line.startswith(("begins ", "late "))]
    return "\n".join([*said, f"exit {run.status}"]).encode()


def on_line(room, line):
    return ["set", "basic", "--link", line, "--own", "1", "--peer", "2", "--reports", str(room / "reports")]


def without_line():
    """The fault of a run whose line can't be opened."""
    with tempfile.TemporaryDirectory() as name:
        room = pathlib.Path(name)
        run = Run(on_line(room, f"{room}/none"))
        said = f"mtp2_play: {room}/none: No such file or directory (os error 2)\n".encode()
        told = (room / "reports").read_bytes().splitlines(True)
        reports = b"".join(it for it in told if b" begins " not in it and b" late " not in it)
        return differs(b"0 0 line failed\nexit 4\n" + said, reports + f"exit {run.status}\n".encode() + run.said)


def line_taken():
    """The fault of a run whose line has ended, and can't be opened any more."""
    with tempfile.TemporaryDirectory() as name:
        room = pathlib.Path(name)
        for it in ("in", "out"):
            (room / it).touch()
        run = subprocess.Popen(["mtp2_play", *on_line(room, f"{room}/in,{room}/out")], executable=str(PLAY))
        try:
            reports = room / "reports"
            until(lambda: reports.exists() and b" 0 line ended\n" in reports.read_bytes())
            (room / "in").unlink()
            status = run.wait(LIMIT)
        except subprocess.TimeoutExpired:
            run.kill()
            status = "too slow"
        return differs(b"exit 0", f"exit {status}".encode())


def line_kept():
    """The fault of a run whose line has kept octets while nobody read it: each octet that counts is answered."""
    with tempfile.TemporaryDirectory() as name:
        room = pathlib.Path(name)
        for it in ("in", "out"):
            os.mkfifo(room / it)
        come, gone = (os.open(room / it, os.O_RDWR | os.O_NONBLOCK) for it in ("in", "out"))
        kept = os.write(come, bytes([255]) * 65536)
        (room / "orders").write_text("at 2000\nquit\n")
        run = Run([*on_line(room, f"{room}/in,{room}/out"), "--orders", str(room / "orders")])
        answered = len(os.read(gone, 1 << 20))
        for it in (come, gone):
            os.close(it)
        return differs(
            b"few answered, exit 0",
            f"{'few' if answered < kept // 2 else answered} answered, exit {run.status}".encode(),
        )


def shared(orders, reports, files):
    """The fault of a run whose orders and reports stand in one file, by these names."""
    with tempfile.TemporaryDirectory() as name:
        room = pathlib.Path(name)
        (room / "both").write_text("quit\n")
        (room / "link").symlink_to(room / "both")
        words = [
            it.replace("ROOM", str(room))
            for it in (
                "set",
                "basic",
                "--link",
                "ROOM/none",
                "--own",
                "1",
                "--peer",
                "2",
                "--orders",
                orders,
                "--reports",
                reports,
            )
        ]
        with open(room / "both", "r+b") as both:
            given = {it: both for it in files}
            done = subprocess.run(
                ["mtp2_play", *words], executable=str(PLAY), stderr=subprocess.PIPE, timeout=LIMIT, **given
            )
        said = done.stderr.replace(str(room).encode(), b"ROOM")
        wanted = f"status 4, mtp2_play: {reports}: reports can't go where orders come from\nquit\n".encode()
        return differs(wanted, f"status {done.returncode}, ".encode() + said + (room / "both").read_bytes())


def orders_anew():
    """The fault of a run whose file of orders is truncated while it runs, or in which a `quit` comes late after an
    order that waits."""
    with tempfile.TemporaryDirectory() as name:
        room = pathlib.Path(name)
        for fifo in ("a0", "b0"):
            os.mkfifo(room / fifo)
        orders, reports = room / "orders", room / "reports"
        orders.write_text("on 9\nat 99999999\ntable\n")
        run = subprocess.Popen(
            ["mtp2_play", *on_line(room, f"{room}/a0,{room}/b0"), "--orders", str(orders)], executable=str(PLAY)
        )
        # (each is given once the program told of what was given before; and `quit`, which has to come a second or more
        # after the other lines, so much later that a program that is held up sees it so as well)
        has_told = lambda text: until(lambda: reports.exists() and text in reports.read_text())

        def give(text):
            with orders.open("a") as more:
                more.write(text)

        try:
            has_told(" on 9\n") and os.truncate(orders, 0)
            has_told(" orders truncated\n") and give("unsure\nat 99999999\nheld\n")
            has_told(" unsure 0\n") and time.sleep(5)
            give("quit\n")
            status = run.wait(LIMIT)
        except subprocess.TimeoutExpired:
            run.kill()
            status = "too slow"
        told = [it.split(" ", 1)[1] for it in reports.read_text().splitlines()]
        return differs(
            b"refused K1 NoLink on 9, orders truncated, ok unsure, unsure 0, ok quit, exit 0",
            ", ".join([*(it for it in told if not is_of_run(it)), f"exit {status}"]).encode(),
        )


class Tied:
    """Two ends on the same FIFOs, the first of which is point 1 and the other point 2; with the lines of the second in
    another order, where that is given. Each has a file of orders."""

    def __init__(self, room, words, order=("0", "1")):
        self.room, self.ends = room, []
        for fifo in ("a0", "b0", "a1", "b1"):
            os.mkfifo(room / fifo)
        lines = [
            [f"{room}/a{link},{room}/b{link}" for link in "01"],
            [f"{room}/b{link},{room}/a{link}" for link in order],
        ]
        for at, (mine, more) in enumerate(zip(lines, words)):
            (room / f"orders{at}").write_text("on all\npower\nstart\n")
            given = ["set", "basic", *(word for line in mine for word in ("--link", line))]
            given += ["--own", str(at + 1), "--peer", str(2 - at), *more]
            files = ["--orders", str(room / f"orders{at}"), "--reports", str(room / f"reports{at}")]
            self.ends.append(subprocess.Popen(["mtp2_play", *given, *files], executable=str(PLAY)))

    def told(self, at):
        """The reports of an end so far, without milliseconds, and without answers and reports of lines."""
        path = self.room / f"reports{at}"
        lines = [it.split(" ", 1)[-1] for it in path.read_text().splitlines()] if path.exists() else []
        return [it for it in lines if " line " not in it and not it.startswith(("ok ", "refused "))]

    def count(self, at, wanted):
        """How many reports of an end begin so."""
        return sum(it.startswith(wanted) for it in self.told(at))

    def until(self, *wanted):
        """Waits until each end has reports that begin so."""
        until(lambda: all(self.count(at, it) for at, lines in enumerate(wanted) for it in lines))

    def order(self, at, *orders):
        with open(self.room / f"orders{at}", "a") as more:
            more.write("".join(f"{it}\n" for it in orders))

    def end(self):
        """The statuses with which both end."""
        for at in (0, 1):
            self.order(at, "quit")
        try:
            return [it.wait(LIMIT) for it in self.ends]
        except subprocess.TimeoutExpired:
            return "too slow"
        finally:
            for it in self.ends:
                it.kill()


def tested(pair):
    """How many links the two ends reported as tested, and how they end."""
    number = sum(pair.count(at, f"{link} tested") for at in (0, 1) for link in (0, 1))
    return f"links tested {number}, {pair.end()}".encode()


def crossed():
    """The fault of two ends whose lines are crossed: a test is answered by the link that it names, so no answer comes
    by the link by which the test went, and each link is stopped."""
    with tempfile.TemporaryDirectory() as name:
        pair = Tied(pathlib.Path(name), [[], []], ("1", "0"))
        pair.until(["0 in service", "1 in service", "0 down 0", "1 down 0"], ["0 in service", "1 in service"])
        return differs(b"links tested 0, [0, 0]", tested(pair))


# How an end reports a test of the other network, and an order of changeover about link 1: as messages of point 2 in
# network 3, and of point 1 in network 1.
TESTS = "0 message C10180000011400200", "0 message 410240000011400100"
COOS = "0 message C00180001011", "0 message 400240001011"


def of_two_networks():
    """The fault of two ends of which each takes the other's network for another: tests are reported as messages and not
    answered, so each link is stopped."""
    with tempfile.TemporaryDirectory() as name:
        pair = Tied(pathlib.Path(name), [["--network", "1"], ["--network", "3"]])
        pair.until([TESTS[0], "0 down 0"], [TESTS[1]])
        return differs(b"links tested 0, [0, 0]", tested(pair))


def orders_of_two_networks():
    """The fault of the same ends without tests, one of which stops a link: the other's order is reported as a message,
    and neither obeyed nor answered."""
    with tempfile.TemporaryDirectory() as name:
        pair = Tied(pathlib.Path(name), [["--no-test", "--network", "1"], ["--no-test", "--network", "3"]])
        pair.until(["0 in service", "1 in service"], ["0 in service", "1 in service"])
        pair.order(0, "on 1", "stop")
        pair.until([COOS[0], "1 diverted"], [COOS[1], "1 diverted"])
        obeyed = sum(pair.count(at, f"1 {word}") for at in (0, 1) for word in ("hears", "says COA", "says ECA"))
        return differs(b"obeyed or answered 0, [0, 0]", f"obeyed or answered {obeyed}, {pair.end()}".encode())


ENDED = {
    "a line that can't be opened": without_line,
    "a line that is taken away": line_taken,
    "a line that kept octets": line_kept,
    "orders and reports in one file: a link": lambda: shared("ROOM/both", "ROOM/link", []),
    "orders and reports in one file: standard input": lambda: shared("/dev/stdin", "ROOM/both", ["stdin"]),
    "orders and reports in one file: standard output": lambda: shared("ROOM/link", "/dev/stdout", ["stdout"]),
    "a file of orders is truncated, and a quit comes late": orders_anew,
    "lines are crossed: no link passes its test": crossed,
    "two networks: tests are told as messages, and not answered": of_two_networks,
    "two networks: orders of changeover are told as messages, and neither obeyed nor answered": orders_of_two_networks,
}


def ended(kind):
    return ENDED[kind]()


def main(names):
    if missing(PLAY):
        return 4
    count = Count("sets")
    for name, trial, lines in examples.parted("set/orders.txt"):
        if names and not any(name.startswith(it) for it in names):
            continue
        words, orders = trial.split("\n", 1)
        count.case(name, differs(f"{lines}\nexit 0".encode(), told(words, orders + "\n")))
    kinds = [it for it in ENDED if not names or any(it.startswith(name) for name in names)]
    count.all([(it, it) for it in kinds], ended)
    return count.end()


if __name__ == "__main__":
    sys.exit(main(sys.argv[1:]))
