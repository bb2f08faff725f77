"""What becomes of the reports of `set` whose reader stops, of its log, and of its measurements: answers that nobody
reads wait, each once and in order, and no order is read while 256 do; messages that nobody reads wait, as two ends of a
set show of which one's reader stops until the other tells of it, and goes on; a file of reports is appended to and
opened once more; the first report has the digest of the text; and a file of measurements is one that Prometheus reads.

usage: tools/steps/readers [NAME ..]
           the cases whose names begin so, all where none is named; of crates/mtp2_play/out/mtp2_play, or of the program
           that MTP2_PLAY names

The last line is `N passed, M failed`, and the status 1 where one failed."""
import datetime
import hashlib
import importlib.util
import os
import pathlib
import re
import subprocess
import sys
import tempfile
import threading
import time

from tools.steps.built import LIMIT, PLAY, Count, Run, missing

# (`tied_sets` reads it)
os.environ["MTP2_PLAY"] = str(PLAY)
FOUND = importlib.util.spec_from_file_location(
    "tied_sets", pathlib.Path(__file__).resolve().parents[2] / "examples" / "set" / "tied_sets.py"
)
tied_sets = importlib.util.module_from_spec(FOUND)
FOUND.loader.exec_module(tied_sets)

# A line of measurements: a name, its labels and a number.
SAMPLE = re.compile(r'([a-z_][a-z0-9_]*)(\{[a-z]+="[a-z0-9_]+"(?:,[a-z]+="[a-z0-9_]+")*\})? ([0-9]+(?:\.[0-9]+)?)')
# So many questions are given while nobody reads: more than the FIFO and the program's own room take the answers of.
ASKED = 6000
# What is ordered after them.
LAST = "=last unsure"
LINKS = 2


def words(room, *more):
    """The words of one end of a set of two links, on lines on which nothing comes."""
    for fifo in ("a0", "b0", "a1", "b1"):
        os.mkfifo(room / fifo)
    lines = [word for link in "01" for word in ("--link", f"{room}/a{link},{room}/b{link}")]
    return ["set", "basic", *lines, "--own", "1", "--peer", "2", *more]


def read_until(file, wanted):
    """What a FIFO gives up to this."""
    octets = b""
    while wanted not in octets[-200:]:
        octets += os.read(file, 65_536)
    return octets


def answers_wait(room):
    """Questions are given while nobody reads their answers. Once somebody does, all come, in order, and then `quit` is
    answered."""
    reports, orders = room / "reports", room / "orders"
    os.mkfifo(reports)
    os.mkfifo(orders)
    asked = [f"measure {'stops' if at % 3 else 'failures'}" for at in range(ASKED)]
    run = subprocess.Popen([PLAY, *words(room, "--orders", str(orders), "--reports", str(reports))])
    to, back = os.open(orders, os.O_RDWR), os.open(reports, os.O_RDWR)
    octets = "".join(f"{it}\n" for it in [*asked, LAST]).encode()
    giver = threading.Thread(target=lambda: os.write(to, octets), daemon=True)
    giver.start()
    time.sleep(3)
    told = read_until(back, f" {LAST.split()[0]} ok unsure\n".encode())
    giver.join()
    # (a `quit` is obeyed ahead of orders that aren't read yet)
    os.write(to, b"quit\n")
    told += read_until(back, b" ok quit\n")
    status = run.wait(LIMIT)
    for it in (to, back):
        os.close(it)
    said = [line.split(" ", 1)[1] for line in told.decode().splitlines()]
    wanted = [line for it in asked for line in (f"ok {it}", f"0 {it} 0")]
    got = [it for it in said if re.match(r"(ok |0 )measure ", it)]
    if status:
        return f"status {status}"
    return None if got == wanted else f"{len(got)} lines of answers and not {len(wanted)}, or in another order"


class Chosen(tied_sets.End):
    """An end with a chosen error correction and set of processes."""

    def words(self, lines, own, peer, more):
        mode, *others = more
        links = [word for line in lines for word in ("--link", line)]
        files = ["--orders", str(self.orders), "--reports", str(self.reports)]
        return [tied_sets.PLAY, "set", mode, *links, "--own", str(own), "--peer", str(peer), *files, *others]


def messages_wait(room, *more):
    """Messages go to an end whose reader has stopped, until the other end tells that its processor is out on all links;
    then it reads on. Each message that was taken comes once, in order, but for as many as were told as unsure."""
    with tied_sets.Pair(room, LINKS, *more, kinds=(Chosen, Chosen)) as pair:
        near, far = pair.ends
        for it in pair.ends:
            it.order("on all", "power", "start")
        if not pair.until(lambda: pair.have_told(pair.links, "tested"), LIMIT):
            return "the links don't come into service"
        far.stopped = True
        number = pair.traffic(LIMIT, 0, 2000, lambda: all(near.has_told(f"{at} far out") for at in pair.links))
        time.sleep(5)
        far.stopped = False
        if not pair.until(lambda: far.has_told("reader back"), LIMIT):
            return "the reader isn't told to be back"
        pair.traffic(2, number, 40)
        pair.settle(LIMIT)
        right = pair.until(pair.are_whole, LIMIT) and pair.until(pair.are_empty, LIMIT)
        status = pair.quit(LIMIT)
        wrong, short = tied_sets.lacking(near, far)
        faults = [
            None if right else "the links aren't empty in the end",
            None if status == [0, 0] else f"status {status}",
            None if not wrong else f"{wrong} messages twice or out of order",
            None if short <= near.unsure() else f"{short} messages lacking, {near.unsure()} unsure",
            None if far.has_told("reader away") else "the reader isn't told to be away",
        ]
        return "; ".join(filter(None, faults)) or None


def log_goes_on(room):
    """A file of reports is appended to by a second run, and after `reopen` a new file by its name has what is told from
    there on."""
    reports, orders = room / "reports", room / "orders"
    reports.write_text("of before\n")
    orders.write_text("unsure\n")
    run = subprocess.Popen([PLAY, *words(room, "--orders", str(orders), "--reports", str(reports))])
    old = room / "reports.1"
    wait = lambda path, text: tied_sets.until(lambda: path.exists() and text in path.read_text(), LIMIT)
    wait(reports, "unsure 0")
    reports.rename(old)
    with orders.open("a") as more:
        more.write("reopen\n")
    wait(reports, "ok reopen")
    with orders.open("a") as more:
        more.write("held\nquit\n")
    status = run.wait(LIMIT)
    first, second = old.read_text(), reports.read_text()
    if status or not first.startswith("of before\n0 begins "):
        return f"status {status}, the first file begins with {first[:40]!r}"
    if "ok reopen" in first or " held 0 sent 0\n" not in second or "unsure" in second:
        return f"the files are {first!r} and {second!r}"
    return None


def run_begins(room):
    """The first report has the date, the version, the name of the text and its digest, as sha256 makes it of what
    `text` prints."""
    (room / "orders").write_text("quit\n")
    since = datetime.datetime.now(datetime.timezone.utc)
    run = Run(words(room, "--orders", str(room / "orders"), "--reports", str(room / "reports")))
    text = Run(["text", "q703"]).wrote
    version = Run(["--version"]).wrote.decode().split()[-1]
    line = (room / "reports").read_text().splitlines()[0]
    said = re.fullmatch(r"0 begins (\S+Z) (\S+) q703 ([0-9a-f]{64})", line)
    if run.status or not said:
        return f"status {run.status}, {line!r}"
    date = datetime.datetime.fromisoformat(said[1].replace("Z", "+00:00"))
    second = datetime.timedelta(seconds=1)
    if not since - second <= date <= datetime.datetime.now(datetime.timezone.utc) + second:
        return f"the date is {said[1]}"
    if (said[2], said[3]) != (version, hashlib.sha256(text).hexdigest()):
        return f"the version and the digest are {said[2]}, {said[3]}"
    return None


def measures_are_read(room):
    """The file of measurements is in Prometheus' text format: what a name is stands in front of its samples, which
    stand together, and each has its labels once. A file of that name isn't written to, but replaced."""
    (room / "orders").write_text("at 50\nquit\n")
    (room / "mtp2.prom").write_text("of before\n")
    os.link(room / "mtp2.prom", room / "before")
    files = ["--orders", str(room / "orders"), "--reports", str(room / "reports")]
    run = Run(words(room, *files, "--measures", str(room / "mtp2.prom")))
    left = sorted(it.name for it in room.iterdir() if it.name.startswith("mtp2"))
    kinds, seen, now = {}, set(), None
    for line in (room / "mtp2.prom").read_text().splitlines():
        if said := re.fullmatch(r"# (HELP|TYPE) ([a-z_][a-z0-9_]*) (.+)", line):
            kinds.setdefault(said[2], []).append(said[1] if said[1] == "HELP" else said[3])
            continue
        said = SAMPLE.fullmatch(line)
        if not said:
            return f"no sample: {line!r}"
        name, labels = said[1], said[2] or ""
        kind = "counter" if name.endswith("_total") else "gauge"
        if kinds.get(name) != ["HELP", kind]:
            return f"the name {name} is {kinds.get(name)}"
        if (name, labels) in seen or (name != now and any(name == it for it, _ in seen)):
            return f"twice, or not together: {line!r}"
        seen.add((name, labels))
        now = name
    if (room / "before").read_text() != "of before\n":
        return "the file was written to in place"
    failures = [labels for it, labels in seen if it == "mtp2_link_failures_total" and 'link="1",cause="t7"' in labels]
    if run.status or left != ["mtp2.prom"] or not failures:
        return f"status {run.status}, files {left}, {len(seen)} samples"
    return None


KINDS = {
    "answers wait": lambda room: answers_wait(room),
    "messages wait, basic q703": lambda room: messages_wait(room, "basic"),
    "messages wait, cyclic q703": lambda room: messages_wait(room, "cyclic"),
    "messages wait, basic standard": lambda room: messages_wait(room, "basic", "--set", "standard"),
    "a log goes on": lambda room: log_goes_on(room),
    "a run begins": lambda room: run_begins(room),
    "measurements": lambda room: measures_are_read(room),
}


def tried(kind):
    with tempfile.TemporaryDirectory() as name:
        return KINDS[kind](pathlib.Path(name))


def main(names):
    if missing(PLAY):
        return 4
    count = Count("readers")
    kinds = [it for it in KINDS if not names or any(it.startswith(name) for name in names)]
    count.all([(it, it) for it in kinds], tried)
    return count.end()


if __name__ == "__main__":
    sys.exit(main(sys.argv[1:]))
