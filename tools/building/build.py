"""Proves and builds the libraries below a program, side by side on all processors as their order and the memory allow,
and says which as it goes. Built libraries stay. The program itself is left to `rt run`, which then finds all of
them built. `bin/mtp2_play` calls it.

usage: tools/building/build [PROGRAM]
           mtp2_play if none is named; ends with status 1 if a library isn't proved, 2 where it couldn't try
       tools/building/build --jobs
           prints how many jobs a program's own proof can have once nothing else is proved

It replaces what `rt run` does before it comes to the program: that builds one library after the other. Here the lanes
of `rt ci` build them, by functions of the kit's own `rt`. Needless once `rt run` builds libraries side by side."""
import contextlib
import os
import pathlib
import sys
import tempfile
import threading
import time
import traceback

from tools.building.kit import kit

ROOT = pathlib.Path(__file__).resolve().parents[2]
# The most that the proof of one crate was seen to take, in octets, with some to spare.
MOST_MEMORY = 3_700_000_000
# How many lines of a crate, about, are proved in a second.
LINES_A_SECOND = 25


class Progress:
    """What is told on standard error: each library as its proof begins, and how many have ended."""

    def __init__(self, name, number):
        self.name, self.number, self.begun, self.ended = name, number, 0, 0
        self.lock, self.since = threading.Lock(), time.time()

    def say(self, text):
        print(f"{self.name}: {text}", file=sys.stderr, flush=True)

    def begin(self, crate):
        with self.lock:
            self.begun += 1
            self.say(f"proving {crate}, {self.begun} of {self.number}")

    def end(self, crate, said):
        with self.lock:
            self.ended += 1
            minutes = (time.time() - self.since) / 60
            if said:
                print(said, end="", file=sys.stderr)
            self.say(
                f"{crate} {'is NOT proved' if said else 'is proved'}, {self.ended} of {self.number} done after "
                f"{minutes:.1f} minutes"
            )


def build(crate, given, jobs, progress):
    """Proves and builds one library, unless one below it failed; whether it is built."""
    if not all(given.get((it.name, "proof"), True) for it in crate.below()):
        return False
    progress.begin(crate.name)
    with tempfile.TemporaryFile("w+", errors="replace") as crate.out:
        try:
            status = crate.build_rlib(["--jobs", str(jobs)], anew=False)
        except SystemExit:
            status = 1
        crate.out.seek(0)
        progress.end(crate.name, (crate.out.read() or f"rt ended with status {status}\n") if status else "")
    return not status


def lines(crate):
    """The lines of a crate's sources, definitions and proofs."""
    return sum(
        it.read_bytes().count(b"\n")
        for part in ("src", "specs", "proofs")
        for it in pathlib.Path(crate.folder, part).rglob("*.*")
    )


def known_times():
    """The seconds that proofs took once, by crate."""
    found = {}
    with contextlib.suppress(OSError):
        for line in (ROOT / "tools" / "building" / "proof_times").read_text().splitlines():
            name, _, minutes = line.partition(" ")
            with contextlib.suppress(ValueError):
                found[name] = float(minutes) * 60
    return found


def work_of(crates):
    """How many seconds each crate's proof will take by one job, by name: as long as it took once, else by its lines.
    The library with the longest chain above it is proved first."""
    known = known_times()
    return {it.name: known.get(it.name, lines(it) / LINES_A_SECOND) for it in crates}


def memory(crate):
    """The memory to plan on for a crate's proof: what the kit plans on grows with all that lies below, which no proof
    of an upper crate was seen to take."""
    return min(crate.planned(), MOST_MEMORY)


def jobs_alone():
    """How many jobs a proof can have that nothing runs beside: one for each processor, as far as the memory that is
    free allows."""
    free = os.sysconf("SC_AVPHYS_PAGES") * os.sysconf("SC_PAGE_SIZE")
    with contextlib.suppress(OSError):
        lines = pathlib.Path("/proc/meminfo").read_text().splitlines()
        free = next((int(it.split()[1]) * 1024 for it in lines if it.startswith("MemAvailable:")), free)
    return max(1, min(len(os.sched_getaffinity(0)), free // MOST_MEMORY))


def main(words):
    if words == ["--jobs"]:
        print(jobs_alone())
        return 0
    name = words[0] if words else "mtp2_play"
    os.chdir(ROOT)
    rt = kit()
    if rt is None:
        return 2
    # (what another checkout on this machine proved of the same text is taken from there, in a kit that shares it)
    if hasattr(rt, "share_work"):
        rt.share_work(True)
    lib = rt.rtlib
    program = lib.Crate(str(ROOT / "crates" / name), str(ROOT), {})
    held = lib.lock([*program.below(), program])
    lacking = [it for it in program.below() if not it.is_built()]
    lacking.sort(key=lambda it: len(it.below()))
    seconds = work_of(lacking)
    progress = Progress(name, len(lacking))
    # (its first call sets a signal's handler, which only the main thread may)
    lib.guarded()
    tasks = {}
    for crate in lacking:
        waits = [(it.name, "proof") for it in crate.below() if it in lacking]
        # (one job each, but where processors are idle: a second one reads all libraries anew, and makes a third more of
        # the work)
        work = lambda given, jobs, it=crate: build(it, given, jobs, progress)
        tasks[crate.name, "proof"] = (waits, seconds[crate.name], memory(crate), work)
    built = rt.in_lanes(tasks)
    for it in held:
        os.close(it)
    return 0 if all(built.values()) else 1


if __name__ == "__main__":
    try:
        status = main(sys.argv[1:])
    except Exception:
        traceback.print_exc()
        status = 2
    sys.exit(status)
