"""Code shared by the tools that try a built program: how a run ends, cases side by side, a library of C to load before
it, and the last line."""
import concurrent.futures
import multiprocessing
import os
import pathlib
import shutil
import subprocess
import sys

ROOT = pathlib.Path(__file__).resolve().parents[2]
# The programs that `rt ci` leaves, or others in their place.
PLAY = pathlib.Path(os.environ.get("MTP2_PLAY", ROOT / "crates" / "mtp2_play" / "out" / "mtp2_play"))
TRIALS = pathlib.Path(os.environ.get("TRIALS", ROOT / "crates" / "trials" / "out" / "trials"))
# The tests that need a loaded text, each run by its name.
TESTS = pathlib.Path(os.environ.get("TEXT_TESTS", ROOT / "crates" / "trials_texts" / "out" / "trials_texts_tests"))
# Seconds that one run may take: few take more than one, and this is for a machine that has much else to do.
LIMIT = 600


class Run:
    """How a run of a program ended: its status, what it wrote, and what it said on standard error. A run that was
    stopped has the word `signal N` or `too slow` for its status."""

    def __init__(self, words, given=b"", program=PLAY, folder=ROOT, limit=LIMIT, out=None, **variables):
        how = {"executable": str(program), "cwd": folder, "env": {**os.environ, **variables}, "stderr": subprocess.PIPE}
        source = {"stdin": given} if hasattr(given, "fileno") else {"input": given}
        try:
            done = subprocess.run(["mtp2_play", *words], timeout=limit, stdout=out or subprocess.PIPE, **source, **how)
        except subprocess.TimeoutExpired:
            self.status, self.wrote, self.said = "too slow", b"", b""
            return
        self.status = done.returncode if done.returncode >= 0 else f"signal {-done.returncode}"
        self.wrote, self.said = done.stdout or b"", done.stderr


class Count:
    """How many cases passed and failed. Failures are printed as they are found."""

    def __init__(self, name):
        self.name, self.passed, self.failed, self.skipped = name, 0, 0, 0

    def case(self, name, fault):
        """Counts a case; its fault is None if it passed."""
        if fault:
            self.failed += 1
            print(f"{self.name}: {name}: {fault}", flush=True)
        else:
            self.passed += 1

    def skip(self, number, why):
        self.skipped += number
        print(f"{self.name}: skipped: {why}", flush=True)

    def all(self, cases, call):
        """Counts cases; `call` returns the fault of one, if it has one. A case is a name and its parts."""
        for (name, *_), fault in zip(cases, side_by_side(call, [it[1:] for it in cases])):
            self.case(name, fault)

    def end(self):
        """Prints the last line. Returns the exit status."""
        print(
            f"{self.passed} passed, {self.failed} failed" + (f", {self.skipped} skipped" if self.skipped else ""),
            flush=True,
        )
        return 1 if self.failed else 0


def called(given):
    call, words = given
    return call(*words)


def side_by_side(call, given, jobs=None):
    """The result of `call` for each of these, in their order and as each is ready, on all processors or in so many
    processes."""
    how = {"max_workers": jobs or len(os.sched_getaffinity(0)), "mp_context": multiprocessing.get_context("fork")}
    try:
        processes = concurrent.futures.ProcessPoolExecutor(**how)
    except (ImportError, OSError):
        # (a machine without shared memory has no queue for them)
        yield from (call(*it) for it in given)
        return
    with processes as pool:
        yield from pool.map(called, [(call, it) for it in given], chunksize=max(1, min(16, len(given) // 40)))


def missing(*programs):
    """Whether a program isn't there; then it says so."""
    lacking = [it for it in programs if not os.access(it, os.X_OK)]
    for it in lacking:
        print(f"{it} isn't there: `rt ci` or `rt run` builds it", file=sys.stderr)
    return bool(lacking)


# The least that a library here needs of a machine, and a program before which it is loaded.
LEAST = """#define _GNU_SOURCE
#include <dlfcn.h>
#include <stdio.h>
#include <unistd.h>
__attribute__((constructor)) static void least(void) { if (dlsym(RTLD_NEXT, "read")) (void)!write(1, "loaded", 6); }
"""
BEFORE = "int main(void) { return 0; }\n"


def loads(compiler, folder):
    """Whether a compiler makes a library that can be loaded before a program, the two least that there are."""
    library, program = pathlib.Path(folder) / "least.so", pathlib.Path(folder) / "before"
    (folder / "least.c").write_text(LEAST)
    (folder / "before.c").write_text(BEFORE)
    silent = {"stdin": subprocess.DEVNULL, "stderr": subprocess.DEVNULL}
    try:
        for words in [
            ["-shared", "-fPIC", "-o", library, folder / "least.c", "-ldl"],
            ["-o", program, folder / "before.c"],
        ]:
            subprocess.run([compiler, *words], stdout=subprocess.DEVNULL, check=True, **silent)
        return (
            subprocess.run(
                [program], stdout=subprocess.PIPE, env={**os.environ, "LD_PRELOAD": str(library)}, **silent
            ).stdout
            == b"loaded"
        )
    except (OSError, subprocess.CalledProcessError):
        return False


def library(folder, name):
    """Compiles a library of tools/c/ into a folder; None where there is no C compiler, or nothing that it makes can be
    loaded before a program."""
    made = pathlib.Path(folder) / f"{name}.so"
    for compiler in filter(None, map(shutil.which, ["cc", "clang", "gcc"])):
        if loads(compiler, pathlib.Path(folder)):
            subprocess.run(
                [compiler, "-O1", "-shared", "-fPIC", "-o", made, ROOT / "tools" / "c" / f"{name}.c", "-ldl"],
                check=True,
            )
            return str(made)
    return None


def differs(wanted, found):
    """The first line in which two texts differ, for a person to read; none where they are the same."""
    if wanted == found:
        return None
    ones, others = wanted.split(b"\n"), found.split(b"\n")
    at = next(
        (number for number, (one, other) in enumerate(zip(ones, others)) if one != other), min(len(ones), len(others))
    )
    shown = lambda lines: lines[at][:200].decode(errors="replace") if at < len(lines) else "(the end)"
    return f"line {at + 1} is {shown(others)!r} and not {shown(ones)!r}"
