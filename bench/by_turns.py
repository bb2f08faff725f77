"""Programs that are measured beside each other: `trials` as it is now, and if TRIALS_BEFORE names one, that of the commit before.

TRIALS names another program of now; else it is proved and built, if that isn't done. RUNS says how often each runs; the best run of each counts, since a
shared machine slows some by half."""
import os
import pathlib
import subprocess
import sys

ROOT = pathlib.Path(__file__).resolve().parent.parent
ROUNDS = ROOT / "bench" / "rounds"
BUILT = ROOT / "crates" / "trials" / "out" / "trials"
NONE_BEFORE = """no program of the commit before: TRIALS_BEFORE names none. To make one (FOLDER a whole path):
    git worktree add --detach FOLDER COMMIT; (cd FOLDER/crates/trials && ../../tools/rt run </dev/null); TRIALS_BEFORE=FOLDER/crates/trials/out/trials"""


def asked(words, head, *usual):
    """The numbers of a command line, the first of 1 or more; those that it doesn't have are the usual ones. Else ends all with the usage of the head."""
    if len(words) > len(usual) or not all(it.isdecimal() for it in words) or (words and int(words[0]) == 0):
        sys.exit(head.rsplit("\n\n", 1)[1])
    return [*map(int, words), *usual[len(words):]]


def runs(usual):
    """How often each program runs."""
    said = os.environ.get("RUNS") or str(usual)
    if not said.isdecimal() or int(said) == 0:
        sys.exit(f"RUNS: {said} is no number of runs")
    return int(said)


def that_runs(word, name):
    """The path of a program; if there is none, ends all."""
    if not os.path.isfile(name) or not os.access(name, os.X_OK):
        sys.exit(f"{word}: {name} is no program that can be run")
    return os.path.abspath(name)


def programs(wants_before=True):
    """The programs by `before` and `now`, in the order in which they run."""
    known = {}
    if wants_before and os.environ.get("TRIALS_BEFORE"):
        known["before"] = that_runs("TRIALS_BEFORE", os.environ["TRIALS_BEFORE"])
    elif wants_before:
        print(NONE_BEFORE, flush=True)
    if os.environ.get("TRIALS"):
        known["now"] = that_runs("TRIALS", os.environ["TRIALS"])
    elif subprocess.run([ROUNDS]).returncode:
        sys.exit(1)
    else:
        known["now"] = that_runs("trials", str(BUILT))
    return known


def shown(program, *words):
    """The lines that a program prints for these words, as words; none if it fails, as it does with unknown words: then that is printed."""
    run = subprocess.run([ROUNDS, *map(str, words)], env={**os.environ, "TRIALS": program}, stdout=subprocess.PIPE, text=True)
    if run.returncode:
        print(f"{program}: failed at the words {' '.join(map(str, words))}", file=sys.stderr)
        return []
    return [line.split() for line in run.stdout.splitlines()]


def said_by(command):
    """The output of a command; if it fails, ends all."""
    run = subprocess.run(command, stdout=subprocess.PIPE, text=True)
    if run.returncode:
        sys.exit(f"{command[0]}: ended with status {run.returncode}")
    return run.stdout


def numbers(lines):
    """The number after each name."""
    return {line[0]: int(line[1]) for line in lines if len(line) > 1 and line[1].isdigit()}


def keep_best(best, found):
    """Keeps the greatest number of each name."""
    for name, number in found.items():
        best[name] = max(best.get(name, 0), number)


def left_out(best):
    """Says which rows the program before doesn't know. If that of now knows none, ends all."""
    if not best["now"]:
        sys.exit("trials shows nothing")
    lacking = [name for name in best["now"] if "before" in best and name not in best["before"]]
    if lacking:
        print(f"the program before doesn't know: {', '.join(lacking)}")


def beside(before, now):
    """A figure of now, preceded by that of before if there is one."""
    return f"before {before:,}, now {now:,}, now/before {now / before:.2f}" if before else f"now {now:,}"


def judged(aim, is_met):
    """Whether an aim is met."""
    return f"aim {aim}: {'met' if is_met else 'not met'}"
