"""Prints what the last `rt ci` of tools/gate took of processor, by crate and kind: its proof, its tests' proof, its
must-fail edits, and what was built and run.

usage: tools/building/gate-cost               prints the table of the last run, in minutes
       tools/building/gate-cost --watch PID
           records what the processes below PID take until PID has ended; tools/gate starts it so, beside `rt ci`

It looks at /proc once a second, so what a process took in its last second is missed; the first line has the whole run's
own time as the system counts it. It doesn't report to the gate, and the gate doesn't wait for it. The record is
out/gate-cost at the top."""
import os
import pathlib
import sys
import time

FILE = pathlib.Path(__file__).resolve().parents[2] / "out" / "gate-cost"
KINDS = ["proof", "tests", "edits", "programs", "other"]
TICKS = os.sysconf("SC_CLK_TCK")
EVERY = 1.0


def look(top):
    """Each process by its number: its parent, its time of birth, and its seconds with those of its children that have
    ended. Without `top` once that has ended."""
    found = {}
    for name in os.listdir("/proc"):
        if name.isdigit():
            try:
                stat = pathlib.Path(f"/proc/{name}/stat").read_text()
            except OSError:
                continue
            fields = stat.rpartition(")")[2].split()
            if fields[0] == "Z" and int(name) == top:
                continue
            found[int(name)] = int(fields[1]), int(fields[19]), sum(map(int, fields[11:15])) / TICKS
    return found


def below(found, top):
    """The numbers of all processes below one, itself among them."""
    children = {}
    for number, it in found.items():
        children.setdefault(it[0], []).append(number)
    numbers = [top]
    for number in numbers:
        numbers += children.get(number, [])
    return numbers


def named(number):
    """The crate and the kind of what a child of the gate does, by its words and its folder."""
    try:
        words = pathlib.Path(f"/proc/{number}/cmdline").read_bytes().decode(errors="replace").split("\0")
    except OSError:
        return None
    try:
        folder = os.readlink(f"/proc/{number}/cwd")
    except OSError:
        folder = ""
    if "--crate-name" in words[:-1]:
        crate = words[words.index("--crate-name") + 1]
        if "/rt-edit-" in folder:
            return crate, "edits"
        return crate, "tests" if "--test" in words else "programs" if "--crate-checked" in words else "proof"
    for word in words:
        if "/rt-run-" in word and "/bin/" in word:
            return word.rpartition("/")[2].removesuffix("_tests"), "programs"
    crate = os.path.basename(folder) if os.path.basename(os.path.dirname(folder)) == "crates" else "-"
    return crate, "other"


def watch(top):
    """Follows the processes below `top` until it has ended, and writes what each kind has taken so far."""
    found = look(top)
    if top not in found:
        return
    _, born, before = found[top]
    begun, whole, taken, names, written = time.time(), 0, {}, {}, 0
    while top in found and found[top][1] == born:
        for child in [it for it in found if found[it][0] == top and it != os.getpid()]:
            key = child, found[child][1]
            name = named(child)
            if name and name[1] != "other" or key not in names:
                names[key] = name or ("-", "other")
            taken[key] = max(taken.get(key, 0), sum(found[it][2] for it in below(found, child)))
        whole = sum(found[it][2] for it in below(found, top) if it != os.getpid()) - before
        if time.time() - written > 10:
            write("?", begun, whole, taken, names)
            written = time.time()
        time.sleep(EVERY)
        found = look(top)
    write("", begun, whole, taken, names)


def write(mark, begun, whole, taken, names):
    """Writes the record anew: a first line with the run's begin, its seconds by the clock and of processor, then a line
    for each crate and kind."""
    sums = {}
    for key, seconds in taken.items():
        sums[names[key]] = sums.get(names[key], 0) + seconds
    head = f"{time.strftime('%Y-%m-%d %H:%M', time.localtime(begun))}\t{time.time() - begun:.0f}\t{whole:.0f}\t{mark}"
    lines = [f"{crate}\t{kind}\t{seconds:.1f}" for (crate, kind), seconds in sorted(sums.items())]
    FILE.parent.mkdir(exist_ok=True)
    part = FILE.with_suffix(".part")
    part.write_text("\n".join([head, *lines]) + "\n")
    part.replace(FILE)


def table():
    """Prints the record."""
    if not FILE.is_file():
        print("no record yet: tools/gate writes it")
        return 1
    head, *lines = FILE.read_text().splitlines()
    begun, clock, whole, mark = head.split("\t")
    sums = {}
    for crate, kind, seconds in (it.split("\t") for it in lines):
        sums.setdefault(crate, dict.fromkeys(KINDS, 0.0))[kind] += float(seconds) / 60
    print(
        f"{begun}: {float(clock) / 60:.1f} minutes by the clock, {float(whole) / 60:.1f} of "
        f"processor{mark and ', cut off'}"
    )
    print(f"{'crate':16}" + "".join(f"{it:>10}" for it in [*KINDS, "all"]))
    rows = sorted(sums.items(), key=lambda it: -sum(it[1].values()))
    for crate, row in [*rows, ("all", {it: sum(row[it] for _, row in rows) for it in KINDS})]:
        print(f"{crate:16}" + "".join(f"{it:10.1f}" for it in [*row.values(), sum(row.values())]))
    return 0


def main(words):
    if not words:
        return table()
    if len(words) == 2 and words[0] == "--watch" and words[1].isdigit():
        watch(int(words[1]))
        return 0
    print(__doc__, file=sys.stderr)
    return 3


if __name__ == "__main__":
    sys.exit(main(sys.argv[1:]))
