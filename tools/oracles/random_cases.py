"""Code shared by random_texts, random_scripts, random_terminals, random_groups and random_lines: cases made by number
and seed, side by side on all processors, held against what the plain programs of this folder say. A case that differs
is left in out/NAME/, with both answers."""
import collections
import os
import random
import sys
import time

from tools.steps.built import PLAY, ROOT, Run, missing, side_by_side


class Asked:
    """What the words of such a tool say: how many cases, the seed, how many side by side, and the only case that
    is looked at, if one is."""

    def __init__(self, words, count):
        numbers, given = [], iter(words)
        self.jobs, self.only = len(os.sched_getaffinity(0)), None
        for word in given:
            if word == "-j":
                self.jobs = int(next(given))
            elif word == "--only":
                self.only = int(next(given))
            else:
                numbers.append(int(word))
        self.count, self.seed = [*numbers, *[count, 1][len(numbers) :]]


def dice(seed, number):
    """The dice of a case: the same in each run, whatever stands beside it."""
    return random.Random(f"{seed} {number}")


def differs(name, make, seed, number):
    """Makes a case and plays it. Gives a word for the program's answer, or the difference."""
    words, given, said, shown = make(dice(seed, number))
    if said is None:
        return "not known", None
    lines, status, *told = said
    run = Run(words, given)
    is_octets = isinstance(lines, bytes)
    wrote = lines if is_octets else "".join(f"{it}\n" for it in lines).encode()
    wrong = [it(run.said) if callable(it) else it != run.said for it in told]
    if (run.wrote, run.status) == (wrote, status) and not any(wrong):
        last = lines[-1].split(" ") if lines and not is_octets else [""]
        return " ".join(last[:2]) if last[0] == "refused" and status == 2 else f"status {status}", None
    room = ROOT / "out" / name
    room.mkdir(parents=True, exist_ok=True)
    (room / f"{number}.given").write_bytes(given)
    (room / f"{number}.program").write_bytes(run.wrote + f"exit {run.status}\n".encode() + run.said)
    expected = [f"{why}\n".encode() if callable(it) else it for it, why in zip(told, wrong)]
    (room / f"{number}.plain").write_bytes(wrote + f"exit {status}\n".encode() + b"".join(expected))
    return "differs", f"{number}: {shown}"


def several(name, make, seed, numbers):
    """Makes and plays several cases at once, so that few of them are handed to and fro: how many came to what, and the
    differences."""
    sums, found = collections.Counter(), []
    for number in numbers:
        kind, difference = differs(name, make, seed, number)
        sums[kind] += 1
        found += [difference] if difference else []
    return sums, found


def hold(name, make, words, count):
    """Makes so many cases, and tells which differ and what the others came to. `make` gives for dice the words of a
    command line, what stands in standard input, the lines or the octets and the status that are wanted (and what has to
    be told on standard error, where that is compared, or what says what is wrong there), or none where they aren't
    known, and what is shown of the case. Returns the exit status."""
    asked = Asked(words, count)
    if missing(PLAY):
        return 2
    if asked.only is not None:
        given = make(dice(asked.seed, asked.only))
        sys.stdout.buffer.write(given[1])
        print(f"\n{differs(name, make, asked.seed, asked.only)}")
        return 0
    since, sums, wrong, step = time.time(), collections.Counter(), 0, 50
    # (a part at a time, so that what differs is told as it is found)
    for first in range(0, asked.count, 4000):
        most = min(first + 4000, asked.count)
        parts = [range(at, min(at + step, most)) for at in range(first, most, step)]
        for part, found in side_by_side(several, [(name, make, asked.seed, it) for it in parts], asked.jobs):
            sums += part
            wrong += len(found)
            for it in found:
                print(it, flush=True)
    print(", ".join(f"{kind} {number}" for kind, number in sums.most_common()))
    print(f"{asked.count} cases by seed {asked.seed}, {wrong} differ, {time.time() - since:.0f} seconds")
    return 1 if wrong else 0
