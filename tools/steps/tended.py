"""Two link sets that tend themselves, tied in memory, for an hour of line time and more: the runs of
examples/links/hour.txt, each by the program `trials`, on all processors. The lines printed of each run are compared
word for word with the table. And the reports of both ends on the way show:

- all selections are shared out among all links at the end;
- each end took as many of the offered messages as the table says, and reported no more as unsure;
- all kinds of faults befell lines, orders came, and links failed while the changeover of another one went on.

Prints the sums of all runs, by how many links they have.

usage: tools/steps/tended [NAME ..]                  the entries whose names begin so, all if none is named
       tools/steps/tended --by-chance FIRST COUNT
           so many runs that are made at random, with seeds from this one up; no bound on messages taken and unsure
of crates/trials/out/trials, or of the program that TRIALS names

The last line is `N passed, M failed`, and the status 1 if one failed."""
import collections
import random
import re
import sys

from tools.steps import examples
from tools.steps.built import TRIALS, Count, Run, differs, missing, side_by_side

# The seconds without faults after those with faults, and for how many of them messages are still offered.
CALM, OFFERED = 40, 20
RIGHT = "  near to far: each once or unsure, in order; whole\n  far to near: each once or unsure, in order; whole"
BOUNDS = re.compile(r"taken (\d+) %, unsure (\d+)")
# The bounds of a run that has none.
NONE = 0, 1_000_000
TOLD = re.compile(r"^\d+ (\d+): (.*)$", re.M)
FAULTS = ["cuts", "one way", "noises", "stalls", "all", "staggered", "orders"]


def numbers(line):
    """The names of a line of sums, each with its number."""
    return {name.strip(): int(number) for name, number in re.findall(r"([a-z ]+) (\d+)", line)}


class Course:
    """The result of a run: the lines printed of it, its sums, and the reports of its ends."""

    def __init__(self, row):
        words = row.split()
        self.links, self.seconds, self.rate = (int(words[it]) for it in (1, 3, 5))
        run = Run([], f"\n== {row}\ntended\n{row} sums loud".encode(), TRIALS)
        wrote = run.wrote.decode(errors="replace")
        self.status, self.said = run.status, "\n".join(re.findall(r"^  \w.*$", wrote, re.M))
        self.faults, *self.ways = [numbers(it) for it in re.findall(r"^    \w.*$", wrote, re.M)] or [{}]
        self.told = collections.defaultdict(list)
        for end, what in TOLD.findall(wrote):
            self.told[end].append(what)

    def is_shared(self):
        """Whether both ends shared all selections out among all links, by their last reports."""
        wanted = " ".join(["shared", *(str(it % self.links) for it in range(16))])
        return [[it for it in told if it.startswith("shared")][-1:] for told in self.told.values()] == [[wanted]] * 2

    def changeovers(self):
        """How many changeovers began, and how many of them while another went on at that end."""
        begun = beside = 0
        for told in self.told.values():
            under_way = set()
            for link, what, *_ in map(str.split, told):
                if what == "changeover":
                    begun, beside = begun + 1, beside + bool(under_way)
                    under_way.add(link)
                elif what == "diverted":
                    under_way.discard(link)
        return begun, beside

    def sums(self):
        """The sums of all, both ways together."""
        sums = collections.Counter(self.faults)
        for way in self.ways:
            sums.update(way)
        begun, beside = self.changeovers()
        sums.update(runs=1, seconds=self.seconds + CALM, begun=begun, beside=beside, stuck=self.said.count("STUCK"))
        return sums

    def beyond(self, taken, unsure):
        """Which bound isn't kept."""
        offered = self.rate * (self.seconds + OFFERED)
        for way in self.ways:
            if 100 * way["sent"] < taken * offered:
                return f"of some {offered} messages {way['sent']} were taken"
            if way["unsure"] > unsure:
                return f"{way['unsure']} messages are unsure"
        return None

    def fault(self, taken, unsure, lines):
        """Why it isn't as it has to be."""
        if self.status != 0:
            return f"status {self.status}"
        if self.said != lines:
            return differs(lines.encode(), self.said.encode())
        return (
            self.beyond(taken, unsure)
            if self.is_shared()
            else "selections aren't shared out among all links at the end"
        )


def ran(row, *wanted):
    """The fault of a run, and its sums."""
    course = Course(row)
    return course.fault(*wanted), course.sums()


def rows(names):
    """The runs of entries, each with its bounds and its expected lines."""
    for name, trial, lines in examples.parted("links/hour.txt"):
        bounds, *runs = trial.split("\n")
        taken, unsure = map(int, BOUNDS.fullmatch(bounds).groups())
        if not names or any(name.startswith(it) for it in names):
            yield from ((it, taken, unsure, lines) for it in runs)


def by_chance(seed):
    """A run."""
    dice = random.Random(seed)
    words = [
        dice.choice(["basic", "basic", "cyclic"]),
        dice.randint(1, 4),
        seed,
        120,
        dice.choice([600, 1_200, 2_500, 5_000, 20_000]),
        dice.choice([20, 40, 80, 160]),
    ]
    more = [it for it in ("fifo", "untested", "orders", "staggered", "q703") if dice.random() < 0.5]
    return " ".join([*map(str, words), *more]), *NONE, RIGHT


def show(name, sums):
    """Prints sums."""
    befell = ", ".join(f"{it} {sums[it]}" for it in FAULTS)
    wrong = f"twice {sums['twice']}, out of order {sums['out of order']}"
    if sums["wrong"]:
        wrong = f"twice or out of order {sums['wrong']}"
    print(
        f"tended: {name}: runs {sums['runs']}, {sums['seconds']} s of line; {befell}; changeovers {sums['begun']}, "
        f"{sums['beside']} of them beside another"
    )
    print(
        f"tended: {name}: sent {sums['sent']}, came {sums['came']}, {wrong}, lacking {sums['missing']}, unsure "
        f"{sums['unsure']}, "
        f"not taken {sums['refused']}, stuck {sums['stuck']}",
        flush=True,
    )


def main(words):
    if missing(TRIALS):
        return 4
    count, all_sums = Count("tended"), collections.defaultdict(collections.Counter)
    chance = words[:1] == ["--by-chance"]
    runs = [by_chance(int(words[1]) + it) for it in range(int(words[2]))] if chance else list(rows(words))
    for (row, *_), (fault, sums) in zip(runs, side_by_side(ran, runs)):
        count.case(row, fault)
        for name in (f"links {row.split()[1]}", "all"):
            all_sums[name].update(sums)
    for name in sorted(all_sums, reverse=True):
        show(name, all_sums[name])
    if not words:
        lacking = [it for it in [*FAULTS, "beside"] if not all_sums["all"][it]]
        count.case("all kinds of faults", "there were none of: " + ", ".join(lacking) if lacking else None)
    return count.end()


if __name__ == "__main__":
    sys.exit(main(sys.argv[1:]))
