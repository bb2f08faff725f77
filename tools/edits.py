"""Tries wrong bodies by hand: the edits in edits/CRATE/, which have the form of must-fail edits. The prover has to
refuse each.

edits/README.md says which edits the gate tries, which are here, and what edits/sums.txt records: when the edits of a
crate were tried last, counted in landings.

usage: tools/edits [CRATE | CRATE/EDIT ..]
           these; without words all of edits/. CRATE/EDIT is one, of edits/CRATE/ or of crates/CRATE/must-fail/
       tools/edits --minutes N
           those of the crates that were tried longest ago, as many as can be begun in N minutes, and records the
           landing (with 0 it only records that); to be called once before a landing
       tools/edits --apart ..                in front of these: each edit in a check of its own

It ends with status 1 if one isn't refused. Edits of different functions of a crate are tried together in one check
(tools/building/wrong_bodies.py), side by side with those of other crates, on as many processors as RT_JOBS says, or as
there are. A line gives the result of each edit, and the last one the counts of the results."""
import collections
import os
import pathlib
import sys
import threading
import time

from tools.building.kit import by_hand, kit
from tools.building.wrong_bodies import AT_LIMIT, BY_NAME, REFUSED, Trial
from tools.looks import edit_sums

ROOT = pathlib.Path(__file__).resolve().parent.parent
WELL = (REFUSED, BY_NAME, AT_LIMIT)


def found(word):
    """The crate of a word, and its edits that the word names."""
    name, _, one = word.partition("/")
    edits = by_hand(ROOT, name)
    if not one:
        return name, edits
    stem = one.removesuffix(".edit")
    gate = sorted((ROOT / "crates" / name / "must-fail").glob("*.edit"))
    return name, [it for it in [*edits, *gate] if it.stem == stem][:1]


def named(words):
    """The edits that the words name, by crate."""
    chosen = {}
    for word in words:
        name, edits = found(word)
        if not edits:
            sys.exit(f"tools/edits: no edit {word}")
        chosen.setdefault(name, []).extend(edits)
    return chosen


class Run:
    """The trial of many crates' edits."""

    def __init__(self, rt, chosen, until, is_apart):
        self.rt, self.chosen, self.until, self.is_apart = rt, chosen, until, is_apart
        self.crates = {it.name: it for it in rt.rtlib.crates_below(str(ROOT))}
        self.came, self.lock, self.building = {}, threading.Lock(), threading.Lock()
        self.landing = edit_sums.coming(ROOT) if until else None

    def one(self, name):
        """Tries the edits of a crate, if there is still time to begin with them."""
        if self.until and time.time() >= self.until:
            return
        crate = self.crates[name]
        with self.building:
            for it in crate.below():
                if it.build_rlib(["--jobs", "1"], anew=False):
                    self.rt.say(f"edits {name}: its library {it.name} isn't proved")
                    return
        came = Trial(self.rt, crate, self.chosen[name], self.is_apart).run()
        with self.lock:
            self.came.update(came)
            if all(it in WELL for it in came.values()) and set(by_hand(ROOT, name)) <= came.keys():
                edit_sums.keep(ROOT, name, self.landing)

    def all(self):
        """Tries all crates, side by side."""
        self.rt.rtlib.guarded()
        tasks = {
            (name, "edits"): ([], 0, self.rt.need(self.crates[name]), lambda given, jobs, name=name: self.one(name))
            for name in self.chosen
        }
        self.rt.in_lanes(tasks)

    def tell(self):
        """Prints the counts of the results. Returns the status."""
        counts = collections.Counter(self.came.values())
        wanted = sum(map(len, self.chosen.values()))
        left = wanted - len(self.came)
        bad = sum(number for kind, number in counts.items() if kind not in WELL)
        said = [f"{number} {kind}" for kind, number in counts.most_common()]
        print(f"{len(self.came)} edits tried of {wanted}: {', '.join(said) or 'none'}")
        return 1 if bad or left and not self.until else 0


def main(words):
    is_apart, words = "--apart" in words, [it for it in words if it != "--apart"]
    minutes = None
    if words[:1] == ["--minutes"]:
        if len(words) != 2 or not words[1].isdigit():
            sys.exit(__doc__)
        minutes, words = int(words[1]), edit_sums.oldest_first(ROOT)
    chosen = named(words or edit_sums.oldest_first(ROOT))
    rt = kit()
    if rt is None:
        sys.exit("tools/edits: there is no rt on the PATH")
    # (a kit that shares its work over a machine begins with what checks in other checkouts kept)
    if hasattr(rt, "share_work"):
        rt.share_work(False)
    run = Run(rt, chosen, time.time() + 60 * minutes if minutes is not None else None, is_apart)
    (rt.where_disk_lasts if hasattr(rt, "where_disk_lasts") else lambda call: call())(run.all)
    status = run.tell()
    if minutes is not None:
        print(f"landing {edit_sums.record(ROOT)} recorded in edits/sums.txt")
    return status


if __name__ == "__main__":
    os.chdir(ROOT)
    sys.exit(main(sys.argv[1:]))
