"""edits/sums.txt: when the edits of each crate in edits/ were tried last. `tools/edits` writes it, `tools/ready` reads
it.

Its first line is `landing NUMBER SUM`: how many landings were recorded, and the sum over all contracts and edits at the
last one. Each other line is `CRATE SUM NUMBER`: the sum over the crate's contracts and its edits, as they were when the
prover refused all of these, and the landing at which it did. The sum is `-` if they haven't all been refused yet;
the number then says since when the crate has edits here.

A landing is recorded by `tools/edits --minutes N`, and counts only where a contract or an edit has changed since the
last one. The number stands in the file, and not in the history of git, so that it is the same in a clone that has no
history."""
import dataclasses
import hashlib
import re

CLAUSE = re.compile(r"\s*(?:requires|ensures|ghost)\b(?! use\b)")
IMPORT = re.compile(r"\s*(?:open |use )")
# How many landings old an entry may become.
OLDEST = 10
HEAD = "# When each crate's edits here were tried last, by landings; tools/edits writes this (edits/README.md)."


@dataclasses.dataclass
class Entry:
    """The record of a crate: the sum at which all its edits were refused, `-` for none, and the landing."""

    sum: str
    landing: int


@dataclasses.dataclass
class Sums:
    """The contents of edits/sums.txt."""

    landing: int
    whole: str
    entries: dict


def clauses(text):
    """The lines of the clauses of a file of code, each to where its braces end."""
    depth = 0
    for line in text.split("\n"):
        if depth > 0 or CLAUSE.match(line):
            yield line.strip()
            depth = max(0, depth + line.count("{") - line.count("}"))


def short(said):
    return hashlib.sha256("\n".join(said).encode()).hexdigest()[:16]


def sum_of(root, name):
    """The sum of a crate. What it imports doesn't count: it is summed where it stands."""
    crate, said = root / "crates" / name, []
    for path in sorted((crate / "src").rglob("*.rt")):
        said += clauses(path.read_text())
    for path in sorted((crate / "specs").rglob("*.antt")):
        said += [it for it in path.read_text().split("\n") if not IMPORT.match(it)]
    for path in sorted((root / "edits" / name).glob("*.edit")):
        said.append(path.read_text())
    return short(said)


def whole_sum(root):
    """The sum over all crates."""
    return short(
        f"{it.name} {sum_of(root, it.name)}" for it in sorted((root / "crates").iterdir()) if (it / "src").is_dir()
    )


def with_edits(root):
    """The crates that have edits here."""
    return sorted(it.name for it in (root / "edits").iterdir() if it.is_dir())


def kept(root):
    """The records."""
    path = root / "edits" / "sums.txt"
    rows = (
        [it.split(" ") for it in path.read_text().split("\n") if it and not it.startswith("#")]
        if path.is_file()
        else []
    )
    landing, whole = next(((int(row[1]), row[2]) for row in rows if row[0] == "landing"), (0, "-"))
    return Sums(landing, whole, {row[0]: Entry(row[1], int(row[2])) for row in rows if row[0] != "landing"})


def write(root, sums):
    """Writes the records, with an entry for each crate that has edits."""
    entries = {it: sums.entries.get(it) or Entry("-", sums.landing) for it in with_edits(root)}
    lines = [
        HEAD,
        f"landing {sums.landing} {sums.whole}",
        *(f"{name} {it.sum} {it.landing}" for name, it in entries.items()),
    ]
    (root / "edits" / "sums.txt").write_text("\n".join([*lines, ""]))


def keep(root, name, landing=None):
    """Keeps that a crate's edits were all refused, at a landing: the last one if none is named."""
    sums = kept(root)
    sums.entries[name] = Entry(sum_of(root, name), sums.landing if landing is None else landing)
    write(root, sums)


def coming(root):
    """The number of the landing that the repository as it stands is: the last one where nothing changed since."""
    sums = kept(root)
    return sums.landing + (sums.whole != whole_sum(root))


def record(root):
    """Records a landing. Gives its number."""
    sums = kept(root)
    sums.landing, sums.whole = coming(root), whole_sum(root)
    write(root, sums)
    return sums.landing


def oldest_first(root):
    """The crates with edits, those first whose entry is oldest, and of these those whose contracts or edits changed
    since."""
    sums = kept(root)

    def rank(name):
        entry = sums.entries.get(name, Entry("-", sums.landing))
        return entry.landing, entry.sum != "-", entry.sum == sum_of(root, name), name

    return sorted(with_edits(root), key=rank)


def untried(root):
    """The crates whose contracts or edits changed since all their edits were refused."""
    entries = kept(root).entries
    return [it for it in with_edits(root) if it not in entries or entries[it].sum != sum_of(root, it)]


def too_old(root):
    """The crates whose edits were tried so many landings ago that they are to be tried again."""
    sums, now = kept(root), coming(root)
    return [
        f"edits/sums.txt: the edits of {name} were last tried {now - it.landing} landings ago: tools/edits {name}"
        for name, it in sorted(sums.entries.items())
        if name in with_edits(root) and now - it.landing >= OLDEST
    ]
