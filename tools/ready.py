"""Lists the faults that the gate refuses before any proof is tried: files that aren't in `rt fmt`'s layout, files
where no check looks, words that stand for something else in a contract, must-fail edits that don't apply or that name
what their file doesn't import, a text of the program's own that isn't the one in examples/, what follows from the
grammar's productions and wasn't written again (tools/productions), names in the documents and in the crates' READMEs
that aren't there any more, an index (tools/index) that isn't theirs, pictures (tools/pictures) that aren't what
`draw` makes, lines of specs that are too wide to be read, too many ways down crates.txt, crates whose edits in edits/
were last tried ten landings ago (edits/README.md), functions and lines of the tools that are too long or too wide, or
more long files and functions in the crates than there were (tools/looks/counts.py), paths of contracts and
definitions that reach three fields deep into another crate's value (tools/looks/fields.py), a README.md of more than
170 lines, links and commands of the pages that lead nowhere, more of the English that is to go than there was
(tools/looks/pages.py), what a crate hands on that its neighbour only hands on, or more than 150 lines that hand on
(tools/looks/handed.py), and calls of a link set that don't say what they add to its lists (tools/looks/telling.py). A
few seconds; to be run before a commit that is to land. Beside that it notes which crates' edits are to be tried by
tools/edits, since their contracts changed, and whether the landing is recorded: neither is a fault.

usage: tools/ready [FOLDER]
           of the repository in FOLDER, else of this one; ends with status 1 if it found something, 2 if it couldn't ask
       tools/ready --counts [CRATE ..]
           how many files, bodies, lists of parameters and lines are longer than they should be, by crate, and where
           those of these crates stand
       tools/ready --english
           the places of that English, and its counts

It asks the kit's own `rt`, whose functions it calls."""
import os
import pathlib
import re
import subprocess
import sys
import traceback

from tools import crate_pages
from tools.building.kit import by_hand, kit, refusals
from tools.doc_names import lacking
from tools.looks import counts, edit_sums, fields, handed, pages, telling

ROOT = pathlib.Path(__file__).resolve().parent.parent


def stops(rt, crate, crates):
    """What the gate would say of a crate's files."""
    said = []
    with refusals(rt, said), open(os.devnull, "w") as out:
        rt.rtlib.stop_on_links(crate.folder)
        rt.rtlib.stop_on_unread(crate.folder, crates)
        rt.rtlib.stop_on_text(crate, "verdict")
        rt.stop_on_words(crate)
        if rt.rtlib.fmt(crate.folder, "--check", out):
            said.append("not laid out: run rt fmt in its folder")
    return [f"{crate.name}: {why}" for why in said]


def edits(rt, crate, root):
    """The edits of a crate that don't apply, the gate's and those that are tried by hand."""
    good, bad = rt.edits_of(crate)
    said = [f"{edit}: no edit by its name or kind" for edit in bad]
    for edit in [*map(pathlib.Path, good), *by_hand(root, crate.name)]:
        why = rt.read_edit(str(edit), crate.folder)[1] or unknown(crate, edit)
        if why:
            said.append(f"{edit.relative_to(root)}: {why}")
    return said


def strays(root, crates):
    """What stands in edits/ and is no edit of a crate."""
    names = {it.name for it in crates}
    return [
        f"{it.relative_to(root)}: no edit of a crate"
        for it in sorted((root / "edits").rglob("*"))
        if it.is_file()
        and it not in (root / "edits" / "README.md", root / "edits" / "sums.txt")
        and not (it.suffix == ".edit" and it.parent.parent == root / "edits" and it.parent.name in names)
    ]


def unknown(crate, edit):
    """What an edit of code names that its file doesn't import: such an edit is refused for that, which the gate doesn't
    count."""
    lines = edit.read_text().splitlines()
    place = lines[0].removeprefix("file: ").strip()
    if not place.endswith(".rt"):
        return None
    code = (pathlib.Path(crate.folder) / place).read_text()
    new = re.sub(r'"[^"]*"', "", " ".join(it.removeprefix("new: ") for it in lines if it.startswith("new: ")))
    named = set(re.findall(r"(?<!::)\b[A-Z]\w+", new)) - {"Some", "None", "Ok", "Err", "Self"}
    missing = sorted(it for it in named if not re.search(rf"\b{it}\b", code))
    return f"its file doesn't know {', '.join(missing)}" if missing else None


def literal(path):
    """The one literal that stands in a file."""
    source = path.read_text()
    return source[source.index('"') + 1 : source.rindex('"')]


def own_text(folder, name):
    """A text of the program's own: the literal of its file, or those of the parts that its constant names, in their
    order."""
    path = folder / f"{name}_text.rt"
    named = re.search(r"= (\w+)!\(\[\]([\w\s]+)\bjoined\);", path.read_text())
    if not named:
        return literal(path)
    return "".join(literal(folder / f"{name}_text" / f"{part}.rt") for part in [named[1], *named[2].split()])


def texts(root):
    """The texts of mtp2_text that aren't those of examples/, byte for byte."""
    folder = root / "crates" / "mtp2_text" / "src"
    names = ("standard", "q703", "monitors")
    return [
        f"mtp2_text: the text {name} isn't examples/{name}.sdl"
        for name in names
        if own_text(folder, name) != (root / "examples" / f"{name}.sdl").read_text()
    ]


def productions(root):
    """What follows from the grammar's productions and is another."""
    asked = subprocess.run([root / "tools" / "productions", "--check"], capture_output=True, text=True)
    return asked.stdout.splitlines()[:-1] if asked.returncode else []


def index(root):
    """The index, if it isn't the one of the READMEs and the sources."""
    asked = subprocess.run([root / "tools" / "index", "--check"], capture_output=True, text=True)
    return asked.stdout.splitlines() if asked.returncode else []


def pictures(root):
    """The pictures that `draw` makes otherwise now, where a program of these sources is there."""
    asked = subprocess.run([root / "tools" / "pictures"], capture_output=True, text=True)
    return asked.stdout.splitlines() if asked.returncode else []


def astray(root, crates):
    """The files in git that no check reads, since they stand outside the crates: the gate stops at the first."""
    asked = subprocess.run(["git", "-C", root, "ls-files", "*.rt", "*.antt"], capture_output=True, text=True)
    folders = tuple(os.path.relpath(it.folder, root) + "/" for it in crates)
    return [f"no check reads {it}" for it in asked.stdout.splitlines() if not it.startswith(folders)]


# The most ways down crates.txt, over all crates: `rt` asks of each, in most commands, whether what it ends at is built.
MOST_WAYS = 40_000


def ways_down(crates):
    """Where there are too many ways down crates.txt: how many, and which crates have the most."""
    ways = {}
    # (the crates come lowest first)
    for crate in crates:
        ways[crate.name] = 1 + sum(ways[dep.name] for dep in crate.deps)
    number = sum(ways.values())
    most = ", ".join(f"{name} {ways[name]}" for name in sorted(ways, key=ways.get)[:-4:-1])
    return (
        [
            f"crates.txt: {number} ways down, and {MOST_WAYS} at most: have neighbours hand on what a crate needs "
            f"({most})"
        ]
        if number > MOST_WAYS
        else []
    )


# The most characters of a line of specs: definitions are read aloud.
WIDEST = 100


def wide(crates):
    """The lines of specs that are too wide to be read."""
    return [
        f"{crate.name}: {path.relative_to(crate.folder)}: line {number} has {len(line)} characters, and {WIDEST} "
        "at most"
        for crate in crates
        for path in sorted((pathlib.Path(crate.folder) / "specs").rglob("*.antt"))
        for number, line in enumerate(path.read_text().splitlines(), 1)
        if len(line) > WIDEST
    ]


def main(words):
    if words[:1] == ["--counts"]:
        print("\n".join(counts.report(ROOT, words[1:])))
        return 0
    if words == ["--english"]:
        print("\n".join(pages.report(ROOT)))
        return 0
    root = pathlib.Path(words[0] if words else ROOT).resolve()
    os.chdir(root)
    rt = kit()
    crates = rt.rtlib.crates_below(str(root))
    found = [line for crate in crates for line in stops(rt, crate, crates) + edits(rt, crate, root)]
    asked = (texts, productions, lacking, crate_pages.lacking, index, pictures, edit_sums.too_old)
    asked += (counts.of_tools, counts.more_than_today, fields.more_than_today, pages.lacking, handed.lacking)
    asked += (telling.lacking,)
    found += [line for it in asked for line in it(root)]
    found += strays(root, crates) + astray(root, crates) + ways_down(crates) + wide(crates)
    if due := edit_sums.untried(root):
        print(f"note: edits to be tried, since contracts changed (tools/edits CRATE): {' '.join(due)}")
    if (number := edit_sums.coming(root)) != edit_sums.kept(root).landing:
        print(
            "note: contracts or edits changed since the last landing that is recorded: tools/edits --minutes N "
            f"records landing {number}"
        )
    print("\n".join([*found, f"{len(crates)} crates, {len(found)} to mend"]))
    return 1 if found else 0


if __name__ == "__main__":
    try:
        status = main(sys.argv[1:])
    except Exception:
        traceback.print_exc()
        status = 2
    sys.exit(status)
