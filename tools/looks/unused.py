"""Lists the lemmas and definitions that nothing names: these may be removed.

usage: tools/looks/unused [CRATE ..]     of the crates that are named, or of the whole repository

It reads the items of proofs/*.antt and specs/*.antt (but proofs/Examples.antt, which nothing names), and asks for each
whether its name stands in a source, a definition or a proof of any crate outside the item's own lines, imports left out
(but for those that give another name). What only unused items name is unused too. It only reads the files: a name that
several items have, or a variable, counts as used for all of them, so a few more may be unused. Before an item goes, a
check of its crate and of the crates above decides; tools/ready says where a README names it."""
import collections
import pathlib
import re
import sys

ROOT = pathlib.Path(__file__).resolve().parents[2]
HEAD = re.compile(r"(?:(?:pub|unfoldable|abbrev|opaque|record|data|mutual)\s+)*([^\s:(){},.;]+)")
IMPORT = re.compile(r"^(?:pub |ghost )*use\s[^{;\n]*(?:\{[^}]*\}?)?[^\n]*", re.M)
WORD = re.compile(r"[^\s(){}\[\].,;:\"@&*#!<>=/|]+")
NO_ITEMS = (
    "use",
    "pub use",
    "module",
    "mod",
    "pub mod",
    "syntax",
    "pub syntax",
    "open",
    "import",
    "infix",
    "infixl",
    "infixr",
    "private",
    "ruleset",
    "pub ruleset",
)


def words(text):
    """The words of a text, remarks and imports left out but for the names that are given another there."""
    text = re.sub(r"^\s*(?:--|//).*$", "", text, flags=re.M)
    renamed = [name for them in IMPORT.findall(text) for name in re.findall(r"([^\s{},.]+) as ", them)]
    return collections.Counter(WORD.findall(IMPORT.sub("", text)) + renamed)


def blocks(lines):
    """The lines of a file with their numbers, cut before each one that isn't indented; a remark goes with what follows
    it."""
    block, ended = [], False
    for number, line in enumerate(lines, 1):
        starts = line.strip() and not line[0].isspace() and line[0] not in "})]"
        if starts and ended:
            yield block
            block, ended = [], False
        block.append((number, line))
        ended = ended or bool(line.strip()) and not line.startswith("--")
    if block:
        yield block


def items(path):
    """The items of a file: each name, with the numbers of its lines and their words."""
    lines = path.read_text().splitlines()
    found = {}
    for block in blocks(lines):
        code = [line for _, line in block if line.strip() and not line.startswith("--")]
        if not code or code[0].startswith(tuple(it + " " for it in NO_ITEMS)):
            continue
        name = HEAD.match(code[0])[1]
        # (`do` names its bind nowhere)
        if name == "◌>>=◌":
            continue
        numbers, text = found.setdefault(name, ([], []))
        numbers += [number for number, _ in block]
        text += code
    return {name: (numbers, words("\n".join(text))) for name, (numbers, text) in found.items()}


def parts(name):
    """A name as it is written where it is used: of a name with gaps its parts."""
    return [it for it in name.split("◌") if it] if "◌" in name else [name]


def unused(counts, known):
    """The items that nothing names, again and again without those that are unused."""
    gone, more = set(), True
    while more:
        more = {
            item
            for item, (_, own) in known.items()
            if item not in gone and all(counts[part] <= own[part] for part in parts(item[1]))
        }
        for item in more:
            counts -= known[item][1]
        gone |= more
    return gone


def main(names):
    crates = ROOT / "crates"
    files = [
        it
        for part in ("src", "specs", "proofs")
        for it in sorted(crates.glob(f"*/{part}/**/*"))
        if it.suffix in (".rt", ".antt")
    ]
    counts = collections.Counter()
    for file in files:
        counts += words(file.read_text())
    known = {}
    for file in files:
        place = file.relative_to(crates)
        if file.suffix == ".antt" and len(place.parts) == 3 and file.name not in ("Lib.antt", "Examples.antt"):
            known |= {(str(place), name): them for name, them in items(file).items()}
    gone = unused(counts, known)
    if names:
        gone = {it for it in gone if it[0].split("/")[0] in names}
    for place, name in sorted(gone, key=lambda it: (it[0], known[it][0][0])):
        numbers = known[place, name][0]
        print(f"crates/{place}:{numbers[0]}: {name}, {len(numbers)} lines")
    for part in ("proofs", "specs"):
        of_part = [it for it in gone if it[0].split("/")[1] == part]
        print(f"{part}: {len(of_part)} items, {sum(len(known[it][0]) for it in of_part)} lines")
    return 0


if __name__ == "__main__":
    sys.exit(main(sys.argv[1:]))
