"""Paths of a contract or a definition that reach three fields deep, and into a value whose type belongs to another
crate, as `k.terminal.processes.transceiver`. A reader has to know the fields of three types for such a path: a
definition with a name of the field, in the crate that has the type, says it. `tools/ready` refuses more than there are.

usage: tools/looks/fields [FOLDER]
           each place; of the repository in FOLDER, else of this one

What counts: the paths in `requires`, `ensures` and ghost items of src/, in all of specs/ and in the invariants of
loops, where `l.x` and `l.initial.x` are the variable x. `.now`, `.old`, `.new`, `.items` and `.0` are no fields here.
A path all of whose fields are those of types of the crate itself, or of std, doesn't count."""
import pathlib
import re
import sys

ROOT = pathlib.Path(__file__).resolve().parent.parent.parent
DEEP = 3
# How many there are today: `tools/ready` refuses more. Whoever lowers it writes the new number.
TODAY = 0
VERSIONS = {"now", "old", "new", "items"}
WORD = re.compile(r"[A-Za-z]\w*")
PATH = re.compile(r"(?:(?<![\w.])[a-z_]\w*|\))((?:\.[a-z_0-9]\w*)+)")
CLAUSE = re.compile(r"\b(?:requires|ensures|ghost)\b(?! use)[^{;\n]*\{")


def declared(folder):
    """The types of a crate, its structs and the records of its definitions: type, field, and the words of the field's
    type."""
    types = {}
    for path in sorted((folder / "src").rglob("*.rt")):
        for it in re.finditer(r"^pub(?:\(\w+\))? struct (\w+)[^;{]*\{\n(.*?)^\}", path.read_text(), re.M | re.S):
            of_struct(types.setdefault(it[1], {}), it[2], r"^    (?:pub(?:\(\w+\))? )?(?:ghost )?(\w+): (.*?),?$")
        for it in re.finditer(r"^struct (\w+)[^;{]*\{\n(.*?)^\}", path.read_text(), re.M | re.S):
            of_struct(types.setdefault(it[1], {}), it[2], r"^    (?:ghost )?(\w+): (.*?),?$")
    for path in sorted((folder / "specs").rglob("*.antt")):
        for it in re.finditer(r"^pub record (\w+)(.*?)(?=^\S)", path.read_text() + "\n-", re.M | re.S):
            of_struct(types.setdefault(it[1], {}), it[2], r"^  pub (\w+) ?:(.*?)(?=^  pub|\Z)")
    return types


def of_struct(fields, text, form):
    for name, kind in re.findall(form, text, re.M | re.S if "Z" in form else re.M):
        fields.setdefault(name, set()).update(WORD.findall(kind))


def is_near(types, others, fields):
    """Whether each field of a path is one of a type of this crate, or of a type of std within such a one."""
    at, words = set(types), set()
    for field in fields:
        found = [types[it][field] for it in at if field in types[it]]
        if not found:
            return not words & others and any(it[0].isupper() for it in words - set(types))
        words = set().union(*found)
        at = words & set(types)
    return True


def clauses(text):
    """The contracts and ghost items of a file of code: (place, text)."""
    for begun in CLAUSE.finditer(text):
        depth, at = 1, begun.end()
        while depth and at < len(text):
            depth += (text[at] == "{") - (text[at] == "}")
            at += 1
        yield begun.end(), text[begun.end() : at - 1]


def definitions(text):
    """A file of definitions, with blanks for its comments and imports."""
    blank = re.compile(r"--.*|^(?:pub )?use .*", re.M)
    return [(0, blank.sub(lambda it: " " * len(it[0]), text))]


def invariants(text):
    """A file of loops' invariants, with each variable by its name."""
    return [(0, re.sub(r"\bl\.(?:(?:initial|fn)\.)?(?=[a-z_])", "", part)) for _, part in definitions(text)]


def parts(path):
    """What counts in a file: (place, text)."""
    text = path.read_text()
    if path.suffix == ".rt":
        return clauses(text)
    return invariants(text) if path.name == "Invariants.antt" else definitions(text)


def files(folder):
    """The files of a crate that are read."""
    found = [*(folder / "src").rglob("*.rt"), *(folder / "specs").rglob("*.antt")]
    return sorted([*found, *(folder / "proofs").rglob("Invariants.antt")])


def deep(text):
    """The paths of a text of three fields and more: (place, fields)."""
    for it in PATH.finditer(text):
        fields = [name for name in it[1].split(".")[1:] if name not in VERSIONS and not name.isdigit()]
        if len(fields) >= DEEP:
            yield it.start(), fields


def places(root):
    """Each such path of the repository: its crate, file, line and fields."""
    known = {it: declared(it) for it in sorted((root / "crates").iterdir()) if (it / "src").is_dir()}
    every = set().union(*known.values())
    for folder, types in known.items():
        for path in files(folder):
            text = path.read_text()
            for begin, part in parts(path):
                for at, fields in deep(part):
                    if not is_near(types, every - set(types), fields):
                        line = text.count("\n", 0, begin) + part.count("\n", 0, at) + 1
                        yield f"{path.relative_to(root)}: line {line}: {'.'.join(fields)}"


def more_than_today(root):
    """What `tools/ready` says where there are more than before."""
    found = list(places(root))
    if len(found) > TODAY:
        yield f"{len(found)} paths reach {DEEP} fields deep, {TODAY} before (tools/looks/fields says where)"
        yield from found if not TODAY else ()


if __name__ == "__main__":
    found = list(places(pathlib.Path(sys.argv[1]).resolve() if sys.argv[1:] else ROOT))
    print("\n".join([*found, f"{len(found)} paths"]))
