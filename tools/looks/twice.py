"""Counts the statements that are proved in two files or more: those could stand once, below the crates that use them.

usage: tools/looks/twice [--all] [CRATE ..]
           the most frequent 40, or all; of the crates that are named, or of the whole repository

A statement is the type of an item of proofs/ that has clauses, with the parameters of the module that it stands in; the
names of items and of bound variables don't count. It only reads the files and proves nothing, so two statements in
different words with one meaning count as two."""
import pathlib
import re
import sys

ROOT = pathlib.Path(__file__).resolve().parents[2]
ITEM = re.compile(r"(?:(?:pub|unfoldable|abbrev|opaque)\s+)*([^\s:(){},.]+)\s*:\s")
MODULE = re.compile(r"module\s+\S+\s*(.*?)\s*where\s*$", re.S)
BINDER = re.compile(r"[({]((?:[^\s(){}:,]+ )+): ")
LAMBDA = re.compile(r"λ ([^.\s]+(?: [^.\s]+)*?)\.")
SORTS = "List Option Result Bool ℕ ℤ Type Unit String".split()


def blocks(lines):
    """The lines of a file, cut before each one that isn't indented; lines of remarks are left out."""
    block = []
    for line in lines:
        if not line.strip() or line.lstrip().startswith("--"):
            continue
        if not line[0].isspace() and block:
            yield block
            block = []
        block.append(line)
    if block:
        yield block


def items(lines, given=""):
    """Each item that has clauses: its name, its type after its parameters, and how many lines it has."""
    types, sizes = {}, {}
    for block in blocks(lines):
        module = MODULE.match(block[0]) if block[0].startswith("module ") else None
        found = ITEM.match(block[0])
        name = block[0].split()[0]
        if module:
            yield from items([line[2:] for line in block[1:]], given + " ".join(module[1].split()) + " → ")
        elif block[0].split()[-1] == "mutual":
            yield from items([line[2:] for line in block[1:]], given)
        elif name in types:
            sizes[name] = sizes.get(name, 0) + len(block)
        elif found:
            types[found[1]] = given + " ".join("\n".join(block)[found.end() :].split()), len(block)
    for name, size in sizes.items():
        yield name, types[name][0], types[name][1] + size


def plain(said):
    """A type with each bound variable on its own, all numbered in the order in which they are bound, and without
    parentheses."""
    said = BINDER.sub(lambda them: f"({them[1]}: ", said.replace("{", "(").replace("}", ")"))
    said = re.sub(
        r"\(((?:[^\s():,]+ )+): ([^()]*)\)", lambda it: " ".join(f"({name} : {it[2]})" for name in it[1].split()), said
    )
    bound = [name for them in [*BINDER.findall(said), *LAMBDA.findall(said)] for name in them.split()]
    number = {name: f"v{at}" for at, name in enumerate(dict.fromkeys(bound))}
    said = re.sub(r"[^\s().,:]+", lambda word: number.get(word[0], word[0]), said)
    return " ".join(re.sub(r"[()]", " ", said).split())


def is_statement(said):
    """Whether a type says something, and isn't that of a function on data."""
    last = re.split(r"→", said)[-1].strip()
    return bool(re.search(r"[≡≤<↔⊥]", last)) or last[:1].isupper() and last.split()[0] not in SORTS


def main(words):
    names = [it for it in words if it != "--all"]
    found = {}
    for file in sorted((ROOT / "crates").glob("*/proofs/**/*.antt")):
        crate = file.relative_to(ROOT / "crates").parts[0]
        if names and crate not in names:
            continue
        for name, said, size in items(file.read_text().splitlines()):
            if is_statement(said):
                found.setdefault(plain(said), []).append((str(file.relative_to(ROOT / "crates")), name, said, size))
    often = [it for it in found.values() if len({file for file, *_ in it}) > 1]
    often.sort(key=lambda it: (-len(it), it[0][2]))
    for them in often if "--all" in words else often[:40]:
        print(f"{len(them)} times: {them[0][2][:180]}")
        print("    " + ", ".join(f"{file}: {name}" for file, name, *_ in them))
    lines = sum(size for it in often for *_, size in it[1:])
    across = sum(len({file.split("/")[0] for file, *_ in it}) > 1 for it in often)
    print(
        f"{len(often)} statements are proved in two files or more, {across} of them in two crates or more; {lines} "
        "lines would go"
    )
    return 0


if __name__ == "__main__":
    sys.exit(main(sys.argv[1:]))
