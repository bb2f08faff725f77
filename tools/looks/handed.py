"""What crates hand on from others: types and calls by `pub use` in src/lib.rt, definitions and lemmas by `pub use
Rattle.LOWER..` in specs/Lib.antt and proofs/Lib.antt. `tools/ready` asks it.

- A crate hands on only what stands in a neighbour of its own, not what that one hands on itself.
- There are at most MOST such lines."""
import re

MOST = 150
CODE = re.compile(r"^pub use (\w+)::(?:\{([^}]*)\}|(\w+));", re.M)
GHOST = re.compile(r"^pub use Rattle\.(\w+)\.(\w+)\.(\w+)(?: as (\w+))?$", re.M)


def neighbours(root):
    """The crates, each with those that it lists."""
    rows = re.findall(r"^(\w+):(.*)$", (root / "crates.txt").read_text(), re.M)
    names = {name for name, _ in rows}
    return {name: [it for it in words.split() if it in names] for name, words in rows}


def handed(root, crates):
    """Each line by crate and part: the crate that it names, and the names as they are known there and here."""
    for crate in crates:
        for part, file in (("code", "src/lib.rt"), ("specs", "specs/Lib.antt"), ("proofs", "proofs/Lib.antt")):
            path = root / "crates" / crate / file
            text = path.read_text() if path.is_file() else ""
            if part == "code":
                for below, names, name in CODE.findall(text):
                    if below in crates:
                        listed = re.findall(r"(\w+)(?: as (\w+))?", names or name)
                        yield crate, part, below, [(there, here or there) for there, here in listed]
            else:
                for below, of_part, there, here in GHOST.findall(text):
                    if below in crates and below != crate:
                        yield crate, of_part, below, [(there, here or there)]


def lacking(root):
    """What is to be mended, a line each."""
    crates = neighbours(root)
    lines = list(handed(root, crates))
    known = {(crate, part, here) for crate, part, _, names in lines for _, here in names}
    for crate, part, below, names in lines:
        for there, _ in names:
            if (below, part, there) in known:
                yield f"crates/{crate}: hands on {there}, which {below} only hands on"
    if len(lines) > MOST:
        yield f"{len(lines)} lines only hand on, and {MOST} at most (docs/architecture.md, 'Rules of the house')"
