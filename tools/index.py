"""Writes docs/index.md: a row for each definition that a table of a crate's README names, with its crate and file, and
one for each public call of a crate, with its crate, its file and the names of its contract's clauses, all by name.

usage: tools/index            writes docs/index.md, and says how many rows it has
       tools/index --check    says whether it is up to date (status 0), or not (1); `tools/ready` calls it"""
import pathlib
import sys

from tools.crate_pages import crates, defines, functions, tabled
from tools.doc_names import text_of

HEAD = """# Index

By name: each definition that a table of a crate's README.md names (its file is specs/FILE.antt of the crate), and each
public call with the names of its contract's clauses (its file is src/FILE.rt; `-`: one clause without a name).
`tools/index` writes this page.

| Name | Crate | File | Clauses |
|---|---|---|---|
"""


def definitions(folder):
    """The definitions of a crate's README, each with the first of its files that has it."""
    text = text_of(folder / "README.md") or ""
    for names, files in tabled(text):
        for name in names:
            has = [it for it in files if defines(text_of(folder / "specs" / f"{it}.antt") or "", name)]
            yield name, folder.name, f"specs/{(has or files)[0]}", ""


def calls(folder):
    """The public calls of a crate."""
    for name, file, clauses, public in list(functions(folder)):
        if public:
            yield name, folder.name, f"src/{file.removesuffix('.rt')}", ", ".join(it or "-" for it in clauses)


def page(root):
    found = set()
    for folder in crates(root):
        found.update(definitions(folder), calls(folder))
    ordered = sorted(found, key=lambda row: (row[0].lower(), *row))
    return HEAD + "".join(
        f"| `{name}` | {crate} | {file} | {clauses} |\n" for name, crate, file, clauses in ordered
    ), len(ordered)


def main(words):
    root = pathlib.Path(__file__).resolve().parent.parent
    text, number = page(root)
    path = root / "docs" / "index.md"
    if words == ["--check"]:
        same = path.is_file() and path.read_text() == text
        print(f"docs/index.md: {number} rows" if same else "docs/index.md: isn't what tools/index writes")
        return 0 if same else 1
    path.write_text(text)
    print(f"docs/index.md: {number} rows")
    return 0


if __name__ == "__main__":
    sys.exit(main(sys.argv[1:]))
