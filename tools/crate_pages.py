"""Names in the crates' README.md that aren't there, and names that these leave out. `tools/ready` calls it.

- Each crate has one.
- Each contract that 'What a caller may rest on' cites, as (`function`: clause, clause; `Type::function`), is one of the
  crate's; and it is one of a public call, unless its point begins with 'Inside'.
- Each definition of the table in 'Definitions' stands in the file of specs that its row names, and each such file, but
  Lib, is named there.
- Each path is there, and no line is longer than 120 columns."""
import re

from tools.doc_names import PATH, rows, sections, text_of

CITED = re.compile(r"\((`[\w:]+`(?:: \w+(?:, \w+)*)?(?:; `[\w:]+`(?:: \w+(?:, \w+)*)?)*)\)")
HANDED = re.compile(r"^pub use ([\w:]+?)(?:::\{([^}]*)\})?;", re.M)
WIDTH = 120


def functions(folder):
    """The functions of a crate, those of a type as `Type::function`, and the types that say what they print: (name,
    file, clauses, public)."""
    lib = text_of(folder / "src" / "lib.rt") or ""
    handed, open_files = set(), {"lib.rt", *(f"{name}.rt" for name in re.findall(r"^pub mod (\w+);", lib, re.M))}
    for path, names in HANDED.findall(lib):
        handed.update(re.findall(r"\w+", names) if names else [path.split("::")[-1]])
    for path in sorted((folder / "src").rglob("*.rt")):
        file = str(path.relative_to(folder / "src"))
        kind, found = "", []
        for line in path.read_text().split("\n"):
            if begun := re.match(r"(impl\b|(?:pub )?trait\b).*?(\w+)(?:<[^{]*)? \{$", line):
                kind, trait, found = begun[2], not begun[1].startswith("impl"), []
            elif line == "}":
                kind, found = "", []
            if begun := re.match(r"(\s*)(pub(?:\(crate\))? )?(?:const )?fn (\w+)", line):
                known = kind in handed if kind else begun[3] in handed
                public = (known or file in open_files) and (begun[2] == "pub " or bool(kind) and trait)
                found = []
                yield f"{kind}::{begun[3]}" if kind else begun[3], file, found, public
            if clause := re.match(r"\s*ensures (\w*) ?\{", line):
                found.append(clause[1])
            elif kind and re.match(r"\s*ghost output = ", line):
                yield kind, file, ["output"], kind in handed or file in open_files


def contracts(folder):
    """The clauses of each function of a crate, and of each by its type: `f` and `Type::f`."""
    known = {}
    for name, _, clauses, _ in list(functions(folder)):
        for it in {name, name.split("::")[-1]} if clauses else ():
            known.setdefault(it, set()).update(clauses)
    return known


def tabled(text):
    """The definitions that a README's table names, each with the files that its row names."""
    section = dict(sections(text)).get("Definitions", "")
    return [
        (re.findall(r"`(\w+)`", cells[0]), re.findall(r"\w+", cells[2]))
        for cells in rows(section)
        if len(cells) == 4 and cells[0] != "Name"
    ]


def cited(folder, text):
    """The contracts that a README cites and the crate lacks, or doesn't hand on though no 'Inside' says so. (A program
    hands nothing on.)"""
    known = contracts(folder)
    public = {it for name, _, _, open_ in list(functions(folder)) if open_ for it in (name, name.split("::")[-1])}
    for point in re.split(r"\n(?=- )", dict(sections(text)).get("What a caller may rest on", "")):
        point = re.sub(r"\s+", " ", point).strip()
        for one in [it for group in CITED.findall(point) for it in group.split("; ")]:
            function, _, clauses = one.replace("`", "").partition(": ")
            lacks = [it for it in clauses.split(", ") if it not in known.get(function, ())] if clauses else []
            if function not in known or lacks:
                yield f"no contract `{function}`" + (f": {', '.join(lacks)}" if lacks else "")
            elif function not in public and not point.startswith("- Inside") and (folder / "src" / "lib.rt").exists():
                yield f"`{function}` isn't handed on"


def defines(text, name):
    """Whether a file of specs has a definition of this name, and not only an import of it."""
    return re.search(rf"^\s*(?:\w+ )*pub (?:\w+ )*{re.escape(name)}(?!\w)", text, re.M)


def defined(folder, text):
    """The definitions and files that its table names and the crate lacks, and the files of specs that 'Definitions'
    doesn't name."""
    specs = {it.stem: it.read_text() for it in sorted((folder / "specs").glob("*.antt"))}
    for names, files in tabled(text):
        yield from (f"no file {it} in specs" for it in files if it not in specs)
        for name in names:
            if not any(defines(specs.get(it, ""), name) for it in files):
                yield f"no {name} in {', '.join(files)}"
    section = dict(sections(text)).get("Definitions", "")
    yield from (
        f"says nothing of the definitions in {it}"
        for it in specs
        if it != "Lib" and not re.search(rf"(?<!\w){it}(?!\w)", section)
    )


def written(root, text):
    """The paths that it writes and that aren't there, and the lines that are too long."""
    yield from (f"no file {it}" for it in sorted(set(PATH.findall(text))) if not (root / it).exists())
    yield from (
        f"line {number} has {len(line)} columns" for number, line in enumerate(text.split("\n"), 1) if len(line) > WIDTH
    )


def crates(root):
    """The folders of all crates."""
    return sorted(it for it in (root / "crates").iterdir() if (it / "src").is_dir())


def lacking(root):
    """The faults, a line each."""
    found = []
    for folder in crates(root):
        text = text_of(folder / "README.md")
        if text is None:
            found.append(f"crates/{folder.name}: no README.md")
        else:
            found += [
                f"crates/{folder.name}/README.md: {what}"
                for what in [*cited(folder, text), *defined(folder, text), *written(root, text)]
            ]
    return found
