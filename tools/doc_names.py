"""Names in the documents that the repository lacks: files, definitions, functions and clauses; and names that the
documents leave out. `tools/ready` calls it.

- docs/architecture.md: each crate has its row in the table of the rooms, and each row its crate.
- docs/standards.md: each definition, function, edit, quoted word of examples/ and heading of docs/ is there, and a
  quoted name is that of one entry.
- README.md and docs/*.md: each path that they write is there, except built files.
- tools/README.md: each tool is named there."""
import functools
import re

PATH = re.compile(r"(?<![\w/.])((?:docs|examples|tools|bench|bin|crates)/[\w./-]*\w)")


@functools.cache
def text_of(path):
    return path.read_text() if path.is_file() else None


def rows(text):
    """The rows of tables, as their cells."""
    return [
        [cell.strip() for cell in line.strip("|").split(" | ")] for line in text.split("\n") if line.startswith("| ")
    ]


def sections(text):
    """Each heading of second rank with the text after it."""
    parts = re.split(r"^## (.*)$", text, flags=re.M)
    return list(zip(parts[1::2], parts[2::2]))


def names_one(words, held):
    """Whether a text without entries has these words, or an entry has them for its name, or exactly one begins with
    them; a set's name in front doesn't count."""
    entries = [[it, it.partition(": ")[2]] for it in re.findall(r"^== (.*)$", held, re.M)]
    if not entries:
        return words in held
    return any(words in it for it in entries) or sum(any(name.startswith(words) for name in it) for it in entries) == 1


class Look:
    def __init__(self, root):
        self.crates, self.found = root / "crates", []

    def say(self, document, what):
        self.found.append(f"docs/{document}.md: {what}")

    def spec(self, crates, module, names, document):
        """A file of specs of one of the crates, with these definitions."""
        for crate in crates:
            text = text_of(self.crates / crate / "specs" / f"{module}.antt")
            if text is not None:
                return [name for name in names if not re.search(rf"(?<!\w){re.escape(name)}(?!\w)", text)]
        self.say(document, f"no file {module} in the specs of {', '.join(crates)}")
        return []


def architecture(look, text):
    """Each crate has its row in the table of the rooms, and each row its crate."""
    listed = {cells[0] for cells in rows(text.partition("\n## The rooms\n")[2].partition("\n## ")[0])}
    folders = {folder.name for folder in look.crates.iterdir() if folder.is_dir()}
    for name in sorted(folders - listed):
        look.say("architecture", f"no row for the crate {name}")
    for name in sorted(it for it in listed - folders if re.fullmatch("[a-z0-9_]+", it)):
        look.say("architecture", f"no crate {name}")


def standards(look, text):
    root = look.crates.parent
    for cells in rows(text):
        if not cells[0].startswith("**") and (len(cells) != 4 or not all(cells)):
            look.say("standards", f"not four cells: {cells[0]}")
    for rule, defined, decided, tested in [it for it in rows(text) if len(it) == 4]:
        for crate, module, names in re.findall(r"`(\w+)/specs/(\w+)`: ([\w, ]+)", defined):
            for name in look.spec([crate], module, re.findall(r"\w+", names), "standards"):
                look.say("standards", f"no {name} in {crate}/specs/{module}")
        for crate, file, names in re.findall(r"`(\w+)/src/([\w/]+\.rt)(?:: ([\w, ]+))?`", f"{decided} {tested}"):
            code = text_of(look.crates / crate / "src" / file)
            if code is None:
                look.say("standards", f"no file {crate}/src/{file}")
            for name in re.findall(r"\w+", names) if code else []:
                if not re.search(rf"\b(fn|struct|enum|trait|type|const|impl) {name}\b", code):
                    look.say("standards", f"no {name} in {crate}/src/{file}")
        for path, quoted in re.findall(r"`(examples/[\w./]+)`: ((?:\"[^\"]+\"(?:, )?)+)", f"{defined}; {tested}"):
            held = text_of(root / path) or ""
            for words in re.findall(r"\"([^\"]+)\"", quoted):
                if not names_one(words, held):
                    look.say("standards", f'no "{words}" in {path}, or several')
        for name in re.findall(r"`(\w+)`", " ".join(re.findall(r"\bedits? ((?:`\w+`(?:, )?)+)", tested))):
            if not any(root.glob(f"crates/*/must-fail/{name}.edit")) and not any(root.glob(f"edits/*/{name}.edit")):
                look.say("standards", f"no edit {name}")
        for document, heading in re.findall(r"\(([\w-]+\.md)#([\w-]+)\)", rule):
            if heading not in [
                re.sub(r"[^\w -]", "", it).lower().replace(" ", "-")
                for it, _ in sections(text_of(root / "docs" / document) or "")
            ]:
                look.say("standards", f"no heading {heading} in docs/{document}")


def paths(root):
    found = []
    for document in [root / "README.md", *sorted((root / "docs").glob("*.md"))]:
        for path in sorted(set(PATH.findall(document.read_text()))):
            if "CRATE" not in path and "NAME" not in path and "/out/" not in path and not (root / path).exists():
                found.append(f"{document.relative_to(root)}: no file {path}")
    return found


def tools(root):
    """The tools that their README doesn't name."""
    named = set(re.findall(r"`([\w.-]+)`", (root / "tools" / "README.md").read_text()))
    # (a command is named, or its module)
    named |= {f"{it.replace('-', '_')}.py" for it in named} | {it.removesuffix(".py") for it in named}
    files = [it for it in sorted((root / "tools").rglob("*")) if it.is_file() and "__pycache__" not in it.parts]
    return [
        f"tools/README.md: no {it.relative_to(root)}"
        for it in files
        if it.name not in named | {"README.md", "__init__.py"}
    ]


def lacking(root):
    """The faults, a line each."""
    look = Look(root)
    architecture(look, (root / "docs" / "architecture.md").read_text())
    standards(look, (root / "docs" / "standards.md").read_text())
    return look.found + paths(root) + tools(root)
