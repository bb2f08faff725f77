"""Counts what is longer or wider than it should be, by crate: files, bodies of functions, lists of parameters, lines.
`tools/ready --counts` prints it. `tools/ready` refuses any such place in the tools, and more of these files, bodies and
lists in the crates than there are today."""
import ast
import re
import subprocess

from tools.looks.functions import functions

# The most: lines of a file and of a body, parameters, columns of code and of documents.
FILE, BODY, PARAMETERS, WIDTH = 400, 40, 7, 120
# How many there are of these today, in all crates: `tools/ready` refuses more. Whoever lowers one writes the new
# number.
TODAY = {"files": 1, "bodies": 3, "parameters": 35}
# Lines of a function of the tools, one more than it may have.
TOOL_BODY = 60
KINDS = ["files", "bodies", "parameters", "columns", "columns of README"]
HEAD = [
    f"files over {FILE} lines",
    f"bodies over {BODY}",
    f"over {PARAMETERS} parameters",
    f"over {WIDTH} columns",
    "in README",
]


def wide(text):
    """The numbers of the lines that are too wide."""
    return [number for number, line in enumerate(text.split("\n"), 1) if len(line) > WIDTH]


def of_crate(folder):
    """What is too long or too wide in a crate, by kind: a line for each."""
    found = {it: [] for it in KINDS}
    for path in sorted((folder / "src").rglob("*.rt")):
        text, name = path.read_text(), str(path.relative_to(folder))
        if text.count("\n") > FILE:
            found["files"].append(f"{name}: {text.count(chr(10))} lines")
        for it in functions(name, text):
            if it.length > BODY:
                found["bodies"].append(f"{name}: {it.name}: {it.length} lines")
            if it.parameters > PARAMETERS:
                found["parameters"].append(f"{name}: {it.name}: {it.parameters} parameters")
        found["columns"] += [f"{name}: line {number}" for number in wide(text)]
    readme = folder / "README.md"
    if readme.is_file():
        found["columns of README"] = [f"README.md: line {number}" for number in wide(readme.read_text())]
    return found


def crates(root):
    return sorted(it for it in (root / "crates").iterdir() if (it / "src").is_dir())


def documents(root):
    """How many lines of README.md and docs/ are too wide, by file."""
    others = [root / name / "README.md" for name in ("edits", "tools")]
    found = [root / "README.md", *sorted((root / "docs").glob("*.md")), *others]
    return {str(it.relative_to(root)): len(wide(it.read_text())) for it in found if it.is_file()}


def report(root, names):
    """The lines of the report: a row for each crate that has something, the sums, the documents; of the crates that are
    named, each place."""
    counts = {it.name: of_crate(it) for it in crates(root)}
    rows = [[name, *(len(found[it]) for it in KINDS)] for name, found in counts.items() if any(found.values())]
    rows.append(["all", *(sum(row[at] for row in rows) for at in range(1, len(KINDS) + 1))])
    yield f"{'':20}" + "".join(f"{it:>20}" for it in HEAD)
    for row in rows:
        yield f"{row[0]:20}" + "".join(f"{it:20}" for it in row[1:])
    yield ", ".join(f"{name}: {number} lines over {WIDTH}" for name, number in documents(root).items() if number)
    for name in names:
        for kind, places in counts.get(name, {}).items():
            yield from (f"{name}: {kind}: {it}" for it in places)


def more_than_today(root):
    """The kinds of which the crates have more than is written here."""
    counts = [of_crate(it) for it in crates(root)]
    for kind, most in TODAY.items():
        number = sum(len(it[kind]) for it in counts)
        if number > most:
            yield (
                f"{HEAD[KINDS.index(kind)]}: {number} in all crates, {most} before (tools/ready --counts CRATE "
                "says where)"
            )


def long_functions(path):
    """The functions of a file of Python that are too long."""
    for it in ast.walk(ast.parse(path.read_text())):
        if isinstance(it, ast.FunctionDef) and it.end_lineno - it.lineno + 1 >= TOOL_BODY:
            yield f"{it.name} has {it.end_lineno - it.lineno + 1} lines, {TOOL_BODY - 1} at most"


def of_tools(root):
    """What is too long or too wide in the tools."""
    asked = subprocess.run(["git", "-C", root, "ls-files", "tools/*.py"], capture_output=True, text=True)
    for name in asked.stdout.splitlines():
        path = root / name
        if path.is_file():
            yield from (f"{name}: line {number} has more than {WIDTH} columns" for number in wide(path.read_text()))
            yield from (f"{name}: {it}" for it in long_functions(path))
            if re.search(r"^\s*sys\.path ?(\+|\.append|\.insert)", path.read_text(), re.M) and path.name != "kit.py":
                yield f"{name}: changes sys.path, which tools/run sets"
