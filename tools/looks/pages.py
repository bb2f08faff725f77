"""Links and commands of the pages that lead nowhere, and wordings to avoid. `tools/ready` calls it.

- README.md has at most 170 lines.
- Each link of a page leads to a file or a heading that is there.
- Each command that a page writes is there: of bin/, tools/, bench/ and examples/ by its file, of the program by name
  with its options.
- The patterns of ENGLISH occur no more often than TODAY, in pages and in the comments of the crates.

A page is a file of Markdown in git, but docs/index.md, which is made from the others."""
import functools
import re
import subprocess

README_LINES = 170
LINK = re.compile(r"(?<!!)\[[^\]]*\]\(([^)\s]+)\)")
IMAGE = re.compile(r"!\[[^\]]*\]\(([^)\s]+)\)")
# A command of the repository, or of the program, with its words up to where the shell reads something else.
COMMAND = re.compile(r"(?<![\w/.])((?:bin|tools|bench|examples)/[\w./-]*\w)")
PROGRAM = re.compile(r"(?<![\w/.])(?:bin/mtp2_play|bin/mtp2|bin/try|mtp2_play) ([a-z]\w*)([^|>;&`\n]*)")
NAMED = re.compile(r'alloc,\s*"([\w-]+)",')
CODE = re.compile(r"`[^`]*`")
# The wordings to avoid. Each is looked for in a line outside of code.
ENGLISH = {
    "behind": r"\bbehind\b",
    "want of memory": r"\bwant of memory\b",
    "no clause says": r"\bno clause says\b",
    "who of them": r"\bwho of (?:them|whom)\b",
    "its own affair": r"\bown affair\b",
    "alone": r"\balone\b",
    "The same": r"^(?:///?|//!|--) The same\b",
    "that may": r"\bthat may(?:[.,;:)]|$)",
}
# In how many lines of the pages and of the comments each stands today: `tools/ready` refuses more. Whoever takes some
# away writes the new number.
TODAY = {
    "behind": (1, 0),
    "want of memory": (0, 0),
    "no clause says": (0, 0),
    "who of them": (0, 0),
    "its own affair": (0, 0),
    "alone": (0, 0),
    "The same": (0, 1),
    "that may": (0, 0),
}


def listed(root, *patterns):
    """The files in git by these patterns, with those that aren't added yet."""
    words = ["git", "-C", root, "ls-files", "--cached", "--others", "--exclude-standard", *patterns]
    names = subprocess.run(words, capture_output=True, text=True).stdout.splitlines()
    return [root / it for it in sorted(set(names)) if (root / it).is_file()]


def pages(root):
    return [it for it in listed(root, "*.md") if it.relative_to(root).as_posix() != "docs/index.md"]


@functools.cache
def text_of(path):
    return path.read_text()


def lines(text):
    """The lines of a page by number, and whether each is code: in a fence, or set in."""
    fenced = False
    for number, line in enumerate(text.split("\n"), 1):
        if line.lstrip().startswith("```"):
            fenced = not fenced
        else:
            yield number, line, fenced or line.startswith("    ")


def plain_lines(text):
    """The lines that aren't code, without what stands in backquotes, by number."""
    return [(number, CODE.sub("``", line)) for number, line, is_code in lines(text) if not is_code]


def code_pieces(text):
    """What is code, by number of the line: lines of it, and what stands in backquotes."""
    for number, line, is_code in lines(text):
        yield from ((number, it) for it in ([line] if is_code else CODE.findall(line)))


def anchors(text):
    """What a link can name of a page: its headings, as they are shown on the web."""
    found = []
    for _, line, is_code in lines(text):
        if not is_code and (heading := re.match(r"#+ (.*)", line)):
            words = re.sub(r"\[([^\]]*)\]\([^)]*\)", r"\1", heading[1])
            name = re.sub(r"[^\w -]", "", words).strip().lower().replace(" ", "-")
            found.append(f"{name}-{found.count(name)}" if name in found else name)
    return found


def links(root, page):
    """The links of a page that lead nowhere."""
    for number, line in plain_lines(text_of(page)):
        for target in [*LINK.findall(line), *IMAGE.findall(line)]:
            if re.match(r"\w+:", target):
                continue
            name, _, heading = target.partition("#")
            file = (page.parent / name).resolve() if name else page
            if not file.exists():
                yield number, f"no file {name}"
            elif heading and (file.suffix != ".md" or heading not in anchors(text_of(file))):
                yield number, f"no heading {target}"


@functools.cache
def words_of_program(root):
    """The commands of the program and its options, by their sources."""
    sources = sorted((root / "crates" / "mtp2_words" / "src").glob("*.rt"))
    return set(NAMED.findall("\n".join(it.read_text() for it in sources))) | {"help", "version"}


def commands(root, page):
    """The commands of a page that aren't there."""
    known = words_of_program(root)
    for number, piece in code_pieces(text_of(page)):
        for path in COMMAND.findall(piece):
            if not (root / path).exists() and "/out/" not in path and not re.search(r"[A-Z]{2}", path):
                yield number, f"no file {path}"
        for name, words in PROGRAM.findall(piece):
            lacks = [it for it in [name, *re.findall(r"(?<!\S)--([a-z][\w-]*)", words)] if it not in known]
            yield from ((number, f"the program has no {it}") for it in lacks)


def comments(text):
    """The lines of comments, by number, and whether a comment begins with it."""
    within = False
    for number, line in enumerate(text.split("\n"), 1):
        line = line.strip()
        is_comment = line.startswith(("//", "--"))
        if is_comment:
            yield number, line, not within
        within = is_comment


def places(root):
    """Where the patterns stand: the pattern, 0 for a page or 1 for a comment, the file, the line's number."""
    looks = {it: re.compile(how, re.I if how[0] != "^" else 0) for it, how in ENGLISH.items()}
    # (few lines have one of them: each is looked for in these only)
    any_of = re.compile("|".join(how.lstrip("^") for how in ENGLISH.values()), re.I)
    for page in pages(root):
        for number, line in plain_lines(text_of(page)):
            found = [it for it, look in looks.items() if look.search(line)] if any_of.search(line) else []
            yield from ((it, 0, page, number) for it in found)
    for path in listed(root, "crates/*.rt", "crates/*.antt"):
        for number, line, begins in comments(path.read_text()):
            if any_of.search(line):
                found = [it for it, look in looks.items() if look.search(CODE.sub("``", line))]
                yield from ((it, 1, path, number) for it in found if begins or it != "The same")


def counted(root):
    found = {it: [0, 0] for it in ENGLISH}
    for pattern, kind, *_ in places(root):
        found[pattern][kind] += 1
    return found


def english(root):
    """The patterns that there are more of than is written here."""
    for pattern, numbers in counted(root).items():
        for kind, number, most in zip(("pages", "comments of crates"), numbers, TODAY[pattern]):
            if number > most:
                yield f"'{pattern}' in {number} lines of the {kind}, {most} before (tools/ready --english says where)"


def report(root):
    """The lines of the report: each place, and how many there are by pattern, in pages and in comments."""
    for pattern, _, path, number in places(root):
        yield f"{path.relative_to(root)}:{number}: {pattern}"
    for pattern, (in_pages, in_comments) in counted(root).items():
        yield f"{pattern}: {in_pages} in pages, {in_comments} in comments"


def lacking(root):
    """What is to be mended, a line each."""
    text_of.cache_clear()
    length = text_of(root / "README.md").count("\n")
    if length > README_LINES:
        yield f"README.md: {length} lines, {README_LINES} at most"
    for page in pages(root):
        for number, what in [*links(root, page), *commands(root, page)]:
            yield f"{page.relative_to(root)}:{number}: {what}"
    yield from english(root)
