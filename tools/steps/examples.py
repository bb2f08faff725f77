"""Runs the built program on the tables of texts and of scripts in examples/, and compares standard output and the
status with the tables; of a refused text also the line, the column and the carets on standard error with the place that
the plain checker (tools/oracles/plain_point.py) points at.

- `check`: each text of examples/ with its lines in expected.txt, also `standard` and `monitors` by their words; the
  texts of refusals.txt; and two texts cut off after each of their tokens.
- `play`: the scripts of scripts/table.txt, and of links/table.txt, sets.txt and names.txt, those of terminals and of
  link sets; and links/*.script, which contain their own expectations.

usage: tools/steps/examples [NAME ..]
           the cases whose names begin so, all if none is named; of crates/mtp2_play/out/mtp2_play, or of the program
           that MTP2_PLAY names
       tools/steps/examples --plain
           asks the plain checker and the plain players, written apart from the program, in its place
       tools/steps/examples --list        prints the names of all cases

The last line is `N passed, M failed`, and the status 1 if one failed. In refusals.txt `== NAME` begins an entry, and
a line `--` parts its text from the lines that are printed for it. `%N{..}` in a text, or in its lines, stands for N
copies of what is in the braces, in which `#` is the number of the copy, from 1. In a table of scripts `== TEXT: NAME`
begins an entry, where TEXT is a file of examples/scripts or of examples; a line `--` parts the script from the lines;
`exit N` as the last line says a status that isn't 0; `<CR>` and `<TAB>` stand for these characters, `%N{..}` for N
copies."""
import pathlib
import re
import sys
import tempfile

from tools.oracles.plain_check import lex
from tools.oracles.plain_commands import check_says
from tools.oracles.plain_group import entries as link_entries
from tools.oracles.plain_group import play as play_link
from tools.oracles.plain_play import play as play_book
from tools.oracles.plain_point import differs as points_elsewhere
from tools.oracles.plain_term import SETS, text_of
from tools.steps.built import PLAY, ROOT, Count, Run, differs, missing

EXAMPLES = ROOT / "examples"
# The texts that are also read cut off after each of their tokens.
CUT = ["counter.sdl", "lock.sdl"]
# The tables of scripts of terminals and of link sets.
LINKS = ["table.txt", "sets.txt"]
COPIES = re.compile(r"%(\d+)\{([^}]*)\}")
# The plain checker reads texts with fewer parentheses than this.
MOST_NESTED = 1000


def copied(text):
    """The text with its copies written out."""
    return COPIES.sub(lambda m: "".join(m[2].replace("#", str(n)) for n in range(1, int(m[1]) + 1)), text)


def parted(path):
    """The name of each entry of a table, and the lines before and after its line `--`."""
    for part in (EXAMPLES / path).read_text().split("\n== ")[1:]:
        name, rest = part.split("\n", 1)
        given, lines = ("\n" + rest).split("\n--\n")
        yield name, given[1:], lines.strip("\n")


def expected():
    """The expected output for each text of examples/, by its file name."""
    parts = (it.split("\n") for it in (EXAMPLES / "expected.txt").read_text().strip("\n").split("\n\n"))
    return {name: lines for name, *lines in parts}


def strays():
    """The files that stand in one of examples/ and expected.txt only."""
    return sorted({it.name for it in EXAMPLES.glob("*.sdl")} ^ set(expected()))


def beginnings(name, text):
    """The text cut before each of its tokens: what is left is unexpected at its end, in the line of its last token."""
    places = [place for _, _, place in lex(text.encode())]
    for number, end in enumerate(places):
        line = text.count("\n", 0, places[number - 1]) + 1 if number else 1
        yield f"{name}, the first {number} tokens", text[:end], f"refused P1 Unexpected line {line}"


def texts():
    """The name, the text and the lines of each text."""
    for name, lines in expected().items():
        yield name, (EXAMPLES / name).read_text(), "\n".join(lines)
    for name, text, lines in parted("refusals.txt"):
        yield f"refusals.txt, {name}", copied(text).rstrip("\n"), copied(lines).strip("\n")
    for name in CUT:
        yield from beginnings(name, (EXAMPLES / name).read_text())


def book_scripts():
    """The name, the text, the script, the lines and the status of each entry of the table of book scripts."""
    for name, script, lines in parted("scripts/table.txt"):
        file = name.split(":")[0]
        path = EXAMPLES / "scripts" / file
        lines, status = lines.split("\n"), 0
        if lines[-1].startswith("exit "):
            status = int(lines.pop()[5:])
        script = copied(script).replace("<CR>", "\r").replace("<TAB>", "\t")
        yield name, (path if path.is_file() else EXAMPLES / file).read_text(), script, [
            it for it in lines if it
        ], status


def link_scripts():
    """The name, the script, the lines and the status of each entry of the tables of scripts of terminals and of link
    sets, with the word or the file of the set of processes; and of each text that may lack a name."""
    for table in LINKS:
        for name, *rest in link_entries((EXAMPLES / "links" / table).read_text()):
            yield f"{table}, {name}", *rest
    for line in (EXAMPLES / "links" / "names.txt").read_text().split("\n== ", 1)[1].split("\n"):
        lacking, there, edits = line.partition(": ")
        if there and not line.startswith("== "):
            word = f"links/least.sdl | {edits}"
            yield f"names.txt, {word}: {lacking or 'lacks nothing'}", word, "terminal basic\ncommand power", [
                f"refused X2 NoName {lacking}" if lacking else "ok"
            ], 2 if lacking else 0


def held():
    """The name and the script of each that contains its own expectations."""
    for path in sorted((EXAMPLES / "links").glob("*.script")):
        yield path.name, path.read_bytes()


def whole(lines):
    return "".join(f"{it}\n" for it in lines).encode()


def kept(folder, made, text):
    """The file of a text in the folder, the same for the same text."""
    if text not in made:
        made[text] = folder / f"set{len(made)}.sdl"
        made[text].write_text(text)
    return str(made[text])


def cases(folder):
    """Each case by its name: the words of a command line, standard input, standard output, if it is known, and the
    status. Texts are written to the folder."""
    files, made = expected(), {}
    for name, text, lines in texts():
        words, given = (["check", str(EXAMPLES / name)], b"") if name in files else (["check", "stdin"], text.encode())
        yield f"check: {name}", words, given, whole(lines.split("\n")), 2 if lines.startswith("refused") else 0
    for word, name in SETS.items():
        yield f"check: {word}", ["check", word], b"", whole(files[name]), 0
    for name, text, script, lines, status in book_scripts():
        yield f"play: {name}", ["play", kept(folder, made, text), "stdin"], script.encode(), whole(lines), status
    for name, word, script, lines, status in link_scripts():
        given = word if word in SETS else kept(folder, made, text_of(word))
        yield f"play: {name}", ["play", given, "stdin"], script.encode(), whole(lines), status
    for name, script in held():
        yield f"play: {name}", ["play", "standard", "stdin"], script, None, 0


def fault(words, given, wrote, status):
    """What is wrong with the run of a command line, if something is."""
    run = Run(words, given)
    if run.status != status:
        return f"status {run.status} and not {status}; it wrote {run.wrote[-200:].decode(errors='replace')!r}"
    wrong = None if wrote is None else differs(wrote, run.wrote)
    if wrong or words[0] != "check" or status != 2:
        return wrong
    text = given if words[1] == "stdin" else pathlib.Path(words[1]).read_bytes()
    wrong = None if text.count(b"(") >= MOST_NESTED else points_elsewhere(words[1], text, run.said)
    return wrong and f"of standard error {wrong}"


def plain_cases():
    """Each case by its name: the plain program that prints it, its input, the lines, if they are known, and the
    status."""
    for name, text, lines in texts():
        if text.count("(") >= MOST_NESTED:
            continue
        yield f"check: {name}", check_says, (text.encode(),), lines.split("\n"), 2 if lines.startswith("refused") else 0
    for name, text, script, lines, status in book_scripts():
        yield f"play: {name}", said_by, (play_book, text.encode(), script.encode()), lines, status
    for name, word, script, lines, status in link_scripts():
        yield f"play: {name}", said_by, (play_link, word, script.encode()), lines, status
    for name, script in held():
        yield f"play: {name}", said_by, (play_link, "standard", script), None, 0


def said_by(player, text, script):
    said = []
    return said, player(text, script, said.append)


def plain_fault(says, given, lines, status):
    """What is wrong with the output of the plain programs, if something is."""
    said, ended = says(*given)
    if ended != status:
        return f"status {ended} and not {status}"
    return None if lines is None else differs(whole(lines), whole(said))


def main(words):
    is_plain, names = words[:1] == ["--plain"], tuple(it for it in words if not it.startswith("--"))
    count = Count("examples")
    with tempfile.TemporaryDirectory() as room:
        found = list(plain_cases() if is_plain else cases(pathlib.Path(room)))
        if words == ["--list"]:
            print("\n".join(name for name, *_ in found))
            return 0
        if not is_plain and missing(PLAY):
            return 2
        for name in strays():
            count.case(name, "stands in one of examples/ and expected.txt only")
        chosen = [
            it for it in found if not names or it[0].startswith(names) or it[0].split(": ", 1)[1].startswith(names)
        ]
        count.all(chosen, plain_fault if is_plain else fault)
    return count.end()


if __name__ == "__main__":
    sys.exit(main(sys.argv[1:]))
