"""Runs the built program on command lines, and compares standard output, standard error and the status with the
expected ones: the table examples/commands.txt, the refused texts of examples/pointed.txt, the texts with warnings of
examples/warnings.txt, and the examples of README.md and docs/: a line `    $ COMMAND`, with its output on the lines
below it; a line `..` there stands for any lines.

usage: tools/steps/commands            of crates/mtp2_play/out/mtp2_play, or of the program that MTP2_PLAY names
       tools/steps/commands --list     prints the command lines of the table

The last line is `N passed, M failed`, and the status 1 if one failed. In the table `== NAME` begins an entry and `==
file NAME` a file that lies in the folder where the command lines run, beside the folder examples. The first line of an
entry has the words, as a shell parts them; then come standard input, a line `--`, standard output, a
line `exit N`, and standard error. `%N{..}` stands for N copies of what is in the braces, `<XX>` for an octet in two
hexadecimal digits, a line `<TEXT NAME>` for the lines of a text in expected.txt, and a line `<FILE NAME>` for those of
a file of examples/."""
import itertools
import os
import pathlib
import re
import shlex
import subprocess
import sys
import tempfile

from tools.oracles.plain_point import shown as pointed_at
from tools.oracles.plain_warnings import MOST_SHOWN
from tools.steps import examples
from tools.steps.built import LIMIT, PLAY, ROOT, Count, Run, differs, missing

TABLE = ROOT / "examples" / "commands.txt"
COPIES = re.compile(rb"%(\d+)\{([^}]*)\}")
OCTET = re.compile(rb"<([0-9A-F]{2})>")
PRINTED = re.compile(r"<TEXT ([\w.]+)>")
MARK = re.compile(r"<A[0-9]+>")
COPIED = re.compile(r"<FILE ([\w.]+)>")


def octets(text):
    """The octets of a text of the table."""
    given = COPIES.sub(lambda it: it[2] * int(it[1]), text.encode())
    return OCTET.sub(lambda it: bytes.fromhex(it[1].decode()), given)


def parts():
    """The name of each entry and of each file, and the lines below it."""
    for part in TABLE.read_text().split("\n== ")[1:]:
        name, _, rest = part.partition("\n")
        lines = rest.split("\n")
        while lines and not lines[-1]:
            lines.pop()
        yield name, lines


def whole(lines):
    return "".join(f"{it}\n" for it in lines)


def standing_for(line, printed):
    """The lines that a line of standard output in the table stands for."""
    if PRINTED.fullmatch(line):
        return printed[PRINTED.fullmatch(line)[1]]
    if COPIED.fullmatch(line):
        return (ROOT / "examples" / COPIED.fullmatch(line)[1]).read_text().removesuffix("\n").split("\n")
    return [line]


def entry(lines, printed):
    """The words of an entry, standard input, standard output, the status and standard error."""
    parted = lines.index("--")
    ends = next(at for at, it in enumerate(lines) if re.fullmatch(r"exit \d", it) and at > parted)
    out = [line for it in lines[parted + 1 : ends] for line in standing_for(it, printed)]
    words = [octets(it) for it in shlex.split(lines[0])]
    return (
        words,
        octets(whole(lines[1:parted])),
        octets(whole(out)),
        int(lines[ends][5:]),
        octets(whole(lines[ends + 1 :])),
    )


def reasons(out):
    """Standard error for this output, as a pattern: a line for the line of a script that is refused
    by X1, and one for each B3."""
    lines = [it for it in out.split(b"\n") if it.startswith(b"refused X1 BadLine line ") or it == b"refused B3 NoRoute"]
    return b"".join(b"mtp2_play: line %s: .+\n" % (it.split()[-1] if b"X1" in it else b"[0-9]+") for it in lines)


def fault(folder, words, given, out, status, said=None):
    """What is wrong with the run of a command line, if something is. If standard error isn't given, it has only
    reasons."""
    run = Run(words, given, folder=folder)
    if run.status != status:
        return f"status {run.status} and not {status}; it said {run.said[-300:].decode(errors='replace')!r}"
    wrong = differs(out, run.wrote)
    if wrong:
        return f"of standard output {wrong}"
    if said is None:
        return (
            None
            if re.fullmatch(reasons(out), run.said)
            else f"of standard error: {run.said[-300:].decode(errors='replace')!r}"
        )
    wrong = differs(said, run.said)
    return wrong and f"of standard error {wrong}"


def table(folder, printed):
    """The cases of the table. Its files are written to the folder."""
    cases = []
    for name, lines in parts():
        if name.startswith("file "):
            (folder / name[5:]).write_bytes(octets(whole(lines)))
        else:
            cases.append((name, folder, *entry(lines, printed)))
    return cases


def pointed():
    """Each refused text with its standard error, and the words, standard output and status of its check."""
    for name, text, said in examples.parted("pointed.txt"):
        text, said = (it.replace("<TAB>", "\t") for it in (text, said))
        given = examples.copied(text).rstrip("\n").encode()
        yield f"pointed.txt, {name}", given, examples.copied(f"{said}\n").encode()


def points(folder, given, said):
    """What is wrong with the place that the check of a text names, if something is."""
    run = Run(["check", "stdin"], given, folder=folder)
    if run.status != 2:
        return f"status {run.status}; it said {run.said[-300:].decode(errors='replace')!r}"
    wrong = differs(said, run.said)
    return wrong and f"of standard error {wrong}"


def warned():
    """Each text of warnings.txt: its name, its octets, and each warning with its place."""
    for name, text, said in examples.parted("warnings.txt"):
        places, whole_text = [], ""
        for piece in re.split(r"(<A[0-9]+>)", examples.copied(text).rstrip("\n")):
            if MARK.fullmatch(piece):
                places.append((len(whole_text.encode()), piece[1:-1]))
            else:
                whole_text += piece
        lines = [it for it in said.split("\n") if it]
        if [code for _, code in places] != [it.split(" ")[0] for it in lines]:
            sys.exit(f"warnings.txt, {name}: {len(places)} marks for {len(lines)} lines, or others")
        found = [(place, *line.split(": ", 1)) for (place, _), line in zip(places, lines)]
        yield f"warnings.txt, {name}", whole_text.encode(), found


def warns(folder, given, found):
    """What is wrong with what the check of a text warns of, if something is."""
    lines = [
        line
        for place, fault, said in found
        for line in pointed_at("stdin", given, place, fault, said, most=MOST_SHOWN)
    ]
    wanted = "".join(f"{it}\n" for it in lines).encode()
    for word, status in ("--warn", 0), ("--warn=error", 1 if found else 0):
        run = Run(["check", word, "stdin"], given, folder=folder)
        if run.status != status or not run.wrote.endswith(b"accepted\n"):
            return f"status {run.status}; it wrote {run.wrote[-100:]!r} and said {run.said[-300:]!r}"
        wrong = differs(wanted, run.said)
        if wrong:
            return f"of standard error {wrong}"
    return None


def documents():
    """Each example of a document: its command, and a pattern of what it prints."""
    for path in [ROOT / "README.md", *sorted((ROOT / "docs").glob("*.md"))]:
        lines = path.read_text().split("\n")
        for at, line in enumerate(lines):
            if line.startswith("    $ "):
                shown = itertools.takewhile(
                    lambda it: it.startswith("    ") and not it.startswith("    $ "), lines[at + 1 :]
                )
                printed = "".join("(?:.*\n)*" if it == "    .." else re.escape(it[4:]) + "\n" for it in shown)
                yield f"{path.name}: {line[6:]}", line[6:], printed


def shown(command, printed):
    """What is wrong with an example, if something is."""
    run = subprocess.run(
        ["sh", "-c", command],
        cwd=ROOT,
        env={**os.environ, "MTP2_PLAY": str(PLAY)},
        capture_output=True,
        text=True,
        timeout=LIMIT,
    )
    return (
        None
        if re.fullmatch(printed, run.stdout)
        else f"status {run.returncode}: {run.stdout[-200:]!r}, {run.stderr[-200:]!r}"
    )


def main(words):
    if words == ["--list"]:
        print("\n".join(f"{lines[0]:60}  {name}" for name, lines in parts() if not name.startswith("file ")))
        return 0
    if missing(PLAY):
        return 2
    count = Count("commands")
    printed = examples.expected()
    with tempfile.TemporaryDirectory() as room:
        folder = pathlib.Path(room)
        (folder / "examples").symlink_to(ROOT / "examples")
        count.all(table(folder, printed), fault)
        count.all([(name, folder, *rest) for name, *rest in pointed()], points)
        count.all([(name, folder, *rest) for name, *rest in warned()], warns)
        count.all(list(documents()), shown)
    return count.end()


if __name__ == "__main__":
    sys.exit(main(sys.argv[1:]))
