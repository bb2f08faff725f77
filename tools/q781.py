"""Plays the tests of Q.781 (the acceptance tests of MTP level 2), and our own beside them, on a set: the scripts of
examples/q781.

usage: tools/q781 [SET] [NAME ..]
           prints `NAME TITLE: passed`, or `failed line N` with the expected and the actual line, for each script whose
           name begins so (all if none is named), and the sums; status 0 if exactly those failed that known.txt lists
           for SET
       tools/q781 --changes [NAME ..]
           makes each one-place change of changes.txt in examples/q703.sdl (those seen by a test whose name begins so),
           and plays the test that it names: status 0 if each change is seen
       --plain in front of these       asks the plain player, written apart from the program
       --n2 N in front of a file       forced retransmission begins at N octets, 300 to 8,192, in the scripts that
                                       choose no N2 (also: --n2=N)

The program is crates/mtp2_play/out/mtp2_play, where that is built, or the one that MTP2_PLAY names, else the one that
bin/mtp2 takes. SET is `q703` (also if none is named), `standard`, or a file, looked up from the current folder: a
text that has the names of a terminal. A word with which a test's name begins is a NAME; write `./7` for a file of that
name. Test x.26 has an N2 of 3,000 octets; on a file it is skipped unless the text or --n2 says 2,731 to 3,003.
Status 1: a test failed that known.txt doesn't list, or passed that it lists; a change wasn't seen. 2: there is no
such file, its text is refused, or there is no program. 3: no test has such a name, or the words are wrong.

A script is a black box: units, octets of the line, commands and time go in; the script expects the units sent, the
reports to level 3, the number accepted last and the measurements, by Q.703. N.MM is Q.781's test; x.NN is beside it. In
known.txt `SET NAME WHY` is a line. In changes.txt `== NAME: WHAT` begins a change that the test NAME sees; a line `--`
parts words that stand in the text once from their replacement."""
import os
import pathlib
import re
import subprocess
import sys
import tempfile

from tools.oracles.plain_term import OutOfRange, limits_over, play
from tools.steps.built import PLAY, ROOT, Run, side_by_side

TESTS = ROOT / "examples" / "q781"
TEXT = ROOT / "examples" / "q703.sdl"
# The sets of the program's own.
OWN = ("standard", "q703")
# The test of N2 if nothing is chosen, and the N2 with which it passes. The N2 that may be chosen.
OF_N2, ITS_N2 = "x.26", range(2731, 3004)
CHOICE = range(300, 8193)


class Wrong(Exception):
    """Why no script is played: the exit status, and a sentence."""


def scripts(names):
    """The names of the requested scripts, in order."""
    found = [it.name.removesuffix(".script") for it in TESTS.glob("*.script")]
    ordered = sorted(
        found, key=lambda it: (it.startswith("x"), [int(part) for part in it.split(".") if part.isdigit()])
    )
    return [it for it in ordered if not names or it.startswith(tuple(names))]


def octets_of(name, n2=None):
    """The octets of a script, with this N2 if it chooses none."""
    octets = (TESTS / f"{name}.script").read_bytes()
    return re.sub(rb"(?m)^terminal cyclic$", b"terminal cyclic 127 %d" % n2, octets) if n2 else octets


def title(name):
    """The first line of a script, without its number."""
    return octets_of(name).decode().split("\n")[0].removeprefix("# ").removeprefix(f"{name} ")


def played(plain, word, octets):
    """The lines that are printed for a script, the status, and standard error."""
    if plain:
        lines = []
        status = play(word, octets, lines.append)
        return lines, status, ""
    run = Run(["play", word, "stdin"], octets, program=PLAY if PLAY.exists() else ROOT / "bin" / "mtp2")
    return run.wrote.decode().split("\n")[:-1], run.status, run.said.decode(errors="replace")


def fault(plain, word, name, n2=None):
    """How a script failed; None if it passed."""
    octets = octets_of(name, n2)
    lines, status, _ = played(plain, word, octets)
    if status == 0:
        return ""
    said = lines[-1] if lines else ""
    if status != 1 or not said.startswith("failed line "):
        return f"failed: {said or f'status {status}'}"
    done = octets.decode().split("\n")[: int(said.split()[-1])]
    asked = next(it for it in reversed(done) if not it.startswith(("#", "expect ")))
    came = lines[-2] if len(lines) > 1 else "nothing"
    return f"{said}: after `{asked}` `{done[-1].removeprefix('expect ')}` was expected, and `{came}` came"


def n2_of(word):
    """The N2 over a set where none is chosen."""
    text = ROOT / "examples" / f"{word}.sdl" if word in OWN else pathlib.Path(word)
    return limits_over(text.read_bytes(), "cyclic")[1]


def known(word):
    """The tests that are known to fail on a set."""
    said = [it.split(" ", 2) for it in (TESTS / "known.txt").read_text().split("\n") if it and not it.startswith("#")]
    return [name for where, name, _ in said if where == word]


def tests(plain, word, names, n2):
    """Plays them, and prints the results. Returns the exit status."""
    skipped = [] if word in OWN or (n2 or n2_of(word)) in ITS_N2 else [it for it in scripts(names) if it == OF_N2]
    wanted, expected = [it for it in scripts(names) if it not in skipped], known(word)
    failed = []
    for name, why in zip(wanted, side_by_side(fault, [(plain, word, it, n2) for it in wanted])):
        print(f"{name} {title(name)}: {why or 'passed'}", flush=True)
        failed += [name] if why else []
    for name in skipped:
        print(
            f"{name} {title(name)}: skipped, for it has an N2 of 3,000 octets and not {n2 or n2_of(word):,}: --n2 "
            "3000 plays it"
        )
    strange = [it for it in wanted if (it in failed) != (it in expected)]
    sums = (
        f"{len(wanted) - len(failed)} passed, {len(failed)} failed, "
        f"{len([it for it in failed if it not in strange])} of them known"
    )
    print(sums + (f", {len(skipped)} skipped" if skipped else ""))
    for name in strange:
        print(f"{name} {'failed' if name in failed else 'passed'}, which known.txt doesn't say")
    return 1 if strange else 0


def changes():
    """The test that sees a change, its title, the words in the text, and their replacement."""
    for part in ("\n" + (TESTS / "changes.txt").read_text()).split("\n== ")[1:]:
        name, rest = part.split("\n", 1)
        test, what = name.split(": ", 1)
        old, _, new = (rest.rstrip("\n") + "\n").partition("\n--\n")
        yield test, what, old, new.rstrip("\n")


def unseen(plain, test, what, old, new):
    """Why a change isn't seen; None if it is."""
    text = TEXT.read_text()
    if text.count(old) != 1:
        return f"what it changes stands {text.count(old)} times in the text"
    with tempfile.TemporaryDirectory() as folder:
        changed = pathlib.Path(folder) / "changed.sdl"
        changed.write_text(text.replace(old, new))
        lines, status, _ = played(plain, str(changed), octets_of(test))
    if status == 0:
        return "it passed all the same"
    return "" if status == 1 else f"{lines[-1] if lines else ''} (status {status})"


def all_changes(plain, names):
    wanted = [it for it in changes() if not names or it[0].startswith(tuple(names))]
    if not wanted:
        raise Wrong(3, f"no change is seen by a test whose name begins so: {' '.join(names)}")
    wrong = 0
    for (test, what, *_), why in zip(wanted, side_by_side(unseen, [(plain, *it) for it in wanted])):
        print(f"{test} {'sees' if not why else 'misses'}: {what}{f' ({why})' if why else ''}", flush=True)
        wrong += bool(why)
    print(f"{len(wanted) - wrong} changes seen, {wrong} missed")
    return 1 if wrong else 0


def options(words):
    """Whether the plain player is asked, N2 if it is chosen, and the words after these."""
    plain, n2, words = False, None, list(words)
    while words and (words[0] == "--plain" or words[0].split("=")[0] == "--n2"):
        word, _, number = words.pop(0).partition("=")
        if word == "--plain":
            plain = True
            continue
        number = number or (words.pop(0) if words else "")
        n2 = int(number) if number.isascii() and number.isdigit() else 0
        if n2 not in CHOICE:
            raise Wrong(3, f"N2 is 300 to 8,192 octets, and not `{number}`")
    return plain, n2, words


def asked(words):
    """The set, and the names after it."""
    if not words or words[0] in OWN:
        return (words or ["q703"])[0], words[1:]
    if scripts(words[:1]):
        return "q703", words
    file = pathlib.Path(words[0])
    if file.is_file():
        return str(file.resolve()), words[1:]
    raise Wrong(
        2 if file.suffix or file.name != words[0] else 3,
        f"`{words[0]}` is neither a file nor the beginning of a test's name",
    )


def check_names(names):
    for name in names:
        if not scripts([name]):
            raise Wrong(3, f"no test's name begins with `{name}`")


def check_text(plain, word):
    """Says once, for all tests, that a text is refused."""
    lines, status, said = played(plain, word, b"terminal basic\n")
    if status:
        raise Wrong(2, f"{word}: {' '.join(lines) or f'status {status}'}\n{said}".rstrip("\n"))
    try:
        n2_of(word)
    except OutOfRange as why:
        raise Wrong(2, f"{word}: {why} is out of its range") from None


def run(words):
    if "-h" in words or "--help" in words:
        print(__doc__)
        return 0
    plain, n2, words = options(words)
    if n2 and (not words or words[0] in (*OWN, "--changes")):
        raise Wrong(3, "--n2 is for a text in a file: `q703` and `standard` have their own N2")
    is_changes = words[:1] == ["--changes"]
    word, names = ("q703", words[1:]) if is_changes else asked(words)
    check_names(names)
    if not plain and not PLAY.exists():
        # (it is compiled here if need be, and says once which program it is)
        if subprocess.run([ROOT / "bin" / "mtp2", "--version"], stdout=subprocess.DEVNULL).returncode:
            return 2
        os.environ["MTP2_SAID"] = "1"
    if is_changes:
        return all_changes(plain, names)
    check_text(plain, word)
    return tests(plain, word, names, n2)


def main(words):
    try:
        return run(words)
    except Wrong as why:
        print(f"q781: {why.args[1]}", file=sys.stderr)
        return why.args[0]


if __name__ == "__main__":
    sys.exit(main(sys.argv[1:]))
