"""Adds up which transitions of a set, and answers of its decisions, the scripts of the repository take. By the plain
players, which were written apart from the program; and by the built program's own `play --coverage`, if --played asks
for that.

usage: tools/coverage [standard|q703] [--lcov FILE] [--played]

Prints `SET: N of M transitions, K of L answers`, and a line for each that no script takes: `PROCESS STATE/INPUT` or
`PROCESS line N, answer M`, with the reason in examples/untaken.txt. With --lcov FILE it is written there in lcov's
format, from which `genhtml --branch-coverage -o FOLDER FILE` makes pages. Of `standard` these are the scripts of
examples/links, commands.txt and q781, of `q703` those of examples/q781 and examples/links. With --played the program
(crates/mtp2_play/out/mtp2_play, or which MTP2_PLAY names) plays each of them with `--coverage`; a second line has the
sums of its files, and each transition and each answer has to be taken as often as by the plain players. Scripts whose
journal begins anew within a command, for which the program prints no coverage, are left out of both, and counted on
that line.

The last line is `N passed, M failed`: one for each that isn't taken, which passes if untaken.txt says why, and one for
each line of untaken.txt, which fails if a script takes it. The status is 1 if one failed."""
import collections
import pathlib
import sys
import tempfile

from tools.oracles import plain_group, plain_term, plain_trace
from tools.oracles.plain_check import Refusal
from tools.steps import commands
from tools.steps.built import PLAY, ROOT, Count, Run, missing, side_by_side

EXAMPLES = ROOT / "examples"
SETS = {"standard": "standard.sdl", "q703": "q703.sdl"}


def scripts(word):
    """The name and the octets of each script that runs on a set."""
    for table in ("links/table.txt", "links/sets.txt"):
        for name, here, script, _, _ in plain_group.entries((EXAMPLES / table).read_text()):
            if here == "standard":
                yield f"{table}, {name}", script.encode()
    for folder in ("links", "q781"):
        for path in sorted((EXAMPLES / folder).glob("*.script")):
            yield str(path.relative_to(EXAMPLES)), path.read_bytes()
    if word == "standard":
        for name, lines in commands.parts():
            if not name.startswith("file ") and lines[0] == "play standard stdin":
                yield f"commands.txt, {name}", commands.octets(commands.whole(lines[1 : lines.index("--")]))


def taken(text, word, name, script):
    """The turns, answers, decisions and statements that a script takes. None for a script that isn't run here."""
    try:
        seen, _ = plain_trace.seen_of(text, script)
    except (plain_term.BadLine, plain_term.OutOfRange, SystemExit, ValueError, KeyError, UnicodeDecodeError, Refusal):
        return None
    it = seen.taken
    return it.turns, it.answers, it.asked, it.passed, it.thrown


def told(lines):
    """How often each transition and each answer was taken, by lines of lcov's format."""
    times = collections.Counter()
    for line in lines:
        kind, _, rest = line.partition(":")
        if kind == "FNDA":
            number, _, name = rest.partition(",")
            times[name] += int(number)
        elif kind == "BRDA":
            line_number, place, number, taken_so = rest.split(",")
            times[f"line {line_number} answer {int(number) + 1} of the DECISION at {place}"] += (
                0 if taken_so == "-" else int(taken_so)
            )
    return times


def played(text, word, name, script):
    """How often each was taken, by the program and by the plain player. None for a script for which the program prints
    no coverage."""
    parts = taken(text, word, name, script)
    with tempfile.TemporaryDirectory() as room:
        path = pathlib.Path(room) / "coverage"
        run = Run(["play", f"examples/{SETS[word]}", "stdin", "--coverage", str(path)], script)
        found = path.read_text() if path.exists() else ""
    if not parts or not found:
        return (
            None
            if run.status in (2, 4) and not found
            else (name, f"status {run.status}, and the plain player {'runs' if parts else 'refuses'} it")
        )
    plain = plain_trace.Taken(text)
    for mine, more in zip((plain.turns, plain.answers, plain.asked, plain.passed, plain.thrown), parts):
        mine.update(more)
    return told(found.split("\n")), told(plain.lcov(""))


def by_program(word, text, given, count):
    """Adds up the program's own files, and prints the sums."""
    ours, theirs, ran, silent = collections.Counter(), collections.Counter(), 0, 0
    for it in side_by_side(played, given):
        if it is None:
            silent += 1
        elif isinstance(it[1], str):
            count.case(f"{word} {it[0]}", it[1])
        else:
            ran += 1
            ours.update(it[0])
            theirs.update(it[1])
    answers = [it for it in ours if it.startswith("line ")]
    others = [it for it in ours if not it.startswith("line ")]
    print(
        f"{word}, by the program: {sum(ours[it] > 0 for it in others)} of {len(others)} transitions, "
        f"{sum(ours[it] > 0 for it in answers)} of {len(answers)} answers, "
        f"by {ran} scripts; of {silent} it tells nothing"
    )
    for name in sorted({*ours, *theirs}):
        count.case(
            f"{word} {name}",
            None
            if ours[name] == theirs[name]
            else f"{ours[name]} times by the program, {theirs[name]} by the plain players",
        )


def reasons(word):
    """Why no script takes the transition or answer with this name, by untaken.txt."""
    found = {}
    for line in (EXAMPLES / "untaken.txt").read_text().split("\n"):
        here, _, rest = line.partition(" ")
        name, there, why = rest.partition(": ")
        if here == word and there:
            found[name] = why
    return found


def untaken(all_taken):
    """The names of transitions and of answers that no script takes."""
    ordered = sorted(all_taken.transitions.items(), key=lambda it: it[1][1])
    yield from (name for key, (name, _) in ordered if not all_taken.turns[key])
    for place, places in sorted(all_taken.decisions.items()):
        for answer in range(len(places)):
            if not all_taken.answers[place, answer]:
                yield f"line {all_taken.at(place)} answer {answer + 1}"


def main(words):
    chosen = [it for it in words if it in SETS] or list(SETS)
    path = pathlib.Path(words[words.index("--lcov") + 1]) if "--lcov" in words else None
    if "--played" in words and missing(PLAY):
        return 2
    plain_term.ALL_WORDS = True
    count, written = Count("coverage"), []
    for word in chosen:
        text = (EXAMPLES / SETS[word]).read_bytes()
        whole = plain_trace.Taken(text)
        given = [(text, word, *it) for it in scripts(word)]
        ran = 0
        for parts in side_by_side(taken, given):
            if parts:
                ran += 1
                for mine, more in zip((whole.turns, whole.answers, whole.asked, whole.passed, whole.thrown), parts):
                    mine.update(more)
        transitions = sum(whole.turns[it] > 0 for it in whole.transitions)
        answers = [(place, answer) for place, places in whole.decisions.items() for answer in range(len(places))]
        print(
            f"{word}: {transitions} of {len(whole.transitions)} transitions, "
            f"{sum(whole.answers[it] > 0 for it in answers)} of {len(answers)} answers, by {ran} scripts"
        )
        why, left = reasons(word), list(untaken(whole))
        for name in left:
            print(f"{word} {name}: {why.get(name, 'no script takes it')}")
            count.case(f"{word} {name}", None if name in why else "no script takes it, and untaken.txt doesn't say why")
        for name in why:
            if name not in left:
                count.case(f"{word} {name}", "untaken.txt has it, and it is taken, or isn't there")
        if "--played" in words:
            by_program(word, text, given, count)
        written += whole.lcov(f"examples/{SETS[word]}")
    if path:
        path.write_text("".join(f"{it}\n" for it in written))
    return count.end()


if __name__ == "__main__":
    sys.exit(main(sys.argv[1:]))
