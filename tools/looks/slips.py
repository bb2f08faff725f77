"""Makes one-place changes of a process text (examples/q703.sdl), and lists those that no test of examples/q781 sees.

usage: tools/looks/slips [KIND ..]
           the changes of these kinds, all if none is named; status 1 if one isn't seen
       tools/looks/slips --list [KIND ..]     names them, and plays nothing
       tools/looks/slips --search N [KIND ..] plays N scripts made at random too, on the text and on each change that no
                                              test sees: names one that tells the two apart
       --at N in front of these               only changes of that line of the text
       --text FILE in front of these          another text in place of examples/q703.sdl
       --program in front of these            all tests by the program (MTP2_PLAY, or the built one), and not by the
                                              plain player

| Kind | What is changed |
|---|---|
| `outputs` | a signal isn't sent |
| `values` | TRUE is FALSE, or a number one more or less, in what is sent or in a task |
| `tasks` | a variable keeps its value |
| `timers` | a timer isn't begun, or isn't stopped |
| `times` | a timer lies outside the range of Q.703, or is a tenth of it |
| `inputs` | a signal isn't heard in a state |
| `states` | another state follows |
| `answers` | a number is left out of an answer |
| `decisions` | a decision is always TRUE or always FALSE, or is with another bound |
| `starts` | a variable begins with another value |

A test is played where on the unchanged text it takes the transition that is changed (of a connection: one of its
process): until then both do the same. Tests that take a thousand units are always played by the program, on changes of
SUERM. A change whose text is refused doesn't count. Random scripts are those of
tools/oracles/random_terminals without questions that can't be answered from outside (states, values, how many timers
ran out). One that tells two texts apart is left in out/slips/."""
import copy
import pathlib
import random
import re
import sys
import tempfile
import typing

from tools import q781 as asked
from tools.oracles import plain_play, plain_term, random_terminals
from tools.oracles.plain_check import Refusal
from tools.steps.built import PLAY, ROOT, missing, side_by_side

ROOM = ROOT / "out" / "slips"
# A label before a statement: an answer, or the name of a connection.
LABEL = re.compile(r"\s*(?:\(([^()]*)\)|(ELSE)|CONNECTION\s+(\w+))\s*:")
WORD = re.compile(r"\s*(\w+)\s*")
NUMBER = re.compile(r"\b\d+\b")
# Timers outside the ranges of Q.703 (12), too short and too long, by their values in the text.
RANGES = {
    45000: (39000, 51000),
    25000: (4900, 151000),
    1500: (990, 2010),
    8200: (7400, 9600),
    500: (390, 610),
    100: (79, 121),
    5000: (2900, 6100),
    1000: (490, 2010),
}


def masked(text):
    """The text with blanks for its comments, so that what stands in it stands at the same place."""
    return re.sub(r"/\*.*?\*/", lambda it: re.sub(r"[^\n]", " ", it[0]), text, flags=re.S)


class Statement:
    """A statement up to its semicolon: where its labels stand, its word, and where what follows the word stands."""

    def __init__(self, text, start, end):
        self.labels, self.connection, at = [], "", start
        while label := LABEL.match(text, at, end):
            if label[1] is not None:
                self.labels.append(label.span(1))
            self.connection = label[3] or ""
            at = label.end()
        word = WORD.match(text, at, end)
        self.word, self.start, self.end = (word[1] if word else ""), (word.start(1) if word else at), end
        self.body = (word.end() if word else end, end)


def statements(text):
    plain, at = masked(text), 0
    for end in (it.start() for it in re.finditer(";", plain)):
        yield Statement(plain, at, end)
        at = end + 1


def parts(text, span):
    """Where the parts of a list stand that commas divide, outside of brackets."""
    depth, start, found = 0, span[0], []
    for at in range(*span):
        depth += {"(": 1, ")": -1}.get(text[at], 0)
        if text[at] == "," and not depth:
            found.append((start, at))
            start = at + 1
    return [*found, (start, span[1])]


def stripped(text, span):
    start, end = span
    while start < end and text[start].isspace():
        start += 1
    while end > start and text[end - 1].isspace():
        end -= 1
    return start, end


class Change(typing.NamedTuple):
    kind: str
    line: int
    name: str
    text: str
    process: str
    taken: set


class Changes:
    """All changes of a text, one after the other: kind, name, and the changed text."""

    def __init__(self, text):
        self.text, self.plain, self.found = text, masked(text), []
        self.process, self.states, self.heard, self.places = "", [], "", {}
        # What synonyms stand for, by the process that has them, "" for the block's.
        self.synonyms = {}
        every = list(statements(text))
        for it in every:
            if it.word == "PROCESS":
                self.process = self.body(it).split()[0]
            if it.word == "SYNONYM":
                for name, number in re.findall(r"(\w+)\s*=\s*(\d+)", self.body(it)):
                    self.synonyms[self.process, name] = int(number)
            if it.word == "ENDPROCESS":
                self.process = ""
            if it.word == "STATE":
                names = [name.strip() for name in self.body(it).split(",")]
                self.places.setdefault(self.process, []).extend(
                    name for name in names if name not in self.places.get(self.process, [])
                )
        for at, it in enumerate(every):
            self.follow(it)
            for label in it.labels:
                self.answer(label)
            getattr(self, "of_" + it.word.lower(), lambda *_: None)(it, every[at + 1 :])

    def body(self, it):
        return self.plain[slice(*it.body)]

    def follow(self, it):
        """Where the reader stands."""
        if it.word == "PROCESS":
            self.process, self.states, self.heard = self.body(it).split()[0], [], "START"
        elif it.word == "STATE":
            self.states, self.heard = [name.strip() for name in self.body(it).split(",")], ""
        elif it.word == "INPUT":
            self.heard = re.sub(r"\s+", " ", self.body(it).strip())
        elif it.word in ("ENDSTATE", "ENDCONNECTION"):
            self.states, self.heard = [], ""
        self.heard = it.connection or self.heard

    def change(self, kind, span, new, what):
        start, end = span
        line = self.text.count("\n", 0, start) + 1
        place = " ".join(filter(None, [self.process, "/".join(self.states), self.heard]))
        changed = self.text[:start] + new + self.text[end:]
        self.found.append(
            Change(kind, line, f"{kind} line {line}: {place}: {what}", changed, self.process, self.taken())
        )

    def taken(self):
        """The transitions of which one is taken where the change is met: state and signal; none where it may be any of
        the process."""
        signals = (
            [re.match(r"\s*(\w+)", it)[1].lower() for it in self.heard.split(",")] if self.states and self.heard else []
        )
        return {(state.lower(), signal) for state in self.states for signal in signals} or None

    def drop(self, kind, it, span, what):
        """Takes a part out of a list, or the whole statement where it is the only one."""
        spans = parts(self.plain, it.body)
        if len(spans) == 1:
            self.change(kind, (it.start, it.end + 1), "", what)
        else:
            at = spans.index(span)
            self.change(kind, (span[0], spans[1][0]) if at == 0 else (spans[at - 1][1], span[1]), "", what)

    def constants(self, span):
        """Each number and each synonym in a place: where it stands, and its value."""
        for it in re.finditer(r"\b\w+\b", self.plain[slice(*span)]):
            value = (
                int(it[0])
                if it[0].isdigit()
                else self.synonyms.get((self.process, it[0]), self.synonyms.get(("", it[0])))
            )
            if value is not None:
                yield (span[0] + it.start(), span[0] + it.end()), value

    def numbers(self, kind, span, what):
        """Each constant in a place is another one."""
        for at, value in self.constants(span):
            for other in {value + 1, abs(value - 1)}:
                self.change(kind, at, str(other), f"{other} for {self.plain[slice(*at)]} in {what}")
        for it in re.finditer(r"\b(TRUE|FALSE)\b", self.plain[slice(*span)]):
            other = "FALSE" if it[0] == "TRUE" else "TRUE"
            self.change(kind, (span[0] + it.start(), span[0] + it.end()), other, f"{other} in {what}")

    def of_output(self, it, _):
        for span in parts(self.plain, it.body):
            inner = stripped(self.plain, span)
            name = self.plain[slice(*inner)]
            self.drop("outputs", it, span, f"{name} isn't sent")
            self.numbers("values", inner, name)

    def of_task(self, it, _):
        for span in parts(self.plain, it.body):
            inner = stripped(self.plain, span)
            name = self.plain[slice(*inner)]
            self.drop("tasks", it, span, f"{name} isn't done")
            self.numbers("values", inner, name)
            self.conditions("values", (self.plain.index(":=", inner[0]) + 2, inner[1]), name)

    def of_set(self, it, _):
        self.timer(it)
        for at, value in self.constants((it.body[0], self.plain.rindex(",", *it.body))):
            for other in [*RANGES.get(value, ()), value // 10]:
                self.change("times", at, str(other), f"{self.plain[it.start : it.end]} with {other}")

    def of_reset(self, it, _):
        self.timer(it)

    def timer(self, it):
        self.change("timers", (it.start, it.end + 1), "", f"no {self.plain[it.start : it.end]}")

    def of_input(self, it, later):
        spans = parts(self.plain, it.body)
        after = next(other.start for other in later if other.word in ("INPUT", "ENDSTATE"))
        if len(spans) == 1:
            self.change("inputs", (it.start, after), "", f"{self.heard} isn't heard")
        else:
            for span in spans:
                self.drop("inputs", it, span, f"{self.plain[slice(*stripped(self.plain, span))]} isn't heard")

    def of_state(self, it, later):
        """A transition of several states isn't one of each."""
        spans = parts(self.plain, it.body)
        if len(spans) == 1:
            return
        end = next(other for other in later if other.word == "ENDSTATE")
        for span in spans:
            name = self.plain[slice(*stripped(self.plain, span))]
            left = [self.plain[slice(*stripped(self.plain, other))] for other in spans if other != span]
            self.change(
                "inputs",
                (it.body[0], end.end),
                ", ".join(left) + self.text[it.end : end.start] + f"ENDSTATE {left[0]}",
                f"none of it is heard in {name}",
            )

    def of_nextstate(self, it, _):
        span = stripped(self.plain, it.body)
        for other in self.places.get(self.process, []):
            if other != self.plain[slice(*span)]:
                self.change("states", span, other, f"{other} for {self.plain[slice(*span)]}")

    def of_decision(self, it, _):
        span = stripped(self.plain, it.body)
        name = self.plain[slice(*span)]
        if [*self.constants(span)] or re.search(r"\b(AND|OR|NOT)\b", name) or name.lower() in BOOLEANS:
            for other in ("TRUE", "FALSE"):
                self.change("decisions", span, other, f"{other} for {name}")
        self.numbers("decisions", span, name)
        self.conditions("decisions", span, name)

    def conditions(self, kind, span, name):
        """AND for OR, a NOT left out, a variable left out of a condition."""
        inside = self.plain[slice(*span)]
        for it in re.finditer(r"\b(AND|OR|NOT)\b", inside):
            other = {"AND": "OR", "OR": "AND", "NOT": ""}[it[0]]
            self.change(
                kind,
                (span[0] + it.start(), span[0] + it.end()),
                other,
                f"{other or 'no'} {'for ' if other else ''}{it[0]} in {name}",
            )
        words = re.split(r"\s+(?:AND|OR)\s+", inside)
        for word in words[:-1] if len(words) > 1 else []:
            at = span[0] + inside.index(word)
            self.change(
                kind,
                (at, at + re.match(re.escape(word) + r"\s+(AND|OR)\s+", self.plain[at:]).end()),
                " ",
                f"no {word} in {name}",
            )

    def answer(self, span):
        inside = self.plain[slice(*span)]
        found = [int(it) for it in NUMBER.findall(inside)]
        values = list(range(found[0], found[1] + 1)) if ":" in inside else found
        for it in values:
            left = ", ".join(str(other) for other in values if other != it)
            self.change("answers", span, left or "99", f"no {it} in ({inside.strip()})")

    def of_dcl(self, it, _):
        for number in re.finditer(r":=\s*(\w+)", self.body(it)):
            span = (it.body[0] + number.start(1), it.body[0] + number.end(1))
            other = {"TRUE": "FALSE", "FALSE": "TRUE"}.get(number[1], "1")
            self.change("starts", span, other, f"{other} for {self.body(it)}")


BOOLEANS = {"lpo", "rpo", "em", "short", "more", "octets", "run", "cong", "out", "m", "accept", "reject", "ordered"}


class Plain:
    """A text that the plain player plays: read once for all scripts."""

    def __init__(self, text):
        plain_term.check(text.encode())
        self.text, self.book = text.encode(), plain_play.Book(text.encode(), 64, 1024, 65536)

    def again(self, *_):
        """The text's processes as they begin."""
        book = copy.copy(self.book)
        book.actors = [plain_play.Actor(it.process, it.number) for it in self.book.actors]
        book.timers, book.ring = {}, []
        return book

    def play(self, octets):
        lines, (check, book) = [], (plain_term.check, plain_term.Book)
        plain_term.check, plain_term.Book = (lambda _: None), self.again
        try:
            return lines, plain_term.play_text(self.text, octets, lines.append)
        finally:
            plain_term.check, plain_term.Book = check, book


class Built:
    """A text that the program plays."""

    def __init__(self, text):
        self.folder = tempfile.TemporaryDirectory()
        self.file = pathlib.Path(self.folder.name) / "changed.sdl"
        self.file.write_text(text)
        if asked.played(False, str(self.file), b"terminal basic\n")[1]:
            raise Refusal

    def play(self, octets):
        return asked.played(False, str(self.file), octets)[:2]


def transitions(text, name):
    """The transitions that a test takes: process, state and signal. Of a long one none is asked for: it is one of the
    monitor."""
    if is_long(name):
        return None
    taken, begin = set(), plain_play.Book.begin

    def noted(book, actor):
        place = actor.place
        said = begin(book, actor)
        taken.add((actor.process.name.lower(), place.lower(), actor.out[0] or ""))
        return said

    plain_play.Book.begin = noted
    try:
        Plain(text).play(asked.octets_of(name))
    finally:
        plain_play.Book.begin = begin
    return taken


def meets(change, taken):
    """Whether a test that takes these transitions can meet a change."""
    if taken is None:
        return change.process == "SUERM"
    here = {it[1:] for it in taken if it[0] == change.process.lower()}
    return bool(here if change.taken is None else here & change.taken)


def sees(change, by_program, tests):
    """The test that sees a change, `refused` where the text is, or nothing. Tests stand in the order in which they are
    likely to."""
    try:
        players = {True: Built(change.text), False: None if by_program else Plain(change.text)}
    except Refusal:
        return "refused"
    for name, taken in tests:
        if not meets(change, taken):
            continue
        if players[by_program or is_long(name)].play(asked.octets_of(name))[1]:
            return name
    return ""


def is_long(name):
    """Whether a test takes a thousand units and more."""
    return sum(int(it) for it in re.findall(rb"^(?:units|errors) (\d+)", asked.octets_of(name), re.M)) >= 1000


def outside(lines):
    """What is seen from outside: not how many timers ran out."""
    return ["ok" if it.startswith("ok due ") else it for it in lines]


def chance(text, number):
    """A script made at random on a text, without questions about what is inside."""
    lines = random_terminals.script(random.Random(f"slips {number}"), text.encode(), ()).split("\n")
    return "\n".join(it for it in lines if not it.startswith(("state ", "value ", "expect "))).encode()


def whole(text, octets):
    """What a script comes to on the unchanged text, seen from outside, and the transitions that it takes."""
    return outside(Plain(text).play(octets)[0])


def apart(changed, scripts):
    """The number of the first script that tells two texts apart; none where no one does."""
    player = Plain(changed)
    return next(
        (number for number, (octets, lines) in enumerate(scripts) if outside(player.play(octets)[0]) != lines), None
    )


def ordered(text):
    """The tests with their transitions, the longest first: these see most."""
    names = [it for it in asked.scripts([]) if it != asked.OF_N2]
    names.sort(key=lambda it: (is_long(it), -(asked.TESTS / f"{it}.script").read_text().count("\nexpect ")))
    return list(zip(names, side_by_side(transitions, [(text, it) for it in names])))


def search(text, left, count):
    made = list(side_by_side(chance, [(text, it) for it in range(count)]))
    scripts = list(zip(made, side_by_side(whole, [(text, it) for it in made])))
    for it, number in zip(left, side_by_side(apart, [(it.text, scripts) for it in left])):
        if number is None:
            print(f"no script of {count} sees {it.name}", flush=True)
            continue
        ROOM.mkdir(parents=True, exist_ok=True)
        script = ROOM / f"{re.sub(r'[^A-Za-z0-9]+', '_', it.name)[:80]}.script"
        script.write_bytes(scripts[number][0])
        print(f"script {number} ({script.relative_to(ROOT)}) sees {it.name}", flush=True)


def main(words):
    words, count, file, line, lists, by_program = list(words), 0, asked.TEXT, None, False, False
    while words and words[0].startswith("-"):
        word = words.pop(0)
        if word == "--search":
            count = int(words.pop(0))
        elif word == "--text":
            file = pathlib.Path(words.pop(0))
        elif word == "--at":
            line = int(words.pop(0))
        elif word == "--list":
            lists = True
        elif word == "--program":
            by_program = True
        else:
            print(__doc__)
            return 0
    text = file.read_text()
    found = [it for it in Changes(text).found if (not words or it.kind in words) and line in (None, it.line)]
    if lists:
        print("\n".join(it.name for it in found))
        return 0
    if missing(PLAY):
        return 2
    tests, left, refused = ordered(text), [], 0
    for it, test in zip(found, side_by_side(sees, [(it, by_program, tests) for it in found])):
        refused += test == "refused"
        if not test:
            left.append(it)
            print(f"no test sees {it.name}", flush=True)
    print(f"{len(found) - refused} changes, {len(left)} of them not seen", flush=True)
    if count:
        search(text, left, count)
    return 1 if left else 0


if __name__ == "__main__":
    sys.exit(main(sys.argv[1:]))
