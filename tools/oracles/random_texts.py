"""Compares `mtp2_play check` with tools/oracles/plain_check.py and plain_point.py on random process texts: half of them
made by the grammar, mostly such as are accepted, and half texts of examples/ that were damaged: tokens or octets left
out, doubled, changed, put elsewhere.

usage: tools/oracles/random_texts [COUNT [SEED]] [-j JOBS]
           1,000 texts if nothing is said; ends with status 1 if one differs
       tools/oracles/random_texts [COUNT [SEED]] --only N      prints the Nth text and what comes of it

A text that differs is left in out/random_texts/, with both answers. MTP2_PLAY names another program than the built
one."""
import functools
import sys

from tools.oracles.plain_check import Refusal, lex
from tools.oracles.plain_commands import check_says
from tools.oracles.plain_point import differs as points_elsewhere
from tools.oracles.random_cases import hold
from tools.steps import examples

SORTS = ["Integer", "Boolean"]
RELATIONS = ["=", "/=", "<", "<=", ">", ">="]
NUMBERS = [0, 1, 2, 3, 7, 100, 2147483647]
POOL = [
    b"ENV ",
    b"TO SENDER ",
    b"NEXTSTATE ",
    b"STOP; ",
    b"JOIN ",
    b"ELSE: ",
    b"(1, 2)",
    b"SAVE ",
    b"-",
    b"MOD ",
    b"'it''s'",
    b"COMMENT 'c'",
    b"/* c */",
    b"(",
    b")",
    b";",
    b",",
    b":=",
    b"2147483647 ",
    b"2147483648 ",
    b"START; ",
    b"TRUE ",
    b"NOT ",
    b"TIMER ",
    b"CONNECTION ",
    b"\xc3\xa4",
    b"\xff",
    b"_",
    b"\n",
    b"(1,1)",
    b"(2)",
    b"(8,8)",
    b"(9,9)",
    b"(2,3)",
    b"(0)",
]
# The most octets of a text that is damaged, and of one of few that are longer.
SHORT, LONG = 4000, 60000


class Process:
    """What a random process has: its name, its variables with their sorts, its timers, states and connections, and what
    comes to it and goes out by routes."""

    def __init__(self, dice, number):
        self.name = f"P{number}"
        self.variables = [(f"{dice.choice('vwxyz')}{at}", dice.choice(SORTS)) for at in range(dice.randrange(6))]
        self.timers = [f"T{at}" for at in range(dice.choice([0, 0, 1, 2]))]
        self.states = [f"S{at}" for at in range(dice.choice([1, 1, 2, 3, 4]))]
        self.connections = [f"c{at}" for at in range(dice.choice([0, 0, 1, 2, 3]))]
        self.instances = dice.choice([1, 1, 1, 2, 2, 3, 5, 8])
        # its synonyms, and all that may be named in it; some hide one of the block, and some are named as a timer
        self.synonyms = [
            (name, dice.choice(SORTS))
            for name in dice.sample(["k0", "k1", "K2", "m0", "T0"], dice.choice([0, 0, 0, 1, 2, 3]))
        ]
        self.named = []
        self.comes, self.goes = set(), {}


class Text:
    """A random text. `slips` is how often something stands there that doesn't fit."""

    def __init__(self, dice):
        self.dice, self.slips = dice, dice.choice([0, 0, 0, 0.004, 0.02, 0.06])
        self.signals = {
            f"Sig{at}": [dice.choice(SORTS) for _ in range(dice.choice([0, 0, 1, 1, 2, 3, 4]))]
            for at in range(dice.randrange(1, 7))
        }
        self.processes = [Process(dice, at) for at in range(dice.choice([1, 1, 2, 3]))]
        self.synonyms = [
            (name, dice.choice(SORTS))
            for name in dice.sample(
                ["k0", "k1", "k2", "k3", "T1", "N1", "v0", "w1"], dice.choice([0, 0, 0, 1, 2, 4, 6])
            )
        ]

    def in_sight(self, process):
        """The synonyms that may be named in a process, with their sorts, if it makes some."""
        hidden = {name.lower() for name, _ in process.variables + process.synonyms}
        return process.synonyms + [it for it in self.synonyms if it[0].lower() not in hidden]

    def synonyms_of(self, them, before):
        """A SYNONYM or two of some synonyms, each of those before it and of those that were there before."""
        made, known = [], list(before)
        for name, sort in them:
            scope = Process(self.dice, 0)
            scope.variables, scope.named = known, []
            value = self.expression(
                scope, self.dice.choice(SORTS) if self.slip() else sort, self.dice.choice([0, 0, 1, 2])
            )
            written = self.dice.choice(SORTS) if self.slip() else sort
            made.append(f"{name}{self.dice.choice(['', ' ' + written])} = {value}")
            known = [it for it in known if it[0].lower() != name.lower()] + [(name, sort)]
        if made and self.slip():
            made.append(self.dice.choice(made))
        cut = self.dice.randrange(len(made) + 1)
        return " ".join(f"SYNONYM {', '.join(part)};" for part in (made[:cut], made[cut:]) if part)

    def slip(self):
        return self.dice.random() < self.slips

    def shown(self, name):
        """A name, at times in another spelling, at times one that isn't there."""
        if self.slip():
            return "Nosuch"
        return self.dice.choice([name.upper(), name.lower()]) if self.dice.random() < 0.1 else name

    def one(self, names):
        return self.shown(self.dice.choice(names)) if names else "Nosuch"

    def route(self, number):
        parties = ["ENV", *(it.name for it in self.processes)]
        first, second = self.dice.choice(parties), self.dice.choice(parties)
        if first == second == "ENV":
            second = parties[-1]
        paths = []
        for one, other in [(first, second), (second, first)][: self.dice.choice([1, 1, 2])]:
            signals = self.dice.sample(sorted(self.signals), self.dice.randrange(1, len(self.signals) + 1))
            for process in self.processes:
                process.comes.update(signals if process.name == other else [])
                for it in signals if process.name == one else []:
                    process.goes.setdefault(it, []).append(other)
            paths.append(
                f"FROM {self.shown(one) if one != 'ENV' else one} TO "
                f"{self.shown(other) if other != 'ENV' else other} WITH {', '.join(map(self.shown, signals))};"
            )
        return f"SIGNALROUTE r{number} {' '.join(paths)}"

    def variable(self, process, sort):
        fitting = [name for name, of in process.variables if of == sort or self.slip()]
        return self.one(fitting) if fitting else None

    def constant_named(self, process, sort):
        """A synonym of a sort, at times of another one, at times a name that is none."""
        return (
            self.variable(type("Named", (), {"variables": process.named}), sort) if self.dice.random() < 0.4 else None
        )

    def number(self):
        return str(self.dice.choice(NUMBERS) if self.dice.random() < 0.8 else self.dice.randrange(2147483648))

    def expression(self, process, sort, height):
        """An expression of a sort, in parentheses where it is an operator's."""
        dice = self.dice
        name = self.variable(process, sort)
        if height == 0 or dice.random() < 0.3:
            named = self.constant_named(process, sort)
            return (
                named
                if named
                else name
                if name and dice.random() < 0.7
                else self.number()
                if sort == "Integer"
                else dice.choice(["TRUE", "FALSE"])
            )
        less = height - 1
        if sort == "Integer":
            kind = dice.randrange(4)
            if kind == 0:
                divisor = self.constant_named(process, "Integer")
                if not divisor:
                    divisor = self.number() if self.slip() else dice.choice([1, 2, 7, 128])
                made = f"{self.expression(process, sort, less)} {dice.choice(['/', 'MOD', 'REM'])} {divisor}"
            elif kind == 1:
                made = f"-{self.expression(process, sort, 0)}"
            else:
                made = (
                    f"{self.expression(process, sort, less)} {dice.choice(['+', '-', '*'])} "
                    f"{self.expression(process, sort, less)}"
                )
        else:
            kind = dice.randrange(4)
            if kind == 0:
                made = f"NOT {self.expression(process, sort, 0)}"
            elif kind == 1:
                made = (
                    f"{self.expression(process, 'Integer', less)} {dice.choice(RELATIONS)} "
                    f"{self.expression(process, 'Integer', less)}"
                )
            else:
                made = (
                    f"{self.expression(process, sort, less)} {dice.choice(['AND', 'OR', 'XOR', '=', '/='])} "
                    f"{self.expression(process, sort, less)}"
                )
        return f"({made})" if dice.random() < 0.9 else made

    def constant(self, process, sort):
        named = self.constant_named(process, self.dice.choice(SORTS) if self.slip() else sort)
        if named:
            return ("-" if self.dice.random() < (0.3 if sort == "Integer" else self.slips) else "") + named
        if sort == "Boolean":
            return self.dice.choice(["TRUE", "FALSE"])
        return self.dice.choice(["", "-"]) + self.number()

    def range(self, process):
        low, high = sorted(self.dice.sample(range(-5, 12), 2))
        low, high = (
            self.constant(process, "Integer") if self.dice.random() < 0.3 else low,
            self.constant(process, "Integer") if self.dice.random() < 0.2 else high,
        )
        return self.dice.choice([str(low), f"{low}: {high}", f"{self.dice.choice(RELATIONS)} {low}", f"{high}: {low}"])

    def sending(self, process, has_sender):
        signal = (
            self.dice.choice(sorted(process.goes))
            if process.goes and not self.slip()
            else self.dice.choice(sorted(self.signals))
        )
        values = [
            self.expression(process, self.dice.choice(SORTS) if self.slip() else it, 2) for it in self.signals[signal]
        ]
        if self.slip():
            values.append("1")
        parties = [it for it in process.goes.get(signal, ["ENV"])]
        others = [it for it in parties if it != "ENV"]
        to = ""
        if len(set(parties)) > 1 or (others and self.dice.random() < 0.2):
            to = (
                " TO SENDER" if has_sender and self.dice.random() < 0.3 else f" TO {self.one(others)}" if others else ""
            )
        elif has_sender and self.dice.random() < 0.04:
            to = " TO SENDER"
        return f"OUTPUT {self.shown(signal)}{'(' + ', '.join(values) + ')' if values else ''}{to};"

    def task(self, process):
        items = []
        for _ in range(self.dice.choice([1, 1, 1, 2, 3])):
            if not process.variables or self.dice.random() < 0.05:
                items.append(self.dice.choice(["'a text'", "''", "'it''s; /* no comment'"]))
            else:
                name, sort = self.dice.choice(process.variables)
                shown, wanted = self.shown(name), self.dice.choice(SORTS) if self.slip() else sort
                items.append(f"{shown} := {self.expression(process, wanted, self.dice.choice([0, 1, 2, 3]))}")
        return f"TASK {', '.join(items)};"

    def decision(self, process, at, depth, has_sender):
        """A DECISION, and whether it goes on."""
        dice, answers, on = self.dice, [], False
        body = lambda: self.transition(process, at, depth + 1, has_sender, False)
        if dice.random() < 0.3:
            names = dice.choice([["TRUE", "FALSE"], ["FALSE", "TRUE"], ["TRUE", None], ["FALSE", None]])
            truths = [name for name, sort in process.named if sort == "Boolean"]
            names = [it and dice.choice([it, it, it, *truths]) for it in names]
            question, labels = self.expression(process, "Boolean", 2), [it and f"({it})" for it in names]
        else:
            question = self.expression(process, "Integer", 2)
            labels = [
                *(
                    f"({', '.join(self.range(process) for _ in range(dice.choice([1, 1, 2])))})"
                    for _ in range(dice.randrange(4))
                ),
                None,
            ]
        if self.slip():
            labels.pop()
        for label in labels:
            made, goes_on = body()
            on = on or goes_on
            answers.append(f"{label or 'ELSE'}: {made}")
        return f"DECISION {question}; {' '.join(answers)} ENDDECISION;", on

    def end(self, process, at):
        joins = process.connections[at:]
        kind = self.dice.random()
        if joins and kind < 0.4:
            return f"JOIN {self.one(joins if not self.slip() else process.connections)};"
        return "STOP;" if kind > 0.93 else f"NEXTSTATE {self.one(process.states)};"

    def transition(self, process, at, depth, has_sender, is_whole):
        """A transition, and whether it goes on after its last statement. `at` is the first of the connections that it
        may join."""
        dice, parts = self.dice, []
        for _ in range(dice.choice([0, 1, 1, 2, 3] if depth else [0, 1, 1, 2, 3, 4])):
            kind = dice.random()
            if kind < 0.2 and depth < 3:
                made, goes_on = self.decision(process, at, depth, has_sender)
                parts.append(made)
                if not goes_on:
                    return " ".join(parts), False
            elif kind < 0.5 and process.goes:
                parts.append(self.sending(process, has_sender))
            elif kind < 0.6 and process.timers:
                timer = self.one(process.timers)
                parts.append(
                    dice.choice([f"RESET({timer});", f"SET(NOW + {self.expression(process, 'Integer', 1)}, {timer});"])
                )
            else:
                parts.append(self.task(process))
        if is_whole != self.slip() or (not is_whole and dice.random() < 0.5):
            return " ".join([*parts, self.end(process, at)]), False
        return " ".join(parts), True

    def inputs(self, process):
        """The inputs and saves of a state: each signal once."""
        stimuli = [*sorted(process.comes), *process.timers]
        self.dice.shuffle(stimuli)
        made = []
        for it in stimuli[: self.dice.randrange(len(stimuli) + 1)] if stimuli else []:
            if self.dice.random() < 0.15:
                made.append(f"SAVE {self.shown(it)};")
                continue
            places = [self.variable(process, sort) or "" for sort in self.signals.get(it, [])]
            given = f"({', '.join(places)})" if any(places) or (places and self.dice.random() < 0.5) else ""
            made.append(f"INPUT {self.shown(it)}{given}; {self.transition(process, 0, 0, it in self.signals, True)[0]}")
        if stimuli and self.slip():
            made.append(f"SAVE {self.dice.choice(stimuli)};")
        return " ".join(made)

    def count(self, process):
        """How many instances a process has, as its head says."""
        dice, number = self.dice, process.instances
        if self.slip():
            return dice.choice(["(0)", "(0,0)", "(9,9)", "(9)", f"({number},{number + 1})", "(2,1)", "(,2)"])
        return dice.choice(
            [
                *([""] if number == 1 else []),
                f"({number},{number})",
                f"({number})",
                f"({number},)",
                f"(0{number}, {number})",
            ]
        )

    def process(self, process):
        dice = self.dice
        process.named = self.in_sight(process)
        declared = (
            [self.synonyms_of(process.synonyms, [it for it in process.named if it not in process.synonyms])]
            if process.synonyms
            else []
        )
        for name, sort in process.variables:
            declared.append(
                f"DCL {name} {sort}{f' := {self.constant(process, sort)}' if dice.random() < 0.75 else ''};"
            )
        declared += [f"TIMER {it};" for it in process.timers]
        if dice.random() < 0.3:
            dice.shuffle(declared)
        parts = [f"PROCESS {process.name}{self.count(process)};", *declared]
        parts.append(f"START; {self.transition(process, 0, 0, False, True)[0]}")
        bodies = [
            f"STATE {it}; {self.inputs(process)} {dice.choice(['', f'ENDSTATE {it};', 'ENDSTATE;'])}"
            for it in process.states
        ]
        bodies += [
            f"CONNECTION {it}: {self.transition(process, at + 1, 0, False, True)[0]} "
            f"{dice.choice(['', 'ENDCONNECTION;'])}"
            for at, it in enumerate(process.connections)
        ]
        dice.shuffle(bodies)
        return " ".join([*parts, *bodies, f"ENDPROCESS {dice.choice(['', process.name])};"])

    def made(self):
        dice = self.dice
        declared = [f"{name}({','.join(sorts)})" if sorts else name for name, sorts in self.signals.items()]
        signals = [f"SIGNAL {', '.join(declared)};"]
        routes = [self.route(at) for at in range(dice.randrange(1, 2 + 2 * len(self.processes)))]
        entities = [
            *signals,
            *([self.synonyms_of(self.synonyms, [])] if self.synonyms else []),
            *routes,
            *map(self.process, self.processes),
        ]
        if dice.random() < 0.2:
            dice.shuffle(entities)
        if self.slip():
            entities.append(dice.choice(entities))
        text = f"BLOCK B; {' '.join(entities)} ENDBLOCK{dice.choice(['', ' b'])};"
        return "".join(
            dice.choice(["\n", " ", "  ", "\t", " /* c */ ", "\r\n"]) if it == " " and dice.random() < 0.3 else it
            for it in text
        ).encode()


def tokens(text):
    """The tokens of a text, each as its kind and its octets with the blanks after it; its octets where it has
    none."""
    try:
        found = [
            (it[0] if it[0] in ("name", "num") else "word" if it[0].isalpha() else "sign", it[2]) for it in lex(text)
        ]
    except Refusal:
        return octets(text)
    return [(kind, text[one:other]) for (kind, one), (_, other) in zip(found, [*found[1:], ("", len(text))])]


def octets(text):
    return [("octet", text[at : at + 1]) for at in range(len(text))]


def change(dice, parts):
    """Changes a name or a number to another, or changes the text more coarsely."""
    at, other, pool = dice.randrange(len(parts)), dice.randrange(len(parts)), ("pool", dice.choice(POOL))
    kind, fine = dice.randrange(24), [number for number, it in enumerate(parts) if it[0] in ("name", "num")]
    if kind < 16 and fine:
        at = dice.choice(fine)
        parts[at] = dice.choice([it for it in parts if it[0] == parts[at][0]])
    elif kind <= 16:
        del parts[at]
    elif kind == 17:
        parts.insert(at, parts[at])
    elif kind == 18:
        parts[at], parts[other] = parts[other], parts[at]
    elif kind == 19:
        parts[at] = parts[other]
    elif kind == 20:
        parts.insert(at, pool)
    elif kind == 21:
        parts[at] = pool
    elif kind == 22:
        del parts[at : at + dice.randrange(1, 40)]
    else:
        parts[other:other] = parts[at : at + dice.randrange(1, 30)]


def damaged(dice, text):
    """A text that was changed at a few places."""
    parts = tokens(text) if dice.random() < 0.9 else octets(text)
    for _ in range(dice.choice([1, 1, 1, 1, 2, 3])):
        if parts:
            change(dice, parts)
    return b"".join(made for _, made in parts)


def bases():
    """The texts that are damaged, all of which read: the short ones, and those that are longer."""
    table = [
        (text.encode(), lines) for _, text, lines in examples.texts() if len(text) <= LONG and text.count("(") < 1000
    ]
    texts = [text for text, lines in table if not lines.startswith(("refused L", "refused P"))]
    return [it for it in texts if len(it) <= SHORT], [it for it in texts if len(it) > SHORT]


BASES = bases()


def case(dice):
    if dice.random() < 0.5:
        text = Text(dice).made()
        if dice.random() < 0.15:
            text = damaged(dice, text)
    else:
        text = damaged(dice, dice.choice(BASES[1] if BASES[1] and dice.random() < 0.01 else BASES[0]))
    try:
        said = check_says(text)
        if said[1] == 2:
            said = (*said, functools.partial(points_elsewhere, "stdin", text))
    except RecursionError:
        said = None
    return ["check", "stdin"], text, said, f"{len(text)} octets, {said and said[0][-1]}"


if __name__ == "__main__":
    sys.exit(hold("random_texts", case, sys.argv[1:], 1000))
