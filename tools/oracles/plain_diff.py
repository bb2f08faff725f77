"""The differences of two process texts, written apart from the program: to compare with `mtp2_play diff`.

usage: tools/oracles/plain_diff.py OLD NEW     prints the lines that diff prints

It compares trees: names in lower case, statements one by one, receivers by the routes, connections by where they are
first joined, so that their names make no difference. It has no proofs, and takes a Python process for each run."""
import pathlib
import sys

from tools.oracles.plain_check import check, lo
from tools.oracles.plain_play import Book
from tools.oracles.plain_reader import P, Refusal, lex, meant
from tools.oracles.plain_term import WANTED, has


class Side:
    """One text: its names, what it declares, and its transitions in a form in which equal ones have one meaning."""

    def __init__(self, text):
        lines, book = check(text), Book(text, 64, 1024, 65536)
        self.terminal = next((f"no {it}" for it in WANTED if not has(book, it)), "yes")
        self.costs = [line.rsplit(" budget ", 1) for line in lines[:-1]]
        entities = meant(P(text, lex(text)).block())
        self.signals = [s for e in entities if e[0] == "signals" for s in e[1]]
        self.processes = [e[1] for e in entities if e[0] == "process"]
        self.paths = [path for e in entities if e[0] == "route" for path in e[2]]
        self.signal = {lo(n): n[0] for n, _ in reversed(self.signals)}
        self.process = {lo(p[0]): p[0][0] for p in reversed(self.processes)}
        self.items = list(self.declared())
        self.text = text
        self.statements = {}
        self.spelled = {(lo(p[0]), lo(c[1])): c[1][0] for p in self.processes for c in p[4]}
        self.ways = list(self.transitions())

    def party(self, party):
        return "ENV" if party == "ENV" else self.process[lo(party)]

    def states(self, process):
        """The states with what they take and save, in the order of the first STATE."""
        found = {}
        for names, clauses in process[3]:
            for name in names:
                found.setdefault(lo(name), (name[0], []))[1].extend(clauses)
        return found.values()

    def timers(self, process):
        return [n for d in process[1] if d[0] == "timer" for n in d[1]]

    def trigger(self, process, name):
        timers = {lo(t): t[0] for t in reversed(self.timers(process))}
        return self.signal.get(lo(name)) or timers[lo(name)]

    def declared(self):
        for name, sorts in self.signals:
            yield f"SIGNAL {name[0]}", f"({', '.join(s.capitalize() for s in sorts)})" if sorts else ""
        for one, other, names in self.paths:
            for name in names:
                yield f"ROUTE {self.party(one)} TO {self.party(other)} WITH {self.signal[lo(name)]}", ""
        for process in self.processes:
            own, count = process[0][0], process[5]
            yield f"PROCESS {own}", f" ({count}, {count})" if count != 1 else ""
            for d in process[1]:
                for name in d[1] if d[0] == "dcl" else ():
                    yield f"DCL {own} {name[0]}", f" {d[2].capitalize()}" + (f" := {d[3][1]}" if d[3] else "")
            for name in self.timers(process):
                yield f"TIMER {own} {name[0]}", ""
            for state, clauses in self.states(process):
                yield f"STATE {own} {state}", ""
                for clause in clauses:
                    for name in clause[1] if clause[0] == "save" else ():
                        yield f"SAVE {own} {state} {self.trigger(process, name)}", ""

    def transitions(self):
        """The name of each, whether a timer begins it, what it means, and its costs."""
        costs = iter(self.costs)
        for process in self.processes:
            meaning, written = Meaning(self, process), Written(self, process)
            own = lo(process[0])
            for _, name, transition in process[4]:
                self.statements.setdefault((own, lo(name)), list(written.rows(transition)))
            self.statements[own + " start"] = list(written.rows(process[2][1]))
            yield (*next(costs), False, meaning.of([], process[2][1]))
            timers = {lo(t) for t in self.timers(process)}
            for state, clauses in self.states(process):
                for clause in clauses:
                    for name, places in clause[2] if clause[0] == "input" else ():
                        self.statements[f"{own} {state.lower()}/{lo(name)}"] = list(written.rows(clause[3]))
                        yield (*next(costs), lo(name) in timers, meaning.of(places, clause[3]))


class Meaning:
    """What the transitions of a process mean, as trees."""

    def __init__(self, side, process):
        self.side, self.process, self.joined = side, process, []
        self.connections = {lo(c[1]): c[2] for c in reversed(process[4])}
        self.sorts = {lo(n): d[2] for d in reversed(process[1]) if d[0] == "dcl" for n in d[1]}

    def of(self, places, transition):
        self.joined, bodies = [], []
        text = self.text(transition)
        while len(bodies) < len(self.joined):
            bodies.append(self.text(self.connections[self.joined[len(bodies)]]))
        return [(j, lo(v)) for j, v in enumerate(places) if v], text, bodies

    def is_truth(self, x):
        if x[0] == "var":
            return self.sorts[lo(x[1])] == "BOOLEAN"
        return (
            x[0] == "bool"
            or x[0] == "un"
            and x[1] == "NOT"
            or x[0] == "bin"
            and x[1] not in ("+", "-", "*", "/", "MOD", "REM")
        )

    def value(self, x):
        if x[0] in ("num", "bool"):
            return x[1]
        if x[0] == "var":
            return ("var", lo(x[1]))
        if x[0] == "un":
            return (x[1], self.value(x[2]))
        # `=` of two Booleans is another operator than that of two Integers, and `/=` of two Booleans is XOR
        sort = self.is_truth(x[2]) if x[1] in ("=", "/=") else None
        return ("XOR" if sort and x[1] == "/=" else (x[1], sort), self.value(x[2]), self.value(x[3]))

    def receiver(self, signal, to):
        if to == "SENDER":
            return to
        if to is not None:
            return lo(to)
        [one] = {
            c if c == "ENV" else lo(c)
            for a, c, names in self.side.paths
            if a != "ENV" and lo(a) == lo(self.process[0]) and signal in map(lo, names)
        }
        return one

    def action(self, a):
        if a[0] == "task":
            return [("task", lo(n), self.value(x)) for n, x in a[1]]
        if a[0] == "output":
            return [("output", lo(n), [self.value(x) for x in xs], self.receiver(lo(n), a[2])) for n, xs in a[1]]
        if a[0] == "set":
            return [("set", self.value(a[1]), lo(a[2]))]
        if a[0] == "reset":
            return [("reset", lo(a[1]))]
        return [self.decision(a)]

    def decision(self, a):
        _, _, question, answers, otherwise = a
        if self.is_truth(question):
            bodies = [(r[1][1], self.text(body)) for ranges, body in answers for r in ranges]
            if otherwise is not None:
                bodies += [
                    (left, self.text(otherwise))
                    for left in ("TRUE", "FALSE")
                    if left not in [value for value, _ in bodies]
                ]
            return ("pick", self.value(question), bodies)
        # the program puts ELSE first, which says whose joins come first
        other = None if otherwise is None else self.text(otherwise)
        return (
            "case",
            self.value(question),
            other,
            [([self.range(r) for r in ranges], self.text(body)) for ranges, body in answers],
        )

    def range(self, r):
        if r[0] == "to":
            return ("to", r[1][1], r[2][1])
        return ("=", r[1][1]) if r[0] == "val" else (r[1], r[2][1])

    def text(self, transition):
        actions, end = transition
        return [step for a in actions for step in self.action(a)], self.end(end)

    def end(self, end):
        if end is None or end[0] == "stop":
            return end and end[0]
        if end[0] == "next":
            return ("next", lo(end[2]))
        if lo(end[2]) not in self.joined:
            self.joined.append(lo(end[2]))
        return ("join", self.joined.index(lo(end[2])))


LEVELS = [("OR", "XOR"), ("AND",), ("=", "/=", "<", "<=", ">", ">="), ("+", "-"), ("*", "/", "MOD", "REM")]


class Written:
    """The statements of a process as they are written: names as they are declared, parentheses where they are
    needed."""

    def __init__(self, side, process):
        self.side, self.line = side, 0
        self.variables = {lo(n): n[0] for d in reversed(process[1]) if d[0] == "dcl" for n in reversed(d[1])}
        self.timers = {lo(n): n[0] for n in reversed(side.timers(process))}
        self.connections = {lo(c[1]): c[1][0] for c in reversed(process[4])}
        self.states = {state.lower(): state for state, _ in side.states(process)}
        self.meaning = Meaning(side, process)

    def value(self, x, level=0):
        if x[0] == "num":
            return f"({x[1]})" if x[1] < 0 and level > 5 else str(x[1])
        if x[0] == "bool":
            return str(x[1])
        if x[0] == "var":
            return self.variables[lo(x[1])]
        if x[0] == "un":
            said = ("-" if x[1] == "-" else "NOT ") + self.value(x[2], 6)
            return f"({said})" if level > 5 else said
        own = next(at for at, signs in enumerate(LEVELS) if x[1] in signs)
        said = f"{self.value(x[2], 3 if own == 2 else own)} {x[1]} {self.value(x[3], own + 1)}"
        return f"({said})" if level > own else said

    def row(self, at, text, joined=None):
        self.line = self.side.text[:at].count(b"\n") + 1 if at else self.line
        return self.line, text, joined

    def rows(self, transition):
        """Each statement with its line, and the connection that it leads to."""
        actions, end = transition
        for a in actions:
            if a[0] == "task" and a[1]:
                yield self.row(a[2], ", ".join(f"{self.variables[lo(n)]} := {self.value(x)}" for n, x in a[1]))
            elif a[0] == "output":
                for name, xs in a[1]:
                    to = self.meaning.receiver(lo(name), a[2])
                    values = f"({', '.join(map(self.value, xs))})" if xs else ""
                    yield self.row(
                        name[1], f"OUTPUT {self.side.signal[lo(name)]}{values} TO {self.side.process.get(to, to)}"
                    )
            elif a[0] == "set":
                yield self.row(a[3], f"SET(NOW + {self.value(a[1])}, {self.timers[lo(a[2])]})")
            elif a[0] == "reset":
                yield self.row(a[2], f"RESET({self.timers[lo(a[1])]})")
            elif a[0] == "decide":
                yield self.row(a[1], f"DECISION {self.value(a[2])}")
                for ranges, body in a[3]:
                    opens = self.side.text.rindex(b"(", 0, ranges[0][-1])
                    yield self.row(opens, f"({', '.join(map(self.range, ranges))})")
                    yield from self.rows(body)
                if a[4] is not None:
                    yield self.row(0, "ELSE")
                    yield from self.rows(a[4])
        if end is not None:
            at, name = end[1], end[2] if len(end) > 2 else None
            if end[0] == "stop":
                yield self.row(at, "STOP")
            elif end[0] == "next":
                yield self.row(at, f"NEXTSTATE {self.states[lo(name)]}")
            else:
                yield self.row(at, f"JOIN {self.connections[lo(name)]}", lo(name))

    def range(self, r):
        if r[0] == "to":
            return f"{r[1][1]}:{r[2][1]}"
        return str(r[1][1]) if r[0] == "val" else f"{r[1]} {r[2][1]}"


def trimmed(olds, news):
    """How many statements are equal at the beginning, and how many after these at the end."""
    pairs = [one[1].lower() == other[1].lower() for one, other in zip(olds, news)]
    front = pairs.index(False) if False in pairs else len(pairs)
    least = min(len(olds), len(news)) - front
    pairs = [one[1].lower() == other[1].lower() for one, other in zip(olds[::-1], news[::-1])]
    return front, min(least, pairs.index(False) if False in pairs else len(pairs))


def changes(olds, news):
    front, back = trimmed(olds, news)
    for sign, rows in ("-", olds), ("+", news):
        yield from (f"    {sign} {line} {text}" for line, text, _ in rows[front : len(rows) - back])


def is_other(olds, news):
    return [it[1].lower() for it in olds] != [it[1].lower() for it in news]


def blamed(old, new, process, title):
    """The connections with other statements that a transition comes to, in the order of the text."""
    found, left = set(), [old.statements[title]]
    while left:
        for _, _, name in left.pop():
            if name is not None and name not in found:
                found.add(name)
                left.append(old.statements[process, name])
    for key in old.statements:
        if (
            isinstance(key, tuple)
            and key[0] == process
            and key[1] in found
            and key in new.statements
            and is_other(old.statements[key], new.statements[key])
        ):
            yield key


def first(name, others):
    return next((other for other in others if other[0].lower() == name.lower()), None)


def counts(old, new):
    """Both costs of a transition, the other one after it if it differs."""
    one, other = old.split(), new.split()
    return " ".join(["budget", *(a if a == b else f"{a} -> {b}" for a, b in zip(one, other))])


def differences(old, new):
    for head, tail in old.items:
        other = first(head, new.items)
        if other is None:
            yield f"- {head}{tail}"
        elif other[1].lower() != tail.lower():
            yield f"~ {head}{tail} -> {other[0]}{other[1]}"
    yield from (f"+ {head}{tail}" for head, tail in new.items if first(head, old.items) is None)
    gone = added = 0
    to_blame = set()
    for way in old.ways:
        other = next((w for w in new.ways if w[0].lower() == way[0].lower() and w[2] == way[2]), None)
        if other is None:
            yield f"- {way[0]} budget {way[1]}"
        elif other[3] != way[3]:
            yield f"~ {way[0]} {counts(way[1], other[1])}"
            title = way[0].lower()
            yield from changes(old.statements[title], new.statements[title])
            for key in blamed(old, new, title.split()[0], title):
                yield f"    by CONNECTION {old.spelled[key]}"
                to_blame.add(key)
        gone += other is None or other[3] != way[3]
    for way in new.ways:
        if not any(w[0].lower() == way[0].lower() and w[2] == way[2] for w in old.ways):
            yield f"+ {way[0]} budget {way[1]}"
            added += 1
    for key in old.statements:
        if key in to_blame:
            yield f"~ CONNECTION {old.process[key[0]]} {old.spelled[key]}"
            yield from changes(old.statements[key], new.statements[key])
    yield f"same {len(old.ways) - gone} of {len(old.ways) + added}"
    yield f"terminal {old.terminal}" + (f" -> {new.terminal}" if new.terminal != old.terminal else "")


def compare(old, new):
    """The lines of `diff` for two texts, or the one that says which is refused, and the exit status."""
    sides = []
    for name, text in ("OLD", old), ("NEW", new):
        try:
            sides.append(Side(text))
        except Refusal as why:
            return [f"{name}: refused {why}"], 2
    lines = list(differences(*sides))
    return lines, 0 if len(lines) == 2 else 1


if __name__ == "__main__":
    lines, status = compare(*(pathlib.Path(path).read_bytes() for path in sys.argv[1:3]))
    print("\n".join(lines))
    sys.exit(status)
