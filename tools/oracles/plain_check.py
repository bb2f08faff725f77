"""A plain checker of process texts, written apart from the program: to compare with `mtp2_play check`.

usage: tools/oracles/plain_check FILE ..     prints the lines that check prints for each

It knows the whole language, has no proofs, and takes a Python process for each run. The limits (S10) stand in
plain_limits.py, variables that are read unset (S11) in plain_unset.py."""
import pathlib
import sys

from tools.oracles.plain_limits import Measures, refuse_limits
from tools.oracles.plain_reader import P, Refusal, block_synonyms, bodies, constant, divisor, first, lex, lo
from tools.oracles.plain_reader import process_synonyms, refusal, stands_for
from tools.oracles.plain_unset import refuse_unset

__all__ = ["P", "Refusal", "check", "lex", "lo"]

NAMES = {
    1: "DoubleName",
    2: "UnknownName",
    3: "WrongSort",
    4: "NoState",
    5: "NoReceiver",
    6: "TwoReceivers",
    7: "JoinCycle",
    8: "NoAnswer",
    9: "BadDivisor",
}
TRUTHS = ("AND", "OR", "XOR", "=", "/=", "<", "<=", ">", ">=")


def place_of(action):
    return action[1] if action[0] == "decide" else action[-1]


def runs_on(transition):
    """Whether a list may run off its end, and the first statement in it that nothing reaches."""
    actions, end = transition
    dead, alive = None, True
    for action in actions:
        if not alive and dead is None:
            dead = place_of(action)
        if action[0] == "decide" and not any(runs_on(it)[0] for it in bodies(action)):
            alive = False
    if end is not None and not alive and dead is None:
        dead = end[1]
    return alive and end is None, dead


def joins(transition):
    """The JOINs of a list."""
    found = []
    for action in transition[0]:
        if action[0] == "decide":
            for body in bodies(action):
                found += joins(body)
    if transition[1] is not None and transition[1][0] == "join":
        found.append(transition[1])
    return found


class Text:
    """A text: what it declares, and what is wrong in it, as the number of a refusal with its place."""

    def __init__(self, octets):
        tree = P(octets, lex(octets))
        entities = tree.block()
        if tree.high is not None:
            raise refusal("P2 TooDeep", octets, tree.high)
        self.octets, self.bad = octets, []
        self.block = next(it for it in tree.t if it[0] == "name")
        self.signals = [it for entity in entities if entity[0] == "signals" for it in entity[1]]
        trees = [it[1] for it in entities if it[0] == "process"]
        routes = [it for it in entities if it[0] == "route"]
        for names in ([it[0] for it in self.signals], [it[0] for it in trees], [it[1] for it in routes]):
            self.twice(names)
        self.known = {lo(name): (name[0], sorts) for name, sorts in reversed(self.signals)}
        self.names, self.paths = {lo(it[0]) for it in trees}, []
        synonyms = [it for entity in entities if entity[0] == "synonyms" for it in entity[1]]
        self.twice([it[0] for it in synonyms])
        Synonyms(self, {}).declare(synonyms)
        self.synonyms = block_synonyms(entities)
        for route in routes:
            self.route(route)
        self.processes = [Process(self, it) for it in trees]

    def wrong(self, number, at):
        self.bad.append((number, at))

    def twice(self, names):
        """What is declared twice."""
        seen = set()
        for name in names:
            if lo(name) in seen:
                self.wrong(1, name[1])
            seen.add(lo(name))

    def route(self, route):
        """A route's ends and signals."""
        for source, target, names in route[2]:
            for end in (source, target):
                if end != "ENV" and lo(end) not in self.names:
                    self.wrong(2, end[1])
            for name in names:
                if lo(name) not in self.known:
                    self.wrong(2, name[1])
                ends = [it if it == "ENV" else lo(it) for it in (source, target)]
                self.paths.append((*ends, lo(name)))

    def refuse(self):
        """Refuses the text for the first thing that is wrong in it."""
        if self.bad:
            number, at = min(self.bad)
            raise refusal(f"S{number} {NAMES[number]}", self.octets, at)


class Sorts:
    """The sorts of expressions by those of the variables (`sorts`) and of the synonyms (`known`, with values)."""

    def sort_of(self, it):
        """The sort of an expression; nothing where it can't be told."""
        kind = it[0]
        if kind == "num":
            return "INTEGER"
        if kind == "bool":
            return "BOOLEAN"
        if kind == "var" and lo(it[1]) in self.known:
            return self.known[lo(it[1])][0]
        if kind == "var":
            if lo(it[1]) not in self.sorts:
                self.wrong(2, it[1][1])
            return self.sorts.get(lo(it[1]))
        if kind == "un":
            sort = "BOOLEAN" if it[1] == "NOT" else "INTEGER"
            self.want(it[2], sort)
            return sort
        return self.sort_of_two(it[1], it[2], it[3])

    def sort_of_two(self, operator, left, right):
        """The sort of an operation with two operands."""
        if operator in ("=", "/="):
            one, other = self.sort_of(left), self.sort_of(right)
            if one and other and one != other:
                self.wrong(3, first(right))
            return "BOOLEAN"
        sort = "BOOLEAN" if operator in ("AND", "OR", "XOR") else "INTEGER"
        self.want(left, sort)
        self.want(right, sort)
        if operator in ("/", "MOD", "REM") and divisor(right, self.known) < 1:
            self.wrong(9, first(right))
        return "BOOLEAN" if operator in TRUTHS else "INTEGER"

    def want(self, it, sort):
        found = self.sort_of(it)
        if found and found != sort:
            self.wrong(3, first(it))


class Synonyms(Sorts):
    """Synonyms, each of which may name those before it; what is wrong in them goes to the text's."""

    def __init__(self, text, known):
        self.wrong, self.sorts, self.known = text.wrong, {}, dict(known)

    def declare(self, synonyms):
        for name, sort, value in synonyms:
            found = self.sort_of(value)
            if sort and found and found != sort:
                self.wrong(3, first(value))
            self.known.setdefault(lo(name), stands_for(sort, value, self.known))


class Process(Sorts):
    """A process: what it declares, and what is wrong in it, which goes to the text's."""

    def __init__(self, text, tree):
        self.text, self.tree, self.wrong, self.name = text, tree, text.wrong, lo(tree[0])
        self.known = process_synonyms(tree, text.synonyms)
        declared = [it for it in tree[1] if it[0] == "dcl"]
        self.variables = [(name, it[2], it[3]) for it in declared for name in it[1]]
        self.timers = [name for it in tree[1] if it[0] == "timer" for name in it[1]]
        self.connections = {lo(it[1]): it for it in reversed(tree[4])}
        self.sorts = {lo(name): sort for name, sort, _ in reversed(self.variables)}
        self.own_timers = {lo(it) for it in self.timers}
        # (a state's name as it is written first, and its inputs: signal, variables, list, place, name of its part)
        self.states = {}
        for names, _ in tree[3]:
            for name in names:
                self.states.setdefault(lo(name), (name[0], []))
        synonyms = [it for own in tree[1] if own[0] == "synonyms" for it in own[1]]
        for names in (self.nouns(), self.timers, [it[1] for it in tree[4]]):
            text.twice(names)
        hidden = {lo(it[0]) for it in [*synonyms, *self.variables]}
        Synonyms(text, {name: it for name, it in text.synonyms.items() if name not in hidden}).declare(synonyms)
        for timer in self.timers:
            if lo(timer) in text.known:
                self.wrong(1, timer[1])
        for it in declared:
            value = it[3] and self.constant(it[3])
            if value and value[0] != it[2]:
                self.wrong(3, value[2])
        self.joined()
        self.listed_whole(tree[2][0], tree[2][1], None)
        self.stimuli()

    def nouns(self):
        """The names of the variables and synonyms, in their order."""
        for it in self.tree[1]:
            if it[0] == "dcl":
                yield from it[1]
            if it[0] == "synonyms":
                yield from (own[0] for own in it[1])

    def constant(self, it):
        """A constant with its value."""
        if it[0] == "name":
            if lo(it[2]) not in self.known:
                self.wrong(2, it[2][1])
            elif it[1] and self.known[lo(it[2])][0] == "BOOLEAN":
                self.wrong(3, it[2][1])
        return constant(it, self.known)

    def is_truth(self, it):
        """Whether an expression is of BOOLEAN, as it is written."""
        if it[0] == "var" and lo(it[1]) in self.known:
            return self.known[lo(it[1])][0] == "BOOLEAN"
        if it[0] == "var":
            return self.sorts.get(lo(it[1])) == "BOOLEAN"
        return it[0] == "bool" or it[0] == "un" and it[1] == "NOT" or it[0] == "bin" and it[1] in TRUTHS

    def comes(self, transition):
        """The connections to which a list comes."""
        seen, left = set(), [lo(it[2]) for it in joins(transition)]
        while left:
            name = left.pop()
            if name not in seen and name in self.connections:
                seen.add(name)
                left += [lo(it[2]) for it in joins(self.connections[name][2])]
        return seen

    def joined(self):
        """The connections: their lists, with the inputs from which they are come to, and no cycle of them."""
        origins = {it: [] for it in self.connections}
        for it in self.comes(self.tree[2][1]):
            origins[it].append(None)
        for clause in (it for _, clauses in self.tree[3] for it in clauses if it[0] == "input"):
            for it in self.comes(clause[3]):
                origins[it].append([lo(signal) for signal, _ in clause[2]])
        for place, name, transition in self.tree[4]:
            self.listed(transition, origins[lo(name)])
            if runs_on(transition)[0]:
                self.wrong(4, place)
            for it in joins(transition):
                to = lo(it[2])
                if to in self.connections and (to == lo(name) or lo(name) in self.comes(self.connections[to][2])):
                    self.wrong(7, it[1])

    def listed_whole(self, at, transition, inputs):
        """The list of a START or an INPUT."""
        self.listed(transition, [inputs])
        if runs_on(transition)[0]:
            self.wrong(4, at)

    def listed(self, transition, origins):
        """A list, with the inputs at which it may run: for each way to it those of its INPUT, or none from START."""
        actions, end = transition
        dead = runs_on(transition)[1]
        if dead is not None:
            self.wrong(4, dead)
        for action in actions:
            self.action(action, origins)
        if end is not None and end[0] == "next" and lo(end[2]) not in self.states:
            self.wrong(4, end[1])
        if end is not None and end[0] == "join" and lo(end[2]) not in self.connections:
            self.wrong(2, end[2][1])

    def action(self, action, origins):
        kind = action[0]
        if kind == "decide":
            self.decide(action, origins)
        elif kind == "task":
            for name, value in action[1]:
                sort = self.sort_of(value)
                if lo(name) not in self.sorts:
                    self.wrong(2, name[1])
                elif sort and sort != self.sorts[lo(name)]:
                    self.wrong(3, name[1])
        elif kind == "output":
            for name, values in action[1]:
                self.values(name, values)
                self.receiver(name, action[2], origins)
            if action[2] not in (None, "SENDER") and lo(action[2]) not in self.text.names:
                self.wrong(2, action[2][1])
        else:
            if kind == "set":
                self.want(action[1], "INTEGER")
            timer = action[2] if kind == "set" else action[1]
            if lo(timer) not in self.own_timers:
                self.wrong(2, timer[1])

    def values(self, name, values):
        """The values that go out with a signal."""
        signal = self.text.known.get(lo(name))
        if not signal:
            self.wrong(2, name[1])
        elif len(values) != len(signal[1]):
            self.wrong(3, name[1])
        for number, value in enumerate(values):
            sort = self.sort_of(value)
            if signal and number < len(signal[1]) and sort and sort != signal[1][number]:
                self.wrong(3, first(value))

    def receiver(self, name, target, origins):
        """Who gets a signal: by the routes, or as the OUTPUT says."""
        text = self.text
        reached = {to for source, to, signal in text.paths if source == self.name and signal == lo(name)}
        if target is None:
            if lo(name) in text.known and not reached:
                self.wrong(5, name[1])
            if len(reached) > 1:
                self.wrong(6, name[1])
        elif target == "SENDER":
            if any(inputs is None for inputs in origins):
                self.wrong(5, name[1])
            for signal in (it for inputs in origins if inputs is not None for it in inputs):
                senders = {source for source, to, it in text.paths if to == self.name and it == signal}
                if signal in self.own_timers or not senders <= reached:
                    self.wrong(5, name[1])
        elif lo(target) in text.names and lo(target) not in reached:
            self.wrong(5, name[1])

    def decide(self, action, origins):
        """A DECISION: its question, its answers, and that one of them holds."""
        _, at, question, answers, otherwise = action
        sort = self.sort_of(question)
        for ranges, body in answers:
            for it in ranges:
                self.range(it, sort)
            self.listed(body, origins)
        if otherwise is not None:
            self.listed(otherwise, origins)
        if sort == "INTEGER" and otherwise is None:
            self.wrong(8, at)
        if sort == "BOOLEAN":
            values = [constant(it[1], self.known) for ranges, _ in answers for it in ranges if it[0] == "val"]
            named = [it[1] for it in values if it[0] == "BOOLEAN"]
            both = sorted(named) == ["FALSE", "TRUE"]
            if not (len(named) < 2 if otherwise is not None else both):
                self.wrong(8, at)

    def range(self, it, sort):
        """A range of an answer, which has the sort of the question."""
        constants = [self.constant(one) for one in {"val": it[1:2], "rel": it[2:3]}.get(it[0], it[1:3])]
        is_value = it[0] == "val" and constants[0][0] == "BOOLEAN"
        if sort == "BOOLEAN" and not is_value or sort == "INTEGER" and any(one[0] != "INTEGER" for one in constants):
            self.wrong(3, it[-1])

    def stimuli(self):
        """The INPUTs and SAVEs of the states."""
        named = {it: [] for it in self.states}
        for names, clauses in self.tree[3]:
            for clause in clauses:
                for name in names:
                    named[lo(name)] += clause[1] if clause[0] == "save" else [signal for signal, _ in clause[2]]
                    if clause[0] == "input":
                        part = [(signal, to, clause[3], clause[1], lo(names[0])) for signal, to in clause[2]]
                        self.states[lo(name)][1].extend(part)
                if clause[0] == "save":
                    for it in clause[1]:
                        if lo(it) not in self.text.known and lo(it) not in self.own_timers:
                            self.wrong(2, it[1])
                else:
                    for signal, variables in clause[2]:
                        self.input(signal, variables)
                    self.listed_whole(clause[1], clause[3], [lo(signal) for signal, _ in clause[2]])
        for names in named.values():
            self.text.twice(names)

    def input(self, signal, variables):
        """A signal that is taken, and the variables that take its values."""
        known = self.text.known.get(lo(signal))
        sorts = known[1] if known else [] if lo(signal) in self.own_timers else None
        if sorts is None:
            self.wrong(2, signal[1])
        elif len(variables) > len(sorts):
            self.wrong(3, signal[1])
        for number, name in enumerate(variables):
            if name is None:
                continue
            if lo(name) not in self.sorts:
                self.wrong(2, name[1])
            elif sorts is not None and number < len(sorts) and sorts[number] != self.sorts[lo(name)]:
                self.wrong(3, name[1])


def check(octets):
    """The lines that check prints of a text that it accepts; of another one it is refused why."""
    text = Text(octets)
    text.refuse()
    measures = Measures(text, joins, runs_on)
    refuse_limits(text, measures)
    refuse_unset(text, measures.rows)
    shown = [
        f"{it.process} {it.label} budget {m.budget} depth {m.depth} effects {m.effects}" for it, m in measures.all()
    ]
    return [*shown, "accepted"]


def main(names):
    for name in names:
        octets = pathlib.Path(name).read_bytes()
        if len(names) > 1:
            print(name)
        try:
            try:
                octets.decode()
            except UnicodeDecodeError:
                raise Refusal("F1 NotText") from None
            print("\n".join(check(octets)))
        except Refusal as why:
            print(f"refused {why}")
        if len(names) > 1:
            print()


if __name__ == "__main__":
    main(sys.argv[1:])
