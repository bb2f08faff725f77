"""The costs of the transitions of a process text, and the limits of a text (S10): for plain_check.py."""
import dataclasses

from tools.oracles.plain_reader import Refusal, bodies, lo

# The limits: the most, and what is counted.
LIMITS = {
    "Processes": (16, "processes"),
    "States": (64, "states"),
    "Variables": (32, "variables"),
    "Timers": (8, "timers"),
    "Signals": (128, "signals"),
    "Params": (4, "parameters"),
    "Pieces": (4096, "transitions"),
    "Piece": (512, "instructions"),
    "Depth": (16, "operands at once"),
    "Effects": (32, "effects"),
    "Instances": (8, "instances"),
}
DIVIDES = ("/", "MOD", "REM")


@dataclasses.dataclass
class Row:
    """A transition: of which process, how it is printed, at which state (none: START), the variables that take the
    values, its list, its process's number, where it and its signal stand, and the name of the state's part that has
    it."""

    process: str
    label: str
    state: str
    variables: list
    transition: tuple
    number: int
    at: int
    signal_at: int
    part: str


@dataclasses.dataclass
class Measure:
    """The most that a transition takes: instructions, operands at once, effects."""

    budget: int
    depth: int
    effects: int


def cost(it):
    """The instructions of an expression."""
    if it[0] == "bin":
        return cost(it[2]) + 1 + (0 if it[1] in DIVIDES else cost(it[3]))
    return cost(it[2]) + 1 if it[0] == "un" else 1


def depth(it):
    """The operands that an expression has at once, at most."""
    if it[0] == "bin":
        return depth(it[2]) if it[1] in DIVIDES else max(depth(it[2]), 1 + depth(it[3]))
    return depth(it[2]) if it[0] == "un" else 1


def action_cost(action):
    if action[0] == "task":
        return sum(cost(value) + 1 for _, value in action[1])
    if action[0] == "output":
        return sum(sum(map(cost, values)) + 1 for _, values in action[1])
    return cost(action[1]) + 1 if action[0] == "set" else 1


def action_depth(action):
    if action[0] == "task":
        return max([0, *(depth(value) for _, value in action[1])])
    if action[0] == "output":
        return max([0, *(at + depth(value) for _, values in action[1] for at, value in enumerate(values))])
    return depth(action[1]) if action[0] == "set" else 0


def action_effects(action):
    return 0 if action[0] == "task" else len(action[1]) if action[0] == "output" else 1


class Measures:
    """What the transitions of a text take."""

    def __init__(self, text, joins, runs_on):
        self.text, self.joins, self.runs_on = text, joins, runs_on
        self.joined, self.sizes = {}, {}
        self.rows = [row for number, it in enumerate(text.processes) for row in self.rows_of(number, it)]
        self.measures = [self.measure(it) for it in self.rows]

    def all(self):
        return list(zip(self.rows, self.measures))

    def rows_of(self, number, process):
        """The transitions of a process, in the order in which they are printed."""
        name, (at, start) = process.tree[0][0], process.tree[2]
        yield Row(name, "START", None, [], start, number, at, 0, None)
        timers = {lo(it): it[0] for it in process.timers}
        for state, (shown, inputs) in process.states.items():
            for signal, variables, transition, at, part in inputs:
                known = self.text.known.get(lo(signal))
                label = f"{shown}/{known[0] if known else timers[lo(signal)]}"
                yield Row(name, label, state, variables, transition, number, at, signal[1], part)

    def measure(self, row):
        taken = sum(2 for it in row.variables if it)
        count, effects, most = self.follow(row.transition, 0, 0, row.number)
        return Measure(taken + count, max(most, 1 if taken else 0), effects)

    def follow_joined(self, number, name):
        if (number, name) not in self.joined:
            transition = self.text.processes[number].connections[name][2]
            self.joined[number, name] = self.follow(transition, 0, 0, number)
        return self.joined[number, name]

    def follow(self, transition, count, effects, number):
        """The greatest count and effects where these follow, and the greatest depth (of what follows too, in a
        connection)."""
        actions, end = transition
        most = 0
        if end is not None:
            count, effects = 1, 0
            if end[0] == "join":
                more, others, most = self.follow_joined(number, lo(end[2]))
                count, effects = count + more, effects + others
        for action in reversed(actions):
            if action[0] == "decide":
                count, effects, deep = self.ways(action, count, effects, number)
            else:
                count, effects, deep = (
                    count + action_cost(action),
                    effects + action_effects(action),
                    action_depth(action),
                )
            most = max(most, deep)
        return count, effects, most

    def ways(self, action, count, effects, number):
        """The greatest count, effects and depth of a DECISION: the greatest of its ways, each with the tests in front
        of it."""
        _, _, question, answers, otherwise = action
        is_truth, tests, ways, most = self.text.processes[number].is_truth(question), 0, [], depth(question)
        for ranges, body in [*answers, *([(None, otherwise)] if otherwise is not None else [])]:
            tests += 1 if ranges is None else len(ranges)
            found, others, deep = self.follow(body, count + 1, effects, number)
            ways.append(((1 if is_truth else tests) + found, others))
            most = max(most, deep)
        return cost(question) + max(it[0] for it in ways), max(it[1] for it in ways), most

    def own_size(self, transition, number):
        """The instructions of a list, without those of the connections that it joins."""
        actions, end = transition
        size = 1 if end is not None else 0
        for action in actions:
            if action[0] != "decide":
                size += action_cost(action)
                continue
            _, _, question, answers, otherwise = action
            size += cost(question)
            is_truth = self.text.processes[number].is_truth(question)
            size += 1 if is_truth else sum(len(it) for it, _ in answers) + (1 if otherwise is not None else 0)
            for body in bodies(action):
                size += self.own_size(body, number) + (1 if self.runs_on(body)[0] else 0)
        return size

    def piece_size(self, row):
        """The instructions of a transition, with each connection that it comes to once."""
        connections, seen = self.text.processes[row.number].connections, set()
        left = [lo(it[2]) for it in self.joins(row.transition)]
        size = self.own_size(row.transition, row.number) + sum(2 for it in row.variables if it)
        while left:
            name = left.pop()
            if name in seen:
                continue
            seen.add(name)
            left += [lo(it[2]) for it in self.joins(connections[name][2])]
            if (row.number, name) not in self.sizes:
                self.sizes[row.number, name] = self.own_size(connections[name][2], row.number)
            size += self.sizes[row.number, name]
        return size


def first_states(process):
    """Where each state stands first."""
    seen = {}
    for names, _ in process.tree[3]:
        for name in names:
            seen.setdefault(lo(name), name[1])
    return list(seen.values())


def of_text(text, measures, kind):
    """What counts against a limit of the whole text: whose, how many, and where the text passes the limit."""
    block, most = text.block[1], LIMITS[kind][0]
    if kind == "Processes":
        yield block, len(text.processes), [it.tree[0][1] for it in text.processes][most:]
    elif kind == "Signals":
        yield block, len(text.signals), [it[0][1] for it in text.signals][most:]
    elif kind == "Params":
        for name, sorts in text.signals:
            yield name[0], len(sorts), [name[1]]
    elif kind == "Pieces":
        reached = 0
        for number, process in enumerate(text.processes):
            reached += sum(it.number == number for it in measures.rows)
            if reached > most:
                yield block, len(measures.rows), [process.tree[0][1]]
                break


def of_processes(text, kind):
    """The counts against a limit of each process."""
    most = LIMITS[kind][0]
    for process in text.processes:
        name = process.tree[0]
        if kind == "Instances":
            yield name[0], process.tree[5], [name[1]]
            continue
        places = {
            "States": lambda it: first_states(it),
            "Variables": lambda it: [variable[0][1] for variable in it.variables],
            "Timers": lambda it: [timer[1] for timer in it.timers],
        }[kind](process)
        yield name[0], len(places), places[most:]


def of_transitions(measures, kind):
    """The counts against a limit of each transition, in the order of the text."""
    count = {
        "Piece": lambda row, _: measures.piece_size(row),
        "Depth": lambda _, measure: measure.depth,
        "Effects": lambda _, measure: measure.effects,
    }[kind]
    for row, measure in sorted(measures.all(), key=lambda it: (it[0].number, it[0].at, it[0].signal_at)):
        if row.state == row.part:
            yield f"{row.process} {row.label}", count(row, measure), [row.at]


def counted(text, measures, kind):
    """What counts against a limit."""
    if kind in ("Processes", "Signals", "Params", "Pieces"):
        return of_text(text, measures, kind)
    return (
        of_processes(text, kind)
        if kind in ("States", "Variables", "Timers", "Instances")
        else of_transitions(measures, kind)
    )


def refuse_limits(text, measures):
    """Refuses a text that passes a limit, for the first one, with what passes it first in the text."""
    for kind, (most, what) in LIMITS.items():
        for owner, number, places in counted(text, measures, kind):
            if number > most:
                why = Refusal(f"S10 Limit {kind}")
                why.at, why.said = places[0], f"{owner} has {number} {what}, {most} at most"
                raise why
