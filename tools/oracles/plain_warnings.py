"""What `mtp2_play check --warn` warns of in an accepted text, worked out plainly and apart from the program: on the
tree of plain_reader.py, by sets and searches on names.

    tools/oracles/plain_warnings.py FILE ..     prints the warnings of each"""
import pathlib
import sys

from tools.oracles.plain_point import shown
from tools.oracles.plain_reader import P, lex, line_of, meant

LEAST, GREATEST = -(2**31), 2**31 - 1
# The most octets of a line that is printed with a warning.
MOST_SHOWN = 1000
FAULTS = {
    "A1": "UnreachedState",
    "A2": "UnsentInput",
    "A3": "IdleTimer",
    "A4": "UnreadVariable",
    "A5": "StraySignal",
    "A6": "VainSave",
    "A7": "SpentAnswer",
    "A8": "FixedDecision",
    "A9": "UnusedSynonym",
    "A10": "UnreachedConnection",
}


def low(name):
    return name[0].lower()


def party(it):
    return "ENV" if it == "ENV" else low(it)


def bodies(action):
    """The transitions in a DECISION."""
    return [body for _, body in action[3]] + ([action[4]] if action[4] is not None else [])


def actions(transition):
    """All actions of a transition, those in its DECISIONs too."""
    for action in transition[0]:
        yield action
        if action[0] == "decide":
            for body in bodies(action):
                yield from actions(body)


def ends(transition):
    """All ends of a transition, those in its DECISIONs too."""
    for action in transition[0]:
        if action[0] == "decide":
            for body in bodies(action):
                yield from ends(body)
    if transition[1] is not None:
        yield transition[1]


def joins(transition):
    """The connections that the JOINs of a transition name."""
    return [low(it[2]) for it in ends(transition) if it[0] == "join"]


def variables(expression):
    """The variables of an expression."""
    if expression[0] == "var":
        return {low(expression[1])}
    if expression[0] == "bin":
        return variables(expression[2]) | variables(expression[3])
    return variables(expression[2]) if expression[0] == "un" else set()


def questions(action):
    """The expressions that an action works out."""
    if action[0] == "task":
        return [value for _, value in action[1]]
    if action[0] == "output":
        return [value for _, values in action[1] for value in values]
    return {"set": action[1:2], "decide": action[2:3], "reset": ()}[action[0]]


def closure(first, follow):
    """All that is reached from these, themselves too."""
    seen, left = set(), list(first)
    while left:
        one = left.pop()
        if one not in seen:
            seen.add(one)
            left += follow(one)
    return seen


class Process:
    """A process: its parts by name, and who is reached in it."""

    def __init__(self, tree):
        self.name, declarations, self.start, self.parts, connections, _ = tree
        self.variables = [name for it in declarations if it[0] == "dcl" for name in it[1]]
        self.initial = [it[3] for it in declarations if it[0] == "dcl"]
        self.timers = [name for it in declarations if it[0] == "timer" for name in it[1]]
        self.connections = {low(name): (at, name, body) for at, name, body in connections}
        self.inputs = [clause for _, clauses in self.parts for clause in clauses if clause[0] == "input"]
        self.transitions = [self.start[1], *(it[3] for it in self.inputs)]
        self.texts = [*self.transitions, *(it[2] for it in self.connections.values())]
        self.actions = [it for text in self.texts for it in actions(text)]
        self.states, self.takes, self.leads = {}, {}, {}
        for names, clauses in self.parts:
            for name in names:
                self.states.setdefault(low(name), name)
                for clause in clauses:
                    if clause[0] == "input":
                        self.takes.setdefault(low(name), set()).update(low(signal) for signal, _ in clause[2])
                        self.leads.setdefault(low(name), set()).update(self.next_states(clause[3]))

    def heeded(self):
        """The signals that a state takes or saves."""
        saved = {low(it) for _, clauses in self.parts for clause in clauses if clause[0] == "save" for it in clause[1]}
        return saved | {low(signal) for clause in self.inputs for signal, _ in clause[2]}

    def joined(self, transition):
        """The connections to which a transition comes, through others too."""
        return closure(joins(transition), lambda one: joins(self.connections[one][2]))

    def next_states(self, transition):
        """The states in which a transition may end."""
        texts = [transition, *(self.connections[it][2] for it in self.joined(transition))]
        return {low(it[2]) for text in texts for it in ends(text) if it[0] == "next"}

    def from_state(self, state):
        """The states that are reached from a state, itself too."""
        return closure([state], lambda one: self.leads.get(one, ()))

    def may_take(self, state, signal):
        """Whether a way from a state leads to one that takes a signal."""
        return any(signal in self.takes.get(it, ()) for it in self.from_state(state))

    def from_start(self):
        return closure(self.next_states(self.start[1]), lambda one: self.leads.get(one, ()))


def values(ranges):
    """The values that ranges are for, as (least, greatest); a truth value is itself."""
    made = []
    for it in ranges:
        if it[0] == "to":
            made.append((it[1][1], it[2][1]))
        elif it[0] == "val":
            made.append((it[1][1], it[1][1]))
        else:
            k = it[2][1]
            made += {
                "=": [(k, k)],
                "/=": [(LEAST, k - 1), (k + 1, GREATEST)],
                "<": [(LEAST, k - 1)],
                "<=": [(LEAST, k)],
                ">": [(k + 1, GREATEST)],
                ">=": [(k, GREATEST)],
            }[it[1]]
    return [it for it in made if isinstance(it[0], str) or it[0] <= it[1]]


def are_spent(earlier, own):
    """Whether each value of an answer's is one of earlier answers'."""
    for least, greatest in own:
        if isinstance(least, str):
            if (least, greatest) not in earlier:
                return False
            continue
        # (what is left of this range, cut by each earlier one)
        left = [(least, greatest)]
        for one, other in earlier:
            if not isinstance(one, str):
                cut = [it for low, high in left for it in ((low, min(high, one - 1)), (max(low, other + 1), high))]
                left = [it for it in cut if it[0] <= it[1]]
        if left:
            return False
    return True


def sends_to(paths, sender, receiver, signal):
    """Whether a process has an OUTPUT of a signal that may go to another one."""
    if (low(sender.name), low(receiver.name), signal) not in paths:
        return False
    for action in sender.actions:
        if action[0] == "output" and any(low(name) == signal for name, _ in action[1]):
            if action[2] in (None, "SENDER") or low(action[2]) == low(receiver.name):
                return True
    return False


def of_states(process):
    """The warnings of states and of connections that nothing leads to."""
    reached = process.from_start()
    for key, state in process.states.items():
        if key not in reached:
            yield state[1], "A1", f"no way from START leads to {state[0]}"
    joined = set().union(*(process.joined(it) for it in process.transitions))
    for key, (at, connection, _) in process.connections.items():
        if key not in joined:
            yield at, "A10", f"no JOIN of a transition leads to {connection[0]}"


def of_inputs(paths, processes, process):
    """The warnings of inputs of signals that nobody sends."""
    timers = {low(it) for it in process.timers}
    for clause in process.inputs:
        for signal, _ in clause[2]:
            from_outside = ("ENV", low(process.name), low(signal)) in paths
            sent = from_outside or any(sends_to(paths, it, process, low(signal)) for it in processes)
            if low(signal) not in timers and not sent:
                yield signal[1], "A2", f"nobody sends {signal[0]} to {process.name[0]}"


def of_timers(process):
    """The warnings of timers that are set and not taken, or taken and not set."""
    taken = {low(signal) for clause in process.inputs for signal, _ in clause[2]}
    are_set = {low(it[2]) for it in process.actions if it[0] == "set"}
    for timer in process.timers:
        if low(timer) in are_set and low(timer) not in taken:
            yield timer[1], "A3", f"{timer[0]} is set, but no state takes it"
        if low(timer) in taken and low(timer) not in are_set:
            yield timer[1], "A3", f"a state takes {timer[0]}, but nothing sets it"


def of_variables(process):
    """The warnings of variables that no expression reads."""
    read = set().union(*(variables(it) for action in process.actions for it in questions(action)))
    tasks = {low(it) for action in process.actions if action[0] == "task" for it, _ in action[1]}
    places = {low(it) for clause in process.inputs for _, given in clause[2] for it in given if it}
    for variable in process.variables:
        if low(variable) not in read:
            if low(variable) in tasks | places:
                yield variable[1], "A4", f"{variable[0]} is assigned, but never read"
            else:
                yield variable[1], "A4", f"{variable[0]} is never read"


def of_saves(process):
    """The warnings of signals that wait in vain."""
    for names, clauses in process.parts:
        for signal in (it for clause in clauses if clause[0] == "save" for it in clause[1]):
            lost = [name for name in names if not process.may_take(low(name), low(signal))]
            if lost:
                yield signal[1], "A6", f"no way from {lost[0][0]} leads to a state that takes {signal[0]}"


def of_decisions(reader, process):
    """The warnings of the DECISIONs of a process."""
    for action in process.actions:
        if action[0] != "decide":
            continue
        if not variables(action[2]):
            yield action[1], "A8", "the question is a constant"
        earlier = []
        for ranges, _ in action[3]:
            if are_spent(earlier, values(ranges)):
                yield reader.opened[id(ranges)], "A7", "earlier answers take each of its values"
            earlier += values(ranges)


def of_signals(entities, routed, by_name):
    """The warnings of signals on no route, and of those on a route whose receiver doesn't heed them."""
    on_routes = {low(signal) for _, _, signals in routed for signal in signals}
    for signal, _ in (it for entity in entities if entity[0] == "signals" for it in entity[1]):
        if low(signal) not in on_routes:
            yield signal[1], "A5", f"no route has {signal[0]}"
    for _, target, signals in routed:
        for signal in signals if target != "ENV" else ():
            if low(signal) not in by_name[low(target)].heeded():
                yield signal[1], "A5", f"{target[0]} neither takes nor saves {signal[0]}"


def of_process(paths, processes, process, reader):
    """The warnings of a process: each the place, the code and the sentence."""
    yield from of_states(process)
    yield from of_inputs(paths, processes, process)
    yield from of_timers(process)
    yield from of_variables(process)
    yield from of_saves(process)
    yield from of_decisions(reader, process)


def named_constants(process):
    """The synonyms that stand for the initial values of a process, and for values in its answers."""
    answers = [ranges for action in process.actions if action[0] == "decide" for ranges, _ in action[3]]
    own = [it for ranges in answers for one in ranges for it in one if isinstance(it, tuple)]
    return {low(it[2]) for it in [*process.initial, *own] if it and it[0] == "name"}


def unused(synonyms, used):
    """The warnings of synonyms whose names aren't among those used."""
    for name, _, _ in synonyms:
        if low(name) not in used:
            yield name[1], "A9", f"nothing uses {name[0]}"


def of_synonyms(entities):
    """The warnings of the synonyms of a block as it is written, and of its processes."""
    synonyms = [one for it in entities if it[0] == "synonyms" for one in it[1]]
    used = {"n1", "n2"}.union(*(variables(value) for _, _, value in synonyms))
    for tree in (it[1] for it in entities if it[0] == "process"):
        process = Process(tree)
        own = [one for it in tree[1] if it[0] == "synonyms" for one in it[1]]
        values = [value for _, _, value in own] + [it for action in process.actions for it in questions(action)]
        here = named_constants(process).union(*map(variables, values))
        used |= here - {low(it) for it in process.variables} - {low(name) for name, _, _ in own}
        yield from unused(own, here)
    yield from unused(synonyms, used)


def warnings(text):
    """The warnings of an accepted text, in its order: each the place, the code and the sentence."""
    reader = P(text, lex(text))
    written = reader.block()
    entities = meant(written, reader.opened)
    processes = [Process(it[1]) for it in entities if it[0] == "process"]
    routed = [path for it in entities if it[0] == "route" for path in it[2]]
    paths = {(party(source), party(target), low(signal)) for source, target, signals in routed for signal in signals}
    found = [it for process in processes for it in of_process(paths, processes, process, reader)]
    signals = of_signals(entities, routed, {low(it.name): it for it in processes})
    return sorted([*found, *signals, *of_synonyms(written)])


def lines(name, text):
    """The lines that point at the warnings of an accepted text with this name."""
    found = [(at, f"{code} {FAULTS[code]}", said) for at, code, said in warnings(text)]
    return [line for at, fault, said in found for line in shown(name, text, at, fault, said, most=MOST_SHOWN)]


if __name__ == "__main__":
    for path in sys.argv[1:]:
        print(*lines(path, pathlib.Path(path).read_bytes()), sep="\n")
