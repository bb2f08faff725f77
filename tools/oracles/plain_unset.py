"""The variables of a process text that a way reads before anything has set them (S11): for plain_check.py."""
from tools.oracles.plain_reader import Refusal, bodies, lo

DIVIDES = ("/", "MOD", "REM")


def reads(it):
    """The names of variables that an expression reads."""
    if it[0] == "bin":
        return reads(it[2]) + ([] if it[1] in DIVIDES and it[3][0] == "num" else reads(it[3]))
    if it[0] == "un":
        return reads(it[2])
    return [it[1]] if it[0] == "var" else []


def steps(action):
    """The expressions that a statement reads, in their order, each with the variable that it sets, if it sets one."""
    if action[0] == "task":
        return [(value, name) for name, value in action[1]]
    if action[0] == "output":
        return [(value, None) for _, values in action[1] for value in values]
    return [(action[1], None)] if action[0] == "set" else []


class Walk:
    """The ways of a process from where one of its variables isn't set."""

    def __init__(self, process, variable):
        self.process, self.variable, self.joined = process, variable, {}

    def read(self, it):
        """The places at which an expression reads the variable."""
        return [name[1] for name in reads(it) if lo(name) == self.variable]

    def list(self, transition):
        """Of a list: the places of reads, whether the variable may be left unset, and the states so entered."""
        actions, end = transition
        places, ends, unset = [], set(), True
        for action in actions:
            if not unset:
                break
            if action[0] == "decide":
                places += self.read(action[2])
                found = [self.list(it) for it in bodies(action)]
                for more, _, entered in found:
                    places += more
                    ends |= entered
                unset = any(it[1] for it in found)
                continue
            for value, name in steps(action):
                if unset:
                    places += self.read(value)
                if name and lo(name) == self.variable:
                    unset = False
        if unset and end is not None:
            unset = False
            if end[0] == "next":
                ends.add(lo(end[2]))
            elif end[0] == "join":
                more, _, entered = self.join(lo(end[2]))
                places, ends = places + more, ends | entered
        return places, unset, ends

    def join(self, name):
        if name not in self.joined:
            self.joined[name] = self.list(self.process.connections[name][2])
        return self.joined[name]

    def first_read(self, row):
        """Where a transition reads the variable first, and the states that it enters with it unset."""
        if any(it and lo(it) == self.variable for it in row.variables):
            return None, set()
        places, _, ends = self.list(row.transition)
        return min(places) if places else None, ends


def shortest(walk, rows):
    """The shortest way from START to a read of the variable, as the numbers of its transitions; of these the one that
    comes first: its length, the way, and the place of the read. None where there is none."""
    level, done = [(rows[0][0],)], set()
    numbers = dict(rows)
    while level:
        further, hits = [], []
        for way in level:
            at, ends = walk.first_read(numbers[way[-1]])
            if at is not None:
                hits.append((len(way), way, at))
            for state in ends - done:
                done.add(state)
                further += [(*way, number) for number, row in rows if row.state == state]
        if hits:
            return min(hits)
        level = sorted(further)
    return None


def refuse_unset(text, rows):
    """Refuses a text that reads a variable unset, for the shortest way to such a read."""
    best = None
    for number, process in enumerate(text.processes):
        own = [(at, row) for at, row in enumerate(rows) if row.number == number]
        for name, _, constant in process.variables:
            hit = None if constant else shortest(Walk(process, lo(name)), own)
            if hit and (best is None or (*hit, name[0]) < best):
                best = *hit, name[0]
    if best:
        _, way, at, name = best
        why = Refusal(f"S11 Unset {name} {' '.join(rows[it].label for it in way)}")
        why.at, why.said = at, f"{rows[way[0]].process} reads {name}, which nothing has set on this way"
        raise why
