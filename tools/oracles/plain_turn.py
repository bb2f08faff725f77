"""A turn of an actor, by the statements of its process text: for the books of plain_play.py."""
from tools.oracles.plain_check import lo

LEAST, GREATEST = -(2**31), 2**31 - 1


class Refused(Exception):
    """A refusal of the book: `CODE Name`."""


def wrap(number):
    """The number of 32 bits that a number wraps to."""
    return (number - LEAST) % 2**32 + LEAST


def constant(it):
    return it[1] == "TRUE" if it[0] == "BOOLEAN" else it[1]


class Turn:
    """A turn: its effects, the variables after it, its end (None for a STOP), and what it counts."""

    def __init__(self, book, actor):
        self.book, self.process, self.variables, self.effects, self.count = (
            book,
            actor.process,
            dict(actor.variables),
            [],
            0,
        )
        trigger, values, self.sender = actor.out
        text = self.process.start
        if trigger is not None:
            places, text = self.process.states[actor.place][1][trigger]
            for place, value in zip(places, values):
                if place:
                    self.variables[lo(place)] = value
                    self.count += 2
        self.end = self.run(text)

    def run(self, text):
        """The state that a text ends in, None for a STOP, False where it goes on."""
        for act in text[0]:
            end = self.do(act)
            if end is not False:
                return end
        if text[1] is None:
            return False
        self.count += 1
        if text[1][0] == "join":
            return self.run(self.process.connections[lo(text[1][2])])
        return lo(text[1][2]) if text[1][0] == "next" else None

    def do(self, act):
        if act[0] == "task":
            for name, expression in act[1]:
                self.variables[lo(name)] = self.value(expression)
                self.count += 1
        elif act[0] == "output":
            for name, expressions in act[1]:
                values = [self.value(it) for it in expressions]
                self.count += 1
                self.effects.append(("output", lo(name), values, self.receiver(lo(name), act[2])))
        elif act[0] == "set":
            delay = self.value(act[1])
            self.count += 1
            self.effects.append(("set", lo(act[2]), delay))
        elif act[0] == "reset":
            self.count += 1
            self.effects.append(("reset", lo(act[1])))
        else:
            return self.decide(act)
        return False

    def receiver(self, signal, to):
        if to == "SENDER":
            return self.sender
        if to is not None:
            return lo(to)
        return next(b for a, b, s in self.book.paths if a == self.process.name.lower() and s == signal)

    def decide(self, act):
        _, _, question, answers, other = act
        value = self.value(question)
        if isinstance(value, bool):
            self.count += 1
            named = [body for ranges, body in answers for it in ranges if constant(it[1]) == value]
            body = named[0] if named else other
        else:
            body = None
            for ranges, here in answers:
                for it in ranges:
                    self.count += 1
                    if body is None and holds(it, value):
                        body = here
                        break
                if body is not None:
                    break
            if body is None:
                self.count += 1
                body = other
        end = self.run(body)
        if end is False:
            self.count += 1
        return end

    def value(self, it):
        self.count += 1
        if it[0] == "num":
            return it[1]
        if it[0] == "bool":
            return it[1] == "TRUE"
        if it[0] == "var":
            return self.variables[lo(it[1])]
        if it[0] == "un":
            inside = self.value(it[2])
            return (not inside) if it[1] == "NOT" else wrap(-inside)
        left = self.value(it[2])
        if it[1] in ("/", "MOD", "REM"):
            by = it[3][1]
            cut = abs(left) // by * (1 if left >= 0 else -1)
            return {"/": cut, "MOD": left % by, "REM": left - cut * by}[it[1]]
        right = self.value(it[3])
        return OPERATIONS[it[1]](left, right)


OPERATIONS = {
    "OR": lambda a, b: a or b,
    "XOR": lambda a, b: a != b,
    "AND": lambda a, b: a and b,
    "=": lambda a, b: a == b,
    "/=": lambda a, b: a != b,
    "<": lambda a, b: a < b,
    "<=": lambda a, b: a <= b,
    ">": lambda a, b: a > b,
    ">=": lambda a, b: a >= b,
    "+": lambda a, b: wrap(a + b),
    "-": lambda a, b: wrap(a - b),
    "*": lambda a, b: wrap(a * b),
}


def holds(it, value):
    """Whether a range of an answer holds of an Integer."""
    if it[0] == "to":
        return constant(it[1]) <= value <= constant(it[2])
    if it[0] == "val":
        return value == constant(it[1])
    return OPERATIONS[it[1]](value, constant(it[2]))
