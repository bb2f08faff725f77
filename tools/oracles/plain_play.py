"""A plain player of book scripts, written apart from the program: to compare with `mtp2_play play`.

usage: tools/oracles/plain_play.py TEXT SCRIPT     prints the lines that play prints for them, and ends with its status

It goes through the statements of the text themselves, knows no instruction, and has no proofs. It reads texts by
plain_check.py. A set is only a text, and scripts of terminals aren't played (plain_term.py does)."""
import pathlib
import re
import sys

from tools.oracles.plain_check import P, Refusal, check, lex, lo
from tools.oracles.plain_reader import meant
from tools.oracles.plain_turn import GREATEST, LEAST, Refused, Turn, constant

LONGEST = 262144
RANGES = {"ports": (1, 64), "env": (1, 1024), "journal": (16, 65536)}


class Failed(Exception):
    """An expectation that doesn't hold, in this line."""


class Process:
    """A process of the text."""

    def __init__(self, parsed, signals):
        (self.name, _), declarations, (_, self.start), states, connections, self.instances = parsed
        self.variables, self.timers, self.states = {}, {}, {}
        for it in declarations:
            if it[0] == "timer":
                self.timers.update({lo(name): name[0] for name in it[1]})
            else:
                for name in it[1]:
                    self.variables[lo(name)] = constant(it[3]) if it[3] else None
        for names, clauses in states:
            for name in names:
                shown, inputs, saves = self.states.setdefault(lo(name), (name[0], {}, set()))
                for it in clauses:
                    if it[0] == "save":
                        saves.update(map(lo, it[1]))
                    else:
                        inputs.update({lo(signal): (places, it[3]) for signal, places in it[2]})
        self.connections = {lo(name): body for _, name, body in connections}
        self.signals = signals

    def shown(self, trigger):
        """A signal's or a timer's name as it is declared."""
        return self.timers[trigger] if trigger in self.timers else self.signals[trigger][0]


class Actor:
    """An instance of a process, by its number from 1."""

    def __init__(self, process, number):
        self.process, self.number, self.place, self.port, self.out = process, number, "START", [], None
        self.variables = dict(process.variables)

    def shown(self):
        """Its name, as `env` prints it."""
        return f"{self.process.name}.{self.number}" if self.process.instances > 1 else self.process.name

    def first(self):
        """The place in the port of the first item that isn't saved, if there is one."""
        saves = self.process.states[self.place][2]
        return next((at for at, it in enumerate(self.port) if it[0] not in saves), None)


class Book:
    """A link's actors, ports, timers, clock, and what they gave to the environment."""

    def __init__(self, text, ports, env, journal):
        entities = meant(P(text, lex(text)).block())
        self.signals = {lo(name): (name[0], sorts) for it in entities if it[0] == "signals" for name, sorts in it[1]}
        processes = [Process(it[1], self.signals) for it in entities if it[0] == "process"]
        self.actors = [Actor(it, number) for it in processes for number in range(1, it.instances + 1)]
        party = lambda it: it if it == "ENV" else lo(it)
        self.paths = [
            (party(a), party(b), lo(s)) for it in entities if it[0] == "route" for a, b, ss in it[2] for s in ss
        ]
        self.ports, self.room, self.journal = ports, env, journal
        self.timers, self.clock, self.ring, self.events = {}, 0, [], 0

    def instance(self, name, number):
        """The actor of that process and that number, if there is one."""
        return next((it for it in self.actors if it.process.name.lower() == name.lower() and it.number == number), None)

    def actor(self, word):
        """The actor that a word of a script names: `P.k`, or `P`, which is `P.1`."""
        name, dot, number = word.partition(".")
        digits = re.fullmatch(r"[0-9]+", number)
        found = self.instance(name, 1 if not dot else int(number) if digits else 0)
        if found is None:
            raise Refused("B10 NoActor")
        return found

    def take_places(self, number):
        """A place in the journal for an event, where so many are free."""
        if self.journal - self.events - sum(it.out is not None for it in self.actors) < number:
            raise Refused("B8 JournalFull")
        self.events += 1

    def put(self, actor, item):
        """Whether a signal found room."""
        if sum(it[2] is not None for it in actor.port) >= self.ports:
            return False
        actor.port.append(item)
        return True

    def offer(self, name, signal, values):
        actor, signal = self.actor(name), signal.lower()
        if signal not in self.signals:
            raise Refused("B3 NoRoute")
        if actor.place is None:
            raise Refused("B2 Stopped")
        sorts = ["BOOLEAN" if isinstance(it, bool) else "INTEGER" for it in values]
        if ("ENV", actor.process.name.lower(), signal) not in self.paths or self.signals[signal][1] != sorts:
            raise Refused("B3 NoRoute")
        if sum(it[2] is not None for it in actor.port) >= self.ports:
            raise Refused("B1 Full")
        self.take_places(1)
        actor.port.append((signal, values, "ENV"))

    def ready(self, actor):
        if actor.out is not None:
            raise Refused("B4 Busy")
        if actor.place is None or actor.place != "START" and actor.first() is None:
            raise Refused("B5 Nothing")

    def begin(self, actor):
        self.ready(actor)
        if actor.place == "START":
            self.take_places(2)
            actor.out = None, [], None
            return "START"
        shown, inputs, _ = actor.process.states[actor.place]
        at = actor.first()
        if actor.port[at][0] not in inputs:
            raise Refused("B11 SkipFirst")
        self.take_places(2)
        actor.out = actor.port.pop(at)
        return f"{shown}/{actor.process.shown(actor.out[0])}"

    def skip(self, actor):
        self.ready(actor)
        if actor.place == "START" or actor.port[actor.first()][0] in actor.process.states[actor.place][1]:
            raise Refused("B12 NotIgnored")
        self.take_places(1)
        return actor.process.shown(actor.port.pop(actor.first())[0])

    def finish(self, actor):
        if actor.out is None:
            raise Refused("B6 Stranger")
        turn = Turn(self, actor)
        lost = sum(not self.lay(actor, it) for it in turn.effects)
        actor.out, actor.variables, actor.place = None, turn.variables, turn.end
        self.events += 1
        if turn.end is None:
            actor.port.clear()
            self.timers = {key: it for key, it in self.timers.items() if key[0] is not actor}
        shown = "STOP" if turn.end is None else actor.process.states[turn.end][0]
        return f"{shown} count {turn.count}" + (f" lost {lost}" if lost else "")

    def lay(self, actor, effect):
        """Whether an effect of a turn found its place; all but outputs do."""
        if effect[0] == "output":
            _, signal, values, to = effect
            if to == "ENV":
                if len(self.ring) >= self.room:
                    return False
                self.ring.append((actor.shown(), self.signals[signal][0], values))
                return True
            # who sent, or of a process the instance with the sender's number, and the first where there is none
            receiver = to if isinstance(to, Actor) else self.instance(to, actor.number) or self.instance(to, 1)
            return receiver.place is not None and self.put(receiver, (signal, values, actor))
        key = actor, effect[1]
        self.timers.pop(key, None)
        actor.port[:] = [it for it in actor.port if it[0] != effect[1]]
        if effect[0] == "set":
            self.timers[key] = self.clock + max(effect[2], 1)
        return True

    def advance(self, ticks):
        if ticks > 65535:
            raise Refused("W1 TooFar")
        if self.clock + ticks > 2**62:
            raise Refused("W2 ClockFull")
        self.take_places(1)
        self.clock += ticks
        order = lambda it: (self.timers[it], self.actors.index(it[0]), list(it[0].process.timers).index(it[1]))
        due = sorted((it for it in self.timers if self.timers[it] <= self.clock), key=order)
        for key in due:
            del self.timers[key]
            key[0].port.append((key[1], [], None))
        return len(due)

    def take_env(self):
        if not self.ring:
            raise Refused("B7 Empty")
        self.take_places(1)
        return self.ring.pop(0)

    def rest(self):
        """So many turns and skips, the least actor first, until none can or the journal is full."""
        for steps in range(10000):
            for actor in self.actors:
                try:
                    self.begin(actor)
                    self.finish(actor)
                    break
                except Refused as why:
                    if str(why).startswith("B8"):
                        return steps
                    if not str(why).startswith("B11"):
                        continue
                try:
                    self.skip(actor)
                    break
                except Refused:
                    return steps
            else:
                return steps
        return 10000


class BadLine(Exception):
    """A line that is no command."""


def number(word):
    if not re.fullmatch(r"[0-9]+", word) or int(word) > GREATEST:
        raise BadLine
    return int(word)


def given(word):
    """The value that a word says."""
    if word in ("true", "false"):
        return word == "true"
    if not re.fullmatch(r"-?[0-9]+", word) or not LEAST <= int(word) <= GREATEST:
        raise BadLine
    return int(word)


def command(words):
    """A line as a command: its word and what follows."""
    word, rest = words[0], words[1:]
    counts = {"begin": 1, "finish": 1, "skip": 1, "state": 1, "tick": 1, "env": 0, "rest": 0, "value": 2}
    if word in counts and len(rest) == counts[word]:
        return (word, number(rest[0])) if word == "tick" else (word, *rest)
    if word == "expect" and rest:
        return word, " ".join(rest)
    if word == "offer" and len(rest) >= 2:
        return word, rest[0], rest[1], [given(it) for it in rest[2:]]
    if word == "flood" and len(rest) >= 3:
        return word, number(rest[0]), rest[1], rest[2], [given(it) for it in rest[3:]]
    raise BadLine


def read(script):
    """The limits that a script names, and its commands with their lines."""
    if len(script) > LONGEST:
        raise Refusal(f"X1 BadLine line {script[:LONGEST].count(10) + 1}")
    limits, commands = {"ports": 16, "env": 64, "journal": 4096}, []
    for at, line in enumerate(script.decode().replace("\r\n", "\n").split("\n"), 1):
        words = [it for it in line.split(" ") if it]
        if not words or words[0].startswith("#"):
            continue
        try:
            if words[0] in RANGES and len(words) == 2 and not commands:
                least, most = RANGES[words[0]]
                if not least <= number(words[1]) <= most:
                    raise BadLine
                limits[words[0]] = int(words[1])
            else:
                commands.append((at, command(words)))
        except BadLine:
            raise Refusal(f"X1 BadLine line {at}") from None
    return limits, commands


def shown(value):
    return "unset" if value is None else str(value).lower()


def do(book, word, *rest):
    """Does a command, and gives the line to print for it."""
    if word == "offer":
        book.offer(*rest)
        return "ok"
    if word == "flood":
        times, name, signal, values = rest
        book.actor(name)
        if signal.lower() not in book.signals:
            raise Refused("B3 NoRoute")
        for _ in range(times):
            book.offer(name, signal, values)
            book.rest()
        return "ok"
    if word in ("begin", "finish", "skip"):
        return f"ok {getattr(book, word)(book.actor(rest[0]))}"
    if word == "tick":
        return f"ok due {book.advance(rest[0])}"
    if word == "env":
        sender, signal, values = book.take_env()
        return " ".join([sender, signal, *map(shown, values)])
    if word == "rest":
        return f"rest {book.rest()}"
    actor = book.actor(rest[0])
    if word == "value":
        return shown(actor.variables.get(rest[1].lower()))
    return (
        "STOPPED"
        if actor.place is None
        else actor.place
        if actor.place == "START"
        else actor.process.states[actor.place][0]
    )


def play(text, script, say):
    """Plays a script, and gives the status."""
    try:
        for it in (text, script):
            try:
                it.decode()
            except UnicodeDecodeError:
                raise Refusal("F1 NotText") from None
            if it is text:
                check(text)
        limits, commands = read(script)
    except Refusal as why:
        say(f"refused {why}")
        return 2
    book, last = Book(text, **limits), None
    for at, (word, *rest) in commands:
        if word == "expect":
            if rest[0] != last:
                say(f"failed line {at}")
                return 1
            continue
        try:
            last = do(book, word, *rest)
        except Refused as why:
            last = f"refused {why}"
        say(last)
    return 0


if __name__ == "__main__":
    texts = [pathlib.Path(it).read_bytes() for it in sys.argv[1:]]
    if len(texts) != 2:
        print(__doc__, file=sys.stderr)
        sys.exit(3)
    sys.exit(play(*texts, print))
