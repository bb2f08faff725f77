"""A plain player of events, written apart from the program: to compare with the rows of examples/events.txt.

usage: tools/oracles/plain_events.py --table FILE
           says which rows of a table have other lines, and ends with status 1 if one has
       tools/oracles/plain_events.py FILE             prints the lines of the trial in a file

A trial's first line has the limits, and then come events, each by the number of its actor; after a line `text` stands
a process text, or `standard`. What a process does is plain_play.py's: it goes through the statements of the text
themselves."""
import pathlib
import sys

from tools import table
from tools.oracles.plain_check import Refusal, check
from tools.oracles.plain_play import Actor, Book, given
from tools.oracles.plain_turn import Refused, Turn
from tools.steps import examples
from tools.steps.built import ROOT


class Events(Book):
    """A book whose events name actors, signals, states, inputs and timers by their numbers."""

    def __init__(self, text, ports, env, journal):
        super().__init__(text, ports, env, journal)
        self.names, self.turns = list(self.signals), 0
        self.processes = list(dict.fromkeys(it.process for it in self.actors))

    def numbered(self, number):
        if number >= len(self.actors):
            raise Refused("B10 NoActor")
        return self.actors[number]

    def told(self, actor, trigger):
        """A signal or a timer, by its number."""
        timers = list(actor.process.timers)
        return f"timer {timers.index(trigger)}" if trigger in timers else f"signal {self.names.index(trigger)}"

    def offers(self, number, signal, *values):
        actor = self.numbered(int(number))
        if actor.place is None:
            raise Refused("B2 Stopped")
        self.offer(
            f"{actor.process.name}.{actor.number}",
            self.names[int(signal)] if int(signal) < len(self.names) else "",
            list(map(given, values)),
        )
        return "ok"

    def begins(self, number):
        actor, turn = self.numbered(int(number)), self.turns
        place = actor.place
        self.begin(actor)
        self.turns += 1
        if place == "START":
            return f"turn {turn} at START"
        states = actor.process.states
        return f"turn {turn} at state {list(states).index(place)} input {list(states[place][1]).index(actor.out[0])}"

    def skips(self, number):
        actor = self.numbered(int(number))
        before = list(actor.port)
        self.skip(actor)
        # (what is gone is the first item that isn't among those that are left, in order)
        gone = next((at for at, it in enumerate(actor.port) if it is not before[at]), len(actor.port))
        return f"skipped {self.told(actor, before[gone][0])}"

    def finishes(self, number):
        if int(number) >= len(self.actors) or self.actors[int(number)].out is None:
            raise Refused("B6 Stranger")
        actor, self.lost = self.actors[int(number)], []
        count = Turn(self, actor).count
        self.finish(actor)
        end = "STOP" if actor.place is None else f"state {list(actor.process.states).index(actor.place)}"
        return f"end {end} count {count}" + "".join(f", {place} {cause}" for place, cause in self.lost)

    def lay(self, actor, effect):
        """Notes an output that reaches nobody, with its place among the effects."""
        place = getattr(self, "laying", 0)
        self.laying = place + 1
        done = super().lay(actor, effect)
        if not done:
            to = effect[3]
            if to == "ENV":
                self.lost.append((place, "environment full"))
            else:
                receiver = to if isinstance(to, Actor) else self.instance(to, actor.number) or self.instance(to, 1)
                self.lost.append((place, "stopped" if receiver.place is None else "full"))
        return done

    def finish(self, actor):
        self.laying = 0
        return super().finish(actor)

    def takes(self):
        sender, signal, values = self.take_env()
        name, _, number = sender.partition(".")
        process = next(at for at, it in enumerate(self.processes) if it.name == name)
        said = "".join(f" {str(it).lower()}" for it in values)
        return f"from {process}.{number or 1} signal {self.names.index(signal.lower())}{said}"

    def happens(self, words):
        """The answer to an event."""
        calls = {
            "offer": self.offers,
            "begin": self.begins,
            "skip": self.skips,
            "finish": self.finishes,
            "env": self.takes,
            "tick": lambda ticks: f"due {self.advance(int(ticks))}",
        }
        try:
            return calls[words[0]](*words[1:])
        except Refused as why:
            return f"refused {why}"


def counted(answers):
    """The answers; equal ones in a row once, with their number."""
    lines = []
    for it in answers:
        if lines and lines[-1][0] == it:
            lines[-1][1] += 1
        else:
            lines.append([it, 1])
    return [it if times == 1 else f"{it}, {times} times" for it, times in lines]


def lines_of(trial):
    """The lines of a trial."""
    events, _, source = trial.partition("\ntext\n")
    limits, *events = events.split("\n")
    text = (ROOT / "examples" / "standard.sdl").read_bytes() if source == "standard" else source.encode()
    try:
        check(text)
    except Refusal as why:
        return [f"refused {why}"]
    book, said, part = Events(text, *map(int, limits.split())), [], []
    for line in events:
        if line == "rebase":
            said, part = said + counted(part) + ["rebased"], []
            book.events = 0
            continue
        words = line.split()
        times = int(words.pop(0)) if words[0].isdigit() else 1
        part += [book.happens(words) for _ in range(times)]
    return said + counted(part)


def main(words):
    if len(words) == 1:
        print("\n".join(lines_of(pathlib.Path(words[0]).read_text())))
        return 0
    if len(words) != 2 or words[0] != "--table":
        print(__doc__, file=sys.stderr)
        return 3
    rows = wrong = 0
    for name, trial, lines in examples.parted(pathlib.Path(words[1]).resolve()):
        rows += 1
        said = "\n".join(lines_of(table.written_out(trial, examples.copied)))
        if said != lines:
            wrong += 1
            print(f"{name}: these are its lines:\n{said}")
    print(f"{rows} trials, {wrong} differ")
    return 1 if wrong else 0


if __name__ == "__main__":
    sys.exit(main(sys.argv[1:]))
