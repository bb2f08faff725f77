"""A plain terminal on a line as a filter, written apart from the program: to compare with `mtp2_play line`. An octet
goes out for each that comes in, and eight of them are a millisecond. The terminal is that of plain_term.py.

usage: tools/oracles/plain_filter.py [LIFE ..]
           plays the lives of examples/line/lives.txt, all or those that are named, and ends with status 1 if one
           differs
       tools/oracles/plain_filter.py --octets LIFE         writes the octets that come in during a life
       tools/oracles/plain_filter.py MODE ORDERS
           reads octets from standard input, writes those that go out, and reports to standard error

In lives.txt `== NAME` begins an entry, and its first line has the mode. Lines `MS WHAT ..` say what comes in from that
millisecond on, each up to the next one's: `ones`, `flags` (each shares its 0 with the next), `unit HEX` (over and over,
check octets are put on), `once HEX` (and after it flags), `bad HEX` (once, with its last bit the other way round), and
`end`. The input of a millisecond begins after the end of the flag or unit that has begun, which is never cut off; only
`ones` are. Then come a line `--`, the orders, a line `--`, and the expected reports."""
import pathlib
import sys

from tools.oracles.plain_play import BadLine, Refused
from tools.oracles.plain_term import COMMANDS, MEASURES, MORE, ROOT, SETS, Terminal, command, do, shown
from tools.oracles.plain_units import FLAG, bits_of, check_octets, octets_of, stuffed

LIVES = ROOT / "examples" / "line" / "lives.txt"
OCTETS, MOST = 8, 600


# What comes in.


def framed(content):
    return stuffed(bits_of(content + check_octets(content)))


def incoming(schedule):
    """The octets of a schedule: times and what comes from then on."""
    bits, flagged = [], False
    for (at, what, *rest), (until, *_) in zip(schedule, schedule[1:]):
        end, first = until * 64, True
        while len(bits) < end or (first and what in ("once", "bad")):
            if what == "ones":
                bits += [1] * (end - len(bits))
                flagged = False
                continue
            if not flagged:
                bits += FLAG
                flagged = True
                continue
            if what == "unit" or (first and what != "flags"):
                unit = framed(bytes.fromhex(rest[0]))
                if what == "bad":
                    unit[-1] ^= 1
                bits += unit + FLAG
            else:
                bits += FLAG[1:]
            first = False
    return octets_of(bits[: len(bits) // 8 * 8])


# The line.


class End(Terminal):
    """A terminal that gives the bits of what goes out."""

    def bits_out(self):
        """The stuffed bits of the next unit; None for silence."""
        self.rebase()
        if self.kind is None and not self.busy:
            return None
        kind, self.busy = 5 if self.busy else self.kind, False
        fsn, fib, message = self.sender.next_unit() if kind == 9 else self.sender.idle()
        bsn, bib = self.backward()
        if message is not None:
            self.offer("TXC", "MsuSent")
        body = message if message is not None else b"" if kind in (8, 9) else bytes([kind])
        return framed(bytes([bsn | bib << 7, fsn | fib << 7, min(len(body), 63)]) + body)


class Voice:
    """What was stuffed, and is still to go out."""

    def __init__(self):
        self.bits, self.begun = [], False

    def octet(self, end):
        if len(self.bits) < 8:
            unit = end.bits_out()
            if unit is None:
                self.bits, self.begun = (self.bits + [1] * 8)[:8], False
            else:
                self.bits += ([] if self.begun else FLAG) + unit + FLAG
                self.begun = True
        octet, self.bits = octets_of(self.bits[:8])[0], self.bits[8:]
        return octet


def told(end):
    """The terminal's reports: the changes of the link by a unit, and then its message."""
    names = {
        "InServiceNow": "in service",
        "Down": "down",
        "RemoteOut": "far out",
        "RemoteBack": "far back",
        "Cleared": "cleared",
    }
    lines = [" ".join([names[signal], *map(str, values)]) for signal, *values in end.statuses]
    lines += [f"message {it.hex().upper()}" for it in end.messages]
    end.messages, end.statuses = [], []
    return lines


def said(lines):
    """Orders with the milliseconds before which they wait."""
    at = 0
    for line in lines:
        words = [it for it in line.split(" ") if it]
        if not words or words[0].startswith("#"):
            continue
        if words[0].isdigit():
            if words[1:2] == ["ok"] and len(words) > 2:
                at = max(at, int(words[0]))
                yield at, " ".join(words[2:])
            elif not words[1:] or words[1] not in {
                "in",
                "down",
                "far",
                "message",
                "state",
                "value",
                "cleared",
                "told",
                "accepted",
                "retrieve",
                "measure",
                "refused",
                "lost",
                "orders",
            }:
                yield at, " ".join(words)
        elif words[0] == "at" and len(words) == 2 and words[1].isdigit():
            at = max(at, int(words[1]))
        else:
            yield at, " ".join(words)


def obeyed(end, order):
    """The lines that an order is answered."""
    words = order.split(" ")
    if words == ["measure"]:
        return [f"ok {order}", *(f"{order} {name} {end.counts[name]}" for name in MEASURES)]
    try:
        if len(words) == 1 and words[0] in {**COMMANDS, **MORE}:
            words = ["command", words[0]]
        word, *rest = command(words)
        if word == "command":
            do(end, word, *rest)
        elif word == "msu":
            end.sender.put(rest[0])
        elif word == "measure" and rest == ["reset"]:
            do(end, word, *rest)
        elif word in ("told", "accepted", "retrieve", "measure"):
            return [f"ok {order}", f"{order} {do(end, word, *rest)[0]}"]
        elif word == "state":
            actor = end.book.actor(rest[0])
            place = (
                "STOPPED"
                if actor.place is None
                else actor.place
                if actor.place == "START"
                else actor.process.states[actor.place][0]
            )
            return [f"ok {order}", f"{order} {place}"]
        elif word == "value":
            return [f"ok {order}", f"{order} {shown(end.book.actor(rest[0]).variables.get(rest[1].lower()))}"]
        else:
            raise BadLine
    except BadLine:
        return ["refused X1 BadLine"]
    except Refused as why:
        return [f"refused {why}"]
    return [f"ok {order}"]


def run(text, cyclic, octets, orders, say, end=None):
    """Has a terminal speak on a line, a new one if none is given, and returns the octets that go out."""
    end, voice, out, orders = end or End(text, cyclic), Voice(), bytearray(), list(orders)
    for count, octet in enumerate(octets):
        out.append(voice.octet(end))
        end.line_in([octet])
        for line in told(end):
            say(f"{count // OCTETS} {line}")
        if (count + 1) % OCTETS:
            continue
        now = (count + 1) // OCTETS
        end.tick(1)
        for line in told(end):
            say(f"{now} {line}")
        while orders and orders[0][0] <= now:
            order = orders.pop(0)[1]
            if order == "quit":
                say(f"{now} ok quit")
                return bytes(out)
            for line in [*obeyed(end, order), *told(end)]:
                say(f"{now} {line}")
    return bytes(out)


def measured(text, cyclic, octets, orders):
    """What a terminal measured on a line up to its end, as `--measures` has it."""
    end = End(text, cyclic)
    run(text, cyclic, octets, orders, lambda _: None, end)
    return "".join(f"{name} {end.counts[name]}\n" for name in MEASURES)


# The lives.


def lives():
    """The name, the mode, the schedule, the orders and what has to be told of each life."""
    for part in LIVES.read_text().split("\n== ")[1:]:
        name, rest = part.split("\n", 1)
        given, orders, lines = ("\n" + rest).split("\n--\n")
        mode, *schedule = [it for it in given.split("\n") if it and not it.startswith("#")]
        schedule = [(int(at), *more) for at, *more in (it.split() for it in schedule)]
        yield name, mode, schedule, orders.split("\n"), [
            it for it in lines.split("\n") if it and not it.startswith("#")
        ]


def main(words):
    text = (ROOT / "examples" / SETS["standard"]).read_bytes()
    if words[:1] in (["basic"], ["cyclic"]) and len(words) == 2:
        orders = said(pathlib.Path(words[1]).read_text().split("\n"))
        sys.stdout.buffer.write(
            run(text, words[0] == "cyclic", sys.stdin.buffer.read(), orders, lambda line: print(line, file=sys.stderr))
        )
        return 0
    if words[:1] == ["--octets"]:
        sys.stdout.buffer.write(next(incoming(it[2]) for it in lives() if it[0] == words[1]))
        return 0
    wrong = number = 0
    for name, mode, schedule, orders, lines in lives():
        if words and name not in words:
            continue
        number, came = number + 1, []
        run(text, mode == "cyclic", incoming(schedule), said(orders), came.append)
        if came != lines:
            wrong += 1
            at = next(
                (at for at, (one, other) in enumerate(zip(came, lines)) if one != other), min(len(came), len(lines))
            )
            print(f"{name}: line {at + 1}: {came[at : at + 1]} for {lines[at : at + 1]}")
    print(f"{number} lives, {wrong} differ")
    return 1 if wrong else 0


if __name__ == "__main__":
    sys.exit(main(sys.argv[1:]))
