"""A plain player of terminal scripts, written apart from the program: to compare with `mtp2_play play`.

usage: tools/oracles/plain_term.py SET SCRIPT      prints the lines that play prints for them, and ends with its status
       tools/oracles/plain_term.py --table FILE
           plays each entry of a table of scripts, and ends with status 1 if one prints something else

SET is `standard`, `q703`, `monitors` or the file of a text; ` | OLD -> NEW` after it is an edit, made everywhere in
the text, and there may be several. Its actors are those of plain_play.py, which plays book scripts too. The line, the
stores and the terminal are as Q.703 and the profile say them, on whole lists: no bit of the line and no message is ever
forgotten.

A table is written as tools/table says, with these differences: `== SET: NAME` begins an entry, copies are also written
out in the expected lines, and comment lines among them aren't compared; `%A-B{..}` are copies with the numbers A to B.
`<UP>` as a line is the way into service, `<PROVING>` the script of that name, `<STATES>` prints the states of all
processes; among the expected lines they stand for the printed lines, and the states follow the word."""
import contextlib
import pathlib
import re
import sys
from collections import Counter

from tools.oracles.plain_check import Refusal, check
from tools.oracles.plain_play import LONGEST, BadLine, Book, Failed, Refused, number
from tools.oracles.plain_play import play as play_book
from tools.oracles.plain_play import shown
from tools.oracles.plain_reader import P, block_synonyms, lex
from tools.oracles.plain_units import FLAG, Line, Receiver, Sender, bits_of, check_octets, decoded, octets_of, stuffed

ROOT = pathlib.Path(__file__).resolve().parents[2]
SETS = {"standard": "standard.sdl", "q703": "q703.sdl", "monitors": "monitors.sdl"}
# N1 and N2 of a text: their ranges, and the usual values, if neither a script nor the text gives them.
RANGES = {"N1": (range(1, 128), 127), "N2": (range(300, 8193), 8192)}
STATUSES = ["SIO", "SIN", "SIE", "SIOS", "SIPO", "SIB", "6", "7"]
COPIES = re.compile(r"%(?:(\d+)-)?(\d+)\{([^}]*)\}")
UP = ["command power", "command start", "unit FFFF0100", "unit FFFF0101", "tick 8200", "unit FFFF00"]
IS_UP = ["ok", "ok", "ok", "ok", "ok due 1", "ok"]
PROCESSES = ["LSC", "IAC", "AERM", "SUERM", "TXC", "RC", "POC", "CC"]
# The names that a terminal requires of a text, in its order: processes, signals to a process, and signals to the
# environment, with the sorts of their parameters.
WANTED = """LSC AERM SUERM TXC RC CC
LSC/PowerOn LSC/StartLink LSC/StopLink LSC/Emergency LSC/Calm LSC/LocalOut LSC/LocalBack CC/Busy CC/Free
AERM/Good SUERM/Good AERM/Errored SUERM/Errored TXC/AckSeen RC/Bad RC/Unit TXC/MsuSent
ENV/Fresh ENV/Take ENV/Line ENV/Withhold ENV/InServiceNow ENV/Down ENV/RemoteOut ENV/RemoteBack""".split()
SORTS = {
    "AckSeen": "BOOLEAN",
    "Unit": "INTEGER",
    "Take": "BOOLEAN",
    "Line": "INTEGER",
    "Withhold": "BOOLEAN",
    "Down": "INTEGER",
    "Deliver": "BOOLEAN",
    "Odd": "INTEGER",
    "Counting": "BOOLEAN",
}
# The measurements (Q.752), in the order in which they are printed; the times are ticks.
MEASURES = """service_time failures stops alignment_failures error_failures far_failures t1_failures number_failures
t7_failures t6_failures errored_units errored_octets nacks_received nacks_sent octets_sent octets_repeated
octets_received messages_sent messages_received far_outages far_outage_time outages outage_time busy busy_time far_busy
far_busy_time rounds_n1 rounds_n2 aborted_periods""".split()
# Why a link went down, by the number reported; 0 is a stop.
CAUSES = dict(enumerate("alignment error far t1 number t7 t6".split(), 1))
# What a text may have besides.
OPTIONAL = (
    "ENV/Deliver RC/Odd ENV/Clear ENV/Cleared LSC/Flush LSC/Continue CC/Overload AERM/Counting SUERM/Counting".split()
)


def text_of(word):
    """The text of a set, with its edits."""
    file, *edits = word.split(" | ")
    text = (ROOT / "examples" / SETS.get(file, file)).read_text()
    for old, new in (it.split(" -> ") for it in edits):
        if old not in text:
            raise ValueError(f"{word}: there is no {old}")
        text = text.replace(old, new)
    return text


# The terminal.


class Terminal:
    def __init__(self, text, cyclic, *limits):
        self.book = Book(text, 64, 1024, 65536)
        self.line, self.sender, self.receiver = Line(), Sender(cyclic, *limits), Receiver(cyclic)
        self.take, self.withheld, self.kind, self.busy, self.faults = False, None, None, False, []
        # Whether a link set holds it, and whether it does so after the next beginning of both directions too.
        self.is_held = self.stays_held = False
        self.messages, self.statuses = [], []
        self.names = {it for it in OPTIONAL if has(self.book, it)}
        self.deliver, self.behind_odd, self.spare, self.cleared, self.left, self.keeps = True, False, 0, 0, False, False
        # Whether octets are counted, as that was told last.
        self.counting = True
        # What Q.752 asks for; and how it is with the link.
        self.counts = self.line.counts = self.sender.counts = self.receiver.counts = Counter()
        self.in_service = self.far_out = self.far_busy = False

    def rebase(self):
        if self.book.journal - self.book.events < 32768:
            self.book.events = 0

    def periods(self):
        """Cp of initial alignment control, where the text has it: aborted proving periods of this alignment."""
        value = next((it.variables.get("cp") for it in self.book.actors if it.process.name.lower() == "iac"), None)
        return None if isinstance(value, bool) else value

    def rest(self):
        for _ in range(10000):
            before = self.periods()
            if not self.turn():
                if not self.left:
                    return
                self.left = False
                with contextlib.suppress(Refused):
                    self.book.offer("TXC", "AckSeen", [False])
                continue
            if None not in (before, self.periods()) and before < self.periods():
                self.counts["aborted_periods"] += 1
            while self.book.ring:
                try:
                    self.hear(*self.book.take_env())
                except Refused:
                    break

    def turn(self):
        """Whether the first actor that can made its turn, or skipped."""
        for actor in self.book.actors:
            for call in (lambda it: (self.book.begin(it), self.book.finish(it)), self.book.skip):
                try:
                    call(actor)
                    return True
                except Refused as why:
                    if str(why).startswith("B8"):
                        return False
        return False

    def hear(self, _, signal, values):
        """What an actor says to the terminal."""
        self.measure(signal, values)
        if signal == "Fresh":
            self.sender.fresh()
            self.receiver.fresh()
            self.faults, self.withheld = [], None if self.withheld is None else (127, 1)
            self.deliver, self.behind_odd, self.spare = True, False, 0
            self.is_held = self.stays_held
        elif signal == "Deliver" and "ENV/Deliver" in self.names:
            self.deliver = values[0]
        elif signal == "Clear" and "ENV/Clear" in self.names:
            self.clear()
        elif signal == "Take":
            self.take = values[0]
        elif signal == "Withhold":
            self.withheld = (self.receiver.last, self.receiver.bib) if values[0] else None
        elif signal in TOLD and (signal != "Cleared" or "ENV/Cleared" in self.names):
            self.statuses = [*self.statuses, (signal, *values)][-64:]
        elif signal != "Line":
            pass
        elif values[0] == 5:
            self.busy = True
        elif values[0] in (0, 1, 2, 3, 4, 8, 9):
            self.kind, self.busy = values[0], False

    def measure(self, signal, values):
        """What a signal tells Q.752's measurements."""
        if signal == "Down" and values:
            self.counts["failures" if values[0] else "stops"] += 1
            if values[0] in CAUSES:
                self.counts[CAUSES[values[0]] + "_failures"] += 1
        elif signal == "RemoteOut" and not self.far_out:
            self.counts["far_outages"] += 1
        elif signal == "Line" and values[0] == 4 and self.kind != 4:
            self.counts["outages"] += 1
        elif signal == "Withhold" and values[0] and self.withheld is None:
            self.counts["busy"] += 1
        if signal in ("InServiceNow", "Down"):
            self.in_service = signal == "InServiceNow"
        if signal in ("RemoteOut", "RemoteBack", "Down"):
            self.far_out = signal == "RemoteOut"
        # Messages go out no more, or begin anew.
        if signal in ("Down", "Fresh") or signal == "Line" and values[0] in (0, 1, 2, 3, 4, 8):
            self.far_busy = False

    def clear(self):
        """Nothing waits and nothing is unacknowledged any more; the next new message has the number after the last
        acknowledged one."""
        out, sender = self.sender.sent - self.sender.acknowledged, self.sender
        self.spare, self.cleared = out or self.spare, self.cleared + len(sender.all) - sender.acknowledged
        del sender.all[sender.acknowledged :]
        sender.sent = sender.again = sender.turn = sender.acknowledged
        sender.forced, self.left, self.far_busy = False, True, False

    def offer(self, actor, signal, *values):
        """An offer for a unit: it doesn't matter whether it was refused."""
        try:
            self.book.offer(actor, signal, list(values))
        except Refused:
            pass
        self.rest()

    def command(self, actor, signal):
        self.rebase()
        self.book.offer(actor, signal, [])
        self.rest()

    def tick(self, ticks):
        self.rebase()
        due = self.book.advance(ticks)
        so = {
            "service_time": self.in_service,
            "far_outage_time": self.far_out,
            "outage_time": self.kind == 4,
            "busy_time": self.withheld is not None,
            "far_busy_time": self.far_busy,
        }
        self.counts.update({name: ticks for name, holds in so.items() if holds})
        self.rest()
        return due

    def line_in(self, octets):
        """How many octets were taken."""
        for taken, octet in enumerate(octets):
            if len(self.messages) >= 256:
                return taken
            self.rebase()
            for bit in bits_of([octet]):
                for unit in self.line.bit(bit):
                    # A unit ends octet counting.
                    self.tell_counting(self.counting and unit is None)
                    self.received(unit)
                self.tell_counting(self.line.counting)
        return len(octets)

    def tell_counting(self, on):
        if on != self.counting and "SUERM/Counting" in self.names:
            self.counting = on
            self.offer("AERM", "Counting", on)
            self.offer("SUERM", "Counting", on)

    def received(self, unit):
        if unit is None:
            self.offer("AERM", "Errored")
            self.offer("SUERM", "Errored")
            return
        head, status, message = unit
        # The far side is congested from its SIB on, if messages are out and more may go.
        if status == 5 and self.kind == 9 and self.sender.sent > self.sender.acknowledged and not self.far_busy:
            self.far_busy = True
            self.counts["far_busy"] += 1
        if status is None and self.take and "RC/Odd" in self.names:
            return self.judged(head, message)
        count, bad = self.stored(head, message) if status is None and self.take else (0, False)
        left = self.sender.sent > self.sender.acknowledged
        self.offer("AERM", "Good")
        self.offer("SUERM", "Good")
        if count:
            self.offer("TXC", "AckSeen", left)
        if bad:
            self.offer("RC", "Bad")
        self.offer("RC", "Unit", 8 if status is None else status)

    def judged(self, head, message):
        """A unit where the text has the name Odd."""
        behind = self.behind_odd
        if behind:
            count, bad = 0, self.remember(self.fault_of(head))
        else:
            count, bad = self.stored(head, message)
        fault = self.faults[-1]
        self.behind_odd = fault is not None
        left = self.sender.sent > self.sender.acknowledged
        self.offer("AERM", "Good")
        self.offer("SUERM", "Good")
        if count:
            self.offer("TXC", "AckSeen", left)
        if bad and fault:
            self.offer("RC", "Bad")
        if fault:
            self.offer("RC", "Odd", 1 if fault == "number" else 2)
        elif not behind:
            self.offer("RC", "Unit", 8)

    def fault_of(self, head):
        """What is wrong with a unit."""
        if (head["bsn"] - (self.sender.acknowledged - self.sender.origin - 1)) % 128 > max(
            self.sender.sent - self.sender.acknowledged, self.spare
        ):
            return "number"
        return self.odd_bit(head)

    def odd_bit(self, head):
        receiver = self.receiver
        return "indicator" if not receiver.cyclic and head["fib"] != receiver.bib and not receiver.asked else None

    def remember(self, fault):
        """Whether the last three had two faults of one kind."""
        self.faults = [*self.faults, fault][-3:]
        return self.faults.count("number") > 1 or self.faults.count("indicator") > 1

    def stored(self, head, message):
        """How many messages a unit acknowledges, and whether the last three had two faults of one kind."""
        last = (self.sender.acknowledged - self.sender.origin - 1) % 128
        bsn = last if self.spare and (head["bsn"] - last) % 128 <= self.spare else head["bsn"]
        count, fault = self.sender.on_back(bsn, head["bib"]), None
        if count is None:
            fault = "number"
        elif not self.deliver or self.is_held:
            fault = self.odd_bit(head)
        else:
            accepted = self.receiver.on_unit(head["fsn"], head["fib"], message is not None)
            fault = "indicator" if accepted is None else None
            if accepted:
                self.messages.append(message)
                self.counts.update(messages_received=1, octets_received=len(message))
        self.far_busy = self.far_busy and not count
        return count or 0, self.remember(fault)

    def backward(self):
        """The number and the bit that tell the other end what was accepted."""
        return (self.receiver.last, self.receiver.bib) if self.withheld is None else self.withheld

    def unit_out(self):
        """The line printed for the unit that goes out; None for silence."""
        self.rebase()
        if self.kind is None and not self.busy:
            return None
        kind, self.busy = 5 if self.busy else self.kind, False
        fsn, fib, message = self.sender.next_unit() if kind == 9 and not self.is_held else self.sender.idle()
        bsn, bib = self.backward()
        head = f"bsn {bsn} bib {bib} fsn {fsn} fib {fib}"
        if message is not None:
            self.spare = 0
            self.offer("TXC", "MsuSent")
            return f"MSU {head} sio {message[0]:02X} octets {len(message) - 1}"
        return f"FISU {head}" if kind in (8, 9) else f"LSSU {head} status {STATUSES[kind]}"


def has(book, wanted):
    """Whether a text has a name that a terminal requires."""
    party, _, name = wanted.partition("/")
    if not name:
        return any(it.process.name.lower() == party.lower() for it in book.actors)
    _, sorts = book.signals.get(name.lower(), (name, None))
    paths = [(a, b) for a, b, signal in book.paths if signal == name.lower()]
    brought = any(a != "ENV" and b == "ENV" for a, b in paths) if party == "ENV" else ("ENV", party.lower()) in paths
    return brought and sorts == ([SORTS[name]] if name in SORTS else [])


# What a text may have besides, in the order in which a terminal looks for it.
ASKED = (
    "LSC/Flush LSC/Continue CC/Overload ENV/Deliver ENV/Cleared ENV/Clear RC/Odd AERM/Counting SUERM/Counting".split()
)


def is_otherwise(book, wanted):
    """Whether a text has such a signal on a route from or to the environment in another form than the one that a
    terminal knows."""
    party, _, name = wanted.partition("/")
    _, sorts = book.signals.get(name.lower(), (name, None))
    paths = [(a, b) for a, b, signal in book.paths if signal == name.lower() and "ENV" in (a, b)]
    # Counting goes to both error rate monitors.
    to = ("aerm", "suerm") if name == "Counting" else (party.lower(),)
    right = [(a, b) for a, b in paths if (a != "ENV" and b == "ENV" if party == "ENV" else a == "ENV" and b in to)]
    lacks = party != "ENV" and ("ENV", party.lower()) not in paths
    return paths != right or (bool(paths) and (lacks or sorts != ([SORTS[name]] if name in SORTS else [])))


def lacking_in(book):
    """The names that a terminal misses in a text."""
    return [it for it in WANTED if not has(book, it)] + [it for it in ASKED if is_otherwise(book, it)]


# Scripts.

TOLD = {
    "InServiceNow": "in service",
    "Down": "down",
    "RemoteOut": "far out",
    "RemoteBack": "far back",
    "Cleared": "cleared",
}
COMMANDS = {
    "power": ("LSC", "PowerOn"),
    "start": ("LSC", "StartLink"),
    "stop": ("LSC", "StopLink"),
    "emergency": ("LSC", "Emergency"),
    "calm": ("LSC", "Calm"),
    "outage": ("LSC", "LocalOut"),
    "back": ("LSC", "LocalBack"),
    "busy": ("CC", "Busy"),
    "free": ("CC", "Free"),
}
# Those that a text may have besides.
MORE = {"flush": ("LSC", "Flush"), "continue": ("LSC", "Continue"), "overload": ("CC", "Overload")}


def octets_in(word):
    if not re.fullmatch(r"([0-9A-Fa-f]{2})+", word):
        raise BadLine
    return bytes.fromhex(word)


def framed(content):
    """A unit as line octets: a flag, the stuffed bits, a flag, and flags that share a zero until an octet ends."""
    whole = content + check_octets(content)
    if decoded(whole) is None:
        raise BadLine
    bits = FLAG + stuffed(bits_of(whole)) + FLAG
    while len(bits) % 8:
        bits += FLAG[1:]
    return octets_of(bits)


def command(words):
    """A line as a command: its word and what follows."""
    word, rest = words[0], words[1:]
    if word == "expect" and rest:
        return word, " ".join(rest)
    if word == "value" and len(rest) == 2:
        return word, *rest
    if word in ("told", "accepted", "retrieve") and not rest:
        return word, None
    if word == "units" and len(rest) > 1:
        return "lines", times(rest[0]), framed(octets_in(rest[1]) if len(rest) == 2 else octets_of_words(rest[1:]))
    if word == "unit" and len(rest) > 1:
        return "line", framed(octets_of_words(rest))
    if len(rest) != 1:
        raise BadLine
    if word == "measure" and rest[0] in [*MEASURES, "reset"]:
        return word, rest[0]
    if word in ("tick", "out"):
        return word, number(rest[0])
    if word == "errors":
        return "lines", times(rest[0]), bytes.fromhex("7E007E")
    if word == "retrieve" and number(rest[0]) < 128:
        return word, number(rest[0])
    if word == "state":
        return word, rest[0]
    if word == "command" and rest[0] in COMMANDS:
        return word, COMMANDS[rest[0]]
    if word == "command" and rest[0] in MORE:
        return word, MORE[rest[0]]
    if word == "unit":
        return "line", framed(octets_in(rest[0]))
    if word == "line":
        return word, octets_in(rest[0])
    if word == "msu" and 3 <= len(octets_in(rest[0])) <= 273:
        return word, octets_in(rest[0])
    raise BadLine


def times(word):
    """How many times, 1 to 1,000,000."""
    if not 1 <= number(word) <= 1000000:
        raise BadLine
    return number(word)


def octets_of_words(words):
    """The octets of a unit that is written as `out` prints it, except a message's field, which follows `sif`."""
    kind, names, values = words[0], words[1::2], words[2::2]
    wanted = {"FISU": [], "LSSU": ["status"], "MSU": ["sio", "sif"]}
    if kind not in wanted or names != ["bsn", "bib", "fsn", "fib", *wanted[kind]] or len(values) != len(names):
        raise BadLine
    bsn, bib, fsn, fib = map(number, values[:4])
    if bsn > 127 or fsn > 127 or bib > 1 or fib > 1:
        raise BadLine
    rest = b""
    if kind == "LSSU":
        if values[4] not in STATUSES:
            raise BadLine
        rest = bytes([STATUSES.index(values[4])])
    elif kind == "MSU":
        rest = octets_in(values[4]) + octets_in(values[5])
        if len(values[4]) != 2 or not 3 <= len(rest) <= 273:
            raise BadLine
    return bytes([bsn + 128 * bib, fsn + 128 * fib, min(len(rest), 63)]) + rest


def told(terminal):
    """The terminal's next report."""
    if terminal.messages:
        return "message " + bytes(terminal.messages.pop(0)).hex().upper()
    if not terminal.statuses:
        return "nothing"
    signal, *values = terminal.statuses.pop(0)
    return " ".join([TOLD[signal], *map(str, values)])


def retrieved(terminal, behind):
    """Hands out the messages after a number, or those never sent; a text hears of it if messages were out."""
    sender = terminal.sender
    out = sender.sent - sender.acknowledged
    count = out if behind is None else (behind - (sender.acknowledged - sender.origin - 1)) % 128
    if count > out:
        raise Refused("E2 BadAck")
    handed = len(sender.all) - sender.acknowledged - count
    del sender.all[sender.acknowledged + (0 if behind is None else count) :]
    sender.acknowledged = len(sender.all)
    sender.sent = sender.again = sender.turn = sender.acknowledged
    sender.forced = terminal.far_busy = False
    if out:
        terminal.offer("TXC", "AckSeen", False)
    return handed


def do(terminal, word, *rest):
    """Does a command, and gives the lines to print for it."""
    book = terminal.book
    if word == "told":
        return [told(terminal)]
    if word == "accepted":
        return [f"ok {terminal.receiver.last}"]
    if word == "measure" and rest[0] == "reset":
        terminal.counts.clear()
        return ["ok"]
    if word == "measure":
        return [f"ok {terminal.counts[rest[0]]}"]
    if word == "retrieve":
        return [f"ok {retrieved(terminal, rest[0])}"]
    if word == "lines":
        for _ in range(rest[0]):
            do(terminal, "line", rest[1])
    elif word == "command":
        if rest[0][1] in ("Flush", "Continue", "Overload") and "/".join(rest[0]) not in terminal.names:
            raise Refused("B3 NoRoute")
        terminal.command(*rest[0])
    elif word == "msu":
        terminal.sender.put(rest[0])
    elif word == "line":
        octets = rest[0]
        while octets:
            octets = octets[terminal.line_in(octets) :]
            if octets or not terminal.keeps:
                terminal.messages.clear()
                terminal.statuses.clear()
    elif word == "tick":
        return [f"ok due {terminal.tick(rest[0])}"]
    elif word == "out":
        units = []
        while len(units) < rest[0]:
            units.append(terminal.unit_out() or "silent")
            if units == ["silent"]:
                break
        return units
    elif word == "value":
        return [shown(book.actor(rest[0]).variables.get(rest[1].lower()))]
    else:
        actor = book.actor(rest[0])
        return [
            "STOPPED"
            if actor.place is None
            else actor.place
            if actor.place == "START"
            else actor.process.states[actor.place][0]
        ]
    return ["ok"]


def spoken(script):
    """The lines that say something: their places and their words."""
    lines = script.decode().replace("\r\n", "\n").split("\n")
    split = [(at, [it for it in line.split(" ") if it]) for at, line in enumerate(lines, 1)]
    return [(at, words) for at, words in split if words and not words[0].startswith("#")]


def is_terminal(script):
    """Whether it is a terminal script, which is short enough and text."""
    try:
        first = spoken(script)[:1]
    except UnicodeDecodeError:
        return False
    return len(script) <= LONGEST and first != [] and limits_of(first[0][1]) is not None


def limits_of(words):
    """The limits N1 and N2 of the first line of a terminal script, if it is one."""
    if words in (["terminal", "basic"], ["terminal", "cyclic"]):
        return []
    if words[:2] != ["terminal", "cyclic"] or len(words) != 4:
        return None
    try:
        messages, octets = map(number, words[2:])
    except BadLine:
        return None
    return [messages, octets] if 1 <= messages <= 127 and 300 <= octets <= 8192 else None


class OutOfRange(Exception):
    """The name of a limit that a text has out of its range."""


def limits_over(text, mode, n1=None, n2=None):
    """N1 and N2 of a terminal over a text: those that are chosen, else those of its synonyms, else the usual ones."""
    if mode == "basic":
        return []
    found, own = [], block_synonyms(P(text, lex(text)).block())
    for (name, (ours, usual)), chosen in zip(RANGES.items(), (n1, n2)):
        sort, number = own.get(name.lower(), (None, None))
        if chosen is None and sort == "INTEGER" and number not in ours:
            raise OutOfRange(name)
        found.append(chosen if chosen is not None else number if sort == "INTEGER" else usual)
    return found


def run(terminal, commands, say):
    last = None
    for at, (word, *rest) in commands:
        if word == "expect":
            if rest[0] != last:
                raise Failed(at)
            continue
        try:
            lines = do(terminal, word, *rest)
        except Refused as why:
            lines = [f"refused {why}"]
        for last in lines:
            say(last)


def play(word, script, say):
    """Plays a script on a set, and gives the status."""
    return play_text(text_of(word).encode(), script, say)


def play_text(text, script, say):
    """Plays a script on a text, and gives the status."""
    if not is_terminal(script):
        return play_book(text, script, say)
    (_, first), *lines = spoken(script)
    try:
        text.decode()
        check(text)
    except (UnicodeDecodeError, Refusal) as why:
        say("refused F1 NotText" if isinstance(why, UnicodeDecodeError) else f"refused {why}")
        return 2
    commands = []
    for at, words in lines:
        try:
            commands.append((at, command(words)))
        except BadLine:
            say(f"refused X1 BadLine line {at}")
            return 2
    try:
        terminal = Terminal(text, first[1] == "cyclic", *(limits_of(first) or limits_over(text, first[1])))
    except OutOfRange as why:
        say(f"refused X2 NoName {why}")
        return 2
    terminal.keeps = any(it[0] == "told" for _, it in commands)
    lacking = lacking_in(terminal.book)
    if lacking:
        say(f"refused X2 NoName {lacking[0]}")
        return 2
    try:
        run(terminal, commands, say)
    except Failed as why:
        say(f"failed line {why}")
        return 1
    return 0


# Tables.


def copied(text):
    return COPIES.sub(lambda m: "".join(m[3].replace("#", str(n)) for n in range(int(m[1] or 1), int(m[2]) + 1)), text)


def whole(line):
    """The lines of a script that a line of a table stands for."""
    if line == "<PROVING>":
        return (ROOT / "examples" / "links" / "proving.script").read_text().rstrip("\n").split("\n")
    return {"<UP>": UP, "<STATES>": [f"state {it}" for it in PROCESSES]}.get(line, [line])


def wanted(line):
    """The lines to print that a line of a table stands for."""
    if line.startswith("<STATES "):
        return line[8:-1].split(" ")
    return IS_UP if line == "<UP>" else [line]


def entries(table):
    """The name, the set, the script, the lines and the status of each entry."""
    for part in table.split("\n== ")[1:]:
        name, rest = part.split("\n", 1)
        script, lines = ("\n" + rest).split("\n--\n")
        lines = [
            it for line in copied(lines).strip("\n").split("\n") for it in wanted(line) if it and not it.startswith("#")
        ]
        status = int(lines.pop()[5:]) if lines and lines[-1].startswith("exit ") else 0
        script = "\n".join(it for line in copied(script[1:]).split("\n") for it in whole(line))
        yield name, name.split(":")[0], script.replace("<CR>", "\r").replace("<TAB>", "\t"), lines, status


def played(file):
    wrong = total = 0
    for name, word, script, lines, status in entries(pathlib.Path(file).read_text()):
        said, total = [], total + 1
        ended = play(word, script.encode(), said.append)
        if (said, ended) != (lines, status):
            wrong += 1
            differs = next(
                (at for at, (one, other) in enumerate(zip(said, lines)) if one != other), min(len(said), len(lines))
            )
            print(
                f"{name}: line {differs + 1}: {said[differs : differs + 1]} for {lines[differs : differs + 1]}, "
                f"status {ended} for {status}"
            )
    print(f"{total} scripts, {wrong} differ")
    return 1 if wrong else 0


def main(words):
    if len(words) != 2:
        print(__doc__, file=sys.stderr)
        return 3
    if words[0] == "--table":
        return played(words[1])
    script = sys.stdin.buffer.read() if words[1] == "stdin" else pathlib.Path(words[1]).read_bytes()
    return play(words[0], script, print)


if __name__ == "__main__":
    sys.exit(main(sys.argv[1:]))
