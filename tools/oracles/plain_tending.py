"""A plain model of two link sets that tend themselves, written apart from the program: whether the rules by which links
are started, tested, changed over and shared out lose nothing, send nothing twice and get nothing stuck.

usage: tools/oracles/plain_tending.py LINKS SEED SECONDS FAULTS RATE [WORD ..]

Two sets of so many links carry RATE messages a second each way, while for SECONDS faults come, one in FAULTS
milliseconds on average (0 for none); 40 seconds without any follow. WORDs: `untested` (links carry messages as they
come into service), `outages` (processors fail too), `stops` (links are stopped and started by order), `staggered` (all
lines are cut one after another, for 17 seconds), `loud` (all that is told is printed). It prints how many messages were
sent, came, came twice or out of order, are lacking, and were reported as unsure, and whether both ends are whole at the
end;  the status is 1 if a message came twice or out of order, more are lacking than were reported as unsure, or an end
isn't whole.

The sets are those of plain_group.py. The terminals below them are no texts here: they are as quick as units, and know
alignment, units with their numbers, silence, errors and outages of processors, no more."""
import random
import sys
from collections import Counter

from tools.oracles.plain_group import (
    COA,
    COO,
    ECA,
    ECO,
    Group,
    Link,
    changeover_in,
    is_bound,
    label_of,
    labelled,
    selection_of,
)
from tools.oracles.plain_play import Refused
from tools.oracles.plain_units import Receiver, Sender

OCTETS = 8  # of a line in a millisecond
PROVING, SHORT, ALIGNING, DEAF, ERRORS = 8_200, 500, 25_000, 130, 64
PATIENCE, LONGEST, REST, DRAIN, CALM = 1_400, 14_000, 1_000, 1_000, 5_000
ANSWER, BETWEEN = 6_000, 60_000
MOST_HELD, MOST_OCTETS = 256, 3_000
NAMES = {COO: "COO", COA: "COA", ECO: "ECO", ECA: "ECA"}
STATUSES = {"InServiceNow": "in service", "Down": "down", "RemoteOut": "far out", "RemoteBack": "far back"}


def shown(message):
    """A message of changeover, as it is told."""
    return NAMES[message[5]] + (f" {message[6] % 128}" if message[5] in (COO, COA) else "")


class Terminal(Link):
    """A terminal of a set without processes."""

    def __init__(self, cyclic=False):
        self.sender, self.receiver = Sender(cyclic), Receiver(cyclic)
        self.take, self.withheld, self.kind, self.busy, self.faults = False, None, None, False, []
        self.is_held = self.stays_held = False
        self.messages, self.statuses, self.names = [], [], set()
        self.deliver, self.behind_odd, self.spare, self.left = True, False, 0, False
        self.serves = self.came = self.served = self.anew = self.failed = self.far_out = False
        self.admitted, self.is_to_clear, self.hand = True, False, []
        self.changing, self.told, self.answered, self.waited, self.out = False, None, False, 0, False
        self.had_one, self.since = False, None
        self.points = 1, 2
        self.phase, self.age, self.proved, self.deaf, self.errors, self.good = "off", 0, 0, 0, 0, 0
        self.own_out, self.paused, self.urgent, self.short = False, False, False, False
        self.counts = Counter()

    def rebase(self):
        pass

    def offer(self, actor, signal, *values):
        """It has no processes that could be told."""

    def carries(self):
        return self.phase == "in" and not (self.is_held or self.own_out or self.far_out or self.paused)

    def go(self, phase):
        self.phase, self.age, self.proved, self.deaf, self.errors, self.good = phase, 0, 0, 0, 0, 0
        self.kind = {"out": 3, "aligning": 0, "ready": 8, "in": 9}[phase]

    def fall(self, reason):
        self.go("out")
        self.own_out = self.paused = self.urgent = self.short = False
        self.hear("LSC", "Down", [reason])

    def command(self, actor, signal):
        if signal == "PowerOn" and self.phase == "off":
            self.go("out")
        if signal == "StartLink" and self.phase == "out":
            self.go("aligning")
            self.short = self.urgent
        if signal == "Emergency" and self.phase in ("out", "aligning"):
            self.urgent = True
            self.hasten()
        if signal == "Calm" and self.phase in ("out", "aligning"):
            self.urgent = False
        if signal == "StopLink" and self.phase in ("aligning", "ready", "in"):
            self.fall(0)
        if signal == "LocalOut" and self.phase in ("aligning", "ready", "in"):
            self.own_out, self.paused, self.kind = True, True, 4 if self.phase == "in" else self.kind
        if signal == "LocalBack":
            self.own_out, self.paused, self.kind = (
                False,
                self.paused and self.phase == "in",
                8 if self.phase == "in" else self.kind,
            )
        if signal == "Continue" and not self.far_out and not self.own_out:
            self.paused = False

    def hasten(self):
        """A short proving period begins, where a long one goes on."""
        if self.phase == "aligning" and not self.short:
            self.short, self.proved = True, 0

    def get_ready(self):
        self.go("ready")
        self.hear("LSC", "Fresh", [])

    def rise(self):
        self.go("in")
        self.kind = 4 if self.own_out else 9
        self.hear("LSC", "InServiceNow", [])

    def tick(self, ticks):
        self.age += ticks
        self.deaf += ticks
        if self.phase == "aligning":
            self.proved = self.proved + ticks if self.deaf < 20 else 0
            if self.proved >= (SHORT if self.short else PROVING):
                self.get_ready()
            elif self.age > ALIGNING:
                self.fall(2)
        elif self.phase in ("ready", "in") and self.deaf > DEAF:
            self.fall(4)
        return 0

    def error(self):
        self.errors += 1
        if self.phase in ("ready", "in") and self.errors > ERRORS:
            self.fall(4)
        if self.phase == "aligning":
            self.proved = 0

    def given(self):
        """The unit that goes out, with how many octets it takes."""
        if self.phase not in ("ready", "in"):
            return {"off": "SIOS", "out": "SIOS", "aligning": "SIE" if self.urgent else "SIN"}[self.phase], 8
        if self.own_out:
            return "SIPO", 8
        fsn, fib, message = self.sender.next_unit() if self.carries() else self.sender.idle()
        return (fsn, fib, message, self.receiver.last, self.receiver.bib), 7 + len(message or b"")

    def heard(self, unit):
        self.good += 1
        if self.good % 256 == 0:
            self.errors = max(0, self.errors - 1)
        if self.phase == "aligning":
            if unit != "SIOS":
                self.deaf = 0
            if unit == "SIE":
                self.hasten()
        elif self.phase in ("ready", "in"):
            self.deaf = 0
            if unit == "SIOS" or unit in ("SIN", "SIE") and self.phase == "in":
                self.fall(5)
                return
            if unit in ("SIN", "SIE"):
                return
            if self.phase == "ready":
                self.rise()
            if unit == "SIPO":
                if not self.far_out:
                    self.paused = True
                    self.hear("LSC", "RemoteOut", [])
            else:
                self.numbers(*unit)

    def numbers(self, fsn, fib, message, bsn, bib):
        if self.far_out:
            self.hear("LSC", "RemoteBack", [])
        if self.sender.on_back(bsn, bib) is None:
            self.error()
        elif not self.is_held and self.receiver.on_unit(fsn, fib, message is not None):
            self.messages.append(message)


class Line:
    """One way of a line: a unit under way, and what befalls it."""

    def __init__(self):
        self.unit, self.left, self.spoiled, self.weather, self.until, self.queue = None, 0, False, None, 0, []

    def pass_round(self, source, sink, dice):
        if self.weather == "stall":
            return
        room = OCTETS
        while room > 0:
            if self.unit is None:
                self.unit, self.left = source.given()
                self.spoiled = False
            step = min(room, self.left)
            room, self.left = room - step, self.left - step
            noise = isinstance(self.weather, int) and dice.random() < step * 8 / self.weather
            self.spoiled = self.spoiled or self.weather == "cut" or noise
            if self.left == 0:
                unit, self.unit = self.unit, None
                if not self.spoiled:
                    sink.heard(unit)
                elif self.weather != "cut":
                    sink.error()


class Care:
    def __init__(self):
        self.powered = self.wanted = self.serves = self.served = self.started = self.stopping = self.outage = False
        self.rested, self.due, self.owed, self.test, self.tests, self.patience = (
            0,
            None,
            None,
            ("rests", 0),
            0,
            PATIENCE,
        )
        self.renewed, self.urgent, self.ordered = False, False, None


class Tender:
    """A set, and what the rules do with it."""

    def __init__(self, terminals, own, peer, tested, tell):
        links = len(terminals)
        self.set, self.tested, self.tell, self.now = Group(terminals, own, peer), tested, tell, 0
        self.cares, self.shared = [Care() for _ in range(links)], [None] * 16
        self.sharing, self.blocked, self.open, self.restarts, self.unsure = ("rests", 0), 0, False, False, 0
        self.heard = []
        if tested:
            for at in range(links):
                self.set.admit(at, False)

    def message(self, indicator, link, rest):
        return bytes([128 + indicator]) + labelled(self.set.peer, self.set.own, link, rest)

    # What links tell.

    def heed(self, at):
        """The reports of a link: messages first."""
        link = self.set.links[at]
        while link.messages or link.statuses:
            if link.messages:
                self.take_message(at, link.messages.pop(0))
            else:
                self.take_status(at, *link.statuses.pop(0))

    def take_status(self, at, signal, *values):
        care = self.cares[at]
        if signal in STATUSES:
            self.tell(" ".join([str(at), STATUSES[signal], *map(str, values)]))
        if signal == "InServiceNow":
            care.serves, care.served, care.owed, care.urgent = True, True, None, False
            care.test = ("rests", self.now)
        elif signal == "Down":
            if self.tested:
                self.set.admit(at, False)
            served, care.serves, care.started, care.stopping, care.urgent = care.serves, False, False, False, False
            care.rested = self.now + REST
            care.due = care.rested if care.wanted else None
            for about, other in enumerate(self.cares):
                if other.owed and other.owed["by"] == at:
                    if self.is_kept(at, other.owed["message"]):
                        other.owed["by"] = None
                    else:
                        other.owed = None
            if served and not self.set.links[at].changing:
                self.begin(at)

    def begin(self, at):
        self.owe(at, b"\x80" + self.set.fail(at))
        self.cares[at].patience, self.cares[at].renewed = PATIENCE, False
        self.tell(f"{at} changeover")

    def owe(self, at, message):
        self.cares[at].owed = {"message": message, "left": PATIENCE, "by": None}

    def take_message(self, by, message):
        destination, origin, about = label_of(message[1:])
        indicator, rest = message[0] % 16, message[5:]
        if message[0] // 64 != 2:
            self.hand_up(by, message)
        elif is_bound(message, self.set.own, self.set.peer) and self.cares[by].wanted:
            self.loop(by)
        elif indicator not in (0, 1) or (destination, origin) != (self.set.own, self.set.peer):
            self.hand_up(by, message)
        elif indicator == 0 and changeover_in(message[1:]):
            self.take_changeover(by, about, message)
        elif indicator == 0 and rest[:1] == b"\x51" and len(rest) == 2 and about < len(self.cares):
            self.bound(self.least(about, by), self.message(0, about, [0x61, rest[1]]))
        elif indicator == 1 and rest[:1] == b"\x11" and about < len(self.cares):
            self.bound(about, self.message(1, about, [0x21, *rest[1:]]))
        elif indicator == 1 and rest[:1] == b"\x21":
            self.take_answer(by, about, rest[2:])
        else:
            self.hand_up(by, message)

    def hand_up(self, by, message):
        """A message for level 3."""
        self.heard.append(message)
        self.tell(f"{by} message {message.hex().upper()}")

    def loop(self, at):
        """What this end sent came back: the link goes out of service until it is ordered anew."""
        care = self.cares[at]
        care.wanted, care.due, care.stopping = False, None, True
        self.tell(f"{at} looped")
        self.set.command(at, "LSC", "StopLink")

    def take_changeover(self, by, about, message):
        if about == by or about >= len(self.cares):
            return
        self.tell(f"{about} hears {shown(message)} by {by}")
        if not self.cares[about].served:
            if message[5] in (COO, ECO):
                self.owe(about, self.message(0, about, [ECA]))
            return
        was = self.set.links[about].changing
        answer = self.set.changeover_message(message[1:])
        if self.set.links[about].changing and not was:
            self.cares[about].patience, self.cares[about].renewed = PATIENCE, False
            self.tell(f"{about} changeover")
        if message[5] in (COO, ECO) and not self.set.links[about].changing and self.cares[about].serves:
            self.begin(about)
        elif answer is not None:
            self.owe(about, b"\x80" + answer)

    def take_answer(self, by, about, pattern):
        care = self.cares[by]
        if about == by and care.test[0] != "rests" and pattern == self.pattern(by):
            care.test = ("rests", self.now + BETWEEN)
            if not self.set.links[by].admitted:
                self.set.admit(by, True)
                self.tell(f"{by} tested")

    # What is done for them.

    def bound(self, at, message):
        try:
            self.set.send_by(at, message)
            return True
        except Refused:
            return False

    def is_kept(self, at, message):
        return message in self.set.links[at].held()

    def least(self, about, other=None):
        able = [
            (not it.admitted, len(it.held()), at)
            for at, it in enumerate(self.set.links)
            if at != about and it.is_able() and not it.has_outage()
        ]
        return min(able)[2] if able else other

    def tend(self):
        for at in range(len(self.cares)):
            self.heed(at)
        for at, (link, care) in enumerate(zip(self.set.links, self.cares)):
            self.tend_link(at, link, care)
        self.restart()
        self.share()
        self.tell_shared()

    def tell_shared(self):
        """Where the links of selections aren't those that were told last."""
        if self.shared != self.set.table:
            self.shared = list(self.set.table)
            self.tell("shared " + " ".join("-" if it is None else str(it) for it in self.shared))

    def tend_link(self, at, link, care):
        if link.serves and link.is_held and not care.stopping:
            self.set.command(at, "LSC", "StopLink")
            care.stopping = True
        if link.changing:
            self.change_over(at, link, care)
        if self.tested and link.serves and not link.is_held:
            self.test(at, link, care)
        if link.is_able() and not link.has_outage() and not link.carries():
            self.set.command(at, "LSC", "Continue")
        self.pay(at, care)
        if care.started and not care.serves:
            self.urge(at, care)
            self.ease(at, care)
        self.start(at, link, care)

    def change_over(self, at, link, care):
        if self.least(at) is not None:
            care.patience = max(0, care.patience - 1)
        if not link.out and not care.serves:
            why = link.why_not()
            if why is None:
                care.handed = self.set.retrieve(at)
            elif why.startswith("K4") and (link.answered or not self.may_wait(at, link, care)):
                self.unsure += link.unknown()
                self.tell(f"{at} unsure {link.unknown()}")
                care.handed, care.owed = self.set.abandon(at), None
        if link.out:
            try:
                self.set.divert(at)
                self.tell(f"{at} diverted {care.handed}")
            except Refused:
                pass

    def may_wait(self, at, link, care):
        """Whether there is still something to wait for, before what a link sent is given up: another link that carries
        its order, or that is on its way."""
        if care.patience == 0:
            return False
        if self.least(at) is not None or link.waited < PATIENCE:
            return True
        return link.waited < LONGEST and any(self.is_coming(other) for other in range(len(self.cares)) if other != at)

    def is_coming(self, at):
        care, link = self.cares[at], self.set.links[at]
        return care.started or care.due is not None and not (link.changing and not link.out)

    def pattern(self, at):
        return bytes(
            [self.set.own % 256, self.set.own // 256, self.cares[at].tests % 256, self.cares[at].tests // 256 % 256]
        )

    def test(self, at, link, care):
        state, when = care.test
        if link.has_outage():
            care.test = ("rests", self.now)
        elif when <= self.now:
            if state == "again":
                self.set.command(at, "LSC", "StopLink")
                care.stopping, care.test = True, ("again", self.now + ANSWER)
                return
            care.tests += 1
            if self.bound(at, self.message(1, at, [0x11, 0x40, *self.pattern(at)])):
                care.test = ("runs" if state == "rests" else "again", self.now + ANSWER)

    def pay(self, at, care):
        owed = care.owed
        if owed is None:
            return
        order = owed["message"][5] in (COO, ECO)
        over = order and owed["by"] is None and not (self.set.links[at].changing and not self.set.links[at].out)
        owed["left"] -= self.least(at) is not None
        if owed["left"] <= 0 or over or (owed["by"] is not None and not self.is_kept(owed["by"], owed["message"])):
            care.owed = None
        elif owed["by"] is None:
            by = self.least(at)
            if care.renewed and owed["message"][5] in (COO, COA):
                owed["message"] = self.message(0, at, [ECO if owed["message"][5] == COO else ECA])
            if by is not None and self.bound(by, owed["message"]):
                owed["by"] = by
                self.tell(f"{at} says {shown(owed['message'])} by {by}")

    def start(self, at, link, care):
        if care.due is None or care.due > self.now or not care.powered or not care.wanted or care.started:
            return
        others = any(it.serves for other, it in enumerate(self.cares) if other != at)
        if self.now - care.due < PATIENCE and care.owed and (care.owed["by"] is None or others):
            return
        self.urge(at, care)
        try:
            self.set.command(at, "LSC", "StartLink")
        except Refused:
            return
        care.started, care.due, care.renewed, care.owed = True, None, True, None
        if care.outage:
            self.set.command(at, "LSC", "LocalOut")
        self.tell(f"{at} started")

    def urge(self, at, care):
        """A link that is to come into service has an emergency where no other is in service, or as was ordered."""
        serves = any(it.serves for other, it in enumerate(self.cares) if other != at)
        if not care.urgent and (care.ordered or care.ordered is None and not serves):
            self.set.command(at, "LSC", "Emergency")
            care.urgent = True

    def ease(self, at, care):
        """It ends once another link carries messages, unless it was ordered."""
        others = [it for other, it in enumerate(self.set.links) if other != at]
        if care.urgent and not care.ordered and any(it.carries() and it.admitted for it in others):
            self.set.command(at, "LSC", "Calm")
            care.urgent = False

    def restart(self):
        open_links = [at for at, it in enumerate(self.set.links) if it.is_able() and it.admitted]
        self.restarts = self.restarts or (bool(open_links) and not self.open)
        self.open = bool(open_links)
        if open_links and self.restarts and self.bound(open_links[0], self.message(0, 0, [0x17])):
            self.restarts = False

    def share(self):
        able = [at for at, it in enumerate(self.set.links) if it.is_able() and it.admitted]
        able = [at for at in able if not self.set.links[at].has_outage()] or able
        wanted = [self.set.pick(able, selection) for selection in range(16)]
        even = wanted == self.set.table and not any(self.set.links[at].failed for at in able)
        if not able or even or any(it.changing for it in self.set.links):
            self.settle()
            return
        try:
            self.set.rebalance()
            self.settle()
        except Refused:
            self.drain(wanted)

    def settle(self):
        self.blocked = 0
        if self.sharing[0] != "rests":
            self.sharing = ("rests", 0)

    def drain(self, wanted):
        way = [
            at
            for at, it in enumerate(self.set.links)
            if any(self.set.table[s] == at and wanted[s] != at and it.holds(s) for s in range(16))
        ]
        out = [at for at in way if self.set.links[at].has_outage()]
        self.blocked = self.blocked + 1 if out else 0
        state, when = self.sharing
        if self.blocked > DRAIN and any(
            it.carries() and it.admitted for at, it in enumerate(self.set.links) if at not in out
        ):
            self.blocked, self.sharing = 0, ("rests", 0)
            for at in out:
                if not self.set.links[at].changing:
                    self.begin(at)
        elif len(out) == len(way):
            self.sharing = ("blocked", 0)
        elif state == "rests" and self.now < when or state == "drains" and self.now < when:
            pass
        elif state == "drains":
            self.sharing = ("rests", self.now + CALM)
        else:
            self.sharing = ("drains", self.now + DRAIN)

    # Orders.

    def power(self, at):
        self.set.command(at, "LSC", "PowerOn")
        self.cares[at].powered = True

    def switch_on(self):
        for at in range(len(self.cares)):
            self.power(at)
            self.stop(at, False)

    def outage(self, at, way):
        self.set.command(at, "LSC", "LocalOut" if way else "LocalBack")
        self.cares[at].outage = way

    def stop(self, at, way):
        care = self.cares[at]
        care.wanted = not way
        if way:
            care.due = None
            self.set.command(at, "LSC", "StopLink")
        elif not care.serves and not care.started:
            care.due = max(self.now, care.rested)

    def waits(self):
        return self.sharing[0] == "drains"

    def send(self, message):
        at = self.set.table[selection_of(message)]
        if at is not None and not self.set.links[at].changing:
            held = self.set.links[at].held()
            if len(held) >= MOST_HELD or sum(map(len, held)) >= MOST_OCTETS:
                raise Refused("E1 Full")
        self.set.send(message)

    def tick(self):
        self.set.tick(1)
        self.now += 1

    def is_whole(self):
        return all(
            it.is_able() and it.admitted and not it.changing and not it.held() for it in self.set.links
        ) and not any(it.owed for it in self.cares)


class End:
    """A set with what it sent and what came."""

    def __init__(self, links, own, peer, tested, loud):
        def tell(text):
            if loud:
                print(f"{self.tender.now} {own}: {text}")

        self.tender = Tender([Terminal() for _ in range(links)], own, peer, tested, tell)
        self.own, self.peer, self.sent, self.next = own, peer, [0] * 16, [0] * 16
        self.came, self.wrong, self.refused = 0, 0, 0

    def give(self, selection, dice):
        if self.tender.waits():
            return
        number = self.sent[selection]
        message = b"\x83" + labelled(
            self.peer, self.own, selection, number.to_bytes(4, "little") + bytes(dice.randrange(24))
        )
        try:
            self.tender.send(message)
            self.sent[selection] += 1
        except Refused:
            self.refused += 1

    def take(self):
        for message in self.tender.heard:
            if message[0] % 16 == 0:
                continue
            selection, number = selection_of(message), int.from_bytes(message[5:9], "little")
            self.came += 1
            if number < self.next[selection]:
                self.wrong += 1
            self.next[selection] = max(self.next[selection], number + 1)
        self.tender.heard = []


class Trial:
    def __init__(self, links, seed, words):
        self.dice, self.words, self.counts = random.Random(seed), words, {}
        loud = "loud" in words
        self.ends = [End(links, 1, 2, "untested" not in words, loud), End(links, 2, 1, "untested" not in words, loud)]
        self.lines = [(Line(), Line()) for _ in range(links)]
        self.later, self.stopped = [], {}
        for end in self.ends:
            end.tender.switch_on()

    def count(self, name):
        self.counts[name] = self.counts.get(name, 0) + 1

    def befall(self, at, over, back, now, length):
        if self.lines[at][0].until <= now:
            for line, weather in zip(self.lines[at], (over, back)):
                line.weather, line.until = weather, now + length
            if "loud" in self.words:
                print(f"{now} line {at}: {over}, {back} for {length}")

    def cut_in_turn(self, now):
        """All lines are cut, one after another."""
        self.count("staggered")
        turns, between = self.dice.sample(range(len(self.lines)), len(self.lines)), 100 + self.dice.randrange(3_000)
        self.later += [(now + turn * between, at, 15_000 + self.dice.randrange(4_000)) for turn, at in enumerate(turns)]

    def cut_later(self, now):
        for begin, at, length in [it for it in self.later if it[0] <= now]:
            for line in self.lines[at]:
                line.weather, line.until = "cut", now + length
        self.later = [it for it in self.later if it[0] > now]

    def stop_some(self, now):
        self.count("stops")
        end, at = self.dice.randrange(2), self.dice.randrange(len(self.lines))
        if (end, at) not in self.stopped:
            self.stopped[end, at] = now + 20 + self.dice.randrange(8_000)
            self.ends[end].tender.stop(at, True)

    def start_again(self, now):
        for end, at in [it for it, until in self.stopped.items() if until <= now]:
            del self.stopped[end, at]
            self.ends[end].tender.stop(at, False)

    def strike(self, now):
        dice = self.dice
        if "staggered" in self.words and dice.random() < 1 / 12:
            self.cut_in_turn(now)
            return
        if "stops" in self.words and dice.random() < 1 / 4:
            self.stop_some(now)
            return
        if dice.random() < 1 / 24:
            self.count("total")
            for at in range(len(self.lines)):
                self.befall(at, "cut", "cut", now, 200 + dice.randrange(5_000))
            return
        if "outages" in self.words and dice.random() < 1 / 6:
            self.count("outages")
            end, at = dice.choice(self.ends), dice.randrange(len(self.lines))
            end.tender.outage(at, not end.tender.cares[at].outage)
            return
        for _ in range(2 if dice.random() < 0.2 else 1):
            at, length = dice.randrange(len(self.lines)), 20 + dice.randrange(4_000)
            kind = dice.choice(["cut", "cut", "cut", "one way", "back", "noise", "noise", "stall"])
            self.count(kind)
            noise = dice.choice([200, 1_000, 5_000, 20_000])
            over, back = {
                "cut": ("cut", "cut"),
                "one way": ("cut", None),
                "back": (None, "cut"),
                "noise": (noise, noise),
                "stall": ("stall", "stall"),
            }[kind]
            self.befall(at, over, back, now, length)

    def run(self, seconds, faults, rate):
        near, far = self.ends
        last = seconds * 1_000
        for now in range(last + 40_000):
            if faults and now < last and self.dice.random() < 1 / faults:
                self.strike(now)
            if now == last:
                for end in self.ends:
                    for at, care in enumerate(end.tender.cares):
                        if care.outage:
                            end.tender.outage(at, False)
            self.cut_later(now)
            self.start_again(now)
            for at, (over, back) in enumerate(self.lines):
                for line, source, sink in ((over, near, far), (back, far, near)):
                    if line.until <= now:
                        line.weather = None
                    line.pass_round(source.tender.set.links[at], sink.tender.set.links[at], self.dice)
            for end in self.ends:
                end.tender.tick()
                end.tender.tend()
                end.take()
                if now < last + 20_000 and self.dice.random() < rate / 1_000:
                    end.give(self.dice.randrange(16), self.dice)

    def shown(self):
        right = True
        for way, one, other in (("near to far", *self.ends), ("far to near", *self.ends[::-1])):
            lacking, unsure, whole = sum(one.sent) - other.came + other.wrong, one.tender.unsure, one.tender.is_whole()
            right = right and other.wrong == 0 and lacking <= unsure and whole
            print(
                f"  {way}: sent {sum(one.sent)} came {other.came} wrong {other.wrong} lacking {lacking} unsure "
                f"{unsure} refused {one.refused}, {'whole' if whole else 'STUCK'}"
            )
        return right


def main(words):
    if len(words) < 5:
        print(__doc__, file=sys.stderr)
        return 3
    links, seed, seconds, faults, rate = map(int, words[:5])
    trial = Trial(links, seed, words[5:])
    trial.run(seconds, faults, rate)
    print(" ".join(words), trial.counts)
    return 0 if trial.shown() else 1


if __name__ == "__main__":
    sys.exit(main(sys.argv[1:]))
