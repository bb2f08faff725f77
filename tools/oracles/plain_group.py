"""A plain player of link sets' scripts, written apart from the program: to compare with `mtp2_play play standard`.

usage: tools/oracles/plain_group.py SCRIPT
           prints the lines that play prints for it on the set `standard`, and ends with its status
       tools/oracles/plain_group.py --table FILE
           plays each entry of a table of scripts, and ends with status 1 if one prints something else

The terminals are those of plain_term.py, which plays the scripts of other kinds too. Load sharing and changeover
(Q.704) are on whole lists: what a link holds is counted anew each time.

A table is written as plain_term.py says. `<UP N>` as a line is the way into service of links 0 to N - 1, all at once;
after it commands are for link 0."""
import pathlib
import sys

from tools.oracles import plain_term
from tools.oracles.plain_check import Refusal, check
from tools.oracles.plain_play import LONGEST, number
from tools.oracles.plain_term import ROOT, BadLine, Failed, Refused, Terminal
from tools.oracles.plain_term import command as terminal_command
from tools.oracles.plain_term import copied, do, octets_in, spoken, wanted, whole

TEXT = ROOT / "examples" / "standard.sdl"
OWN, OTHER = 1, 2
COO, COA, ECO, ECA = 0x11, 0x21, 0x12, 0x22
# The octets after the label of a message that is bound to a link, by its service indicator and heading: how many
# octets, or None for a pattern.
BOUND = {
    (0, COO): 1,
    (0, COA): 1,
    (0, ECO): 0,
    (0, ECA): 0,
    (0, 0x51): 1,
    (0, 0x61): 1,
    (0, 0x17): 0,
    (1, 0x11): None,
    (1, 0x21): None,
}
PATIENCE, MOST_KEPT, MOST_UNSURE = 1400, 1151, 2**64 - 1


# Labels, and the messages of changeover.


def label_of(octets):
    """Destination, origin and selection of the label that octets begin with."""
    bits = int.from_bytes(octets[:4], "little")
    return bits % 2**14, bits // 2**14 % 2**14, bits // 2**28


def labelled(destination, origin, selection, rest):
    return (destination + origin * 2**14 + selection * 2**28).to_bytes(4, "little") + bytes(rest)


def selection_of(message):
    """The selection of a message, which begins with its service information octet."""
    return label_of(message[1:])[2]


def is_bound(message, own, peer):
    """Whether a message, from its service information octet on, belongs only to its link and goes from one point to
    the other."""
    if len(message) < 6 or label_of(message[1:])[:2] != (peer, own):
        return False
    indicator, heading, rest = message[0] % 16, message[5], message[6:]
    if (indicator, heading) not in BOUND:
        return False
    octets = BOUND[indicator, heading]
    if octets is None:
        return 2 <= len(rest) <= 16 and rest[0] // 16 == len(rest) - 1
    return len(rest) == octets


def changeover_in(sif):
    """The label of a message of changeover, its heading and, but for the emergency ones, the number; None for anything
    else."""
    if len(sif) == 6 and sif[4] in (COO, COA):
        return label_of(sif), sif[4], sif[5] % 128
    if len(sif) == 5 and sif[4] in (ECO, ECA):
        return label_of(sif), sif[4], None
    return None


# One link.


class Link(Terminal):
    """A terminal that also knows whether it is in service, and what is marked of its changeover."""

    def __init__(self, text, cyclic, *limits):
        super().__init__(text, cyclic, *limits)
        self.serves = self.came = self.served = self.anew = self.failed = self.far_out = False
        self.admitted, self.is_to_clear = True, False
        # Its changeover: the place up to which messages were accepted as the other end told, whether any answer came,
        # and ticks since it began.
        self.changing, self.told, self.answered, self.waited, self.out = False, None, False, 0, False
        # The messages that it handed out in that and that aren't diverted yet.
        self.hand = []
        # After the beginning of its last changeover: whether there was one, and the ticks since it last came into
        # service then.
        self.had_one, self.since = False, None
        self.points = OWN, OTHER

    def is_own(self, message):
        """Whether a message is bound to this link."""
        return is_bound(message, *self.points)

    def clear(self):
        """It waits until the command is over, or for the next one."""
        self.is_to_clear = True

    def obey_clear(self):
        """Empties the buffers, if the text asked for that. Returns how many removed messages aren't the link's own."""
        if not self.is_to_clear:
            return 0
        went = sum(not self.is_own(it) for it in self.held())
        super().clear()
        self.is_to_clear = self.left = False
        if self.told is not None:
            self.told = min(self.told, self.sender.acknowledged)
        self.offer("TXC", "AckSeen", False)
        return went

    def hear(self, sender, signal, values):
        super().hear(sender, signal, values)
        if signal == "Fresh":
            if self.told is not None:
                self.told -= sum(self.is_own(it) for it in self.sender.all[self.sender.acknowledged : self.told])
            self.sender.all[self.sender.acknowledged :] = [it for it in self.held() if not self.is_own(it)]
        if signal in ("InServiceNow", "Down"):
            self.serves = signal == "InServiceNow"
            self.came = self.came or self.serves
        if signal in ("RemoteOut", "RemoteBack", "Down"):
            self.far_out = signal == "RemoteOut"

    def is_able(self):
        """Whether it may carry messages: in service, and not held."""
        return self.serves and not self.is_held

    def has_outage(self):
        return self.far_out or self.kind == 4

    def held(self):
        """The messages that aren't acknowledged, and those that aren't sent."""
        return self.sender.all[self.sender.acknowledged :]

    def sent(self):
        return self.sender.sent - self.sender.acknowledged

    def unknown(self):
        """How many of those that are sent aren't the link's own."""
        return sum(not self.is_own(it) for it in self.held()[: self.sent()])

    def holds(self, selection):
        return any(selection_of(it) == selection and not self.is_own(it) for it in self.held())

    def hold(self):
        """No message goes or comes until both directions begin anew, and not before the hand of a changeover that goes
        on was taken out."""
        self.is_held, self.stays_held = True, self.changing and not self.out

    def begin(self):
        if not self.changing:
            self.changing, self.told, self.answered, self.waited, self.out, self.failed = (
                True,
                None,
                False,
                0,
                False,
                True,
            )
            self.had_one, self.since = True, None
            self.hold()

    def tell(self, fsn):
        """An answer came, with a number or without one: the first number that can be stays, as the place in the store
        that it means now."""
        if self.changing and not self.out:
            self.answered = True
            count = None if fsn is None else self.acknowledged_by(fsn)
            if self.told is None and count is not None:
                self.told = self.sender.acknowledged + count

    def acknowledged_by(self, fsn):
        """How many messages a number acknowledges; None where that is more than are sent."""
        sender = self.sender
        count = (fsn - (sender.acknowledged - sender.origin - 1)) % 128
        return count if count <= self.sent() else None

    def known(self):
        """How many messages the other end's answer acknowledges, where it told a number that can be."""
        return None if self.told is None else max(0, self.told - self.sender.acknowledged)

    def why_not(self):
        """Why messages aren't retrieved, if they aren't."""
        if not self.changing:
            return "K1 NoLink"
        if self.out or (not self.answered and self.waited < PATIENCE):
            return "K2 Waiting"
        if self.known() is None and self.unknown():
            return f"K4 Unsure {self.unknown()}"
        return None

    def hand_out(self):
        """Hands out the messages that the other end may lack; without a number those that were never sent. How many
        there are."""
        sender, count, were_out = self.sender, self.known(), self.sent() > 0
        hand = sender.all[sender.sent :] if count is None else sender.all[sender.acknowledged + count :]
        sender.acknowledged += count or 0
        del sender.all[sender.acknowledged :]
        sender.sent = sender.again = sender.turn = sender.acknowledged
        sender.forced = False
        if were_out:
            self.offer("TXC", "AckSeen", False)
        self.out, self.stays_held = True, False
        self.hand = [it for it in hand if not self.is_own(it)]
        return len(self.hand)

    def takes(self, messages):
        if len(self.held()) + len(messages) > MOST_KEPT:
            raise Refused("E1 Full")
        self.sender.all += messages


# The set.


class Group:
    def __init__(self, links, own=OWN, peer=OTHER):
        self.links, self.table, self.unsure = links, [None] * 16, 0
        self.own, self.peer = own, peer
        for link in links:
            link.points = own, peer

    def link(self, at):
        if at >= len(self.links):
            raise Refused("K1 NoLink")
        return self.links[at]

    def chosen(self, ways):
        """The links of the first of these ways that has one: first of those without an outage, then of those with
        one."""
        for outage in (False, True):
            for way in ways:
                found = [
                    at
                    for at, link in enumerate(self.links)
                    if link.admitted and link.is_able() and link.has_outage() == outage and way(at, link)
                ]
                if found:
                    return found
        return []

    def for_hand(self, failed):
        """The links that take the hand of one that failed: others that never failed, others out of changeover,
        itself."""
        return self.chosen(
            [
                lambda at, link: not link.failed and not link.changing,
                lambda at, link: at != failed and not link.changing,
                lambda at, link: at == failed,
            ]
        )

    def pick(self, links, selection):
        return links[selection % len(links)] if links else None

    def see(self, *links):
        """Links that are able to carry messages, and are admitted, for the first time have the table made anew."""
        first = False
        for link in links:
            if link.came:
                link.came, link.anew = False, False
                if link.had_one:
                    link.since = 0
            if link.is_able() and link.admitted and not link.served:
                first, link.served = True, True
        if not first:
            return
        able = self.chosen([lambda at, link: not link.failed and not link.changing, lambda at, link: not link.changing])
        for selection, was in enumerate(self.table):
            waits = was is not None and self.links[was].changing
            if able and not waits and not any(link.holds(selection) for link in self.links):
                self.table[selection] = self.pick(able, selection)

    def admit(self, at, way):
        self.link(at).admitted = way
        self.see(self.links[at])

    def command(self, at, actor, signal):
        link = self.link(at)
        if signal == "StartLink" and link.changing and not link.out:
            raise Refused("K2 Waiting")
        anew = signal == "StartLink" and not link.serves
        link.command(actor, signal)
        link.anew = link.anew or anew
        self.unsure = min(MOST_UNSURE, self.unsure + link.obey_clear())
        self.see(link)

    def tick(self, ticks):
        for link in self.links:
            link.rebase()
        if ticks > 65535:
            raise Refused("W1 TooFar")
        due = sum(link.tick(ticks) for link in self.links)
        for link in self.links:
            link.waited += ticks
            link.since = None if link.since is None else link.since + ticks
        self.see(*self.links)
        return due

    def line_in(self, at, octets):
        link = self.link(at)
        while octets:
            octets = octets[link.line_in(octets) :]
            self.see(link)
            link.messages.clear()

    def out(self, at, units):
        link, lines = self.link(at), []
        while len(lines) < units and lines != ["silent"]:
            lines.append(link.unit_out() or "silent")
            self.see(link)
        return lines

    def send_by(self, at, octets):
        """Takes a message that is bound to a link."""
        link = self.link(at)
        if not link.is_able():
            raise Refused("K1 NoLink")
        link.takes([octets])

    def send(self, octets):
        if is_bound(octets, self.own, self.peer):
            raise Refused("K5 Bound")
        at = self.table[selection_of(octets)]
        if at is None:
            raise Refused("K1 NoLink")
        if self.links[at].changing:
            raise Refused("K2 Waiting")
        if not self.links[at].is_able() or not self.links[at].admitted:
            raise Refused("K1 NoLink")
        self.links[at].sender.put(octets)

    def message(self, at, heading, anew_heading):
        """A message that tells the number of the last one accepted on a link, or that it isn't known."""
        link = self.links[at]
        return labelled(self.peer, self.own, at, [anew_heading] if link.anew else [heading, link.receiver.last])

    def fail(self, at):
        if self.link(at).changing:
            raise Refused("K2 Waiting")
        self.links[at].begin()
        return self.message(at, COO, ECO)

    def changeover_message(self, sif):
        """The answer to a message that came, if there is one."""
        message = changeover_in(sif)
        if message is None or message[0][:2] != (self.own, self.peer) or message[0][2] >= len(self.links):
            return None
        (_, _, at), heading, fsn = message
        link = self.links[at]
        if heading in (COA, ECA):
            link.tell(None if link.anew else fsn)
            return None
        emergency = labelled(self.peer, self.own, at, [ECA])
        if not link.changing and link.had_one and link.since is None:
            return emergency
        is_late = not link.changing and link.since is not None and link.since <= PATIENCE
        if not is_late:
            link.begin()
            link.tell(None if link.anew else fsn)
        answer = self.message(at, COA, ECA) if heading == COO else emergency
        if is_late or answer[4] == COA:
            link.hold()
        return answer

    def retrieve(self, at):
        why = self.link(at).why_not()
        if why:
            raise Refused(why)
        return self.links[at].hand_out()

    def abandon(self, at):
        link = self.link(at)
        why = link.why_not()
        if why == "K1 NoLink":
            raise Refused(why)
        if why is None or why == "K2 Waiting":
            raise Refused("K2 Waiting")
        self.unsure = min(MOST_UNSURE, self.unsure + link.unknown())
        return link.hand_out()

    def divert(self, at):
        """Diverts what a link handed out."""
        link = self.link(at)
        if not link.out:
            raise Refused("K2 Waiting")
        try:
            self.go_on(at, link.hand)
        except Refused as why:
            raise Refused(f"{why} left {len(link.hand)}")

    def go_on(self, at, hand):
        """Diverts a hand, taking out of it what goes."""
        link, able = self.links[at], self.for_hand(at)
        if hand and not able:
            raise Refused("K1 NoLink")
        if able == [at]:
            link.takes(hand)
            hand.clear()
        for selection in range(16):
            moves = [it for it in hand if selection_of(it) == selection]
            if moves:
                to = self.pick(able, selection)
                self.links[to].takes(moves)
                self.table[selection] = to
                hand[:] = [it for it in hand if selection_of(it) != selection]
        for selection, was in enumerate(self.table):
            if was == at:
                self.table[selection] = self.pick(able, selection)
        link.changing = link.out = False

    def rebalance(self):
        if any(link.changing for link in self.links):
            raise Refused("K2 Waiting")
        able = self.chosen([lambda at, link: True])
        new = [self.pick(able, selection) for selection in range(16)]
        for selection, was in enumerate(self.table):
            if was is not None and was != new[selection] and self.links[was].holds(selection):
                raise Refused("K3 NotEmpty")
        self.table = new
        for link in self.links:
            link.failed = False

    def shown(self, at):
        """What a link is."""
        link = self.link(at)
        words = [
            "in service" if link.serves else "out of service",
            *(["failed"] if link.failed else []),
            *(["held"] if link.is_held else []),
            *([f"changeover {link.waited}"] if link.changing else []),
            *([] if link.admitted else ["not admitted"]),
        ]
        return ", ".join(words)


# Scripts.

ALONE = ["fail", "retrieve", "abandon", "divert", "rebalance", "table", "held", "unsure", "link"]


def command(words):
    """A line as a command: its word and what follows."""
    word, rest = words[0], words[1:]
    if word in ALONE and not rest:
        return (word,)
    if word == "on" and len(rest) == 1:
        return word, number(rest[0])
    if word == "send" and len(rest) == 1 and 5 <= len(octets_in(rest[0])) <= 273:
        return word, octets_in(rest[0])
    if word == "bound" and len(rest) == 1 and is_bound(octets_in(rest[0]), OWN, OTHER):
        return word, octets_in(rest[0])
    if word == "message" and len(rest) == 1:
        return word, octets_in(rest[0])
    if word == "admit" and rest in (["yes"], ["no"]):
        return word, rest == ["yes"]
    if word in ("send", "bound", "msu"):
        raise BadLine
    return terminal_command(words)


class Player:
    """A set, and the link that lines speak of."""

    def __init__(self, text, cyclic, links, *limits):
        self.group, self.on = Group([Link(text, cyclic, *limits) for _ in range(links)]), 0

    def do(self, word, *rest):
        """Does a command, and gives the lines to print for it."""
        group, at = self.group, self.on
        if word == "on":
            self.on = rest[0]
            return []
        if word == "command":
            group.command(at, *rest[0])
        elif word == "line":
            group.link(at)
            group.line_in(at, rest[0])
        elif word == "out":
            return group.out(at, rest[0])
        elif word == "tick":
            return [f"ok due {group.tick(rest[0])}"]
        elif word in ("state", "value"):
            return do(group.link(at), word, *rest)
        elif word == "send":
            group.send(rest[0])
        elif word == "bound":
            group.send_by(at, rest[0])
        elif word == "admit":
            group.admit(at, rest[0])
        elif word == "rebalance":
            group.rebalance()
        else:
            return [self.told(word, *rest)]
        return ["ok"]

    def told(self, word, *rest):
        """The line of a command that tells more than `ok`."""
        group, at = self.group, self.on
        if word == "fail":
            return f"ok {group.fail(at).hex().upper()}"
        if word == "message":
            answer = group.changeover_message(rest[0])
            return "ok" if answer is None else f"ok {answer.hex().upper()}"
        if word in ("retrieve", "abandon"):
            return f"ok {group.retrieve(at) if word == 'retrieve' else group.abandon(at)}"
        if word == "divert":
            group.divert(at)
            return "ok"
        if word == "table":
            return ", ".join(
                f"{selection} {'-' if link is None else link}" for selection, link in enumerate(group.table)
            )
        if word == "link":
            return group.shown(at)
        if word == "held":
            return f"{len(group.link(at).held())} sent {group.link(at).sent()}"
        return str(group.unsure)


def head(script):
    """The mode and the number of links of a link set's script, which is short enough and text; None of another."""
    if len(script) > LONGEST:
        return None
    try:
        first = spoken(script)[:1]
    except UnicodeDecodeError:
        return None
    words = first[0][1] if first else []
    if len(words) != 3 or words[0] != "group" or words[1] not in ("basic", "cyclic"):
        return None
    try:
        links = number(words[2])
    except BadLine:
        return None
    return (words[1] == "cyclic", links) if 1 <= links <= 16 else None


def run(player, commands, say):
    last = None
    for at, (word, *rest) in commands:
        if word == "expect":
            if rest[0] != last:
                raise Failed(at)
            continue
        try:
            lines = player.do(word, *rest)
        except Refused as why:
            lines = [f"refused {why}"]
        for last in lines:
            say(last)


def play(word, script, say):
    """Plays a script of any kind on a set of processes, and gives the status."""
    return play_text(plain_term.text_of(word).encode(), script, say)


def player(text, script):
    """A set over a text, as the first line of a script has it."""
    cyclic, links = head(script)
    return Player(text, cyclic, links, *plain_term.limits_over(text, "cyclic" if cyclic else "basic"))


def play_text(text, script, say):
    """Plays a script of any kind on a text, and gives the status."""
    if head(script) is None:
        return plain_term.play_text(text, script, say)
    try:
        text.decode()
        check(text)
    except (UnicodeDecodeError, Refusal) as why:
        say("refused F1 NotText" if isinstance(why, UnicodeDecodeError) else f"refused {why}")
        return 2
    commands = []
    for at, words in spoken(script)[1:]:
        try:
            commands.append((at, command(words)))
        except BadLine:
            say(f"refused X1 BadLine line {at}")
            return 2
    try:
        made = player(text, script)
    except plain_term.OutOfRange as why:
        say(f"refused X2 NoName {why}")
        return 2
    lacking = plain_term.lacking_in(made.group.links[0].book)
    if lacking:
        say(f"refused X2 NoName {lacking[0]}")
        return 2
    try:
        run(made, commands, say)
    except Failed as why:
        say(f"failed line {why}")
        return 1
    return 0


# Tables.


def links_up(line):
    """How many links a line of a table takes into service; None of another line."""
    return int(line[4:-1]) if line.startswith("<UP ") else None


def all_whole(line):
    """The lines of a script that a line of a table stands for."""
    links = links_up(line)
    if links is None:
        return whole(line)
    begin = [
        it
        for at in range(links)
        for it in (f"on {at}", "command power", "command start", "unit FFFF0100", "unit FFFF0101")
    ]
    return [*begin, "tick 8200", *(it for at in range(links) for it in (f"on {at}", "unit FFFF00")), "on 0"]


def all_wanted(line):
    """The lines to print that a line of a table stands for."""
    links = links_up(line)
    return wanted(line) if links is None else ["ok"] * 4 * links + [f"ok due {links}"] + ["ok"] * links


def entries(table):
    """The name, the set, the script, the lines and the status of each entry."""
    for part in table.split("\n== ")[1:]:
        name, rest = part.split("\n", 1)
        script, lines = ("\n" + rest).split("\n--\n")
        lines = [
            it
            for line in copied(lines).strip("\n").split("\n")
            for it in all_wanted(line)
            if it and not it.startswith("#")
        ]
        status = int(lines.pop()[5:]) if lines and lines[-1].startswith("exit ") else 0
        script = "\n".join(it for line in copied(script[1:]).split("\n") for it in all_whole(line))
        yield name, name.split(":")[0], script.replace("<CR>", "\r").replace("<TAB>", "\t"), lines, status


def played(file):
    wrong = total = 0
    for name, word, script, lines, status in entries(pathlib.Path(file).read_text()):
        said, total = [], total + 1
        ended = play(word, script.encode(), said.append)
        if (said, ended) != (lines, status):
            wrong += 1
            differs = next(
                (at for at, (one, other) in enumerate(zip(said, lines)) if one != other), min(len(said), len(lines))
            )
            print(
                f"{name}: line {differs + 1}: {said[differs : differs + 1]} for {lines[differs : differs + 1]}, "
                f"status {ended} for {status}"
            )
    print(f"{total} scripts, {wrong} differ")
    return 1 if wrong else 0


def main(words):
    if len(words) == 2 and words[0] == "--table":
        return played(words[1])
    if len(words) != 1:
        print(__doc__, file=sys.stderr)
        return 3
    script = sys.stdin.buffer.read() if words[0] == "stdin" else pathlib.Path(words[0]).read_bytes()
    return play("standard", script, print)


if __name__ == "__main__":
    sys.exit(main(sys.argv[1:]))
