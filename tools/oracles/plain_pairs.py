"""Two plain link sets (plain_group.py) back to back: makes the runs of examples/links/pairs.txt by the rules of
crates/trials_groups/src/schedule.rt, and prints the lines that the program `trials` has to print for them. The messages
sent and received are in lists, from which all is counted at the end.

usage: tools/oracles/plain_pairs.py
           the runs of examples/links/pairs.txt, except the late ones
       tools/oracles/plain_pairs.py MODE LINKS SEED MESSAGES LOST [late]      one run"""
import sys

from tools.oracles.plain_group import Group, Link, label_of, labelled
from tools.oracles.plain_lines import Far
from tools.oracles.plain_play import Refused
from tools.oracles.plain_term import FLAG, ROOT, bits_of, check_octets, octets_of, stuffed

RUNS = ROOT / "examples" / "links" / "pairs.txt"
TEXT = (ROOT / "examples" / "standard.sdl").read_bytes()
FILLER = bytes.fromhex("FF7E00FE3F5AFFFF117E7EC38001F81FAAFF3E990000F7EF")
MOST_ROUNDS, GIVEN, UNITS, TICKS, CUTS, HEALS, MOST_MAIL, LATE_ROUNDS, REPEATS = 60000, 8, 16, 300, 12, 6, 64, 3, 16
NEAR, FAR = 1, 16383


class FarLink(Link, Far):
    """A link that gives the octets of what goes out."""

    def __init__(self, text, cyclic):
        super().__init__(text, cyclic)
        self.bits_out = list(FLAG)

    def speak(self, units):
        """The whole octets of so many units."""
        for _ in range(units):
            out = self.content_out()
            if out is not None:
                self.bits_out += stuffed(bits_of(out[0] + check_octets(out[0]))) + FLAG
        whole = len(self.bits_out) // 8 * 8
        bits, self.bits_out = self.bits_out[:whole], self.bits_out[whole:]
        return octets_of(bits)


class End:
    """One end: its set, what was sent and what came, and messages of changeover on their way to it."""

    def __init__(self, cyclic, links, own, peer):
        self.set, self.mail = Group([FarLink(TEXT, cyclic) for _ in range(links)], own, peer), []
        self.sent, self.came, self.uneven = [], [], False
        self.due, self.started, self.late, self.back = [False] * links, [False] * links, [], [0] * links

    def give(self, selection):
        number = sum(one == selection for one, _ in self.sent)
        sif = labelled(self.set.peer, self.set.own, selection, number.to_bytes(4, "little") + FILLER[: number % 24])
        try:
            self.set.send(b"\x83" + sif)
        except Refused:
            return
        self.sent.append((selection, b"\x83" + sif))

    def tell(self, at, signal):
        try:
            self.set.command(at, "LSC", signal)
        except Refused as why:
            assert str(why).startswith("K2"), why
            return False
        return True

    def start(self, at):
        if not self.started[at]:
            self.started[at] = self.tell(at, "StartLink")

    def read(self, at):
        link = self.set.links[at]
        self.set.see(link)
        self.came += link.messages
        for name, *_ in link.statuses:
            if name == "Down":
                self.due[at], self.started[at] = True, False
            if name == "InServiceNow":
                self.uneven, self.back[at] = True, 0
        link.messages, link.statuses = [], []

    def hear(self, at, octets):
        assert self.set.links[at].line_in(octets) == len(octets)
        self.read(at)

    def speak(self, at):
        octets = self.set.links[at].speak(UNITS)
        self.read(at)
        return octets

    def wait(self):
        self.set.tick(TICKS)
        for at in range(len(self.set.links)):
            self.back[at] += 1
            self.read(at)

    def forget(self, at):
        self.late = [it for it in self.late if label_of(it)[2] != at]

    def stop_held(self, at):
        if self.set.links[at].is_held and self.free(at):
            self.tell(at, "StopLink")

    def rebalance(self):
        if self.uneven:
            try:
                self.set.rebalance()
                self.uneven = False
            except Refused:
                pass

    def free(self, at):
        return self.set.links[at].serves and not self.set.links[at].changing

    def done(self, messages):
        idle = all(self.free(at) and not link.held() for at, link in enumerate(self.set.links))
        return len(self.sent) >= messages and not self.uneven and not self.mail and idle

    def changeover(self, at, one_in):
        """The next step of a changeover that goes on."""
        link = self.set.links[at]
        if link.out:
            try:
                self.set.divert(at)
            except Refused:
                self.due[at] = False
            return
        why = link.why_not()
        if why is None:
            self.set.retrieve(at)
        elif why.startswith("K4") and one_in(4):
            self.set.abandon(at)
        if link.out:
            self.due[at] = False

    def tend(self, at, one_in):
        """The next step for a link that is down or in changeover; the order to send, if there is one."""
        if self.set.links[at].changing:
            self.changeover(at, one_in)
        elif self.due[at] and not self.set.links[at].serves and one_in(3):
            return self.set.fail(at)
        return None


class Pair:
    def __init__(self, mode, links, seed, messages, lost, late):
        self.late = late
        self.near, self.far = (End(mode == "cyclic", links, own, peer) for own, peer in ((NEAR, FAR), (FAR, NEAR)))
        self.links, self.state, self.messages, self.lost = links, seed, messages, lost
        self.cut, self.cuts, self.orders, self.losses = [False] * links, 0, 0, 0

    def draw(self):
        self.state = (self.state * 6364136223846793005 + 1442695040888963407) % 2**64
        return self.state >> 33

    def one_in(self, often):
        drawn = self.draw()
        return often != 0 and drawn % often == 0

    def ends(self):
        return (self.near, self.far), (self.far, self.near)

    def cut_link(self, at):
        self.cut[at] = self.near.due[at] = self.far.due[at] = True
        self.cuts += 1
        self.near.forget(at)
        self.far.forget(at)

    def cut_one(self):
        at = self.draw() % self.links
        if not self.one_in(CUTS):
            return
        for it in [at, (at + 1) % self.links] if self.late and self.one_in(2) else [at]:
            if not self.cut[it] and self.near.free(it) and self.far.free(it):
                self.cut_link(it)

    def send(self, to, sif):
        self.orders += 1
        if self.late and len(to.late) < MOST_MAIL and self.one_in(2):
            to.late.append(sif)
        if self.one_in(self.lost) or len(to.mail) >= MOST_MAIL:
            self.losses += 1
        else:
            to.mail.append(sif)

    def deliver(self, to, other):
        for _ in range(len(to.mail)):
            sif = to.mail.pop(0)
            if to.set.links[label_of(sif)[2]].serves:
                to.mail.append(sif)
                continue
            answer = to.set.changeover_message(sif)
            if answer is not None:
                self.send(other, answer)

    def repeat(self, to, other):
        for _ in range(len(to.late)):
            sif = to.late.pop(0)
            at = label_of(sif)[2]
            if to.set.links[at].serves and to.back[at] > LATE_ROUNDS:
                continue
            if not self.one_in(REPEATS):
                to.late.append(sif)
                continue
            answer = to.set.changeover_message(sif)
            if answer is not None:
                other.set.changeover_message(answer)

    def work(self, at):
        cut = self.cut[at]
        for one, other in self.ends():
            octets = one.speak(at)
            other.hear(at, b"\xff" * (200 + self.draw() % 201) if cut else octets)
        if not cut and (self.near.due[at] or self.far.due[at]):
            self.cut_link(at)
        for one, other in self.ends():
            if self.late:
                one.stop_held(at)
            order = one.tend(at, self.one_in)
            if order is not None:
                self.send(other, order)
        under_way = any(label_of(sif)[2] == at for end in (self.near, self.far) for sif in end.mail)
        if self.cut[at] and not self.near.due[at] and not self.far.due[at] and not under_way and self.one_in(HEALS):
            self.cut[at] = False
        if not self.cut[at]:
            self.near.start(at)
            self.far.start(at)

    def round(self):
        if min(len(self.near.sent), len(self.far.sent)) < self.messages:
            self.cut_one()
        for end in (self.near, self.far):
            for _ in range(GIVEN):
                selection = self.draw() % 16
                if len(end.sent) < self.messages:
                    end.give(selection)
        for at in range(self.links):
            self.work(at)
        for deliver in (self.deliver, self.repeat):
            for to, other in self.ends():
                deliver(to, other)
        for end in (self.near, self.far):
            end.rebalance()
        for end in (self.near, self.far):
            end.wait()

    def make(self):
        """Whether all came to an end."""
        for end in (self.near, self.far):
            for at in range(self.links):
                end.tell(at, "PowerOn")
                end.start(at)
        for _ in range(MOST_ROUNDS):
            if self.near.done(self.messages) and self.far.done(self.messages):
                return True
            self.round()
        return False


def verdict(one, other):
    """The lines of one way, by the lists of each selection."""
    missing = 0
    for selection in range(16):
        sent = [content for it, content in one.sent if it == selection]
        came = [it for it in other.came if label_of(it[1:])[2] == selection]
        places = [sent.index(it) if it in sent else -1 for it in came]
        if any(it < 0 for it in places) or any(a >= b for a, b in zip(places, places[1:])):
            return "WRONG: some came twice or out of order"
        missing += len(sent) - len(came)
    if missing > one.set.unsure:
        return "WRONG: more are missing than are unsure"
    return "none twice, in order, none missing but unsure ones" if missing else "each once, in order"


def show(mode, links, seed, messages, lost, late=False):
    pair = Pair(mode, links, seed, messages, lost, late)
    ended = pair.make()
    if late:
        print(
            f"{mode} links {links} seed {seed} lost {lost} late: {messages} messages each way"
            + ("" if ended else "\n  NOT DONE")
        )
        for name, (one, other) in zip(("near to far", "far to near"), pair.ends()):
            said = verdict(one, other)
            print(f"  {name}: {said if said.startswith('WRONG') else 'each once or unsure, in order'}", flush=True)
        return
    print(
        f"{mode} links {links} seed {seed} lost {lost}: {messages} messages each way, {pair.cuts} cuts, "
        f"{pair.orders} messages of changeover, {pair.losses} lost"
    )
    if not ended:
        print("  NOT DONE")
    for name, (one, other) in zip(("near to far", "far to near"), pair.ends()):
        print(
            f"  {name}: sent {len(one.sent)}, arrived {len(other.came)}, unsure {one.set.unsure}: "
            f"{verdict(one, other)}",
            flush=True,
        )


def table():
    """The runs of the table, except those in which messages come late: for them the required result is printed."""
    for entry in RUNS.read_text().split("\n== ")[1:]:
        for words in map(str.split, entry.split("\n--\n")[0].split("\n")[1:]):
            if len(words) == 5:
                yield words[0], *map(int, words[1:])


def main(words):
    if words and len(words) != 5 and words[5:] != ["late"]:
        print(__doc__, file=sys.stderr)
        return 3
    for run in [(words[0], *map(int, words[1:5]), words[5:] == ["late"])] if words else table():
        show(*run)
    return 0


if __name__ == "__main__":
    sys.exit(main(sys.argv[1:]))
