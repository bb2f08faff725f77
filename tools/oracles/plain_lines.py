"""Two plain terminals (plain_term.py) whose lines are tied together: makes the runs of examples/links/runs.txt on the
bits of noise of the program `trials`, and prints the lines that the program `trials` has to print for them. Nothing of
the program is read but the octets of a message.

usage: tools/oracles/plain_lines.py                                             the runs of examples/links/runs.txt
       tools/oracles/plain_lines.py MODE SEED RATE MESSAGES GIVEN UNITS         one run"""
import re
import sys

from tools.oracles.plain_term import FLAG, ROOT, Terminal, bits_of, check_octets, octets_of, stuffed

RUNS = ROOT / "examples" / "links" / "runs.txt"
SOURCE = ROOT / "crates" / "trials" / "src"
TEXT = (ROOT / "examples" / "standard.sdl").read_bytes()
MOST_KEPT, MOST_ROUNDS, ALIGNING = 400, 5000, 900
FILLER = bytes(
    int(it, 16)
    for it in re.search(r"FILLER.*?= \[(.*?)\]", (SOURCE / "end.rt").read_text(), re.S)[1]
    .replace("0x", "")
    .replace(",", " ")
    .split()
)


def table():
    """The runs of the table."""
    for entry in RUNS.read_text().split("\n== ")[1:]:
        for words in map(str.split, entry.split("\n--\n")[0].split("\n")[1:]):
            yield words[0], *map(int, words[1:])


def noisy(bits, rate, noise):
    """The bits that the far end gets for these."""
    if not rate:
        return bits
    arrived = []
    for bit in bits:
        noise.state = (noise.state * 6364136223846793005 + 1442695040888963407) % 2**64
        fate = (noise.state >> 33) % rate
        noise.damaged += fate < 3
        arrived += [[1 - bit], [], [bit, bit]][fate] if fate < 3 else [bit]
    return arrived


class Noise:
    def __init__(self, seed):
        self.state, self.damaged = seed, 0


class Far(Terminal):
    """A terminal that gives the octets of what goes out."""

    def content_out(self):
        """The octets of the next unit without their check octets, and whether they have a message; None for silence."""
        self.rebase()
        if self.kind is None and not self.busy:
            return None
        kind, self.busy = 5 if self.busy else self.kind, False
        fsn, fib, message = self.sender.next_unit() if kind == 9 else self.sender.idle()
        bsn, bib = self.backward()
        if message is not None:
            self.offer("TXC", "MsuSent")
        body = message if message is not None else b"" if kind in (8, 9) else bytes([kind])
        return bytes([bsn | bib << 7, fsn | fib << 7, min(len(body), 63)]) + body, message is not None


class End:
    """One end. It keeps a list of all that went out and of all that came, with the spell; the figures are counted from
    the lists."""

    def __init__(self, mode):
        self.terminal = Far(TEXT, mode == "cyclic")
        self.given, self.part, self.bits_out = 0, [], list(FLAG)
        self.went, self.came, self.spells, self.downs = [], [], 0, 0
        self.terminal.command("LSC", "PowerOn")
        self.terminal.command("LSC", "StartLink")

    def give(self, count, messages):
        store = self.terminal.sender
        for _ in range(count):
            if self.given >= messages or len(store.all) - store.acknowledged >= MOST_KEPT:
                return
            store.put(message(self.given))
            self.given += 1

    def speak(self):
        """The bits of whole octets of the next unit."""
        out = self.terminal.content_out()
        if out is None:
            return []
        content, has_message = out
        if has_message:
            self.went.append((self.downs, content[3:]))
        self.bits_out += stuffed(bits_of(content + check_octets(content))) + FLAG
        whole = len(self.bits_out) // 8 * 8
        bits, self.bits_out = self.bits_out[:whole], self.bits_out[whole:]
        return bits

    def listen(self, bits):
        for bit in bits:
            self.part.append(bit)
            if len(self.part) == 8:
                octet, self.part = octets_of(self.part), []
                assert self.terminal.line_in(octet) == 1
                self.read()

    def read(self):
        here = self.terminal
        messages, here.messages = here.messages, []
        statuses, here.statuses = here.statuses, []
        self.came += [(self.downs, self.spells, it) for it in messages]
        for name, *_ in statuses:
            if name == "InServiceNow":
                self.spells += 1
            elif name == "Down":
                self.downs += 1
                here.command("LSC", "StartLink")

    def in_service(self):
        place = self.terminal.book.actor("LSC").place
        return self.terminal.book.actor("LSC").process.states[place][0] in ("InService", "ProcOutage")


def message(number):
    return b"\x83" + number.to_bytes(4, "little") + FILLER[: 4 + number % 29]


def order(came, numbers):
    """The line that says whether each spell's messages came in order, from the list of those that came; how many came
    for the first time, and how many not."""
    seen, twice, before = 0, 0, {}
    wrong = None
    for down, spell, content in came:
        number = numbers.get(content, 2**32 - 1)
        wanted = before[down] + 1 if down in before else min(number, seen)
        if number != wanted and wrong is None:
            wrong = f"  WRONG in spell {spell}: message {number} came for {wanted}"
        before[down] = number
        twice += number < seen
        seen += number >= seen
    return wrong or "  in order, none twice, none missing", seen, twice


def sendings(went, numbers):
    """How many messages went out, how often one went out again within a spell, and how often anew in a later one."""
    ever, spells = set(), set()
    again = anew = 0
    for down, content in went:
        number = numbers[content]
        again += (down, number) in spells
        anew += (down, number) not in spells and number in ever
        ever.add(number)
        spells.add((down, number))
    return len(ever), again, anew


def way(name, one, other, numbers):
    sent, again, anew = sendings(one.went, numbers)
    line, delivered, twice = order(other.came, numbers)
    print(
        f"{name}: sent {sent}, delivered {delivered}, retransmitted {again}, anew {anew}, delivered twice over "
        f"spells {twice}, spells {other.spells}"
    )
    print(line)


def make(mode, seed, rate, messages, given, units):
    noise, left, right = Noise(seed), End(mode), End(mode)
    numbers = {message(it): it for it in range(messages)}
    for _ in range(MOST_ROUNDS):
        if (
            min(len({it for _, _, it in end.came}) if len(end.came) >= messages else 0 for end in (left, right))
            >= messages
        ):
            break
        for end in (left, right):
            end.give(given, messages)
        for one, other in ((left, right), (right, left)):
            for _ in range(units):
                other.listen(noisy(one.speak(), rate, noise))
        ticks = units * 2 if left.in_service() and right.in_service() else ALIGNING
        for end in (left, right):
            end.terminal.tick(ticks)
        for end in (left, right):
            end.read()
    print(
        f"{mode} seed {seed} rate {rate}: {messages} messages each way, {given} given and {units} units a round, "
        f"{noise.damaged} bits damaged"
    )
    way("left to right", left, right, numbers)
    way("right to left", right, left, numbers)
    sys.stdout.flush()


def main(words):
    if words and len(words) != 6:
        print(__doc__, file=sys.stderr)
        return 3
    for run in [(words[0], *map(int, words[1:]))] if words else table():
        make(*run)
    return 0


if __name__ == "__main__":
    sys.exit(main(sys.argv[1:]))
