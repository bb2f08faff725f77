"""Signal units, the line and the stores of Q.703, plainly and on whole lists: for the terminals of plain_term.py. Each
keeps the counts of Q.752, by name."""
from collections import Counter

from tools.oracles.plain_turn import Refused

GENERATOR = 1 << 16 | 1 << 12 | 1 << 5 | 1
FLAG = [0, 1, 1, 1, 1, 1, 1, 0]


def bits_of(octets):
    """The bits of octets, the low one of each first."""
    return [octet >> at & 1 for octet in octets for at in range(8)]


def octets_of(bits):
    return bytes(sum(bit << at for at, bit in enumerate(bits[start : start + 8])) for start in range(0, len(bits), 8))


def polynomial(bits):
    """The first bit is that of the highest power."""
    return int("".join(map(str, bits)) or "0", 2)


def remainder(dividend):
    while dividend.bit_length() > 16:
        dividend ^= GENERATOR << dividend.bit_length() - 17
    return dividend


def check_octets(content):
    """The two check octets of a content: the ones' complement of the sum of two remainders, sent highest power
    first."""
    bits = bits_of(content)
    both = remainder(0xFFFF << len(bits)) ^ remainder(polynomial(bits) << 16) ^ 0xFFFF
    return octets_of([both >> 15 - at & 1 for at in range(16)])


def decoded(octets):
    """The unit of octets with their check octets: head, status, message; None where it is none."""
    if not 5 <= len(octets) <= 278 or check_octets(octets[:-2]) != octets[-2:]:
        return None
    rest = octets[3:-2]
    if octets[2] & 63 != min(len(rest), 63):
        return None
    head = {"bsn": octets[0] & 127, "bib": octets[0] >> 7, "fsn": octets[1] & 127, "fib": octets[1] >> 7}
    return head, rest[0] & 7 if 1 <= len(rest) <= 2 else None, rest if len(rest) > 2 else None


def stuffed(bits):
    """The bits with a 0 after each five 1s."""
    line, ones = [], 0
    for bit in bits:
        line.append(bit)
        ones = ones + 1 if bit else 0
        if ones == 5:
            line.append(0)
            ones = 0
    return line


def unstuffed(bits):
    """The bits without the 0 after each five 1s; a 1 there stays."""
    content, ones = [], 0
    for bit in bits:
        if ones == 5 and not bit:
            ones = 0
            continue
        content.append(bit)
        ones = ones + 1 if bit else 0
    return content


class Line:
    """All bits received so far, and the mode."""

    def __init__(self):
        self.bits, self.content, self.counting, self.counted = [], None, True, 0
        self.counts = Counter()

    def ends(self, flag):
        return self.bits[-len(flag) :] == flag

    def bit(self, bit):
        """The events at one more bit: a unit, or None for an error that counts."""
        self.bits.append(bit)
        events = []
        if self.counting:
            self.counted += 1
            if self.counted % 128 == 0:
                self.counts["errored_octets"] += 1
                events.append(None)
        if self.ends(FLAG):
            end, self.content = self.content, len(self.bits)
            between = self.bits[end:-8] if end is not None else []
            return events + (self.judged(between) if between else [])
        if not self.counting and (self.ends([1] * 7) or self.is_long()):
            self.counting, self.counted = True, 0
        return events

    def judged(self, bits):
        inside = unstuffed(bits)
        unit = decoded(octets_of(inside)) if len(inside) % 8 == 0 and stuffed(inside) == bits else None
        was, self.counting = self.counting, self.counting and unit is None
        if unit is None and not was:
            self.counts["errored_units"] += 1
        return [unit] if unit or not was else []

    def is_long(self):
        """Whether there are too many bits after the last flag, eight bits less than so far."""
        bits = self.bits[self.content : -7]
        return len(bits) > 2224 and len(unstuffed(bits)) > 2224


# Both stores.


class Sender:
    """All messages put, and places among them: where the numbers begin, the first that isn't acknowledged, the first
    that isn't sent, the one to repeat next in a retransmission, and the one that is next in the ordinary cycle."""

    def __init__(self, cyclic, messages=127, octets=8192):
        self.cyclic, self.all, self.fib, self.forced = cyclic, [], 1, False
        self.limits = messages, octets
        self.origin = self.acknowledged = self.sent = self.again = self.turn = 0
        self.counts = Counter()

    def put(self, message):
        if len(self.all) - self.sent >= 1024:
            raise Refused("E1 Full")
        self.all.append(message)

    def numbered(self, place):
        return (place - self.origin) % 128, self.fib, self.all[place]

    def idle(self):
        """Number and bit of a unit without a message."""
        return (self.sent - self.origin - 1) % 128, self.fib, None

    def is_limit_reached(self):
        out = self.all[self.acknowledged : self.sent]
        return self.cyclic and (len(out) >= self.limits[0] or sum(map(len, out)) >= self.limits[1])

    def next_unit(self):
        if self.forced and self.again == self.sent:
            self.end_round()
        if self.again < self.sent:
            self.again += 1
            return self.repeated(self.again - 1)
        if self.sent < len(self.all) and self.sent - self.acknowledged < 127:
            self.sent += 1
            self.end_round()
            self.counts["messages_sent"] += 1
            self.counts["octets_sent"] += len(self.all[self.sent - 1])
            return self.numbered(self.sent - 1)
        if self.cyclic and self.acknowledged < self.sent:
            place, self.turn = self.turn, self.turn + 1
            if self.turn == self.sent:
                self.turn = self.acknowledged
            return self.repeated(place)
        return self.idle()

    def repeated(self, place):
        self.counts["octets_repeated"] += len(self.all[place])
        return self.numbered(place)

    def end_round(self):
        """Begins a round of forced retransmission, where a limit is reached."""
        self.forced = self.is_limit_reached()
        self.again = self.acknowledged if self.forced else self.sent
        if self.forced:
            self.counts["rounds_n1" if self.sent - self.acknowledged >= self.limits[0] else "rounds_n2"] += 1

    def on_back(self, bsn, bib):
        """How many messages are acknowledged, None where the number is none that can be."""
        count = (bsn - (self.acknowledged - self.origin - 1)) % 128
        if count > self.sent - self.acknowledged:
            return None
        self.acknowledged += count
        self.again, self.turn = max(self.again, self.acknowledged), max(self.turn, self.acknowledged)
        if not self.cyclic and bib != self.fib:
            self.fib, self.again = bib, self.acknowledged
            self.counts["nacks_received"] += 1
        return count

    def fresh(self):
        self.origin = self.sent = self.again = self.turn = self.acknowledged
        self.fib, self.forced = 1, False


class Receiver:
    def __init__(self, cyclic):
        self.cyclic, self.counts = cyclic, Counter()
        self.fresh()

    def fresh(self):
        self.last, self.bib, self.asked = 127, 1, False

    def aside(self, fib):
        """Whether the indicator is one that can be, of a unit of which nothing else counts."""
        return self.cyclic or fib == self.bib or self.asked

    def on_unit(self, fsn, fib, has_message):
        """Whether the message is accepted; None where the indicator is none that can be."""
        if not self.cyclic and fib != self.bib:
            return False if self.asked else None
        self.asked = False
        if has_message and fsn == (self.last + 1) % 128:
            self.last = fsn
            return True
        if not self.cyclic and fsn != self.last:
            self.bib, self.asked = 1 - self.bib, True
            self.counts["nacks_sent"] += 1
        return False
