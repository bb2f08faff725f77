"""M3UA (RFC 4666), plainly: messages of a stream, their parameters, what a message is refused for, protocol data and
MTP messages, and the table of a signalling gateway with one ASP and one AS. It was written from the RFC, apart from the
crates `m3ua_frames` and `m3ua_gateway`.

usage: tools/oracles/plain_m3ua     reads lines as the program `trials_m3ua` does, and prints what it has to print"""
import struct
import sys

NAMES = {
    (0, 0): "ERR",
    (0, 1): "NTFY",
    (1, 1): "DATA",
    (2, 1): "DUNA",
    (2, 2): "DAVA",
    (2, 3): "DAUD",
    (2, 4): "SCON",
    (2, 5): "DUPU",
    (2, 6): "DRST",
    (3, 1): "ASPUP",
    (3, 2): "ASPDN",
    (3, 3): "BEAT",
    (3, 4): "ASPUP ACK",
    (3, 5): "ASPDN ACK",
    (3, 6): "BEAT ACK",
    (4, 1): "ASPAC",
    (4, 2): "ASPIA",
    (4, 3): "ASPAC ACK",
    (4, 4): "ASPIA ACK",
    (9, 1): "REG REQ",
    (9, 2): "REG RSP",
    (9, 3): "DEREG REQ",
    (9, 4): "DEREG RSP",
}
NUMBERS = {name: pair for pair, name in NAMES.items()}
INFO, CONTEXT, DIAGNOSTIC, HEARTBEAT, MODE, CODE = 4, 6, 7, 9, 11, 12
STATUS, IDENTIFIER, AFFECTED, CORRELATION = 13, 17, 18, 19
NETWORK, USER, CONGESTION, CONCERNED, KEY = 0x200, 0x204, 0x205, 0x206, 0x207
REGISTRATION, DEREGISTRATION, LOCAL, PROTOCOL = 0x208, 0x209, 0x20A, 0x210
MANDATORY = {
    "ERR": [CODE],
    "NTFY": [STATUS],
    "DATA": [PROTOCOL],
    "DUNA": [AFFECTED],
    "DAVA": [AFFECTED],
    "DAUD": [AFFECTED],
    "SCON": [AFFECTED],
    "DRST": [AFFECTED],
    "DUPU": [AFFECTED, USER],
    "REG REQ": [KEY],
    "REG RSP": [REGISTRATION],
    "DEREG REQ": [CONTEXT],
    "DEREG RSP": [DEREGISTRATION],
}
HEADER, MOST = 8, 4096


class Fault(Exception):
    """The error code by which octets are answered that are no message."""


def sized(tag, n):
    """Whether a value with this tag may have n octets."""
    if tag in (MODE, CODE, STATUS, IDENTIFIER, CORRELATION, NETWORK, USER, CONGESTION, CONCERNED, LOCAL):
        return n == 4
    if tag in (CONTEXT, AFFECTED):
        return n >= 4 and n % 4 == 0
    return n >= 12 if tag == PROTOCOL else n <= 255 if tag == INFO else True


def parameters(body):
    """The parameters of octets: tags with values."""
    found = []
    while body:
        if len(body) < 4:
            raise Fault(0x12)
        tag, size = struct.unpack(">HH", body[:4])
        if size < 4 or size > len(body) or not sized(tag, size - 4):
            raise Fault(0x12)
        found.append((tag, body[4:size]))
        padded = (size + 3) // 4 * 4
        if size < len(body) < padded:
            raise Fault(0x12)
        body = body[padded:]
    return found


def all_of(found, tag):
    return [value for other, value in found if other == tag]


def first(found, tag):
    return next(iter(all_of(found, tag)), None)


def numbers(value):
    """The numbers of four octets in a value, or none if there is no value."""
    return [int.from_bytes(value[at : at + 4], "big") for at in range(0, len(value or b""), 4)]


def decoded(octets):
    """The name of a message and its parameters. The header may leave out the last padding from the length (3.1.4)."""
    counted = struct.unpack(">I", octets[4:8])[0] if len(octets) >= HEADER else 0
    if counted < HEADER or len(octets) not in (counted, counted + -counted % 4):
        raise Fault(0x07)
    version, _, kind, number = octets[:4]
    if version != 1:
        raise Fault(0x01)
    if kind not in {k for k, _ in NAMES}:
        raise Fault(0x03)
    if (kind, number) not in NAMES:
        raise Fault(0x04)
    name, found = NAMES[kind, number], parameters(octets[HEADER:counted])
    if any(first(found, tag) is None for tag in MANDATORY.get(name, [])):
        raise Fault(0x16)
    return name, found


def parameter(tag, value):
    return struct.pack(">HH", tag, len(value) + 4) + value + bytes(-len(value) % 4)


def number(tag, value):
    return parameter(tag, struct.pack(">I", value))


def encoded(name, body=b""):
    return bytes([1, 0, *NUMBERS[name]]) + struct.pack(">I", len(body) + HEADER) + body


def protocol(value):
    """The fields of protocol data: OPC, DPC, SI, NI, MP, SLS and the user's octets."""
    return struct.unpack(">IIBBBB", value[:12]) + (value[12:],)


def message(fields):
    """The MTP message that protocol data stands for: its SIO and its SIF; None where it stands for none."""
    opc, dpc, si, ni, mp, sls, data = fields
    if opc >> 14 or dpc >> 14 or si > 15 or ni > 3 or mp > 3 or sls > 15 or len(data) > 268:
        return None
    return bytes([ni << 6 | mp << 4 | si]) + struct.pack("<I", sls << 28 | opc << 14 | dpc) + data


def protocol_of(msu):
    """The fields of the protocol data that an MTP message is; None where it has no label."""
    if len(msu) < 5:
        return None
    label = struct.unpack("<I", msu[1:5])[0]
    return label >> 14 & 0x3FFF, label & 0x3FFF, msu[0] & 15, msu[0] >> 6, msu[0] >> 4 & 3, label >> 28, msu[5:]


def items(stream):
    """The parts of a stream, by the lengths in the headers only: messages, headers of what is too long, or a
    broken one."""
    while len(stream) >= HEADER:
        told = struct.unpack(">I", stream[4:8])[0]
        if told < HEADER:
            yield "broken", b""
            return
        if told > MOST:
            yield "too long", stream[:HEADER]
        elif told <= len(stream):
            yield "message", stream[:told]
        else:
            return
        stream = stream[told:]


class Gateway:
    """One ASP in one AS (4.3), its messages both ways, and the octets that are sent. Each call returns the lines that
    are printed for it."""

    def __init__(self):
        self.context, self.destinations, self.reached = 0, [], False
        self.asp, self.server = "DOWN", "DOWN"
        self.waiting, self.kept, self.lost, self.refused = [], [], 0, 0

    def send(self, name, body=b""):
        return sent(encoded(name, body))

    def error(self, code, body=b""):
        return self.send("ERR", number(CODE, code) + body)

    def serves(self, state):
        """The AS comes to a state: an ASP that isn't down is told of it (4.3.4.5)."""
        changed, self.server = self.server != state, state
        return self.notify() if changed and self.asp != "DOWN" else []

    def notify(self):
        info = {"INACTIVE": 2, "ACTIVE": 3, "PENDING": 4}[self.server]
        return self.send("NTFY", number(STATUS, 1 << 16 | info) + number(CONTEXT, self.context))

    def unexpected(self, found, data=False):
        """ERR of an unexpected message, with its routing contexts (3.8.1)."""
        self.refused += data
        value = first(found, CONTEXT)
        return self.error(0x06, b"" if value is None else parameter(CONTEXT, value)) + ["refused"] * data

    def malformed(self, code, octets):
        """ERR of octets that are no message. Of an unknown class or type it has their first 40 (3.8.1)."""
        return self.error(code, parameter(DIAGNOSTIC, octets[:40]) if code in (0x03, 0x04) else b"")

    def others(self, found):
        """The routing contexts of a message that aren't ours."""
        return [it for it in numbers(first(found, CONTEXT)) if it != self.context]

    def has_ours(self, found):
        value = first(found, CONTEXT)
        return value is None or self.context in numbers(value)

    def echoed(self, found):
        """Our routing context, where the message has one."""
        return b"" if first(found, CONTEXT) is None else number(CONTEXT, self.context)

    def not_ours(self, found):
        """ERR of the routing contexts that aren't ours, if there are some (3.8.1)."""
        invalid = b"".join(struct.pack(">I", it) for it in self.others(found))
        return self.error(0x19, parameter(CONTEXT, invalid)) if invalid else []

    def availability(self, affected, there):
        """DAVA or DUNA of an affected point code (3.4.1, 3.4.2)."""
        return self.send("DAVA" if there else "DUNA", number(CONTEXT, self.context) + number(AFFECTED, affected))

    def all_destinations(self):
        return [line for code in self.destinations for line in self.availability(code & 0xFFFFFF, self.reached)]

    def audited(self, affected):
        """Each destination among the point codes that differ from this one in the lowest bits only, as many as the
        mask says (3.4.1); DUNA of all of them where there is none."""
        mask = min(affected >> 24, 24)
        there = [it & 0xFFFFFF for it in self.destinations if (it & 0xFFFFFF) >> mask == (affected & 0xFFFFFF) >> mask]
        if not there:
            return self.availability(affected, False)
        return [line for code in there for line in self.availability(code, self.reached)]

    def data_for(self, msu):
        opc, dpc, si, ni, mp, sls, user = protocol_of(msu)
        value = struct.pack(">IIBBBB", opc, dpc, si, ni, mp, sls) + user
        return self.send("DATA", number(CONTEXT, self.context) + parameter(PROTOCOL, value))

    def down(self):
        """The ASP is down from now on: one that was active leaves its AS pending (4.3.2)."""
        self.asp = "DOWN"
        self.server = {"ACTIVE": "PENDING", "INACTIVE": "DOWN"}.get(self.server, self.server)

    def ended(self):
        """The stream ends (4.2.3): no ASP can serve."""
        self.down()
        return []

    def expired(self):
        """T(r) runs out (4.3.2)."""
        if self.server != "PENDING":
            return []
        lines = [f"lost {len(self.kept)}"]
        self.lost, self.kept = self.lost + len(self.kept), []
        return lines + self.serves("DOWN" if self.asp == "DOWN" else "INACTIVE")

    def changed(self, reached):
        """The destinations are reached, or not: an active ASP is told of each (4.5.1)."""
        self.reached = reached
        return self.all_destinations() if self.asp == "ACTIVE" else []

    def octets(self, octets):
        """A message of the stream."""
        try:
            name, found = decoded(octets)
        except Fault as fault:
            kind = tuple(octets[2:4])
            # an ERR, however it is spoilt, is answered by none (3.8.1)
            if kind == NUMBERS["ERR"]:
                return []
            data = kind == NUMBERS["DATA"]
            self.refused += data
            return self.malformed(fault.args[0], octets) + ["refused"] * data
        if name == "ERR":
            return []
        if name == "BEAT":
            # all parameters, without any change (3.5.6), and each padded (3.2)
            counted = struct.unpack(">I", octets[4:8])[0]
            return self.send("BEAT ACK", octets[HEADER:counted] + bytes(-counted % 4))
        if name == "ASPUP":
            return self.up(found)
        if name == "ASPDN":
            self.down()
            return self.send("ASPDN ACK")
        if name == "DATA":
            return self.data(found)
        if self.asp == "DOWN" or name not in ("ASPAC", "ASPIA", "DAUD", "REG REQ", "SCON"):
            return self.unexpected(found)
        if name in ("ASPAC", "ASPIA"):
            return self.traffic(name, found)
        if name == "REG REQ":
            return [line for key in all_of(found, KEY) for line in self.register(key)]
        if self.others(found):
            return self.not_ours(found)
        if name == "SCON":
            return []
        # an ASP that isn't active should be sent no SSNM (4.3.1)
        if self.asp != "ACTIVE":
            return self.unexpected(found)
        return [line for affected in numbers(first(found, AFFECTED)) for line in self.audited(affected)]

    def up(self, found):
        was, self.asp = self.asp, "INACTIVE"
        lines = self.send("ASPUP ACK")
        if was == "ACTIVE":
            return lines + self.unexpected(found) + self.serves("PENDING")
        if was == "INACTIVE":
            return lines
        if self.server == "DOWN":
            self.server = "INACTIVE"
        return lines + self.notify()

    def register(self, key):
        """The result for a routing key (3.6.2): Successfully Registered with the routing context that there is, or
        Invalid Routing Key where it has no identifier, which is mandatory (3.6.1)."""
        try:
            identifier = first(parameters(key), LOCAL)
        except Fault:
            identifier = None
        if identifier is None:
            value = number(LOCAL, 0) + number(0x212, 4) + number(CONTEXT, 0)
        else:
            value = parameter(LOCAL, identifier) + number(0x212, 0) + number(CONTEXT, self.context)
        return self.send("REG RSP", parameter(REGISTRATION, value))

    def traffic(self, name, found):
        """ASPAC and ASPIA: our context is acknowledged, the others are invalid (4.3.4.3, 4.3.4.4)."""
        if not self.has_ours(found):
            return self.not_ours(found)
        if name == "ASPIA":
            was, self.asp = self.asp, "INACTIVE"
            lines = self.send("ASPIA ACK", self.echoed(found)) + self.not_ours(found)
            return lines + (self.serves("PENDING") if was == "ACTIVE" else [])
        mode = first(found, MODE)
        if mode is not None and struct.unpack(">I", mode)[0] not in (1, 2, 3):
            return self.error(0x05)
        lines = self.send("ASPAC ACK", (b"" if mode is None else parameter(MODE, mode)) + self.echoed(found))
        lines += self.not_ours(found)
        if self.asp == "ACTIVE":
            return lines
        self.asp = "ACTIVE"
        lines += self.serves("ACTIVE") + self.all_destinations()
        kept, self.kept = self.kept, []
        return lines + [line for msu in kept for line in self.data_for(msu)]

    def data(self, found):
        if self.asp == "DOWN":
            return self.unexpected(found, True)
        if self.others(found):
            self.refused += 1
            return self.not_ours(found) + ["refused"]
        if self.asp != "ACTIVE":
            return self.unexpected(found, True)
        fields = protocol(first(found, PROTOCOL))
        msu = message(fields)
        if msu is None or msu[0] & 15 < 3:
            self.refused += 1
            # too many octets are a wrong length, all else is a wrong value (3.8.1)
            return self.error(0x12 if len(fields[6]) > 268 else 0x11) + ["refused"]
        self.waiting.append(msu)
        return ["waits " + msu.hex().upper()]

    def delivered(self, msu):
        """The set delivers a message. One without a label, or not for level 4, can't be DATA."""
        fit = len(msu) >= 5 and msu[0] & 15 >= 3
        if fit and self.server == "ACTIVE":
            return self.data_for(msu)
        if fit and self.server == "PENDING" and len(self.kept) < 256:
            self.kept.append(msu)
            return ["kept"]
        self.lost += 1
        return ["lost 1"]

    def first_waiting(self, selection, word):
        """The first message of a selection that waits: the set takes it, or refuses it for good (`drop`)."""
        at = next((at for at, msu in enumerate(self.waiting) if protocol_of(msu)[5] == selection), None)
        if at is None:
            return ["none"]
        self.refused += word == "drop"
        told = {"first": "first ", "take": "took ", "drop": "dropped "}[word] + self.waiting[at].hex().upper()
        if word != "first":
            self.waiting.pop(at)
        return [told]

    def shown(self):
        numbers = f"kept {len(self.kept)} lost {self.lost} waiting {len(self.waiting)} refused {self.refused}"
        return [f"ASP-{self.asp} AS-{self.server} {numbers}"]


def life(words):
    """What is printed for the life of a gateway: words with their arguments."""
    gateway, stream = Gateway(), b""
    for word, given in zip(words[::2], words[1::2]):
        if word == "context":
            gateway.context = int(given)
        elif word == "destination":
            gateway.destinations.append(int(given))
        elif word == "reach":
            yield from gateway.changed(given == "on")
        elif word == "m3ua":
            before, stream = len(list(items(stream))), stream + bytes.fromhex(given)
            for kind, octets in list(items(stream))[before:]:
                yield from (("asp " if at == 0 else "") + line for at, line in enumerate(told(kind, octets)))
                yield from gateway.ended() if kind == "broken" else gateway.octets(octets)
                stream = b"" if kind == "broken" else stream
        elif word == "sctp":
            octets = bytes.fromhex(given)
            yield from (("asp " if at == 0 else "") + line for at, line in enumerate(told("message", octets)))
            yield from gateway.octets(octets)
        elif word == "set":
            yield from gateway.delivered(bytes.fromhex(given))
        elif word in ("first", "take", "drop"):
            yield from gateway.first_waiting(int(given), word)
        elif word == "happens" and given in ("end", "expire"):
            stream = b"" if given == "end" else stream
            yield from gateway.ended() if given == "end" else gateway.expired()
        elif word == "show":
            yield from gateway.shown()


# ---- as the program trials_m3ua prints them
SHOWN = [
    INFO,
    CONTEXT,
    DIAGNOSTIC,
    HEARTBEAT,
    MODE,
    CODE,
    STATUS,
    IDENTIFIER,
    AFFECTED,
    CORRELATION,
    NETWORK,
    USER,
    CONGESTION,
    CONCERNED,
    KEY,
    REGISTRATION,
    DEREGISTRATION,
    LOCAL,
    PROTOCOL,
]


def told(kind, octets):
    """The lines for an item of a stream."""
    if kind != "message":
        return [kind]
    try:
        name, found = decoded(octets)
    except Fault as fault:
        return [f"refused 0x{fault.args[0]:02x}"]
    values = [(tag, first(found, tag)) for tag in SHOWN if first(found, tag) is not None]
    lines = [" ".join([name] + [f"{tag:x}={value.hex().upper()}" for tag, value in values])]
    if name == "DATA":
        fields = protocol(first(found, PROTOCOL))
        msu = message(fields)
        label = "  opc %d dpc %d si %d ni %d mp %d sls %d octets %d" % (*fields[:6], len(fields[6]))
        lines.append(label + (" no message" if msu is None else " " + msu.hex().upper()))
    return lines


def sent(octets):
    """The lines for a message that the gateway sends."""
    lines = told("message", octets)
    return ["gateway " + lines[0]] + lines[1:] + ["  " + octets.hex().upper()]


def printed(line):
    """The lines for a line of what trials_m3ua reads: the pieces of a stream, or the life of a gateway."""
    words = line.split()
    if words[:1] == ["gateway"]:
        return list(life(words[1:]))
    stream = b"".join(bytes.fromhex(word) for word in words)
    return [said for kind, octets in items(stream) for said in told(kind, octets)]


def main():
    for line in sys.stdin.read().splitlines():
        print("\n".join(printed(line) + ["--"]))


if __name__ == "__main__":
    main()
