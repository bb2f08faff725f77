"""A capture of a line, worked out plainly and apart from the program: to compare with `mtp2_play line --capture`.

usage: tools/oracles/plain_capture.py CAME WENT [--ahead N] [--bits high] [--every]
           writes the capture of octets that came in and of octets that went out
       tools/oracles/plain_capture.py --script SET SCRIPT [--every]
           writes the capture of a script of a terminal or of a link set
       tools/oracles/plain_capture.py --read FILE
           prints a line for each record of a capture"""
import argparse
import pathlib
import struct
import sys

from tools.oracles import plain_group, plain_term
from tools.oracles.plain_units import FLAG, decoded, octets_of, stuffed

HEADER = struct.pack("<IHHiIII", 0xA1B2C3D4, 2, 4, 0, 0, 65535, 139)
OCTET = 125
LONGEST = 8 * 278


def units(octets):
    """What is found in line octets: which octet ends a unit, and its octets without check octets."""
    line = "".join(f"{octet:08b}"[::-1] for octet in octets)
    flag, since = "".join(map(str, FLAG)), None
    end = line.find(flag)
    while end >= 0:
        between = line[since:end] if since is not None and since < end else ""
        unit = unit_of(list(map(int, between))) if between and len(between) <= 2 * LONGEST else None
        if unit is not None:
            yield (end + 7) // 8, unit
        since, end = end + 8, line.find(flag, end + 7)


def unit_of(line):
    """The unit whose stuffing these line bits are."""
    content, ones = [], 0
    for bit in line:
        if ones == 5:
            ones = 0
            if bit:
                return None
            continue
        content.append(bit)
        ones = ones + 1 if bit else 0
    if len(content) % 8 or len(content) > LONGEST or stuffed(content) != list(line):
        return None
    octets = octets_of(content)
    return octets[:-2] if decoded(octets) else None


def seen(came, went):
    """Each unit that went out or came in: the time, the way (1 went out) and its octets. Of one octet's time the one
    that went out is first."""
    both = [(place, 1, unit) for place, unit in units(went)] + [(place, 0, unit) for place, unit in units(came)]
    return [(OCTET * (place + 1), way, unit) for place, way, unit in sorted(both, key=lambda it: (it[0], -it[1]))]


def kept(all_units):
    """The records that aren't left out, by the documented rule: it looks for the last record of the way, and whether
    one of the other way after it is news."""
    records = []
    for at, way, unit in all_units:
        mine = [place for place, record in enumerate(records) if record[1] == way]
        if len(unit) <= 5 and mine and records[mine[-1]][2] == unit:
            if not any(is_news(records, place) for place in range(mine[-1] + 1, len(records))):
                continue
        records.append((at, way, unit))
    return records


def is_news(records, place):
    """A message, or not like the record before it of its way."""
    _, way, unit = records[place]
    before = [it[2] for it in records[:place] if it[1] == way]
    return len(unit) > 5 or not before or before[-1] != unit


def capture(came, went, every=False, link=0):
    records = seen(came, went)
    packets = [
        (at, struct.pack(">BBH", way, 0, link) + unit) for at, way, unit in (records if every else kept(records))
    ]
    return HEADER + b"".join(struct.pack("<IIII", *divmod(at, 1_000_000), len(it), len(it)) + it for at, it in packets)


# Scripts.


class Line:
    """What is seen of one link as a script runs: the octets that came, each with its place among all that is seen and
    its tick."""

    def __init__(self):
        self.came, self.stamps = bytearray(), []


class Watch:
    """What is seen of all links as a script runs."""

    def __init__(self):
        self.lines, self.went, self.place = {}, [], 0

    def stamp(self, clock):
        self.place += 1
        return self.place, clock

    def hear(self, link, clock, octets):
        line = self.lines.setdefault(link, Line())
        for octet in octets:
            line.came.append(octet)
            line.stamps.append(self.stamp(clock))

    def send(self, link, clock, unit):
        self.went.append((*self.stamp(clock), 1, link, unit))

    def seen(self):
        """Each unit in the order in which it was seen: the tick, the way, the link and its octets."""
        came = [
            (*line.stamps[place], 0, link, unit)
            for link, line in self.lines.items()
            for place, unit in units(bytes(line.came))
        ]
        return [it[1:] for it in sorted(self.went + came, key=lambda it: it[0])]


def octets_of_line(text, message):
    """The octets, without check octets, of a unit that went out, by its printed line and its message."""
    words = text.split(" ")
    bsn, bib, fsn, fib = (int(words[at]) for at in (2, 4, 6, 8))
    head = [bsn + 128 * bib, fsn + 128 * fib]
    if words[0] == "FISU":
        body = b""
    elif words[0] == "LSSU":
        body = bytes([plain_term.STATUSES.index(words[10])])
    else:
        body = bytes(message)
    return bytes([*head, min(len(body), 63)]) + body


def of_links(records, every):
    """The packets that are recorded, each link by its own rule."""
    kept_of = {}
    for place, (clock, way, link, unit) in enumerate(records):
        kept_of.setdefault(link, []).append((place, way, unit))
    chosen = {it[0] for link, mine in kept_of.items() for it in (mine if every else kept(mine))}
    return [it for place, it in enumerate(records) if place in chosen]


def script_capture(text, script, every=False, say=lambda line: None):
    """The capture of a script on a text, and the status."""
    watch = Watch()
    base_in, base_out = plain_term.Terminal.line_in, plain_term.Terminal.unit_out
    links = []

    def link_of(terminal):
        if terminal not in links:
            links.append(terminal)
        return links.index(terminal)

    def line_in(terminal, octets):
        taken = base_in(terminal, octets)
        watch.hear(link_of(terminal), terminal.book.clock, octets[:taken])
        return taken

    def unit_out(terminal):
        sent, step = [], terminal.sender.next_unit

        def next_unit():
            sent.append(step())
            return sent[-1]

        terminal.sender.next_unit, clock = next_unit, terminal.book.clock
        try:
            line = base_out(terminal)
        finally:
            del terminal.sender.next_unit
        if line is not None:
            watch.send(link_of(terminal), clock, octets_of_line(line, sent[-1][2] if sent else None))
        return line

    made = plain_term.Terminal.__init__

    def make(terminal, *given):
        made(terminal, *given)
        link_of(terminal)

    plain_term.Terminal.line_in, plain_term.Terminal.unit_out, plain_term.Terminal.__init__ = line_in, unit_out, make
    try:
        status = plain_group.play_text(text, script, say)
    finally:
        plain_term.Terminal.line_in, plain_term.Terminal.unit_out, plain_term.Terminal.__init__ = (
            base_in,
            base_out,
            made,
        )
    packets = [
        (1000 * clock, struct.pack(">BBH", way, 0, link) + unit)
        for clock, way, link, unit in of_links(watch.seen(), every)
    ]
    return (
        HEADER + b"".join(struct.pack("<IIII", *divmod(at, 1_000_000), len(it), len(it)) + it for at, it in packets),
        status,
    )


def read(octets):
    """The records of a capture: time, way, link and unit."""
    if octets[:24] != HEADER:
        raise ValueError("no such header")
    place, found = 24, []
    while place < len(octets):
        seconds, micros, length, whole = struct.unpack_from("<IIII", octets, place)
        way, annex, link = struct.unpack_from(">BBH", octets, place + 16)
        if length != whole or annex or place + 16 + length > len(octets):
            raise ValueError(f"no record at {place}")
        found.append((seconds * 1_000_000 + micros, way, link, octets[place + 20 : place + 16 + length]))
        place += 16 + length
    return found


def main(words):
    if words[:1] == ["--read"] and len(words) == 2:
        for at, way, link, unit in read(pathlib.Path(words[1]).read_bytes()):
            print(f"{at / 1_000_000:.6f} {'Sent' if way else 'Received'} {link} {unit.hex().upper()}")
        return 0
    if words[:1] == ["--script"] and len(words) in (3, 4):
        found, status = script_capture(
            plain_term.text_of(words[1]).encode(), pathlib.Path(words[2]).read_bytes(), "--every" in words
        )
        sys.stdout.buffer.write(found)
        return status
    given = argparse.ArgumentParser()
    given.add_argument("came"), given.add_argument("went")
    given.add_argument("--ahead", type=int, default=0)
    given.add_argument("--bits", choices=["low", "high"], default="low")
    given.add_argument("--every", action="store_true")
    it = given.parse_args(words)
    turn = (lambda octet: int(f"{octet:08b}"[::-1], 2)) if it.bits == "high" else (lambda octet: octet)
    came, went = (bytes(map(turn, pathlib.Path(path).read_bytes())) for path in (it.came, it.went))
    sys.stdout.buffer.write(capture(came, went[it.ahead :], it.every))
    return 0


if __name__ == "__main__":
    sys.exit(main(sys.argv[1:]))
