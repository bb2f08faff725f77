"""Compares the program trials_m3ua with tools/oracles/plain_m3ua, on streams of tampered messages in pieces (octets
changed, left out, doubled and put between, lengths that are wrong, messages cut off) and on lives of gateways over such
streams.

usage: tools/oracles/random_m3ua PROGRAM [COUNT [SEED]]     PROGRAM is trials_m3ua as it was built; COUNT streams and
COUNT lives, 2,000 where nothing is said; ends with status 1 if one differs"""
import subprocess
import sys

from tools.oracles import plain_m3ua as plain
from tools.oracles.random_cases import dice


def value(dice, tag):
    """A value for a tag, of a length that it may have in most cases."""
    if dice.random() < 0.1:
        return dice.randbytes(dice.randrange(20))
    if tag == plain.PROTOCOL:
        high = dice.random() < 0.1
        fields = [dice.randrange(1 << 16 if high else 1 << 14).to_bytes(4, "big") for _ in range(2)]
        small = bytes(dice.randrange(top << high) for top in (16, 4, 4, 16))
        return b"".join(fields) + small + dice.randbytes(dice.choice([0, 1, 2, 3, 4, 20, 268, 269]))
    if tag in (plain.CONTEXT, plain.AFFECTED):
        return dice.randbytes(4 * dice.randrange(1, 4))
    return dice.randbytes(4 if plain.sized(tag, 4) and not plain.sized(tag, 5) else dice.randrange(12))


def message(dice):
    """A message with parameters that it should have, and some others."""
    name = dice.choice(list(plain.NUMBERS))
    tags = [tag for tag in plain.MANDATORY.get(name, []) if dice.random() < 0.95]
    tags += [dice.choice(plain.SHOWN + [0x0005, 0x7777]) for _ in range(dice.randrange(3))]
    dice.shuffle(tags)
    body = b"".join(plain.parameter(tag, value(dice, tag)) for tag in tags)
    if dice.random() < 0.2:
        body = body.rstrip(b"\0")
    return plain.encoded(name, body)


def tampered(dice, octets):
    """Octets of which some changed."""
    octets = bytearray(octets)
    for _ in range(dice.choice([0, 0, 1, 1, 2, 5])):
        at = dice.randrange(len(octets))
        kind = dice.randrange(6)
        if kind == 0:
            octets[at] = dice.randrange(256)
        elif kind == 1:
            octets[at] ^= 1 << dice.randrange(8)
        elif kind == 2 and len(octets) > 1:
            del octets[at]
        elif kind == 3:
            octets.insert(at, dice.randrange(256))
        elif kind == 4:
            octets[4:8] = dice.choice([0, 7, 8, 9, len(octets), 4096, 4097, (1 << 32) - 1]).to_bytes(4, "big")
        else:
            octets[4:8] = len(octets).to_bytes(4, "big")
    return bytes(octets)


def stream(dice):
    """The pieces of a stream."""
    octets = b"".join(tampered(dice, message(dice)) for _ in range(dice.randrange(1, 6)))
    cuts = sorted(dice.randrange(len(octets) + 1) for _ in range(dice.choice([0, 1, 3, 10])))
    pieces = [octets[a:b] for a, b in zip([0, *cuts], [*cuts, len(octets)]) if a < b]
    return pieces or [octets]


# what an ASP says in a life, by how often
SAID = ["ASPUP"] * 4 + ["ASPAC"] * 5 + ["DATA"] * 8 + ["ASPIA", "ASPDN", "BEAT", "DAUD", "REG REQ", "SCON", "ERR"]


def said(dice, context):
    """A message of an ASP that mostly does what it should, whose routing context is mostly this one."""
    name = dice.choice(SAID) if dice.random() < 0.9 else dice.choice(list(plain.NUMBERS))
    tags = [tag for tag in plain.MANDATORY.get(name, []) if dice.random() < 0.98]
    tags += [plain.CONTEXT] * (dice.random() < 0.6) + [plain.MODE] * (name == "ASPAC" and dice.random() < 0.4)
    tags += [dice.choice(plain.SHOWN)] * (dice.random() < 0.1)
    body = b""
    tags += [plain.KEY] * (name == "REG REQ" and dice.random() < 0.3)
    for tag in tags:
        if tag == plain.CONTEXT and dice.random() < 0.8:
            several = dice.choices([context, 6, 7], [2, 1, 1], k=dice.randrange(1, 4))
            given = several if dice.random() < 0.2 else [context]
            body += plain.parameter(tag, b"".join(it.to_bytes(4, "big") for it in given))
        elif tag == plain.MODE and dice.random() < 0.8:
            body += plain.number(tag, dice.randrange(1, 4))
        elif tag == plain.KEY and dice.random() < 0.8:
            body += plain.parameter(tag, plain.number(plain.LOCAL, dice.randrange(1 << 32)))
        elif tag == plain.PROTOCOL and dice.random() < 0.7:
            label = bytes([0, 0, 0, 1, 0, 0, 0, 2, dice.choice([2, 3, 5]), dice.randrange(4), dice.randrange(4)])
            body += plain.parameter(tag, label + bytes([dice.randrange(3)]) + dice.randbytes(dice.randrange(9)))
        elif tag == plain.AFFECTED and dice.random() < 0.8:
            mask = dice.choice([0, 0, 0, 1, 2, 24, 255])
            body += plain.parameter(tag, bytes([mask, 0, 0, dice.randrange(6)]) * dice.randrange(1, 4))
        else:
            body += plain.parameter(tag, value(dice, tag))
    octets = plain.encoded(name, body)
    return tampered(dice, octets) if dice.random() < 0.3 else octets


def delivered(dice, context):
    """A message as SCTP delivers it, whose header may leave out some octets of padding."""
    octets = bytearray(said(dice, context))
    if len(octets) >= 8 and dice.random() < 0.8:
        octets[4:8] = max(len(octets) - dice.randrange(5), 0).to_bytes(4, "big")
    return bytes(octets)


def msu(dice):
    """An MTP message that the set delivers, some without a label."""
    return dice.randbytes(dice.choice([1, 3, 4, 5, 6, 9, 30, 273]))


def life(dice):
    """The words of a gateway's life."""
    context = dice.choice([0, 5, 0xFFFFFFF0 % 10**9])
    words = ["gateway", "context", str(context)]
    for code in range(dice.randrange(4)):
        words += ["destination", str(code)]
    if dice.random() < 0.8:
        begun = plain.encoded("ASPUP") + plain.encoded("ASPAC", plain.number(plain.CONTEXT, context))
        words += ["m3ua", begun.hex().upper()]
    for _ in range(dice.randrange(5, 60)):
        chance = dice.random()
        if chance < 0.6:
            octets = b"".join(said(dice, context) for _ in range(dice.choice([1, 1, 1, 2, 3])))
            cut = dice.randrange(1, len(octets)) if dice.random() < 0.1 else len(octets)
            words += [word for piece in (octets[:cut], octets[cut:]) if piece for word in ("m3ua", piece.hex().upper())]
        elif chance < 0.65:
            words += ["sctp", delivered(dice, context).hex().upper()]
        elif chance < 0.75:
            words += ["set", msu(dice).hex().upper()]
        elif chance < 0.9:
            words += [dice.choice(["first", "take", "take", "drop"]), str(dice.randrange(4))]
        elif chance < 0.95:
            words += ["reach", dice.choice(["on", "off"])]
        else:
            words += ["happens", dice.choice(["end", "expire"])]
    return words + ["show", "all"]


def differing(program, lines):
    """How many lines are printed that the oracle prints, and how many of the given lines differ."""
    given = "".join(line + "\n" for line in lines).encode()
    run = subprocess.run([program], input=given, capture_output=True, check=True)
    answers = run.stdout.decode().split("--\n")
    wrong, heard = 0, 0
    for number, line in enumerate(lines):
        wanted = plain.printed(line)
        heard += len(wanted)
        if "".join(f"{it}\n" for it in wanted) != answers[number]:
            wrong += 1
            print(f"{number}: {line}\n{answers[number]}wanted\n" + "\n".join(wanted))
    return heard, wrong


def main(words):
    program, count, seed = words[0], int((words[1:] or [2000])[0]), int((words[2:] or [1])[0])
    streams = [" ".join(it.hex().upper() for it in stream(dice(seed, number))) for number in range(count)]
    lives = [" ".join(life(dice(f"{seed} life", number))) for number in range(count)]
    differ = 0
    for name, lines in (("streams", streams), ("lives", lives)):
        heard, wrong = differing(program, lines)
        differ += wrong
        print(f"{count} {name}, {heard} lines, {wrong} differ")
    return 1 if differ else 0


if __name__ == "__main__":
    sys.exit(main(sys.argv[1:]))
