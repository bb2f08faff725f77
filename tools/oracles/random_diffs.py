"""Compares `mtp2_play diff` with tools/oracles/plain_diff.py on random pairs of process texts: a text of examples/ or
one made by the grammar, and a copy with few changes: a token replaced, statements or whole parts moved, connections
renamed, something declared in front of the others or left out.

usage: tools/oracles/random_diffs [COUNT [SEED]] [-j JOBS]
           300 pairs if nothing is said; ends with status 1 if one differs
       tools/oracles/random_diffs [COUNT [SEED]] --only N      makes the Nth pair and says what comes of it

The first text of each pair is left in out/random_diffs/; of a pair that differs the second one too, with both answers.
MTP2_PLAY names another program than the built one."""
import re
import sys
import zlib

from tools.oracles import random_texts as texts
from tools.oracles.plain_check import Refusal, check
from tools.oracles.plain_diff import compare
from tools.oracles.random_cases import hold
from tools.steps.built import ROOT

ALIKE = [
    [b"+", b"-", b"*"],
    [b"AND", b"OR", b"XOR"],
    [b"=", b"/=", b"<", b"<=", b">", b">="],
    [b"TRUE", b"FALSE"],
    [b"/", b"MOD", b"REM"],
]
ROOM = ROOT / "out" / "random_diffs"


def is_accepted(text):
    try:
        check(text)
    except (Refusal, RecursionError, UnicodeDecodeError):
        return False
    return True


def replaced(dice, text):
    """Another token of its kind in place of one."""
    parts = texts.tokens(text)
    at = dice.randrange(len(parts))
    kind, own = parts[at]
    word = own.split()[0] if own.split() else own
    group = next((it for it in ALIKE if word.upper() in it), None)
    if group:
        parts[at] = (kind, dice.choice(group) + b" ")
    elif kind == "num":
        parts[at] = (kind, b"%d " % dice.choice([0, 1, 2, 3, 5, 100]))
    elif kind == "name":
        parts[at] = dice.choice([it for it in parts if it[0] == kind])
    return b"".join(it for _, it in parts)


def moved(dice, text):
    """Two statements that stand side by side, the other way round."""
    parts = text.split(b";")
    if len(parts) < 2:
        return text
    at = dice.randrange(len(parts) - 1)
    parts[at], parts[at + 1] = parts[at + 1], parts[at]
    return b";".join(parts)


def renamed(dice, text):
    """A connection under another name, at all places."""
    names = re.findall(rb"(?i)\bCONNECTION\s+(\w+)", text)
    if not names:
        return text
    return re.sub(rb"(?i)\b(JOIN|CONNECTION|ENDCONNECTION)(\s+)" + dice.choice(names) + rb"\b", rb"\1\2Renamed", text)


def declared(dice, text):
    """Something in front of what is declared, so that numbers move."""
    word, more = dice.choice(
        [
            (rb"\bDCL\b", rb"DCL zz Integer := 7,"),
            (rb"\bSIGNAL\b", rb"SIGNAL Zz,"),
            (rb"\bTIMER\b", rb"TIMER Zt,"),
            (rb"\bSTATE\b", rb"STATE Zs; ENDSTATE; STATE"),
        ]
    )
    return re.sub(rb"(?i)" + word, more, text, count=1)


def respelled(dice, text):
    return text.lower() if dice.random() < 0.5 else text.upper()


def put_elsewhere(dice, text):
    """Two processes or two states, the other way round."""
    parts = re.split(rb"(?i)(?<=;)\s*(?=\b(?:PROCESS|STATE|CONNECTION)\b)", text)
    if len(parts) < 3:
        return text
    one, other = dice.sample(range(1, len(parts)), 2)
    parts[one], parts[other] = parts[other], parts[one]
    return b" ".join(parts)


def left_out(dice, text):
    parts = text.split(b";")
    del parts[dice.randrange(len(parts))]
    return b";".join(parts)


CHANGES = [replaced] * 9 + [moved] * 3 + [renamed] * 2 + [declared] * 2 + [put_elsewhere, left_out, respelled]


def changed(dice, text):
    """The text with a few changes, accepted in all but few cases."""
    for _ in range(60):
        made = text
        for _ in range(dice.choice([0, 1, 1, 1, 2, 2, 3])):
            made = dice.choice(CHANGES)(dice, made)
        # what makes no difference is kept one time in ten
        if compare(text, made)[1] == 1 or dice.random() < (0.1 if is_accepted(made) else 0.002):
            return made
    return text


SEEN = [it for it in texts.BASES[0] + texts.BASES[1] if is_accepted(it)]


def base(dice):
    for _ in range(200):
        if dice.random() < 0.25:
            return dice.choice(SEEN)
        text = texts.Text(dice).made()
        if is_accepted(text):
            return text
    return dice.choice(SEEN)


def case(dice):
    old = base(dice)
    new = changed(dice, old)
    if dice.random() < 0.3:
        old, new = new, old
    ROOM.mkdir(parents=True, exist_ok=True)
    path = ROOM / f"{zlib.crc32(old):08x}.sdl"
    path.write_bytes(old)
    lines, status = compare(old, new)
    return ["diff", str(path), "stdin"], new, (lines, status), f"{len(lines)} lines, {lines[-1]}"


if __name__ == "__main__":
    sys.exit(hold("random_diffs", case, sys.argv[1:], 300))
