"""The lines that point at the refusal of a text, by the place that the plain checker names and the reasons of
plain_reasons.py."""
import re

from tools.oracles.plain_check import Refusal, check
from tools.oracles.plain_reader import P, lex, line_of
from tools.oracles.plain_reasons import off_at, reasons

LONGEST = 262144
# A token from its first octet on.
TOKEN = re.compile(rb"[A-Za-z][A-Za-z0-9_]*|[0-9]+|:=|/=|<=|>=|'(?:[^']|'')*'|.", re.S)
CONTROL = re.compile("[\x00-\x08\x0a-\x1f\x7f]")


def refusal(text):
    """Why a text is refused; none where it isn't."""
    try:
        check(text)
    except Refusal as why:
        return why
    return None


def ends(text, at):
    """Where the token ends that begins at a place."""
    return TOKEN.match(text + b" ", at).end()


def behind(sign, said):
    return f"{sign}{said}" if said else ""


def found_at(text, why):
    """Where a refusal is found: at its place, or at the answer at which a transition runs off its end."""
    off = off_at(P(text, lex(text)).block(), text, why.at) if str(why).startswith("S4") else None
    return why.at if off is None else off


def shown(name, text, place, fault, said, under="", hint="", last=None, most=LONGEST):
    """The lines that point at a word of a text with this name; only the first of them if the text is too long, or the
    word's line has more than `most` octets. The word ends at `last`, or where its token does."""
    line = str(line_of(text, place))
    begin = text.rfind(b"\n", 0, place) + 1
    before = text[begin:place].decode(errors="replace")
    head = f"{name}:{line}:{len(before) + 1}: {fault}{behind(': ', said)}"
    end = (text + b"\n").find(b"\n", place)
    if len(text) > LONGEST or end - begin > most:
        return [head]
    last = ends(text, place) if last is None else last
    width = max(1, len(text[place : min(last, end)].decode(errors="ignore")))
    margin = " " * len(line)
    blanks = "".join(it if it == "\t" else " " for it in before)
    lines = [
        head,
        f"{line} | {CONTROL.sub(' ', text[begin:end].decode())}",
        f"{margin} | {blanks}{'^' * width}{behind(' ', under)}",
    ]
    return lines + ([f"{margin} = {hint}"] if hint else [])


def points(name, text):
    """The lines that point at the refusal of a text with this name."""
    try:
        text.decode()
    except UnicodeDecodeError:
        return [f"{name}: F1 NotText"]
    why = refusal(text)
    fault, _, _ = str(why).partition(" line ")
    place = found_at(text, why)
    said, under, hint = reasons(text, why)
    last = place + 1 if fault.startswith("L") or not text else None
    return shown(name, text, place, fault, said, under, hint, last)


def differs(name, text, said):
    """What is wrong with the lines on standard error that point at the refusal of a text, if something is."""
    lines, wanted = said.decode().split("\n"), points(name, text)
    if lines.pop() != "":
        return "the last line has no end"
    wrong = [(line, other) for line, other in zip(lines, wanted) if line != other]
    if wrong:
        return f"{wrong[0][0]!r} and not {wrong[0][1]!r}"
    return None if len(lines) == len(wanted) else f"{len(lines)} lines and not {len(wanted)}: {lines} and not {wanted}"
