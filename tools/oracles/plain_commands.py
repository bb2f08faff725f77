"""The answers of the plain programs of this folder to command lines of mtp2_play: the lines and the status; None if
they don't know. They were written apart from the program, on whole lists and from the standards."""
import re

from tools.oracles import plain_group, plain_term
from tools.oracles.plain_check import Refusal, check
from tools.oracles.plain_play import LONGEST, BadLine, command, number
from tools.oracles.plain_units import bits_of, check_octets, stuffed

NO_TEXT = ["refused F1 NotText"], 2


def is_text(octets):
    try:
        octets.decode()
    except UnicodeDecodeError:
        return False
    return True


def check_says(text):
    """Of `check`."""
    if not is_text(text):
        return NO_TEXT
    try:
        return check(text), 0
    except Refusal as why:
        return [f"refused {why}"], 2


def play_says(text, script):
    """Of `play` on a text."""
    said = []
    return said, plain_group.play_text(text, script, said.append)


def standard_says(script):
    """Of `play standard`, a script of any kind."""
    if not is_text(script):
        return NO_TEXT
    said = []
    return said, plain_group.play("standard", script, said.append)


def soak_says(script):
    """Of `soak`: the work of the links isn't known here, only that nothing differs."""
    if not is_text(script):
        return NO_TEXT
    if len(script) > LONGEST:
        return [f"refused X1 BadLine line {script[:LONGEST].count(10) + 1}"], 2
    links, steps, at = None, 0, 1
    for at, line in enumerate(script.decode().replace("\r\n", "\n").split("\n"), 1):
        words = [it for it in line.split(" ") if it]
        if not words or words[0].startswith("#"):
            continue
        try:
            if words[0] == "links" and len(words) == 2 and not steps and 1 <= number(words[1]) <= 16:
                links = number(words[1])
                continue
            if links is None or words[0] not in ("on", "offer", "tick") or (words[0] == "on" and len(words) != 2):
                raise BadLine
            number(words[1]) if words[0] == "on" else command(words)
            steps += 1
        except BadLine:
            return [f"refused X1 BadLine line {at}"], 2
    return (["seats agree", "audit yes"], 0) if links else None


def fault_of(octets):
    """Why octets are no unit, if they are none."""
    if len(octets) < 5:
        return "U1 TooShort"
    if len(octets) > 278:
        return "U2 TooLong"
    if check_octets(octets[:-2]) != octets[-2:]:
        return "U3 BadCheck"
    return None if octets[2] & 63 == min(len(octets) - 5, 63) else "U4 BadLength"


def frame_says(word):
    """Of `frame`. A word that begins as an option isn't known here."""
    if not is_text(word):
        return [], 4
    if word.startswith(b"-"):
        return None
    octets = bytes.fromhex(word.decode()) if re.fullmatch(rb"([0-9A-Fa-f]{2})*", word) else None
    why = "H1 NotHex" if octets is None else fault_of(octets)
    if why:
        return [f"refused {why}"], 2
    head = f"bsn {octets[0] & 127} bib {octets[0] >> 7} fsn {octets[1] & 127} fib {octets[1] >> 7}"
    body = octets[3:-2]
    if not body:
        line = f"FISU {head}"
    elif len(body) <= 2:
        line = f"LSSU {head} status {plain_term.STATUSES[body[0] & 7]}"
    else:
        line = f"MSU {head} sio {body[0]:02X} octets {len(body) - 1}"
    return [line, f"bits {len(stuffed(bits_of(octets)))}"], 0
