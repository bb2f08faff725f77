"""Compares `mtp2_play play` with tools/oracles/plain_play.py on random scripts: half of them over the texts of
examples/ and examples/scripts/, half over random texts (those of tools/oracles/random_texts that are accepted), whose
processes have up to 8 instances.

usage: tools/oracles/random_scripts [COUNT [SEED]] [-j JOBS]
           200 scripts if nothing is said; ends with status 1 if one differs
       tools/oracles/random_scripts [COUNT [SEED]] --only N      prints the Nth script and what comes of it

A script that differs is left in out/random_scripts/, with both answers; the random texts are left there too. The
scripts are made of the names of their text and of a few that it lacks. MTP2_PLAY names another program than the built
one."""
import hashlib
import sys

from tools.oracles.plain_check import P, Refusal, check, lex
from tools.oracles.plain_play import play
from tools.oracles.random_cases import hold
from tools.oracles.random_texts import Text
from tools.steps.built import ROOT

VALUES = ["0", "1", "2", "-1", "4", "100", "2147483647", "-2147483648", "true", "false", "4711", "8"]


def names_of(text):
    """The names of the processes, with their variables, and of the signals with their sorts. A process that has several
    instances stands there for each, and for one that there isn't."""
    entities = P(text, lex(text)).block()
    signals = [(name[0], sorts) for it in entities if it[0] == "signals" for name, sorts in it[1]]
    parsed = [it[1] for it in entities if it[0] == "process"]
    called = {
        it[0][0].lower(): [it[0][0], *(f"{it[0][0]}.{k}" for k in range(2, it[5] + 2) if it[5] > 1)] for it in parsed
    }
    processes = [
        (word, [name[0] for d in it[1] if d[0] == "dcl" for name in d[1]])
        for it in parsed
        for word in called[it[0][0].lower()]
    ]
    routes = [
        (word, s[0])
        for it in entities
        if it[0] == "route"
        for a, b, ss in it[2]
        if a == "ENV" and b != "ENV"
        for s in ss
        for word in called[b[0].lower()]
    ]
    return processes, signals, routes


def offer(dice, processes, signals, routes):
    """A process, a signal and values, mostly such as a route brings."""
    sorts = {name.lower(): them for name, them in signals}
    if routes and dice.random() < 0.9:
        process, signal = dice.choice(routes)
    else:
        process, signal = dice.choice(processes)[0], dice.choice([name for name, _ in signals] + ["Nosuch"])
    wanted = sorts.get(signal.lower(), [])
    if dice.random() < 0.95:
        values = [dice.choice(["true", "false"] if it == "BOOLEAN" else VALUES[:8]) for it in wanted]
    else:
        values = [dice.choice(VALUES) for _ in range(dice.randrange(6))]
    return " ".join([process, signal, *values])


def script(dice, names):
    """A random script."""
    processes, signals, routes = names
    lines = []
    for word, most in [("ports", 4), ("env", 6), ("journal", 80)]:
        if dice.random() < 0.3:
            lines.append(f"{word} {dice.randrange(16 if word == 'journal' else 1, most)}")
    if dice.random() < 0.7:
        lines.append("rest")
    for _ in range(dice.randrange(5, 60)):
        process, variables = dice.choice(processes)
        if dice.random() < 0.02:
            process = "Nobody"
        kind = dice.choices(
            ["offer", "begin", "finish", "skip", "tick", "env", "rest", "flood", "state", "value", "expect", "bad"],
            [20, 16, 16, 6, 8, 10, 6, 3, 4, 8, 0.3, 0.1],
        )[0]
        if kind == "offer":
            lines.append(f"offer {offer(dice, *names)}")
        elif kind == "flood":
            lines.append(f"flood {dice.randrange(8)} {offer(dice, *names)}")
        elif kind in ("begin", "finish", "skip", "state"):
            lines.append(f"{kind} {process if dice.random() < 0.9 else process.upper()}")
        elif kind == "tick":
            lines.append(f"tick {dice.choice([0, 1, 2, 5, 100, 250, 500, 1500, 8200, 25000, 65535, 65536])}")
        elif kind == "value":
            lines.append(f"value {process} {dice.choice(variables or ['x'])}")
        elif kind == "expect":
            lines.append(f"expect {dice.choice(['ok', 'rest 0', 'refused B5 Nothing'])}")
        elif kind == "bad":
            lines.append(dice.choice(["go", "offer", "tick -1", "# remark", "", "env 3", "value x"]))
        else:
            lines.append(kind)
    return "\n".join(lines) + dice.choice(["", "\n"])


def texts():
    """The texts that are accepted."""
    for path in [*sorted((ROOT / "examples").glob("*.sdl")), *sorted((ROOT / "examples" / "scripts").glob("*.sdl"))]:
        try:
            check(path.read_bytes())
        except Refusal:
            continue
        yield path, path.read_bytes()


TABLE, ROOM = list(texts()), ROOT / "out" / "random_scripts"


def random_text(dice):
    """A random text that is accepted, in a file of its own."""
    while True:
        text = Text(dice).made()
        try:
            check(text)
        except (Refusal, RecursionError):
            continue
        ROOM.mkdir(parents=True, exist_ok=True)
        path = ROOM / f"{hashlib.sha256(text).hexdigest()[:16]}.sdl"
        path.write_bytes(text)
        return path, text


def case(dice):
    path, text = dice.choice(TABLE) if dice.random() < 0.5 else random_text(dice)
    made, said = script(dice, names_of(text)).encode(), []
    status = play(text, made, said.append)
    return ["play", str(path), "stdin"], made, (said, status), f"on {path.relative_to(ROOT)}"


if __name__ == "__main__":
    sys.exit(hold("random_scripts", case, sys.argv[1:], 200))
