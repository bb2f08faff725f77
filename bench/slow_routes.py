"""Texts made to be slow: who sends and who gets a signal (S5, S6), DECISIONs and divisors (S8, S9)."""
import hashlib
import random

from slow_texts import MOST, fill, in_start, searched, text


# ---- routes (S5, S6)
def senders(count, back=True):
    """So many processes' paths to P, which sends to the sender."""
    text = "BLOCK B; SIGNAL a, n;\n"
    for number in range(count):
        text += f"SIGNALROUTE r{number} FROM Q{number} TO P WITH a; FROM P TO Q{number} WITH n;\n"
    text += "".join(f"PROCESS Q{number}; START; STOP; ENDPROCESS;\n" for number in range(count))
    return text


@text("S5 TO SENDER with many senders")
def _(size):
    count = size // 164
    body = "PROCESS P; START; NEXTSTATE s; STATE s; INPUT a; "
    return fill(size, senders(count) + body, lambda i: "OUTPUT n TO SENDER;", " NEXTSTATE s; ENDPROCESS; ENDBLOCK;", most=size // 150)


@text("S5 as many statements TO SENDER as fit beside half as many senders")
def _(size):
    body = "PROCESS P; START; NEXTSTATE s; STATE s; INPUT a; "
    return fill(size, senders(size // 328) + body, lambda i: "OUTPUT n TO SENDER;", " NEXTSTATE s; ENDPROCESS; ENDBLOCK;")


@text("S5 a signal TO SENDER in ever other letters, with many senders")
def _(size):
    def spelled(number):
        return "".join("n" if number >> bit & 1 else "N" for bit in range(13))

    head = senders(size // 328).replace("WITH n;", "WITH nnnnnnnnnnnnn;").replace("a, n;", "a, nnnnnnnnnnnnn;")
    return fill(size, head + "PROCESS P; START; NEXTSTATE s; STATE s; INPUT a; OUTPUT ", spelled, " TO SENDER; NEXTSTATE s; ENDPROCESS; ENDBLOCK;", join=",")


@text("S5 many INPUTs of signals that many may have sent")
def _(size):
    count, names = size // 440, ", ".join(f"a{i}" for i in range(20))
    text = f"BLOCK B; SIGNAL n, {names};\n"
    for number in range(count):
        text += f"SIGNALROUTE r{number} FROM Q{number} TO P WITH {names}; FROM P TO Q{number} WITH n;\nPROCESS Q{number}; START; STOP; ENDPROCESS;\n"
    head = text + "PROCESS P; START; NEXTSTATE s0;\n"
    return fill(size, head, lambda i: f"STATE s{i}; INPUT {names}; OUTPUT n TO SENDER; NEXTSTATE s0;\n", "ENDPROCESS; ENDBLOCK;")


@text("S5 many connections that many INPUTs join, of signals that many may have sent")
def _(size):
    senders, inputs, signals = size // 874, size // 524, 20
    names = ", ".join(f"a{i}" for i in range(signals))
    text = f"BLOCK B; SIGNAL n, {names};\n"
    for number in range(senders):
        text += f"SIGNALROUTE r{number} FROM Q{number} TO P WITH {names}; FROM P TO Q{number} WITH n;\nPROCESS Q{number}; START; STOP; ENDPROCESS;\n"
    text += "PROCESS P; START; NEXTSTATE s0;\n" + "".join(f"STATE s{i}; INPUT {names}; JOIN c0;\n" for i in range(inputs))
    count = (size - len(text) - 60) // 48
    return text + "".join(f"CONNECTION c{i}:OUTPUT n TO SENDER;JOIN c{i + 1};\n" for i in range(count)) + f"CONNECTION c{count}:STOP;\nENDPROCESS; ENDBLOCK;"


def joined(head, size, does="OUTPUT n TO SENDER;"):
    """A head, and as many connections as fit after it, each of which does this and joins the next one."""
    count = (size - len(head) - 60) // (29 + len(does))
    return head + "".join(f"CONNECTION c{i}:{does}JOIN c{i + 1};\n" for i in range(count)) + f"CONNECTION c{count}:STOP;\nENDPROCESS; ENDBLOCK;"


@text("S5 many connections after one INPUT, of a signal that many may have sent")
def _(size):
    text = "BLOCK B;SIGNAL a,n;\n"
    for number in range(size // 195):
        text += f"SIGNALROUTE r{number} FROM Q{number} TO P WITH a;FROM P TO Q{number} WITH n;PROCESS Q{number};START;STOP;ENDPROCESS;\n"
    return joined(text + "PROCESS P;START;NEXTSTATE s;STATE s;INPUT a;JOIN c0;\n", size)


@text("S5 many connections after one INPUT, of 80 signals that many may have sent")
def _(size):
    names = ",".join(f"a{i}" for i in range(80))
    text = f"BLOCK B;SIGNAL n,{names};\n"
    for number in range(size // 874):
        text += f"SIGNALROUTE r{number} FROM Q{number} TO P WITH {names};FROM P TO Q{number} WITH n;PROCESS Q{number};START;STOP;ENDPROCESS;\n"
    return joined(text + f"PROCESS P;START;NEXTSTATE s;STATE s;INPUT {names};JOIN c0;\n", size)


@text("S5 many INPUTs of one signal that many may have sent")
def _(size):
    text = "BLOCK B;SIGNAL a,n;\n"
    for number in range(size // 195):
        text += f"SIGNALROUTE r{number} FROM Q{number} TO P WITH a;FROM P TO Q{number} WITH n;PROCESS Q{number};START;STOP;ENDPROCESS;\n"
    return fill(size, text + "PROCESS P;START;NEXTSTATE s0;\n", lambda i: f"STATE s{i};INPUT a;OUTPUT n TO SENDER;STOP;\n", "ENDPROCESS; ENDBLOCK;")


def before_connections(size, names):
    """As many INPUTs of these signals as fit in half of a text, and connections that all of them come to."""
    listed = ",".join(names)
    text = f"BLOCK B;SIGNAL n,{listed};\nSIGNALROUTE r FROM Q TO P WITH {listed};FROM P TO Q WITH n;PROCESS Q;START;STOP;ENDPROCESS;PROCESS P;START;NEXTSTATE s0;\n"
    return joined(fill(size // 2, text, lambda i: f"STATE s{i};INPUT {listed};JOIN c0;", ""), size, "")


@text("S5 many connections that many INPUTs of one signal join")
def _(size):
    return before_connections(size, ["a"])


@text("S5 many connections that many INPUTs of 25 signals join")
def _(size):
    return before_connections(size, "abcdefghijklmopqrstuvwxyz")


def chained(count, does):
    """So many INPUTs, each of another signal, that join the first of as many connections, each of which does this and joins the next one."""
    names = [f"s{i}" for i in range(count)]
    listed = ",".join(names)
    text = f"BLOCK B;SIGNAL {listed};SIGNALROUTE r FROM ENV TO P WITH {listed};FROM P TO ENV WITH s0;PROCESS P;START;STOP;STATE S;\n"
    text += "".join(f"INPUT {name};JOIN c0;\n" for name in names) + "".join(f"CONNECTION c{i}:{does}JOIN c{i + 1};\n" for i in range(count))
    return text + f"CONNECTION c{count}:STOP;ENDPROCESS;ENDBLOCK;"


@text("S5 a chain of connections that as many INPUTs of different signals join")
def _(size):
    return chained(size // 61, "")


@text("S5 a chain of connections that send back, which as many INPUTs of different signals join")
def _(size):
    return chained(size // 81, "OUTPUT s0 TO SENDER;")


@text("S5 many connections that send 20 signals back, after one INPUT of a signal that many may have sent")
def _(size):
    names = ",".join(f"n{i}" for i in range(20))
    text = f"BLOCK B;SIGNAL a,{names};\n"
    for number in range(size // 540):
        text += f"SIGNALROUTE r{number} FROM Q{number} TO P WITH a;FROM P TO Q{number} WITH {names};PROCESS Q{number};START;STOP;ENDPROCESS;\n"
    return joined(text + "PROCESS P;START;NEXTSTATE s;STATE s;INPUT a;JOIN c0;\n", size, f"OUTPUT {names} TO SENDER;")


@text("S5 a connection after one INPUT of 50 signals, each of which as many as fit may have sent")
def _(size):
    names = ",".join(f"{a}{b}" for a in "ghijk" for b in "0123456789")
    text = f"BLOCK B;SIGNAL n,{names};\n"
    for number in range((size - 800) // 254):
        text += f"SIGNALROUTE r{number} FROM Q{number} TO P WITH {names};FROM P TO Q{number} WITH n;PROCESS Q{number};START;STOP;ENDPROCESS;\n"
    return text + f"PROCESS P;START;STOP;STATE s;INPUT {names};JOIN c;CONNECTION c:OUTPUT n TO SENDER;STOP;ENDPROCESS;ENDBLOCK;"


@text("S5 a connection after one INPUT of 26 signals of one letter, each of which as many as fit may have sent")
def _(size):
    letters = "abcdefghijklmnopqrstuvwxyz"
    listed, tails = ",".join(letters), letters + "0123456789_"
    names = [x + y for x in letters for y in tails if x + y not in ("in", "or", "to")]
    names += [x + y + z for x in letters for y in tails for z in tails if x + y + z not in ("and", "dcl", "env", "mod", "not", "rem", "set", "xor")]

    def pair(number):
        x, y = names[2 * number], names[2 * number + 1]
        return f"SIGNALROUTE {x} FROM {x} TO p WITH {listed};FROM {y} TO p WITH {listed};PROCESS {x};START;STOP;ENDPROCESS;PROCESS {y};START;STOP;ENDPROCESS;"

    end = f"PROCESS p;START;STOP;STATE s;INPUT {listed};JOIN k;CONNECTION k:OUTPUT a TO SENDER;STOP;ENDPROCESS;ENDBLOCK;"
    return fill(size, f"BLOCK b;SIGNAL {listed};", pair, end)


@text("S5 a connection after as many INPUTs of 25 signals as fit beside as many senders of others")
def _(size):
    count, listed = size // 220, ",".join("abcdefghijklmopqrstuvwxyz")
    text = f"BLOCK B;SIGNAL n,{listed},{','.join(f's{i}' for i in range(count))};SIGNALROUTE r FROM ENV TO P WITH {listed};FROM P TO ENV WITH n;\n"
    for number in range(count):
        text += f"SIGNALROUTE r{number} FROM Q{number} TO P WITH s{number};FROM P TO Q{number} WITH n;PROCESS Q{number};START;STOP;ENDPROCESS;\n"
    text += f"PROCESS P;START;NEXTSTATE x;STATE x;INPUT {','.join(f's{i}' for i in range(count))};JOIN c;\n"
    return fill(size, text, lambda i: f"STATE x{i};INPUT {listed};JOIN c;", "CONNECTION c:OUTPUT n TO SENDER;STOP;ENDPROCESS;ENDBLOCK;")


@text("S5 many signals TO SENDER, with many senders")
def _(size):
    count = size // 164
    return fill(size, senders(count) + "PROCESS P; START; NEXTSTATE s; STATE s; INPUT a; OUTPUT ", lambda i: "n", " TO SENDER; NEXTSTATE s; ENDPROCESS; ENDBLOCK;", join=",")


@text("S5 TO SENDER in a transition that stands for many states and signals")
def _(size):
    count = size // 350
    names = ", ".join(f"a{i}" for i in range(count))
    text = f"BLOCK B; SIGNAL n, {names};\n" + "".join(f"SIGNALROUTE r{i} FROM Q{i} TO P WITH a{i}; FROM P TO Q{i} WITH n;\nPROCESS Q{i}; START; STOP; ENDPROCESS;\n" for i in range(count))
    text += f"PROCESS P; START; NEXTSTATE s0; STATE {', '.join(f's{i}' for i in range(count))}; INPUT {names}; OUTPUT "
    return fill(size, text, lambda i: "n", " TO SENDER; NEXTSTATE s0; ENDPROCESS; ENDBLOCK;", join=",")


@text("S5 TO SENDER in a connection that many inputs join")
def _(size):
    count = size // 220
    text = "BLOCK B; SIGNAL n, " + ", ".join(f"a{i}" for i in range(count)) + ";\n"
    text += "".join(f"SIGNALROUTE r{i} FROM Q{i} TO P WITH a{i}; FROM P TO Q{i} WITH n;\nPROCESS Q{i}; START; STOP; ENDPROCESS;\n" for i in range(count))
    text += "PROCESS P; START; NEXTSTATE s; STATE s;\n" + "".join(f"INPUT a{i}; JOIN c;\n" for i in range(count))
    return fill(size, text + "CONNECTION c:", lambda i: "OUTPUT n TO SENDER;", " NEXTSTATE s; ENDPROCESS; ENDBLOCK;")


@text("S5 paths, and outputs to the last")
def _(size):
    count = size // 90
    head = "BLOCK B; SIGNAL n, m;\n" + "".join(f"SIGNALROUTE r{i} FROM P TO Q WITH m;\n" for i in range(count)) + "SIGNALROUTE last FROM P TO Q WITH n; PROCESS Q; START; STOP; ENDPROCESS; PROCESS P; START;"
    return fill(size, head, lambda i: "OUTPUT n TO Q;", " STOP; ENDPROCESS; ENDBLOCK;")


@text("S5 a path with a signal many times")
def _(size):
    count = size // 6
    head = f"BLOCK B; SIGNAL n, m;\nSIGNALROUTE r FROM P TO Q WITH {', '.join(['m'] * count)}, n; PROCESS Q; START; STOP; ENDPROCESS; PROCESS P; START;"
    return fill(size, head, lambda i: "OUTPUT n;", " STOP; ENDPROCESS; ENDBLOCK;")


@text("S5 a path from everyone to everyone")
def _(size):
    count = max(2, int((size / 60) ** 0.5))
    text = "BLOCK B; SIGNAL n;\n" + "".join(f"PROCESS P{i}; START; STOP; ENDPROCESS;\n" for i in range(count))
    for one in range(count):
        for other in range(count):
            text += f"SIGNALROUTE r{one}x{other} FROM P{one} TO P{other} WITH n;\n"
    return text + "PROCESS L; START; OUTPUT n; STOP; ENDPROCESS; ENDBLOCK;"


def from_all_to_all(size, collide):
    """Paths between all of some processes, so many signals each as a table puts into one group whose key is a digest of only the declared names; or as many others."""
    processes, signals, bits = int(64 * (size / MOST) ** 0.5), 6000 * size // MOST, (size // 128).bit_length() - 1
    ends = [(one, other) for one in range(processes) for other in range(processes)]
    declared = [f"s{i}" for i in range(signals)] + [f"r{i}" for i in range(len(ends) // 2)] + [f"p{i}" for i in range(processes)]
    key = hashlib.sha256("".join(name + "," for name in declared).encode()).digest()
    words = [key[at : at + 8][::-1].hex() for at in (0, 8)]
    brought = {it: [] for it in ends}
    for line in searched("collide_routes.c", *words, processes, signals, bits, 0):
        one, other, signal = map(int, line.split())
        brought[one, other].append(signal)
    if not collide:
        other_signals = random.Random(1)
        brought = {it: other_signals.sample(range(signals), len(has)) for it, has in brought.items()}
    paths = [f"FROM p{one} TO p{other} WITH {','.join(f's{i}' for i in has or [0])};" for (one, other), has in brought.items()]
    text = f"BLOCK B;SIGNAL {','.join(declared[:signals])};\n"
    text += "".join(f"SIGNALROUTE r{i} {paths[2 * i]}{paths[2 * i + 1]}\n" for i in range(len(paths) // 2))
    return text + "".join(f"PROCESS p{i};START;STOP;ENDPROCESS;\n" for i in range(processes)) + "ENDBLOCK;"


@text("S5 paths that collide by a key of the declared names")
def _(size):
    return from_all_to_all(size, True)


@text("S5 as many paths that don't")
def _(size):
    return from_all_to_all(size, False)


@text("S6 many receivers")
def _(size):
    count = size // 100
    head = "BLOCK B; SIGNAL n;\n" + "".join(f"SIGNALROUTE r{i} FROM P TO Q{i} WITH n; PROCESS Q{i}; START; STOP; ENDPROCESS;\n" for i in range(count)) + "PROCESS P; START;"
    return fill(size, head, lambda i: f"OUTPUT n TO Q{i % count};", " OUTPUT n; STOP; ENDPROCESS; ENDBLOCK;")


# ---- DECISIONs and divisors (S8, S9)
@text("S8 many answers")
def _(size):
    return in_start(size, lambda i: f"({i}):\n", "DECISION x; ", "ENDDECISION;")


@text("S8 many values in an answer")
def _(size):
    return in_start(size, lambda i: f"{i}", "DECISION x; (", "): ENDDECISION;", join=", ")


@text("S8 Booleans named again and again")
def _(size):
    return in_start(size, lambda i: "TRUE", "DECISION b; (", "): ELSE: ENDDECISION;", join=", ")


@text("S9 divisors")
def _(size):
    return in_start(size, lambda i: "x := x / 1 MOD 2 REM 3, ", "TASK ", "x := x / 0;")
