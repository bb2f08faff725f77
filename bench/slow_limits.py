"""Texts made to be slow: limits (S10) and variables that are read unset (S11)."""
from slow_texts import MOST, fill, process, text


# ---- limits (S10)
def wide(tasks, extra="", states=64, signals=63):
    """A transition that stands for each of so many states and signals."""
    names = ", ".join(f"g{i}" for i in range(signals))
    return (
        f"BLOCK B; SIGNAL n, {names};\nSIGNALROUTE r FROM ENV TO P WITH {names}; FROM P TO ENV WITH n;\n{extra}"
        f"PROCESS P; DCL x, y Integer := 0, b Boolean := TRUE; START; NEXTSTATE s0;\nSTATE {', '.join(f's{i}' for i in range(states))}; INPUT {names};\n{tasks} NEXTSTATE s0;\nENDPROCESS; ENDBLOCK;\n"
    )


def in_wide(size, part, most=10**9):
    before, behind = wide("@@").split("@@")
    return fill(size, before, part, behind, most)


@text("S10 quoted tasks in a transition that stands 4,032 times")
def _(size):
    return in_wide(size, lambda i: "TASK '';")


@text("S10 a list of quoted tasks in a transition that stands 4,032 times")
def _(size):
    before, behind = wide("TASK @@;").split("@@")
    return fill(size, before, lambda i: "''", behind, join=",")


@text("S10 DECISIONs of quoted tasks in a transition that stands 4,032 times")
def _(size):
    return in_wide(size, lambda i: "DECISION b; (TRUE): TASK ''; ELSE: TASK ''; ENDDECISION;" if i < 60 else "TASK '';")


@text("S10 quoted tasks in a connection that 4,032 transitions join")
def _(size):
    names = [f"g{i}" for i in range(63)]
    head = f"BLOCK B; SIGNAL {', '.join(names)};\nSIGNALROUTE r FROM ENV TO P WITH {', '.join(names)};\nPROCESS P; START; NEXTSTATE s0;\n"
    head += f"STATE {', '.join(f's{i}' for i in range(64))}; INPUT {', '.join(names)}; JOIN c;\nCONNECTION c:"
    return fill(size, head, lambda i: "TASK '';", "STOP; ENDPROCESS; ENDBLOCK;")


@text("S10 quoted tasks in a transition that stands 4,032 times, with places and states that differ")
def _(size):
    signals = ", ".join(f"g{i}(Integer)" for i in range(63))
    names = ", ".join(f"g{i}" for i in range(63))
    head = f"BLOCK B; SIGNAL {signals}, d;\nSIGNALROUTE r FROM ENV TO P WITH {names}, d;\nPROCESS P; DCL {', '.join(f'v{i}' for i in range(32))} Integer; START; NEXTSTATE s0;\n"
    for state in range(63):
        sets = "".join(f"TASK v{bit} := 1;" for bit in range(6) if (state + 1) >> bit & 1)
        head += f"STATE s{state}; INPUT d; {sets} NEXTSTATE s{state + 1};\n"
    head += f"STATE {', '.join(f's{i}' for i in range(64))}; INPUT {', '.join(f'g{i}(v{i % 32})' for i in range(63))};\n"
    return fill(size, head, lambda i: "TASK '';", "STOP; ENDPROCESS; ENDBLOCK;")


@text("S10 a chain of connections after a transition that stands 4,032 times, each with an instruction")
def _(size):
    count = 505 * size // MOST
    return wide("JOIN c0; CONNECTION before:").replace("NEXTSTATE s0;\nENDPROCESS", "STOP;\n" + "".join(f"CONNECTION c{i}: JOIN c{i + 1};\n" for i in range(count)) + f"CONNECTION c{count}: STOP;\nENDPROCESS")


@text("S10 connections that no JOIN names, beside a transition that stands 4,032 times")
def _(size):
    before, behind = wide("NEXTSTATE s0; @@ CONNECTION last:").split("@@")
    return fill(size, before, lambda i: f"CONNECTION c{i}:STOP;", behind)


@text("S10 the most code there is")
def _(size):
    return in_wide(size, lambda i: "TASK x := x;", most=255 * size // MOST)


def late(number):
    """A name as long as one may be, which differs from others in its last two letters."""
    return f"{'a' * 30}{number:02d}"


@text("S10 the most code there is, of 32 variables whose names differ late")
def _(size):
    declared = ", ".join(f"{late(i)} Integer := 0" for i in range(32))
    tasks = "".join(f"TASK {late(7 * i % 32)} := {late((11 * i + 5) % 32)};" for i in range(255 * size // MOST))
    return wide(tasks).replace("DCL x, y Integer := 0, b Boolean := TRUE", f"DCL {declared}")


@text("S10 outputs of 64 signals whose names differ late, in answers of a transition that stands 4,032 times")
def _(size):
    takes, sends = ", ".join(f"g{i}" for i in range(63)), [late(i) for i in range(64)]
    routes = "".join(f"SIGNALROUTE q{i} FROM q{i} TO p WITH {takes}, {', '.join(sends)}; PROCESS q{i}; START; STOP; ENDPROCESS;\n" for i in range(13))
    answers = "".join(f"({i}): OUTPUT {', '.join(sends[7 * (32 * i + j) % 64] for j in range(32))};\n" for i in range(14 * size // MOST))
    return (
        f"BLOCK b; SIGNAL {takes}, {', '.join(sends)};\nSIGNALROUTE r FROM ENV TO p WITH {takes}; FROM p TO ENV WITH {', '.join(sends)};\n{routes}"
        f"PROCESS p; DCL x Integer := 0; START; NEXTSTATE s0;\nSTATE {', '.join(f's{i}' for i in range(64))}; INPUT {takes};\n"
        f"DECISION x; {answers} ELSE: ENDDECISION; NEXTSTATE s0;\nENDPROCESS; ENDBLOCK;\n"
    )


@text("S10 comparisons of 32 Booleans whose names differ late, in a transition that stands 4,032 times")
def _(size):
    declared = ", ".join(f"{late(i)} Boolean := TRUE" for i in range(32))
    tasks = "".join(f"TASK {late(7 * i % 32)} := {late((11 * i + 5) % 32)} = {late((13 * i + 3) % 32)};" for i in range(127 * size // MOST))
    return wide(tasks).replace("DCL x, y Integer := 0, b Boolean := TRUE", f"DCL {declared}")


@text("S10 answers that end in 64 states whose names differ late, in a transition that stands 4,032 times")
def _(size):
    answers = "".join(f"({i}): NEXTSTATE {late(7 * i % 64)};" for i in range(250 * size // MOST))
    text = wide(f"DECISION x; {answers} ELSE: ENDDECISION;")
    for number in range(64):
        text = text.replace(f"s{number}, ", f"{late(number)}, ").replace(f"s{number};", f"{late(number)};")
    return text


@text("S10 8 timers whose names differ late, reset in answers of a transition that stands 4,032 times")
def _(size):
    resets = "".join(f"RESET({late(i % 8)});" for i in range(32))
    answers = "".join(f"({i}): {resets}" for i in range(14 * size // MOST))
    return wide(f"DECISION x; {answers} ELSE: ENDDECISION;").replace("b Boolean := TRUE;", f"b Boolean := TRUE; TIMER {', '.join(late(i) for i in range(8))};")


@text("S10 a transition too large that stands 4,032 times")
def _(size):
    return in_wide(size, lambda i: "TASK x := x;")


@text("S10 outputs in a transition that stands 4,032 times")
def _(size):
    return in_wide(size, lambda i: "OUTPUT n;")


@text("S10 states")
def _(size):
    return fill(size, "BLOCK B; SIGNAL a; PROCESS P; START; NEXTSTATE s0; ", lambda i: f"STATE s{i}; INPUT a; NEXTSTATE s0;\n", "ENDPROCESS; ENDBLOCK;")


@text("S10 states with all signals")
def _(size):
    count = size // 30
    signals = ", ".join(f"g{i}" for i in range(count // 2))
    names = ", ".join(f"s{i}" for i in range(count))
    return f"BLOCK B; SIGNAL {signals}; PROCESS P; START; NEXTSTATE s0; STATE {names}; INPUT {signals}; NEXTSTATE s0; ENDPROCESS; ENDBLOCK;"


@text("S10 variables")
def _(size):
    return fill(size, "BLOCK B; PROCESS P; DCL ", lambda i: f"v{i}", " Integer; START; STOP; ENDPROCESS; ENDBLOCK;", join=", ")


@text("S10 timers")
def _(size):
    return fill(size, "BLOCK B; PROCESS P; TIMER ", lambda i: f"t{i}", "; START; STOP; ENDPROCESS; ENDBLOCK;", join=", ")


@text("S10 connections that double what they stand for")
def _(size):
    parts = size // 84
    text = "START; JOIN c0; "
    for number in range(parts):
        text += f"CONNECTION c{number}: DECISION x; (1): JOIN c{number + 1}; ELSE: JOIN c{number + 1}; ENDDECISION;\n"
    return process(text + f"CONNECTION c{parts}: STOP;")


# ---- what is set (S11)
@text("S11 states in a ring, the last one reads")
def _(size):
    text = "START; NEXTSTATE s0; "
    for number in range(64):
        text += f"STATE s{number}; INPUT u; {'TASK y := 1; ' * (size // 64 // 14)} NEXTSTATE s{(number + 1) % 64};\n"
    return process(text + "STATE s63; INPUT i(x); TASK x := z; STOP;", "DCL x, y, z Integer;")


@text("S11 31 variables that are never set, 63 INPUTs that lead from each state to each")
def _(size):
    declared = ", ".join(f"v{i} Integer" for i in range(31))
    answers = "".join(f"({i}): NEXTSTATE s{i};" for i in range(64 * size // MOST))
    names = [f"g{i}" for i in range(63)]
    head = f"BLOCK B; SIGNAL {','.join(names)};\nSIGNALROUTE r FROM ENV TO P WITH {','.join(names)};\nPROCESS P; DCL x Integer := 0, {declared}; START; NEXTSTATE s0;\n"
    inputs = "".join(f"INPUT {name};DECISION x;{answers}ELSE: ENDDECISION;NEXTSTATE s0;\n" for name in names)
    return f"{head}STATE {', '.join(f's{i}' for i in range(64))};{inputs}ENDPROCESS; ENDBLOCK;\n"


@text("S11 DECISIONs that set one variable each")
def _(size):
    declared = "DCL x, y Integer := 0, b Boolean := TRUE, " + ", ".join(f"v{i}" for i in range(29)) + " Integer;"
    before, behind = process("START; @@ TASK x := v28; STOP;", declared).split("@@")
    return fill(size, before, lambda i: f"DECISION b; (TRUE): TASK v{i % 28} := 1; (FALSE): ENDDECISION;\n", behind)


@text("S11 every state to every state")
def _(size):
    declared = "DCL x Integer := 0, " + ", ".join(f"v{i}" for i in range(31)) + " Integer;"
    states = max(2, min(64, size // 4096))
    signals = ", ".join(f"g{i}" for i in range(states))
    text = f"BLOCK B; SIGNAL {signals}; SIGNALROUTE r FROM ENV TO P WITH {signals}; PROCESS P; {declared} START; NEXTSTATE s0;\n"
    for one in range(states):
        text += f"STATE s{one}; "
        for other in range(min(states, 63)):
            text += f"INPUT g{other}; TASK v{(one + other) % 30} := 1; NEXTSTATE s{other};\n"
    return text + "ENDPROCESS; ENDBLOCK;"


@text("S11 connections that set, read and join")
def _(size):
    declared = "DCL x, y Integer := 0, b Boolean := TRUE, z Integer;"
    count = size // 84
    text = "START; JOIN c0; "
    for number in range(count):
        text += f"CONNECTION c{number}: DECISION b; (TRUE): JOIN c{number + 1}; (FALSE): JOIN c{number + 1}; ENDDECISION;\n"
    return process(text + f"CONNECTION c{count}: TASK x := z; STOP;", declared)
