"""Texts made to be slow: words, statements, names, sorts and ways of a text (L1 to L3, F1, P1, P2, S1 to S4, S7)."""
from slow_texts import fill, in_start, process, searched, text


# ---- words (L1, L2, L3, F1)
@text("L1 many short words")
def _(size):
    return fill(size, "BLOCK B;", lambda i: "x ", "%")


@text("L1 spaces")
def _(size):
    return " " * (size - 1) + "%"


@text("L1 remarks")
def _(size):
    return fill(size, "", lambda i: "/**/", "%")


@text("L2 quotes in a quoted text")
def _(size):
    return "'" + "''" * ((size - 1) // 2)


@text("L2 stars")
def _(size):
    return "/*" + "* /" * ((size - 2) // 3)


@text("L3 a number")
def _(size):
    return "9" * size


@text("L3 a name")
def _(size):
    return "n" * size


@text("L3 zeros before a number")
def _(size):
    return in_start(size, lambda i: "0", "TASK x := ", "1;")


@text("L3 too many bytes")
def _(size):
    return "x " * (4 * size)


# ---- statements (P1, P2)
@text("P1 an end that is missing")
def _(size):
    return fill(size, "BLOCK B; PROCESS P; START;", lambda i: "TASK x := x;", "")


@text("P1 DECISIONs that don't end")
def _(size):
    return fill(size, "BLOCK B; PROCESS P; START;", lambda i: "DECISION 1; ELSE: ", "")


@text("P1 parentheses that don't end")
def _(size):
    return fill(size, "BLOCK B; PROCESS P; START; TASK x := ", lambda i: "(", "")


@text("P2 DECISIONs in one another")
def _(size):
    depth = (size - 100) // 31
    return f"BLOCK B; PROCESS P; START; {'DECISION 1; ELSE: ' * depth}{'ENDDECISION; ' * depth}STOP; ENDPROCESS; ENDBLOCK;\n"


@text("P2 a sum")
def _(size):
    return in_start(size, lambda i: "1+", "TASK x := ", "1;")


@text("P2 signs in parentheses")
def _(size):
    depth = (size - 300) // 4
    return process(f"START; TASK x := {'-(' * depth}1{')' * depth}; STOP;")


@text("P2 right sides of each level")
def _(size):
    return in_start(size, lambda i: "b AND x = 1 OR b XOR x < x * 2 AND ", "TASK b := ", "b;")


# ---- names (S1, S2)
@text("S1 signals, the last one twice")
def _(size):
    return fill(size, "BLOCK B; SIGNAL ", lambda i: f"s{i}", ", s0; PROCESS P; START; STOP; ENDPROCESS; ENDBLOCK;", join=", ")


@text("S1 processes")
def _(size):
    return fill(size, "BLOCK B; ", lambda i: f"PROCESS p{i}; START; STOP; ENDPROCESS;\n", "PROCESS p0; START; STOP; ENDPROCESS; ENDBLOCK;")


@text("S1 states in one part")
def _(size):
    return fill(size, "BLOCK B; PROCESS P; START; NEXTSTATE s0; STATE ", lambda i: f"s{i}", ", s0; ENDPROCESS; ENDBLOCK;", join=", ")


@text("S1 states in one part or two by turns")
def _(size):
    count = size // 40
    names = ", ".join(f"s{i}" for i in range(count))
    text = f"BLOCK B; SIGNAL a, c; PROCESS P; START; NEXTSTATE s0; STATE {names}; INPUT a; NEXTSTATE s0;\n"
    for number in range(0, count, 2):
        part = f"STATE s{number}; INPUT c; NEXTSTATE s0;\n"
        if len(text) + len(part) > size - 60:
            break
        text += part
    return text + "ENDPROCESS; ENDBLOCK;"


@text("S1 inputs of states in many parts")
def _(size):
    return fill(size, "BLOCK B; SIGNAL a, c; PROCESS P; START; NEXTSTATE s; ", lambda i: "STATE s; SAVE c;\n", "STATE s; INPUT a, a; NEXTSTATE s; ENDPROCESS; ENDBLOCK;")


@text("S1 a saved signal in each of many states")
def _(size):
    states = ", ".join(f"s{i}" for i in range(size // 14))
    signals = ", ".join(f"g{i}" for i in range(size // 40))
    return f"BLOCK B; SIGNAL {signals}; PROCESS P; START; NEXTSTATE s0; STATE {states}; SAVE {signals}; ENDPROCESS; ENDBLOCK;"


@text("S1 names that differ late")
def _(size):
    return fill(size, "BLOCK B; SIGNAL ", lambda i: f"{'a' * 27}{i:05d}", ", s, s; PROCESS P; START; STOP; ENDPROCESS; ENDBLOCK;", join=", ")


def colliding(count):
    """So many names that a table by the kit's own hash, whose seed is fixed, puts into one group, with half of a group's key of each name the same. (With the whole key the same a look-up
    compares sixteen times as many names; to find those takes a minute: collide 14500 11 8.)"""
    return searched("collide.c", count, 11, 4)


def named(names):
    return f"BLOCK B; SIGNAL {','.join(names + ['s', 's'])}; PROCESS P; START; STOP; ENDPROCESS; ENDBLOCK;"


@text("S1 signals whose names collide by a fixed hash")
def _(size):
    return named(colliding(size // 18))


@text("S1 as many signals whose names don't")
def _(size):
    return named([f"s{i:06d}" for i in range(size // 18)])


@text("S2 states far away")
def _(size):
    count = size // 42
    text = "BLOCK B; SIGNAL a; PROCESS P; START; NEXTSTATE s0;\n"
    for number in range(count):
        text += f"STATE s{number}; INPUT a; NEXTSTATE s{count - 1 - number};\n"
    return (text + "STATE last; INPUT a; NEXTSTATE nowhere; ENDPROCESS; ENDBLOCK;")


@text("S2 connections that are joined in turn")
def _(size):
    return fill(size, "BLOCK B; PROCESS P; START; JOIN c0; ", lambda i: f"CONNECTION c{i}: JOIN c{i + 1};\n", "ENDPROCESS; ENDBLOCK;")


@text("S2 routes with a signal that isn't there")
def _(size):
    return fill(size, "BLOCK B; SIGNAL n; PROCESS P; START; STOP; ENDPROCESS;", lambda i: f"SIGNALROUTE r{i} FROM P TO ENV WITH n;\n", "SIGNALROUTE last FROM P TO ENV WITH m; ENDBLOCK;")


@text("S2 variables of many processes")
def _(size):
    return fill(size, "BLOCK B; ", lambda i: f"PROCESS p{i}; DCL v{i} Integer := 0; START; TASK v{i} := v{i}; STOP; ENDPROCESS;\n", "PROCESS q; START; TASK v0 := 1; STOP; ENDPROCESS; ENDBLOCK;")


# ---- sorts and parameters (S3)
@text("S3 a signal with many parameters")
def _(size):
    count = size // 12
    sorts = ", ".join(["Integer"] * count)
    values = ", ".join(["x"] * (count - 1))
    return f"BLOCK B; SIGNAL n({sorts}); SIGNALROUTE r FROM P TO ENV WITH n; PROCESS P; DCL x Integer := 0; START; OUTPUT n({values}); STOP; ENDPROCESS; ENDBLOCK;"


@text("S3 a wrong sort at the end")
def _(size):
    return in_start(size, lambda i: "x := (x + (x * (x - 1))), ", "TASK ", "x := b;")


@text("S3 many answers of another sort")
def _(size):
    return in_start(size, lambda i: f"({i}), ".replace("(", "").replace("), ", ", "), "DECISION b; (", "1): ELSE: ENDDECISION;")


# ---- ways through the text (S4, S7)
@text("S4 DECISIONs one after another")
def _(size):
    return in_start(size, lambda i: "DECISION x; (1): ELSE: ENDDECISION;\n")


@text("S4 statements that nothing comes to")
def _(size):
    return in_start(size, lambda i: "TASK x := x;", "DECISION b; (TRUE): STOP; (FALSE): STOP; ENDDECISION; ")


@text("S7 connections, two JOINs each")
def _(size):
    count = max(2, size // 90)
    text = "START; JOIN c0; "
    for number in range(count):
        text += f"CONNECTION c{number}: DECISION b; (TRUE): JOIN c{min(number + 1, count)}; (FALSE): JOIN c{min(number + 2, count)}; ENDDECISION;\n"
    return process(text + f"CONNECTION c{count}: JOIN c0;")


@text("S7 a ring of JOINs")
def _(size):
    count = size // 32
    text = "START; JOIN c0; "
    for number in range(count):
        text += f"CONNECTION c{number}: JOIN c{(number + 1) % count};\n"
    return process(text)


@text("S7 connections that all join one another's next in reverse")
def _(size):
    count = size // 32
    text = "START; JOIN c1; "
    for number in range(count, 0, -1):
        text += f"CONNECTION c{number}: JOIN c{number % count + 1};\n"
    return process(text)


@text("S7 many JOINs to each of many connections")
def _(size):
    count = max(2, int((size / 26) ** 0.5))
    text = "START; JOIN c0; "
    for number in range(count):
        later = "".join(f"({k}): JOIN c{k}; " for k in range(number + 1, count))
        text += f"CONNECTION c{number}: DECISION x; {later}ELSE: STOP; ENDDECISION;\n"
    return process(text + "")
