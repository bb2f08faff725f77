"""The messages about a refused text: what is wrong at the place, what the word is, and what could be written.
Written apart from the program, by the tree of plain_reader.py and the rules of docs/process-texts.md."""
import re

from tools.oracles.plain_reader import P, Refusal, lex, line_of, meant

OPERANDS = ["NOT", "(", "-", "TRUE", "FALSE", "name", "num"]
STATEMENTS = ["TASK", "OUTPUT", "SET", "RESET", "DECISION", "NEXTSTATE", "STOP", "JOIN"]
OPERATORS = ["=", "/=", "<", "<=", ">", ">=", "+", "-", "*", "/", "MOD", "REM", "AND", "OR", "XOR"]
# What may be expected, in the order in which it is printed.
KINDS = [
    "NOT",
    "(",
    "-",
    "TRUE",
    "FALSE",
    "NOW",
    "name",
    "num",
    "text",
    *STATEMENTS,
    *(it for it in OPERATORS if it != "-"),
    ";",
    ",",
    ":",
    ":=",
    ")",
    "BLOCK",
    "ENDBLOCK",
    "SIGNAL",
    "SIGNALROUTE",
    "FROM",
    "TO",
    "WITH",
    "ENV",
    "CONNECT",
    "SYNONYM",
    "PROCESS",
    "ENDPROCESS",
    "DCL",
    "TIMER",
    "START",
    "STATE",
    "ENDSTATE",
    "INPUT",
    "SAVE",
    "CONNECTION",
    "ENDCONNECTION",
    "SENDER",
    "ELSE",
    "ENDDECISION",
    "INTEGER",
    "BOOLEAN",
]
ENTITIES = {"SIGNAL", "SIGNALROUTE", "CONNECT", "PROCESS"}
CLOSED = {"ENDBLOCK": "BLOCK", "ENDPROCESS": "PROCESS", "ENDSTATE": "STATE", "ENDCONNECTION": "CONNECTION"}
# Of a text with more tokens the head of its block and the last signals, route or process determine what is expected.
WHOLE = 1500
# After more tokens of a process nothing says what is expected.
MOST_TRIED = 4096
SORTS = {"INTEGER": "an Integer", "BOOLEAN": "a Boolean", None: "a value"}


def low(name):
    return name[0].lower()


def joined(names, word):
    """Names, one after another, with a word before the last."""
    return f"{', '.join(names[:-1])} {word} {names[-1]}" if len(names) > 1 else "".join(names)


# ---- P1


def goes_on(row, with_synonyms):
    """Whether a text begins with these tokens that has the word SYNONYM, or one that doesn't."""
    reader = P(b"", row)
    reader.with_synonyms = with_synonyms
    try:
        reader.block()
    except Refusal:
        return reader.i >= len(row)
    return True


def wanted(tokens, index):
    """What may stand at a token, in words."""
    row, with_synonyms = [it[:3] for it in tokens[:index]], P(b"", tokens).with_synonyms
    if len(row) > WHOLE:
        begins = max((at for at, it in enumerate(row) if it[0] in ENTITIES), default=0)
        row = row[: [it[0] for it in row].index(";") + 1] + row[begins:] if begins else row
    kinds = [
        it
        for it in KINDS
        if goes_on(
            [*row, (it, "Some_other_name_0" if it == "name" else 2147483646 if it == "num" else None, 0)], with_synonyms
        )
    ]
    groups = [
        (name, members)
        for name, members in [("an expression", OPERANDS), ("a statement", STATEMENTS), ("an operator", OPERATORS)]
        if set(members) <= set(kinds)
    ]
    in_groups = {it for _, members in groups for it in members}
    number = "a number of 1 or more" if index < len(tokens) and tokens[index][0] == "num" else "a number"
    named = {"name": "a name", "num": number, "text": "a quoted text"}
    said = [name for name, _ in groups] + [named.get(it, f"`{it}`") for it in kinds if it not in in_groups]
    if not {"name", "num"} & set(kinds):
        said += again(tokens, index, row)
    return joined(said or ["the end of the text"], "or")


def again(tokens, index, row):
    """The closing name, or the number of instances once more, where one of them may stand at a token."""
    before = tokens[index - 1][0] if index else None
    if before == "," and index > 1:
        found = index - 2
    elif before in CLOSED and any(it[0] == CLOSED[before] for it in tokens[: index - 1]):
        found = max(at for at, it in enumerate(tokens[: index - 1]) if it[0] == CLOSED[before]) + 1
    else:
        return []
    token = tokens[found]
    return [f"`{token[3]}`"] if goes_on([*row, token[:3]], P(b"", tokens).with_synonyms) else []


def spelled(text, tokens):
    """The tokens, each followed by its own octets."""
    ends = [it[2] for it in tokens[1:]] + [len(text)]
    made = []
    for (kind, value, at), end in zip(tokens, ends):
        if kind == "name" or isinstance(value, str):
            made.append((kind, value, at, value))
        elif kind == "num":
            here = text[at:end]
            made.append((kind, value, at, here[: len(here) - len(here.lstrip(b"0123456789"))].decode()))
        elif kind == "text":
            made.append((kind, value, at, re.match(rb"'(?:[^']|'')*'", text[at:end]).group().decode()))
        else:
            made.append((kind, value, at, kind))
    return made


def unexpected(text, at):
    tokens = spelled(text, lex(text))
    index = next((number for number, it in enumerate(tokens) if it[2] == at), len(tokens))
    # where the text ends too early the place is that of its last token
    if tokens and index == len(tokens) - 1 and goes_on([it[:3] for it in tokens], P(b"", tokens).with_synonyms):
        index = len(tokens)
    begins = max((number + 1 for number, it in enumerate(tokens[:index]) if it[0] == "PROCESS"), default=0)
    if index - begins > MOST_TRIED:
        return "the text ends here" if index == len(tokens) else f"`{tokens[index][3]}` can't stand here", "", ""
    here = wanted(tokens, index)
    if not tokens:
        return "there is no text", f"{here} is expected", ""
    if index == len(tokens):
        return "the text ends here", f"{here} is expected after it", ""
    kind, _, _, own = tokens[index]
    called = {"name": f"the name {own}", "num": "a number", "text": "a quoted text"}.get(
        kind, f"the reserved word {own}" if kind.isalpha() else f"`{own}`"
    )
    return f"{called} can't stand here", f"{here} is expected", ""


# ---- names


class Names:
    """All names that a block declares, in the order of the text: what each is, its process if that has names of its
    own, its spelling and its place."""

    def __init__(self, text, block):
        self.text, self.all, self.processes = text, [], [it[1] for it in block if it[0] == "process"]
        for it in block:
            if it[0] == "signals":
                self.add("SIGNAL", None, [name for name, _ in it[1]])
            elif it[0] == "route":
                self.add("SIGNALROUTE", None, [it[1]])
            elif it[0] == "synonyms":
                self.add("SYNONYM", None, [name for name, _, _ in it[1]])
            else:
                self.add_process(it[1])
        self.all.sort(key=lambda it: it[3])

    def add(self, kind, process, names):
        self.all += [(kind, process, name[0], name[1]) for name in names]

    def add_process(self, process):
        own = process[0][1]
        self.add("PROCESS", None, [process[0]])
        for it in process[1]:
            if it[0] == "synonyms":
                self.add("SYNONYM", own, [name for name, _, _ in it[1]])
            else:
                self.add("variable" if it[0] == "dcl" else "TIMER", own, it[1])
        for names, _ in process[3]:
            self.add("STATE", own, names)
        self.add("CONNECTION", own, [it[1] for it in process[4]])

    def process_at(self, at):
        """The last process whose name begins before a place."""
        before = [it for it in self.processes if it[0][1] <= at]
        return before[-1] if before else None

    def seen(self, at):
        """The names that may be named at a place."""
        process = self.process_at(at)
        return [it for it in self.all if it[1] is None or (process and it[1] == process[0][1])]

    def line(self, at):
        return line_of(self.text, at)


def is_near(one, other):
    """Whether names of three letters or more differ in one letter, or in one more or one less."""
    one, other = sorted([one.lower(), other.lower()], key=len)
    if len(one) < 3 or len(other) - len(one) > 1:
        return False
    front = next((at for at, (a, b) in enumerate(zip(one, other)) if a != b), len(one))
    back = next((at for at, (a, b) in enumerate(zip(one[::-1], other[::-1])) if a != b), len(one))
    return front + back + 1 >= len(other)


def names_in(tree):
    """The names in an expression."""
    if tree[0] == "var":
        return [tree[1]]
    return (
        [name for it in tree[2:4] if isinstance(it, tuple) for name in names_in(it)] if tree[0] in ("un", "bin") else []
    )


def uses(block):
    """Each name that is used, with what it has to be, in any order: (name, place, kinds, what it is called)."""
    made = []

    def of(kind, names):
        kinds = {"SIGNAL or TIMER": {"SIGNAL", "TIMER"}, "variable": {"variable", "SYNONYM"}}.get(kind, {kind})
        made.extend((it[0], it[1], kinds, kind) for it in names if it is not None and it not in ("ENV", "SENDER"))

    def in_tree(tree):
        of("variable", names_in(tree))

    def in_list(part):
        for act in part[0]:
            if act[0] == "task":
                for name, tree in act[1]:
                    of("variable", [name]), in_tree(tree)
            elif act[0] == "output":
                for name, trees in act[1]:
                    of("SIGNAL", [name]), [in_tree(it) for it in trees]
                of("PROCESS", [act[2]])
            elif act[0] == "set":
                in_tree(act[1]), of("TIMER", [act[2]])
            elif act[0] == "reset":
                of("TIMER", [act[1]])
            else:
                in_tree(act[2]), [in_list(it) for it in bodies(act)]
                for ranges, _ in act[3]:
                    of("SYNONYM", [c[2] for r in ranges for c in r if isinstance(c, tuple) and c[0] == "name"])
        if part[1] and part[1][0] == "join":
            of("CONNECTION", [part[1][2]])
        if part[1] and part[1][0] == "next":
            made.append((part[1][2][0], part[1][1], {"STATE"}, "STATE"))

    for it in block:
        if it[0] == "route":
            for one, other, signals in it[2]:
                of("PROCESS", [one, other]), of("SIGNAL", signals)
        if it[0] == "synonyms":
            of("SYNONYM", [name for _, _, tree in it[1] for name in names_in(tree)])
        if it[0] == "process":
            for own in it[1][1]:
                if own[0] == "synonyms":
                    of("SYNONYM", [name for _, _, tree in own[1] for name in names_in(tree)])
                if own[0] == "dcl" and own[3] and own[3][0] == "name":
                    of("SYNONYM", [own[3][2]])
            in_list(it[1][2][1]), [in_list(conn[2]) for conn in it[1][4]]
            for _, clauses in it[1][3]:
                for clause in clauses:
                    if clause[0] == "save":
                        of("SIGNAL or TIMER", clause[1])
                    else:
                        in_list(clause[3])
                        for name, places in clause[2]:
                            of("SIGNAL or TIMER", [name]), of("variable", places)
    return made


def bodies(act):
    return [it for _, it in act[3]] + ([act[4]] if act[4] is not None else [])


def hint(names, at, name, kinds, kind):
    """What could be meant by a name that isn't there as what it has to be."""
    near = [it for it in names.seen(at) if it[0] in kinds and is_near(it[2], name)]
    if near:
        return f"{near[0][2]} is declared in line {names.line(near[0][3])}"
    same = [it for it in names.seen(at) if it[2].lower() == name.lower()]
    if not same:
        return ""
    found, _, shown, place = same[0]
    said = f"{shown} is a {found}, line {names.line(place)}"
    instead = {("CONNECTION", "STATE"): "NEXTSTATE", ("STATE", "CONNECTION"): "JOIN"}.get((kind, found))
    return f"{said}: write {instead} {shown}" if instead else said


def unknown(names, block, at):
    name, _, kinds, kind = next(it for it in uses(block) if it[1] == at and it[3] != "STATE")
    local = kind not in ("SIGNAL", "PROCESS", "SYNONYM")
    said = f"{names.process_at(at)[0][0]} has no {kind} {name}" if local else f"there is no {kind} {name}"
    return said, "", hint(names, at, name, kinds, kind)


def twice(names, at):
    own = [it for it in names.all if it[3] == at]
    if not own:
        return None
    kind, process, name, _ = own[0]
    both = [it for it in ({"SIGNAL", "TIMER"}, {"variable", "SYNONYM"}) if kind in it]
    clash = both[0] if both else {kind}
    other = next(
        it
        for it in names.all
        if it[3] != at
        and it[0] in clash
        and it[2].lower() == name.lower()
        and it[1] in ((process,) if kind in ("variable", "SYNONYM") else (None, process))
    )
    return (
        f"the {kind} {name} has a name that is there already",
        "",
        f"{other[2]} is a {other[0]}, line {names.line(other[3])}",
    )


def passes(act):
    return act[0] != "decide" or any(goes_off(it) for it in bodies(act))


def goes_off(part):
    return part[1] is None and all(passes(it) for it in part[0])


def off_answer(text, part):
    """The place of the answer at which a list of statements runs off its end; None if it does so after its last
    statement."""
    if not part[0] or part[0][-1][0] != "decide":
        return None
    _, begin, _, answers, otherwise = part[0][-1]
    places = [max(at for kind, _, at, *_ in lex(text) if kind == "(" and at < ranges[0][-1]) for ranges, _ in answers]
    for place, body in [*zip(places, [body for _, body in answers]), (None, otherwise)]:
        if body is not None and goes_off(body):
            inner = off_answer(text, body)
            return inner if inner is not None else else_of(text, begin) if place is None else place
    return None


def else_of(text, begin):
    """The place of the ELSE of a DECISION."""
    depth = 0
    for kind, _, at, *_ in lex(text):
        if at >= begin:
            depth += {"DECISION": 1, "ENDDECISION": -1}.get(kind, 0)
            if kind == "ELSE" and depth == 1:
                return at
    return None


def off_at(block, text, at):
    """The place of the answer at which the transition runs off its end that begins at a place, if it does so at one."""
    for process in [it[1] for it in block if it[0] == "process"]:
        for begins, part in Process(block, process).lists():
            if begins[1] == at:
                return off_answer(text, part)
    return None


def stray(names, block, text, at):
    word = next(it for it in lex(text) if it[2] == at)[0]
    if word in ("START", "INPUT", "CONNECTION") and off_at(block, text, at) is not None:
        return (
            "this answer has no end, and nothing follows its DECISION",
            "",
            "write NEXTSTATE, STOP or JOIN in it, or after the DECISION",
        )
    if word in ("START", "INPUT", "CONNECTION"):
        return "this transition has no end", "", "write NEXTSTATE, STOP or JOIN after its last statement"
    if word == "NEXTSTATE":
        name = next(it for it in uses(block) if it[1] == at and it[3] == "STATE")[0]
        if not any(it[0] == "STATE" and it[2].lower() == name.lower() for it in names.seen(at)):
            return f"{names.process_at(at)[0][0]} has no STATE {name}", "", hint(names, at, name, {"STATE"}, "STATE")
    return "nothing comes to this statement", "", "each answer of the DECISION before it has an end of its own"


# ---- sorts, receivers, answers


class Process:
    """A process with what its block has of signals and of ways."""

    def __init__(self, block, process):
        self.process, self.name = process, process[0]
        self.signals = {low(name): sorts for it in block if it[0] == "signals" for name, sorts in it[1]}
        self.sorts = {low(name): it[2] for it in process[1] if it[0] == "dcl" for name in it[1]}
        self.timers = {low(name) for it in process[1] if it[0] == "timer" for name in it[1]}
        self.ways = [
            (one, other, low(name)) for it in block if it[0] == "route" for one, other, names in it[2] for name in names
        ]
        self.connections = {low(it[1]): it for it in process[4]}

    def lists(self):
        """Each list of statements of a transition or a connection, with what begins it."""
        yield ("start", self.process[2][0]), self.process[2][1]
        for _, clauses in self.process[3]:
            for clause in clauses:
                if clause[0] == "input":
                    yield ("input", clause[1], clause[2]), clause[3]
        for conn in self.process[4]:
            yield ("connection", conn[0], conn[1]), conn[2]

    def acts(self):
        """Each statement, with what begins its list."""

        def within(part):
            for act in part[0]:
                yield act
                if act[0] == "decide":
                    for it in bodies(act):
                        yield from within(it)

        for begins, part in self.lists():
            for act in within(part):
                yield begins, act

    def sort(self, tree):
        if tree[0] == "num":
            return "INTEGER"
        if tree[0] == "bool":
            return "BOOLEAN"
        if tree[0] == "var":
            return self.sorts.get(low(tree[1]))
        if tree[0] == "un":
            return "BOOLEAN" if tree[1] == "NOT" else "INTEGER"
        return "INTEGER" if tree[1] in ("+", "-", "*", "/", "MOD", "REM") else "BOOLEAN"

    def same_party(self, one, other):
        return one == other == "ENV" or (one != "ENV" and other != "ENV" and low(one) == low(other))


def first(tree):
    """Where an expression begins."""
    if tree[0] == "bin":
        return tree[4] if len(tree) > 4 else first(tree[2])
    return tree[3] if tree[0] == "un" else tree[2]


def operands(process, tree):
    """Each operand of another sort than its operator requires, the outer ones first: its place and the message about
    it."""
    if tree[0] == "un":
        parts = [("after", tree[2], "BOOLEAN" if tree[1] == "NOT" else "INTEGER")]
    elif tree[0] == "bin":
        both = (
            process.sort(tree[2])
            if tree[1] in ("=", "/=")
            else "BOOLEAN"
            if tree[1] in ("AND", "OR", "XOR")
            else "INTEGER"
        )
        parts = [("left of", tree[2], both), ("right of", tree[3], both)]
    else:
        return
    for side, it, want in parts:
        if process.sort(it) != want:
            denied = "NOT takes only the operand after it: write NOT (..)" if it[0] == "un" and it[1] == "NOT" else ""
            expected = f"{SORTS[want]} is expected {side} `{tree[1]}`"
            yield first(it), expected, f"this is {SORTS[process.sort(it)]}", denied
    for _, it, _ in parts:
        yield from operands(process, it)


def parameters(number):
    return "no parameters" if number == 0 else "1 parameter" if number == 1 else f"{number} parameters"


def wrong_sorts(process):
    """All that has a wrong sort, or a wrong number of parameters."""
    for it in process.process[1]:
        if it[0] == "dcl" and it[3]:
            yield it[3][2], f"{it[1][0][0]} is {SORTS[it[2]]}", f"this is {SORTS[it[3][0]]}", ""
    for begins, _ in process.lists():
        for name, places in begins[2] if begins[0] == "input" else []:
            sorts = process.signals.get(low(name), [])
            yield name[1], f"{name[0]} has {parameters(len(sorts))}", f"{len(places)} given", ""
            for number, (sort, it) in enumerate(zip(sorts, places), 1):
                if it and process.sorts.get(low(it)) != sort:
                    yield it[1], (
                        f"parameter {number} of {name[0]} is " f"{SORTS[sort]}"
                    ), f"this is {SORTS[process.sorts.get(low(it))]}", ""
    for _, act in process.acts():
        yield from of_act(process, act)


class Constants:
    """The sorts of synonyms, in the order in which they are declared."""

    def __init__(self, outer=()):
        self.sorts = dict(outer)

    sort = Process.sort


def wrong_synonyms(block):
    """All synonyms with a wrong sort in their expressions: of the block, then of each process."""

    def of(known, them):
        for name, sort, tree in them:
            found = known.sort(tree)
            if sort and sort != found:
                yield first(tree), f"{name[0]} is {SORTS[sort]}", f"its value is {SORTS[found]}", ""
            yield from operands(known, tree)
            known.sorts[low(name)] = sort or found

    outer = Constants()
    for it in block:
        if it[0] == "synonyms":
            yield from of(outer, it[1])
    for it in block:
        if it[0] == "process":
            known = Constants(outer.sorts)
            for own in it[1][1]:
                if own[0] == "synonyms":
                    yield from of(known, own[1])


def denied_synonyms(block):
    """The names of constants with a sign in front: a Boolean there is wrong."""
    for it in block:
        if it[0] == "process":
            process = Process(block, it[1])
            constants = [own[3] for own in it[1][1] if own[0] == "dcl" and own[3]]
            constants += [
                c
                for _, act in process.acts()
                if act[0] == "decide"
                for ranges, _ in act[3]
                for r in ranges
                for c in r
                if isinstance(c, tuple)
            ]
            for c in constants:
                if c[0] == "name" and c[1]:
                    yield c[2][1], "an Integer is expected after `-`", "this is a Boolean", ""


def of_act(process, act):
    if act[0] == "task":
        for name, tree in act[1]:
            if process.sort(tree) != process.sorts.get(low(name)):
                has, gets = SORTS[process.sorts.get(low(name))], SORTS[process.sort(tree)]
                yield name[1], f"{name[0]} is {has}", f"its value is {gets}", ""
            yield from operands(process, tree)
    elif act[0] == "output":
        for name, trees in act[1]:
            sorts = process.signals.get(low(name), [])
            if len(trees) != len(sorts):
                yield name[1], f"{name[0]} has {parameters(len(sorts))}", f"{len(trees)} given", ""
            for number, tree in enumerate(trees, 1):
                if number <= len(sorts) and process.sort(tree) != sorts[number - 1]:
                    yield first(tree), (
                        f"parameter {number} of {name[0]} is " f"{SORTS[sorts[number - 1]]}"
                    ), f"this is {SORTS[process.sort(tree)]}", ""
                yield from operands(process, tree)
    elif act[0] == "set":
        if process.sort(act[1]) != "INTEGER":
            yield first(act[1]), "a time is an Integer", "this is a Boolean", ""
        yield from operands(process, act[1])
    elif act[0] == "decide":
        yield from operands(process, act[2])
        yield from of_answers(process.sort(act[2]), [it for ranges, _ in act[3] for it in ranges])


def of_answers(sort, ranges):
    for it in ranges:
        if sort == "BOOLEAN":
            here = {"rel": "a relation", "to": "a range"}.get(it[0]) or SORTS[it[1][0]]
            yield it[-1], "an answer to a question of Booleans is TRUE or FALSE", f"this is {here}", ""
        elif any(const[0] == "BOOLEAN" for const in it[1:-1] if isinstance(const, tuple)):
            yield it[-1], "an answer to a question of Integers has only Integers", "here is a Boolean", ""


def comes(process, part, name):
    """Whether a list comes to the connection with a name."""

    def ends(part):
        if part[1] and part[1][0] == "join":
            yield low(part[1][2])
        for act in part[0]:
            if act[0] == "decide":
                for it in bodies(act):
                    yield from ends(it)

    seen, left = set(), list(ends(part))
    while left:
        it = left.pop()
        if it not in seen and it in process.connections:
            seen.add(it)
            left += ends(process.connections[it][2])
    return name in seen


def lost(process, begins, signal):
    """Why a signal TO SENDER of a transition reaches no process."""
    if begins[0] == "start":
        return "START has no sender"
    for name, _ in begins[2]:
        if low(name) in process.timers:
            return f"the timer {name[0]} has no sender"
        for one, other, brought in process.ways:
            if process.same_party(other, process.name) and brought == low(name):
                if not any(
                    process.same_party(a, process.name) and process.same_party(b, one) and c == low(signal)
                    for a, b, c in process.ways
                ):
                    party = one if one == "ENV" else one[0]
                    return (
                        f"no route carries {signal[0]} from {process.name[0]} back to {party}, which may have "
                        f"sent {name[0]}"
                    )
    return None


def nobody(process, text, at):
    begins, act, signal = next(
        (begins, act, name)
        for begins, act in process.acts()
        if act[0] == "output"
        for name, _ in act[1]
        if name[1] == at
    )
    said = f"no route carries {signal[0]} from {process.name[0]}"
    if act[2] is None:
        return said, "", ""
    if act[2] != "SENDER":
        return f"{said} to {act[2][0]}", "", ""
    if begins[0] != "connection":
        return lost(process, begins, signal), "", ""
    for other, part in process.lists():
        if other[0] != "connection" and comes(process, part, low(begins[2])) and lost(process, other, signal):
            return (
                lost(process, other, signal),
                "",
                f"the transition of line {line_of(text, other[1])} comes to CONNECTION {begins[2][0]}",
            )
    return None


def several(process, at):
    signal = next(name for _, act in process.acts() if act[0] == "output" for name, _ in act[1] if name[1] == at)
    parties = []
    for one, other, brought in process.ways:
        if (
            process.same_party(one, process.name)
            and brought == low(signal)
            and not any(process.same_party(other, it) for it in parties)
        ):
            parties.append(other)
    names = [it if it == "ENV" else it[0] for it in parties]
    return (
        f"routes carry {signal[0]} from {process.name[0]} to {joined(names, 'and')}",
        "",
        "write " + joined([f"TO {it[0]}" for it in parties if it != "ENV"], "or"),
    )


def unanswered(process, at):
    act = next(act for _, act in process.acts() if act[0] == "decide" and act[1] == at)
    if process.sort(act[2]) == "INTEGER":
        return "a DECISION of Integers needs an ELSE", "", "write ELSE: before ENDDECISION"
    named = [it[1][1] for ranges, _ in act[3] for it in ranges]
    for word in ("TRUE", "FALSE"):
        if named.count(word) > 1:
            return f"{word} is answered twice", "", ""
    if act[4] is not None:
        return "TRUE and FALSE are answered, and nothing is left for ELSE", "", ""
    lacking = [it for it in ("TRUE", "FALSE") if it not in named]
    if len(lacking) == 2:
        return "TRUE and FALSE aren't answered", "", "write ELSE: before ENDDECISION"
    return f"{lacking[0]} isn't answered", "", f"write ({lacking[0]}): or ELSE: in front of ENDDECISION"


def cycle(process, at):
    conn = max((it for it in process.process[4] if it[0] <= at), key=lambda it: it[0])
    return f"this JOIN leads back to its own CONNECTION {conn[1][0]}", "", ""


def divisor(text, at):
    before = [it for it in lex(text) if it[2] < at][-1]
    return f"a literal or synonym of 1 or more is expected right of `{before[1] or before[0]}`", "", ""


def of_lexis(text, code, at):
    if code == "L1":
        return "nothing begins with this", "", ""
    if code == "L2":
        return "this comment has no end" if text[at : at + 1] == b"/" else "this quoted text has no end", "", ""
    if at >= 262144:
        return "a text has 262144 octets at most", "", ""
    return "a number is 2147483647 at most" if text[at : at + 1].isdigit() else "a name has 32 octets at most", "", ""


def reasons(text, why):
    """The words after the fault, under the word, and in a separate line."""
    code, at = str(why).split()[0], why.at
    if code.startswith("L"):
        return of_lexis(text, code, at)
    if code == "P1":
        return unexpected(text, at)
    if code == "P2":
        what = (
            "the expression of this synonym"
            if any(it[0] == "name" and it[2] == at for it in lex(text))
            else "this statement"
        )
        return f"{what} is more than 32 levels high", "", ""
    if code in ("S10", "S11"):
        return why.said, "", ""
    block = P(text, lex(text)).block()
    names = Names(text, block)
    if code == "S1":
        name = next((it[1] for it in lex(text) if it[2] == at), "")
        return twice(names, at) or (f"{name} is taken or saved already in this state", "", "")
    if code == "S2":
        return unknown(names, block, at)
    if code == "S4":
        return stray(names, block, text, at)
    if code == "S9":
        return divisor(text, at)
    wrong = (
        next((tuple(rest) for place, *rest in [*wrong_synonyms(block), *denied_synonyms(block)] if place == at), None)
        if code == "S3"
        else None
    )
    if wrong:
        return wrong
    block = meant(block)
    found = Names(text, block).process_at(at)
    if found is None:
        return "", "", ""
    process = Process(block, found)
    if code == "S3":
        return next((tuple(rest) for place, *rest in wrong_sorts(process) if place == at), ("", "", ""))
    return {
        "S5": lambda: nobody(process, text, at),
        "S6": lambda: several(process, at),
        "S7": lambda: cycle(process, at),
        "S8": lambda: unanswered(process, at),
    }[code]()
