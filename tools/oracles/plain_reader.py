"""Tokens and trees of process texts, read plainly and apart from the program: what plain_check.py judges."""
import sys

sys.setrecursionlimit(100000)
RES = set(
    """BLOCK ENDBLOCK SIGNAL SIGNALROUTE FROM TO WITH ENV CONNECT PROCESS ENDPROCESS DCL TIMER START STATE ENDSTATE
    INPUT SAVE CONNECTION ENDCONNECTION TASK OUTPUT SENDER SET RESET NOW DECISION ELSE ENDDECISION NEXTSTATE STOP JOIN
    COMMENT NOT AND OR XOR MOD REM INTEGER BOOLEAN TRUE FALSE PROCEDURE ENDPROCEDURE CALL FPAR IN RETURN
    SYNONYM""".split()
)


class Refusal(Exception):
    """The line of a refusal without its first word, and the place of what is refused, if it has one; of S10 and S11 the
    message about it."""

    at, said = None, ""


def refusal(name, b, at):
    why = Refusal("%s line %d" % (name, line_of(b, at)))
    why.at = at
    return why


def line_of(b, at):
    return b[:at].count(b"\n") + 1


def lo(name):
    return name[0].lower()


def first(it):
    return (it[4] if len(it) > 4 else first(it[2])) if it[0] == "bin" else it[3] if it[0] == "un" else it[2]


def bodies(action):
    return [it for _, it in action[3]] + ([action[4]] if action[4] is not None else [])


def isalpha(c):
    return 65 <= c <= 90 or 97 <= c <= 122


def isdig(c):
    return 48 <= c <= 57


def quoted_end(b, i):
    """Where a text that begins at a quote ends."""
    j = i + 1
    while True:
        j = b.find(b"'", j)
        if j < 0:
            raise refusal("L2 OpenComment", b, i)
        if b[j + 1 : j + 2] != b"'":
            return j + 1
        j += 2


def word_end(b, i, is_inside):
    """Where the octets from one on end of which this holds."""
    while i < len(b) and is_inside(b[i]):
        i += 1
    return i


def name_at(b, i):
    """The reserved word or the name that begins at an octet, and where it ends."""
    j = word_end(b, i, lambda it: isalpha(it) or isdig(it) or it == 95)
    s = b[i:j].decode()
    if s.upper() in RES:
        return (s.upper(), s, i), j
    if len(s) > 32:
        raise refusal("L3 TooLong", b, i)
    return ("name", s, i), j


def number_at(b, i):
    j = word_end(b, i, isdig)
    if int(b[i:j]) > 2147483647:
        raise refusal("L3 TooLong", b, i)
    return ("num", int(b[i:j]), i), j


def token_at(b, i):
    """The token that begins at an octet, and where it ends; no token, where it is no more than space or a comment."""
    c, two = b[i], b[i : i + 2].decode("latin1")
    if c in b" \t\r\n":
        return None, i + 1
    if two == "/*":
        j = b.find(b"*/", i + 2)
        if j < 0:
            raise refusal("L2 OpenComment", b, i)
        return None, j + 2
    if c == 39:
        return ("text", None, i), quoted_end(b, i)
    if isalpha(c) or isdig(c):
        return name_at(b, i) if isalpha(c) else number_at(b, i)
    if two in (":=", "/=", "<=", ">="):
        return (two, None, i), i + 2
    if chr(c) in ";,:()+-*/=<>":
        return (chr(c), None, i), i + 1
    raise refusal("L1 BadCharacter", b, i)


def lex(b):
    """The tokens of a text: kind, word or number, place."""
    if len(b) > 262144:
        raise refusal("L3 TooLong", b, 262144)
    out, i = [], 0
    while i < len(b):
        token, i = token_at(b, i)
        if token:
            out.append(token)
    return out


def height(x):
    if x[0] == "bin":
        return 1 + max(height(x[2]), height(x[3]))
    if x[0] == "un":
        return 1 + height(x[2])
    return 1


class P:
    def __init__(s, b, toks):
        s.b = b
        s.t = toks
        s.i = 0
        s.high = None
        s.inner = [0]
        s.opened = {}
        # whether a name may stand for a constant
        s.with_synonyms = any(it[0] == "SYNONYM" for it in toks)

    def k(s):
        return s.t[s.i][0] if s.i < len(s.t) else "end"

    def at(s):
        return s.t[s.i][2] if s.i < len(s.t) else None

    def fail(s):
        if s.i < len(s.t):
            raise refusal("P1 Unexpected", s.b, s.t[s.i][2])
        raise refusal("P1 Unexpected", s.b, s.t[-1][2] if s.t else 0)

    def take(s, k):
        if s.k() != k:
            s.fail()
        s.i += 1
        return s.t[s.i - 1]

    def opt(s, k):
        if s.k() == k:
            s.i += 1
            return True
        return False

    def name(s):
        t = s.take("name")
        return (t[1], t[2])

    def names(s):
        r = [s.name()]
        while s.opt(","):
            r.append(s.name())
        return r

    def end(s):
        if s.opt("COMMENT"):
            s.take("text")
        s.take(";")

    def closing(s, n):
        if s.k() == "name":
            if s.t[s.i][1].lower() != n[0].lower():
                s.fail()
            s.i += 1

    def sort(s):
        if s.k() in ("INTEGER", "BOOLEAN"):
            s.i += 1
            return s.t[s.i - 1][0]
        s.fail()

    def block(s):
        s.take("BLOCK")
        n = s.name()
        s.end()
        ents = []
        while True:
            k = s.k()
            if k == "SIGNAL":
                s.i += 1
                sigs = [s.sig()]
                while s.opt(","):
                    sigs.append(s.sig())
                s.end()
                ents.append(("signals", sigs))
            elif k == "SIGNALROUTE":
                s.i += 1
                r = s.name()
                paths = [s.path()]
                if s.k() == "FROM":
                    paths.append(s.path())
                ents.append(("route", r, paths))
            elif k == "CONNECT":
                s.i += 1
                s.names()
                s.take("AND")
                s.names()
                s.end()
            elif k == "SYNONYM":
                ents.append(("synonyms", s.synonyms()))
            elif k == "PROCESS":
                ents.append(("process", s.process()))
            else:
                break
        s.take("ENDBLOCK")
        s.closing(n)
        s.end()
        if s.i < len(s.t):
            s.fail()
        return ents

    def synonyms(s):
        # name, sort if it is written, expression
        s.take("SYNONYM")
        found = []
        while True:
            n = s.name()
            so = s.sort() if s.k() in ("INTEGER", "BOOLEAN") else None
            s.take("=")
            x = s.expr()
            if s.high is None and height(x) > 32:
                s.high = n[1]
            found.append((n, so, x))
            if not s.opt(","):
                break
        s.end()
        return found

    def sig(s):
        n = s.name()
        sorts = []
        if s.opt("("):
            sorts.append(s.sort())
            while s.opt(","):
                sorts.append(s.sort())
            s.take(")")
        return (n, sorts)

    def place(s):
        if s.opt("ENV"):
            return "ENV"
        return s.name()

    def path(s):
        s.take("FROM")
        a = s.place()
        s.take("TO")
        b = s.place()
        s.take("WITH")
        w = s.names()
        s.end()
        return (a, b, w)

    def count(s):
        # how many instances a process has: 1 if nothing is said
        if not s.opt("("):
            return 1
        if s.k() != "num" or s.t[s.i][1] == 0:
            s.fail()
        n = s.take("num")[1]
        if s.opt(",") and s.k() == "num":
            if s.t[s.i][1] != n:
                s.fail()
            s.i += 1
        s.take(")")
        return n

    def process(s):
        s.take("PROCESS")
        n = s.name()
        count = s.count()
        s.end()
        decls = s.declarations()
        at = s.take("START")[2]
        s.end()
        start = (at, s.trans())
        states = []
        conns = []
        while s.k() in ("STATE", "CONNECTION"):
            if s.k() == "CONNECTION":
                conns.append(s.connection())
            else:
                states.append(s.state())
        s.take("ENDPROCESS")
        s.closing(n)
        s.end()
        return (n, decls, start, states, conns, count)

    def declarations(s):
        decls = []
        while s.k() in ("DCL", "TIMER", "SYNONYM"):
            if s.k() == "SYNONYM":
                decls.append(("synonyms", s.synonyms()))
                continue
            if s.opt("DCL"):
                while True:
                    ns = s.names()
                    so = s.sort()
                    decls.append(("dcl", ns, so, s.const() if s.opt(":=") else None))
                    if not s.opt(","):
                        break
            else:
                s.i += 1
                decls.append(("timer", s.names()))
            s.end()
        return decls

    def connection(s):
        at = s.take("CONNECTION")[2]
        c = s.name()
        s.take(":")
        tr = s.trans()
        if s.opt("ENDCONNECTION"):
            s.closing(c)
            s.end()
        return (at, c, tr)

    def state(s):
        s.i += 1
        ns = s.names()
        s.end()
        cl = []
        while s.k() in ("INPUT", "SAVE"):
            if s.k() == "INPUT":
                at = s.take("INPUT")[2]
                st = [s.stim()]
                while s.opt(","):
                    st.append(s.stim())
                s.end()
                cl.append(("input", at, st, s.trans()))
            else:
                s.i += 1
                cl.append(("save", s.names()))
                s.end()
        if s.opt("ENDSTATE"):
            s.closing(ns[0])
            s.end()
        return (ns, cl)

    def synonym(s):
        return s.k() == "name" and s.with_synonyms

    def const(s):
        at = s.at()
        if s.opt("-"):
            return ("name", True, s.name(), at) if s.synonym() else ("INTEGER", -s.take("num")[1], at)
        if s.synonym():
            return ("name", False, s.name(), at)
        if s.k() == "num":
            return ("INTEGER", s.take("num")[1], at)
        if s.k() in ("TRUE", "FALSE"):
            s.i += 1
            return ("BOOLEAN", s.t[s.i - 1][0], at)
        s.fail()

    def stim(s):
        n = s.name()
        pl = []
        if s.opt("("):
            pl.append(s.name() if s.k() == "name" else None)
            while s.opt(","):
                pl.append(s.name() if s.k() == "name" else None)
            s.take(")")
        return (n, pl)

    def range(s):
        at = s.at()
        if s.k() in ("=", "/=", "<", "<=", ">", ">="):
            o = s.k()
            s.i += 1
            return ("rel", o, s.const(), at)
        c = s.const()
        if s.opt(":"):
            return ("to", c, s.const(), at)
        return ("val", c, at)

    def decision(s):
        at = s.take("DECISION")[2]
        q = s.expr()
        s.end()
        ans = []
        els = None
        h = height(q)
        # a too high statement inside makes this one too high, and this one stands first
        keep, s.high = s.high, None
        s.inner.append(0)
        while s.k() == "(":
            opened = s.at()
            s.i += 1
            rs = [s.range()]
            s.opened[id(rs)] = opened
            while s.opt(","):
                rs.append(s.range())
            s.take(")")
            s.take(":")
            ans.append((rs, s.trans()))
        if not ans and s.k() != "ELSE":
            s.fail()
        if s.opt("ELSE"):
            s.take(":")
            els = s.trans()
        s.take("ENDDECISION")
        s.end()
        h = 1 + max(h, s.inner.pop())
        s.inner[-1] = max(s.inner[-1], h)
        s.high = keep if keep is not None else at if h > 32 else None
        return ("decide", at, q, ans, els)

    def trans(s):
        made = {"TASK": s.task, "OUTPUT": s.output, "SET": s.set, "RESET": s.reset, "DECISION": lambda _: s.decision()}
        acts = []
        while s.k() in made:
            acts.append(made[s.k()](s.at()))
        at = s.at()
        for word, kind in (("NEXTSTATE", "next"), ("STOP", "stop"), ("JOIN", "join")):
            if s.opt(word):
                e = (kind, at) if kind == "stop" else (kind, at, s.name())
                s.end()
                return (acts, e)
        return (acts, None)

    def task(s, at):
        s.i += 1
        items = []
        while True:
            if s.k() == "text":
                s.i += 1
            else:
                n = s.name()
                s.take(":=")
                items.append((n, s.expr()))
            if not s.opt(","):
                break
        s.end()
        s.deep(at, [x for _, x in items])
        return ("task", items, at)

    def output(s, at):
        s.i += 1
        outs = []
        while True:
            n = s.name()
            ps = []
            if s.opt("("):
                ps.append(s.expr())
                while s.opt(","):
                    ps.append(s.expr())
                s.take(")")
            outs.append((n, ps))
            if not s.opt(","):
                break
        to = None
        if s.opt("TO"):
            to = "SENDER" if s.opt("SENDER") else s.name()
        s.end()
        s.deep(at, [x for _, ps in outs for x in ps])
        return ("output", outs, to, at)

    def set(s, at):
        s.i += 1
        s.take("(")
        s.take("NOW")
        s.take("+")
        x = s.expr()
        s.take(",")
        t = s.name()
        s.take(")")
        s.end()
        s.deep(at, [x])
        return ("set", x, t, at)

    def reset(s, at):
        s.i += 1
        s.take("(")
        t = s.name()
        s.take(")")
        s.end()
        return ("reset", t, at)

    def deep(s, at, xs):
        h = max([0] + [height(x) for x in xs])
        s.inner[-1] = max(s.inner[-1], h)
        if s.high is None and h > 32:
            s.high = at

    def expr(s, lvl=0):
        tbl = [("OR", "XOR"), ("AND",), ("=", "/=", "<", "<=", ">", ">="), ("+", "-"), ("*", "/", "MOD", "REM")]
        if lvl == 5:
            return s.unary()
        x = s.expr(lvl + 1)
        while s.k() in tbl[lvl]:
            o = s.k()
            s.i += 1
            y = s.expr(lvl + 1)
            x = ("bin", o, x, y)
            if lvl == 2:
                break
        return x

    def unary(s):
        at = s.at()
        if s.k() in ("-", "NOT"):
            o = s.k()
            s.i += 1
            return ("un", o, s.primary(), at)
        return s.primary()

    def primary(s):
        at = s.at()
        k = s.k()
        if k == "num":
            s.i += 1
            return ("num", s.t[s.i - 1][1], at)
        if k in ("TRUE", "FALSE"):
            s.i += 1
            return ("bool", k, at)
        if k == "name":
            n = s.name()
            return ("var", n, at)
        if k == "(":
            s.i += 1
            x = s.expr()
            s.take(")")
            return x[:4] + (at,) if x[0] == "bin" else x[:3] + (at,) if x[0] == "un" else x[:2] + (at,)
        s.fail()


# ---- synonyms: what each stands for, by names that are looked up where they stand
def wrap(n):
    return (n + 2**31) % 2**32 - 2**31


DIVISIONS = ("/", "MOD", "REM")


def divisor(x, env):
    """the number right of a division, 0 for all that may not stand there"""
    if x[0] == "num":
        return x[1]
    so, v = env.get(x[1][0].lower(), (None, 0)) if x[0] == "var" else (None, 0)
    return v if so == "INTEGER" else 0


def worked(x, env):
    """the sort and the value of a constant expression, none where it has none"""
    if x[0] == "num":
        return ("INTEGER", x[1])
    if x[0] == "bool":
        return ("BOOLEAN", x[1] == "TRUE")
    if x[0] == "var":
        return env.get(x[1][0].lower())
    a = worked(x[2], env)
    if a is None:
        return None
    if x[0] == "un":
        if (x[1] == "NOT") != (a[0] == "BOOLEAN"):
            return None
        return ("BOOLEAN", not a[1]) if x[1] == "NOT" else ("INTEGER", wrap(-a[1]))
    if x[1] in DIVISIONS:
        k = divisor(x[3], env)
        if a[0] != "INTEGER" or k < 1:
            return None
        cut = abs(a[1]) // k * (1 if a[1] >= 0 else -1)
        return ("INTEGER", cut if x[1] == "/" else a[1] % k if x[1] == "MOD" else a[1] - cut * k)
    b = worked(x[3], env)
    if b is None or a[0] != b[0]:
        return None
    p, q = a[1], b[1]
    if x[1] == "=":
        return ("BOOLEAN", p == q)
    if x[1] == "/=":
        return ("BOOLEAN", p != q)
    if x[1] in ("AND", "OR", "XOR"):
        return (
            None if a[0] != "BOOLEAN" else ("BOOLEAN", p and q if x[1] == "AND" else p or q if x[1] == "OR" else p != q)
        )
    if a[0] != "INTEGER":
        return None
    if x[1] in ("<", "<=", ">", ">="):
        return ("BOOLEAN", {"<": p < q, "<=": p <= q, ">": p > q, ">=": p >= q}[x[1]])
    return ("INTEGER", wrap(p + q if x[1] == "+" else p - q if x[1] == "-" else p * q))


def root_sort(x, env):
    """the sort that an expression has by its outermost operator, none for a name that is none"""
    if x[0] == "num":
        return "INTEGER"
    if x[0] == "bool":
        return "BOOLEAN"
    if x[0] == "var":
        return env.get(x[1][0].lower(), (None, None))[0]
    return "INTEGER" if x[1] in ("+", "-", "*") + DIVISIONS else "BOOLEAN"


def stands_for(so, x, env):
    """The value of a synonym with this written sort, or none; 0 or FALSE if its expression has no value of it."""
    so = so or root_sort(x, env) or "INTEGER"
    v = worked(x, env)
    return v if v is not None and v[0] == so else (so, 0 if so == "INTEGER" else False)


def block_synonyms(ents):
    env = {}
    for n, so, x in [d for e in ents if e[0] == "synonyms" for d in e[1]]:
        v = stands_for(so, x, env)
        env.setdefault(n[0].lower(), v)
    return env


def process_synonyms(p, outer):
    """what may be named in a process: its own names hide those of the block"""
    mine = [d for e in p[1] if e[0] == "synonyms" for d in e[1]]
    hidden = {n[0].lower() for e in p[1] if e[0] == "dcl" for n in e[1]} | {n[0].lower() for n, _, _ in mine}
    env = {n: v for n, v in outer.items() if n not in hidden}
    own = set()
    for n, so, x in mine:
        v = stands_for(so, x, env)
        if n[0].lower() not in own:
            env[n[0].lower()] = v
            own.add(n[0].lower())
    return env


def constant(c, env):
    """a constant of a range or an initial value, with its value in the place of a name"""
    if c is None or c[0] != "name":
        return c
    so, v = env.get(c[2][0].lower(), ("INTEGER", 0))
    if c[1]:
        so, v = "INTEGER", wrap(-v) if so == "INTEGER" else 0
    return (so, v if so == "INTEGER" else "TRUE" if v else "FALSE", c[3])


def valued(x, env, opened):
    """a tree or a part of one with a number or truth value in the place of each synonym; the new lists have the places
    of the old ones in `opened`"""
    if isinstance(x, list):
        made = [valued(y, env, opened) for y in x]
        if id(x) in opened:
            opened[id(made)] = opened[id(x)]
        return made
    if not isinstance(x, tuple):
        return x
    if len(x) == 4 and x[0] == "name":
        return constant(x, env)
    if len(x) == 3 and x[0] == "var" and x[1][0].lower() in env:
        so, v = env[x[1][0].lower()]
        return ("num", v, x[2]) if so == "INTEGER" else ("bool", "TRUE" if v else "FALSE", x[2])
    return tuple(valued(y, env, opened) for y in x)


def meant(ents, opened=None):
    """the text that the program runs: each synonym's value in its place; for `opened` see `valued`"""
    outer = block_synonyms(ents)

    def one(p):
        own = [d for d in p[1] if d[0] != "synonyms"]
        return valued((p[0], own) + p[2:], process_synonyms(p, outer), {} if opened is None else opened)

    return [("process", one(e[1])) if e[0] == "process" else e for e in ents if e[0] != "synonyms"]
