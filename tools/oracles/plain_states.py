"""The state diagram of a process in Graphviz's language, written apart from the program: to compare with `mtp2_play
draw SET PROCESS --states`.

usage: tools/oracles/plain_states.py FILE PROCESS     prints what draw prints

A node for START, for each state and each connection; an edge for each two of them, in the order of its first way, with
a line for each way; ways from a state to itself in its box, those without an effect last and grey, SAVEs first. A
connection to which more than two nodes lead is drawn beside each of these. It knows up to 64 ways through one
transition."""
import itertools
import pathlib
import sys

from tools.oracles.plain_check import lo
from tools.oracles.plain_diff import Side, Written

HEAD = """digraph {{
  graph [labelloc=t, fontname="DejaVu Sans", fontsize=16, label=<<b>PROCESS {}</b>>];
  node [shape=box, style="rounded,filled", fillcolor="#eef3ff", fontsize=12, fontname="DejaVu Sans"];
  edge [fontsize=9, arrowsize=0.7, fontname="DejaVu Sans"];
"""
START = 'start [shape=circle, fillcolor="#000000", label="", width=0.2];'
BOX = 's_{0} [label=<<table border="0" cellborder="0" cellspacing="0"><tr><td><b>{0}</b></td></tr>{1}</table>>];'
INSIDE = '<hr/><tr><td align="left" balign="left"><font point-size="9">{}</font></td></tr>'
CIRCLE = '{} [shape=circle, fillcolor="#ffffff", margin=0.02, label="{}"];'
STOPPED = 'x_ [shape=plain, style="", label="X"];'
END_OF_LINE, GAP = '<br align="left"/>', "&#160;&#160;"
LOOKS = {
    "input": ("<b>", "</b>"),
    "quiet": ('<font color="#888888"><b>', "</b></font>"),
    "guard": ('<font color="#7a3d00">', "</font>"),
    "task": ('<font color="#444444">', "</font>"),
    "output": ('<font color="#1a4fa0">', "</font>"),
    "save": ("<i>", "</i>"),
}
WIDTH, MOST_WAYS, MOST_JOINING = 34, 64, 2


def escaped(text):
    for sign, entity in (("&", "&amp;"), ("<", "&lt;"), (">", "&gt;"), ('"', "&quot;")):
        text = text.replace(sign, entity)
    return text


def line(words):
    """Words with their looks, broken where a line would get too long."""
    made, used = "", 0
    for look, text in words:
        if used:
            if used + len(text) > WIDTH:
                made, used = made + END_OF_LINE, 0
            made, used = made + GAP, used + 2
        made += LOOKS[look][0] + escaped(text) + LOOKS[look][1]
        used += len(text)
    return made + END_OF_LINE


class TooMany(Exception):
    """More ways through a transition than are told apart."""


class Diagram:
    """The nodes of a process, each with its ways: what is done on one, word by word, and where it ends."""

    def __init__(self, text, name):
        self.side = Side(text)
        self.process = next(it for it in self.side.processes if lo(it[0]) == name.lower())
        self.written = Written(self.side, self.process)
        self.nodes = [("start", None, list(self.ways([], self.process[2][1])))]
        for state, clauses in self.side.states(self.process):
            self.nodes.append(("state", state, [it for clause in clauses for it in self.of_clause(clause)]))
        self.nodes += [
            ("connection", name[0], list(self.ways([], transition))) for _, name, transition in self.process[4]
        ]

    def of_clause(self, clause):
        if clause[0] == "save":
            yield [("save", "save"), ("save", ", ".join(self.side.trigger(self.process, it) for it in clause[1]))], (
                "save",
            )
            return
        names = []
        for name, places in clause[2]:
            given = ", ".join(self.written.variables[lo(it)] if it else "" for it in places)
            names.append(self.side.trigger(self.process, name) + (f"({given})" if places else ""))
        yield from self.ways([("input", ", ".join(names))], clause[3])

    def ways(self, before, transition):
        """The ways through a transition, in the order of the text."""
        made = list(itertools.islice(self.gone(before, transition), MOST_WAYS + 1))
        if len(made) > MOST_WAYS:
            raise TooMany
        return made

    def gone(self, before, transition, at=0):
        """The ways from one of its statements on; without an end if one runs off."""
        actions, end = transition
        if at == len(actions):
            yield before, self.end(end)
            return
        act = actions[at]
        if act[0] != "decide":
            yield from self.gone(before + list(self.words(act)), transition, at + 1)
            return
        question = self.written.value(act[2])
        bodies = [(", ".join(map(self.written.range, ranges)), body) for ranges, body in act[3]] + (
            [("ELSE", act[4])] if act[4] is not None else []
        )
        for answer, body in bodies:
            for words, ended in self.gone([*before, ("guard", f"[{question}: {answer}]")], body):
                if ended:
                    yield words, ended
                else:
                    yield from self.gone(words, transition, at + 1)

    def words(self, act):
        if act[0] == "task":
            yield from (
                ("task", f"{self.written.variables[lo(name)]} := {self.written.value(tree)}") for name, tree in act[1]
            )
            return
        for _, text, _ in self.written.rows(([act], None)):
            yield ("output", text.removeprefix("OUTPUT ")) if act[0] == "output" else ("task", text)

    def end(self, end):
        if end is None:
            return None
        if end[0] == "stop":
            return ("stop",)
        return (
            ("state", self.written.states[lo(end[2])])
            if end[0] == "next"
            else ("connection", self.written.connections[lo(end[2])])
        )

    def inside(self, name, ways):
        """The contents of the box of a state."""
        saves = [words for words, end in ways if end == ("save",)]
        loops = [words for words, end in ways if end == ("state", name)]
        quiet = [words for words in loops if not any(look in ("task", "output") for look, _ in words)]
        grey = [[("quiet", text) if look == "input" else (look, text) for look, text in words] for words in quiet]
        return "".join(map(line, saves + [it for it in loops if it not in quiet] + grey))

    def lines(self):
        yield START
        for kind, name, ways in self.nodes[1:]:
            inside = self.inside(name, ways) if kind == "state" else ""
            yield BOX.format(name, INSIDE.format(inside) if inside else "") if kind == "state" else CIRCLE.format(
                f"c_{name}", name
            )
        for kind, name, ways in self.nodes:
            own = {"start": "start", "state": f"s_{name}", "connection": f"c_{name}"}[kind]
            for end in dict.fromkeys(
                end for _, end in ways if end != ("save",) and (kind, *end) != ("state", "state", name)
            ):
                yield from self.edge(own, end, "".join(line(words) for words, other in ways if other == end))

    def edge(self, own, end, label):
        if end == ("stop",):
            target = "x_"
            yield STOPPED
        elif end[0] == "state":
            target = f"s_{end[1]}"
        elif sum(end in [it for _, it in ways] for _, _, ways in self.nodes) > MOST_JOINING:
            target = f"o_{end[1]}_{own}"
            yield CIRCLE.format(target, end[1])
        else:
            target = f"c_{end[1]}"
        yield f"{own} -> {target} [label=<{label}>];"


def draw(text, name):
    diagram = Diagram(text, name)
    return HEAD.format(diagram.process[0][0]) + "".join(f"  {it}\n" for it in diagram.lines()) + "}\n"


if __name__ == "__main__":
    sys.stdout.write(draw(pathlib.Path(sys.argv[1]).read_bytes(), sys.argv[2]))
