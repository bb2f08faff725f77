"""Writes the specs and proofs that follow from the productions of the grammar. Each production of
crates/sdl_tree/specs/DeclarationSyntax.antt and Syntax.antt has a reading
(sdl_productions/specs/DeclarationProductions.antt, Productions.antt), a proof that the reading gives no more tokens
back than it got (sdl_productions/proofs/Lengths.antt) and a proof that the reading decides the production
(sdl_tree/proofs/DeclarationsDecide.antt, SyntaxDecides.antt): three forms of one list of steps. The steps of a
transition are written by hand.

usage: tools/productions [--check]
           writes them (run `rt fmt` after it); --check only names those that differ, and ends with status 1 if there
           are any"""
import pathlib
import re
import sys

CRATES = pathlib.Path(__file__).parent.parent / "crates"
# A SYNONYM takes how its expressions are read; what has one in it reads them whole.
WHOLE = "expression_at whole_trees"
CALLS = "token optional separated separated_from list_in_parentheses many choice give".split()


class Production:
    """One production: its name, its own parameter, what it reads as, and its steps."""

    def __init__(self, name, own, kind, steps):
        self.name, self.own, self.kind, self.steps = name, own, kind, steps
        self.given = ""

    def lines(self):
        """The steps one by one, each with the name of what it reads, none for the last one."""
        lines = self.steps.removeprefix(" do").strip().split("\n")
        return [tuple(line.strip().split(" ← ")) if "←" in line else (None, line.strip()) for line in lines]


def productions(text):
    """The productions that are put together of others, by name, in order."""
    pattern = re.compile(
        r"^unfoldable pub (\w+)_syntax : (List ℕ → )?Grammar (.+)\n\1_syntax(?: name)? =( do\n(?:  .*\n?)+| .*\n?)",
        re.M,
    )
    found = {
        name: Production(name, own or "", kind, steps.rstrip("\n")) for name, own, kind, steps in pattern.findall(text)
    }
    for production in found.values():
        production.given = given(found, production.name)
    return found


def given(found, name):
    """Whether a reading is given how expressions are read (e)."""
    if name not in found:
        return "e" if name == "expression" else ""
    return (
        "e"
        if any(
            other != "synonyms" and given(found, other) for other in re.findall(r"\b(\w+)_syntax\b", found[name].steps)
        )
        else ""
    )


def renamed(steps, plain):
    """The steps with each production named as it is called there; in brackets where it is an argument and has some of
    its own."""

    def called(match):
        before, name, own = match.groups()
        said = plain(name) + (own or "")
        return before + (f"({said})" if " " in said and not own and before == " " else said)

    return re.sub(r"(← |= |\n  |\(| |^)(\w+)_syntax\b((?: name(?:\.name)?)?(?![\w.]))", called, steps, flags=re.M)


def reading(found, production):
    """The definition of the reading."""

    def plain(name):
        return {"expression": "e", "text": "text_at whole_texts", "synonyms": f"synonyms_at ({WHOLE})"}.get(
            name
        ) or f"{name}_at {given(found, name)}".strip()

    steps = renamed(f"={production.steps}", plain).removeprefix("=")
    kind = {"e": "At Tree → ", "": ""}[production.given] + production.own
    head = " ".join([f"{production.name}_at", *production.given, *(["name"] if production.own else [])])
    return f"unfoldable pub {production.name}_at : {kind}At {production.kind}\n{head} ={steps}"


def deciding(found, production):
    """That the reading decides the production."""
    name = production.name
    at = f"{name}_at" + {"e": " whole", "": ""}[production.given]
    of = (
        (f"({name}_syntax name)", f"({at} name)")
        if production.own
        else (f"{name}_syntax", f"({at})" if " " in at else at)
    )
    steps = re.sub(r"many (\w+) (\w+)_syntax\b", r"many \1 \2_takes \2_syntax", production.steps)
    for call in CALLS:
        steps = re.sub(rf"(?<![\w.]){call}(?= )", f"{'list' if call == 'list_in_parentheses' else call}_decides", steps)
    steps = re.sub(r"\b(\w+)_syntax\b", r"\1_decides", steps)
    kind, head = ("(name : List ℕ) → ", " name") if production.own else ("", "")
    return (
        f"{name}_decides : {kind}Decides {of[0]} {of[1]}\nunfolding {name}_syntax {name}_at\n"
        f"{name}_decides{head} ={steps}"
    )


def bracketed(said):
    return f"({said})" if " " in said else said


def kept(found, step):
    """That one step gives no more tokens back than it got."""

    def plain(name):
        said = {
            "expression": "k",
            "names": "keeps_separated name_keeps",
            "text": "text_keeps whole_texts",
            "synonyms": f"synonyms_keeps ({WHOLE}) (expression_keeps whole_trees)",
        }
        return said.get(name) or f"{name}_keeps" + {"e": " e k", "": ""}[given(found, name)]

    step = re.sub(r"^give .*", "keeps_give _", step)
    step = step.replace("(token a_name)", "name_keeps").replace("(token a_sort)", "sort_keeps")
    step = {"token a_name": "name_keeps", "token a_sort": "sort_keeps"}.get(step, step)
    for call in CALLS:
        step = re.sub(rf"(?<![\w.]){call}(?= )", f"keeps_{'list' if call == 'list_in_parentheses' else call}", step)
    return renamed(f"= {step}", plain).removeprefix("= ")


def taken(found, step):
    """That one step takes a token, so that it leaves less."""
    if step.startswith("token "):
        return f"(shortens_{step})"
    name = step.removesuffix("_syntax")
    if name == "synonyms":
        return f"(synonyms_takes ({WHOLE}) (expression_keeps whole_trees))"
    return bracketed(f"{name}_takes" + {"e": " e k", "": ""}[given(found, name)])


def shortening(found, production, takes):
    """That the reading gives no more tokens back than it got, or that it takes one."""
    name, lines = production.name, production.lines()
    if lines[0][0] is None:
        said = kept(found, lines[0][1])
        if takes:
            said = re.sub(r"_keeps\b", "_takes", said).replace("keeps_choice", "takes_choice")
    else:
        steps = [kept(found, step) + (f" >>= λ {read}. " if read else "") for read, step in lines]
        if takes:
            steps[0] = f"first_takes {taken(found, lines[0][1])} λ {lines[0][0]}. "
        said = "".join(steps)
    after, law = ("_takes", "Shortens") if takes else ("_keeps", "NeverLonger")
    kind, head, at = {"e": ("(e : At Tree) → NeverLonger e → ", " e k", f"({name}_at e)"), "": ("", "", f"{name}_at")}[
        production.given
    ]
    if production.own:
        kind, head, at = "(name : List ℕ) → ", " name", f"({name}_at name)"
    return f"{name}{after} : {kind}{law} {at}\nunfolding {name}_at\n{name}{after}{head} = {said}"


def squeezed(block):
    return " ".join(block.removeprefix("pub ").split())


def blocks(text, after):
    """The blocks of a file that define what ends so: the name, and where the block begins and ends."""
    return [
        (match[1], match.start(), match.end())
        for match in re.finditer(rf"^(?:unfoldable )?(?:pub )?(\w+){after} : [^\n]*(?:\n[^\n]+)*", text, re.M)
    ]


def renew(path, after, wanted, text, there):
    """The text with each block as it should be, and the names of those that differed; `there` gets the names of all."""
    stale, out, last = [], [], 0
    for name, start, end in blocks(text, after):
        if name not in wanted:
            continue
        there.add(name)
        block = text[start:end]
        if squeezed(block) != squeezed(wanted[name]):
            stale.append(name)
            out += [text[last:start], "pub " if block.startswith("pub ") else "", wanted[name]]
            last = end
    return "".join([*out, text[last:]]), [f"{path}: {name}{after} isn't what follows from Syntax" for name in stale]


def wanted_lengths(found, text):
    """The contents of Lengths: that a step takes a token if it says so, else that it gives no more tokens back."""
    takes = {name for name, start, end in blocks(text, "_takes") if "unfolding" in text[start:end]}
    shorter = {name: production for name, production in found.items() if name != "block"}
    return [
        (
            "_takes",
            {name: shortening(found, production, True) for name, production in shorter.items() if name in takes},
        ),
        (
            "_keeps",
            {name: shortening(found, production, False) for name, production in shorter.items() if name not in takes},
        ),
    ]


def main(words):
    texts = [(CRATES / "sdl_tree/specs" / name).read_text() for name in ("DeclarationSyntax.antt", "Syntax.antt")]
    found = productions("\n".join(texts))
    said = []
    written = {
        ("sdl_productions/specs/DeclarationProductions.antt", "sdl_productions/specs/Productions.antt"): lambda _: [
            ("_at", {name: reading(found, production) for name, production in found.items()})
        ],
        ("sdl_productions/proofs/Lengths.antt",): lambda old: wanted_lengths(found, old),
        ("sdl_tree/proofs/DeclarationsDecide.antt", "sdl_tree/proofs/SyntaxDecides.antt"): lambda _: [
            ("_decides", {name: deciding(found, production) for name, production in found.items()})
        ],
    }
    for paths, rows in written.items():
        old = {path: (CRATES / path).read_text() for path in paths}
        new = dict(old)
        for after, wanted in rows("\n".join(old.values())):
            there = set()
            for path in paths:
                new[path], stale = renew(path, after, wanted, new[path], there)
                said += stale
            said += [f"{paths[-1]}: {name}{after} isn't there" for name in wanted if name not in there]
        for path in paths:
            if new[path] != old[path] and "--check" not in words:
                (CRATES / path).write_text(new[path])
    print(
        "\n".join(
            [*said, f"{len(found)} productions, {len(said)} blocks {'stale' if '--check' in words else 'written'}"]
        )
    )
    return 1 if said and "--check" in words else 0


if __name__ == "__main__":
    sys.exit(main(sys.argv[1:]))
