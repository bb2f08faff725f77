"""Lists the public functions of the crates that no test and no table calls: which neither a test function nor a program
that the gate runs on a table (mtp2_play, trials) comes to, by the names in their bodies. A name says too much rather
than too little: a method counts as called where one of that name is. Functions without code and those of a file
laws.rt, which are laws, aren't asked for. What docs/proving.md names with its reason, under 'Public functions that no
test calls', isn't listed.

usage: tools/looks/untested
           ends with status 1 if it lists something, or docs/proving.md names what is called
       tools/looks/untested --all       lists those with a reason too"""
import pathlib
import re
import sys

ROOT = pathlib.Path(__file__).resolve().parents[2]
PROGRAMS = ["mtp2_play", "trials"]
REASONS = "### Public functions that no test calls"
NOTE = re.compile(r"//[^\n]*|/\*.*?\*/|b?\"(?:\\.|[^\"\\])*\"|b?'(?:\\.[^']*|[^'\\])'", re.S)
WORD = re.compile(r"[A-Za-z_]\w*|::|[^\w\s]")
# Words before a block that is no body.
CLAUSES = {"requires", "ensures", "ghost"}


def type_before(words, at):
    """The name that ends here, before `::`; that before its arguments, as in `Vec::<T>::new`."""
    depth = 0
    while at > 0:
        depth += (words[at] == ">") - (words[at] == "<")
        if not depth:
            break
        at -= 1
    return (
        words[at - 2]
        if words[at] == "<" and words[at - 1] == "::"
        else words[at - 1]
        if words[at] == "<"
        else words[at]
    )


class Function:
    """A function: its crate, the type or trait that it belongs to, its name, and the names that stand in its body, each
    with what stands before it."""

    def __init__(self, crate, owner, name, is_law, is_public, is_root, body):
        self.crate, self.owner, self.name, self.is_law = crate, owner, name, is_law
        self.is_public, self.is_root, self.has_code = is_public, is_root, bool(body)
        self.calls = set()
        for at, word in enumerate(body):
            if re.match(r"[A-Za-z_]", word):
                before = body[at - 1] if at else ""
                self.calls.add((type_before(body, at - 2) if before == "::" else before if before == "." else "", word))

    def shown(self):
        return f"{self.crate}: {self.owner + '::' if self.owner else ''}{self.name}"


def closing(words, at):
    """The place after the group that opens here."""
    depth = 0
    for place in range(at, len(words)):
        depth += (words[place] in "{([") - (words[place] in "})]")
        if not depth:
            return place + 1
    return len(words)


def body_of(words, at):
    """The place of a function's body, from its name on; none where it has none, as a trait's."""
    while at < len(words) and words[at] not in ("{", ";"):
        if words[at] in CLAUSES:
            while words[at] != "{":
                at += 1
            at = closing(words, at)
        elif words[at] in "([":
            at = closing(words, at)
        else:
            at += 1
    return at if at < len(words) and words[at] == "{" else None


def owner_of(words, at):
    """The type of an `impl` or the name of a trait, and whether it is a trait's."""
    head = words[at : next(place for place in range(at, len(words)) if words[place] in ("{", "where"))]
    is_trait = head[0] == "trait" or "for" in head
    named = head[head.index("for") + 1 :] if "for" in head else head[1:]
    depth, names = 0, []
    for word in named:
        depth += (word == "<") - (word == ">")
        if not depth and re.match(r"[A-Z]", word):
            names.append(word)
    return (names or [""])[-1 if head[0] == "impl" else 0], is_trait


def functions(path, crate):
    """The functions of a file."""
    text = NOTE.sub(lambda it: " " if it[0].startswith("/") else " 0 ", path.read_text())
    words = WORD.findall(text)
    owners, at = [], 0
    while at < len(words):
        owners = [it for it in owners if at < it[1]]
        if words[at] in ("impl", "trait") and (at == 0 or words[at - 1] in ("}", ";", "]", "pub")):
            start = next(place for place in range(at, len(words)) if words[place] == "{")
            owners.append((owner_of(words, at), closing(words, start)))
            at = start + 1
            continue
        if words[at] == "ghost" and words[at + 1] != "use":
            start = next((place for place in range(at, len(words)) if words[place] in ("{", ";")), len(words) - 1)
            at = closing(words, start) if words[start] == "{" else start + 1
            continue
        if words[at] == "fn" and re.match(r"[a-z_]", words[at + 1]):
            start = body_of(words, at + 2)
            (owner, is_trait), _ = owners[-1] if owners else (("", False), 0)
            end = closing(words, start) if start is not None else at + 2
            before = words[max(0, at - 8) : at]
            is_test = "test" in before and "#" in before
            is_public = bool(before) and before[-1] == "pub" or before[-2:] == ["pub", "const"]
            body = words[start + 1 : end - 1] if start is not None else []
            yield Function(
                crate,
                owner,
                words[at + 1],
                path.name == "laws.rt",
                is_public and not is_trait,
                is_test or is_trait,
                body,
            )
            at = end
            continue
        at += 1


def called(every):
    """The functions that a test or a program comes to."""
    free, owned, methods = {}, {}, {}
    for it in every:
        if it.owner:
            owned.setdefault((it.owner, it.name), []).append(it)
            methods.setdefault(it.name, []).append(it)
        else:
            free.setdefault(it.name, []).append(it)
    seen, left = set(), [it for it in every if it.is_root or (it.name == "main" and it.crate in PROGRAMS)]
    while left:
        function = left.pop()
        if id(function) in seen:
            continue
        seen.add(id(function))
        for before, name in function.calls:
            if before == ".":
                left += methods.get(name, [])
            elif before == "Self":
                left += owned.get((function.owner, name), [])
            elif before[:1].isupper():
                left += owned.get((before, name), [])
            else:
                left += free.get(name, [])
    return seen


def reasons():
    """The functions that docs/proving.md has a reason for."""
    text = (ROOT / "docs" / "proving.md").read_text()
    if REASONS not in text:
        return set()
    part = re.split(r"\n##", text.split(REASONS)[1])[0]
    return {
        f"{crate}: {name}"
        for crate, names in re.findall(r"^- `(\w+)`: ((?:`[\w:]+`(?:, | and )?)+)", part, re.M)
        for name in re.findall(r"`([\w:]+)`", names)
    }


def main(words):
    every = [
        it
        for path in sorted((ROOT / "crates").glob("*/src/**/*.rt"))
        for it in functions(path, path.relative_to(ROOT / "crates").parts[0])
    ]
    seen, known = called(every), reasons()
    asked = [it for it in every if it.is_public and it.has_code and not it.is_law]
    lacking = {it.shown(): it for it in asked if id(it) not in seen}
    for name in sorted(lacking if words == ["--all"] else set(lacking) - known):
        print(name)
    for name in sorted(known - set(lacking)):
        print(f"docs/proving.md names {name}, which is called or isn't there")
    found = len(set(lacking) - known) + len(known - set(lacking))
    print(
        f"{len(asked)} public functions with code, {len(lacking)} that no test or table calls, "
        f"{len(set(lacking) & known)} of them with a reason"
    )
    return 1 if found else 0


if __name__ == "__main__":
    sys.exit(main(sys.argv[1:]))
