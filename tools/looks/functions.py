"""The functions of a file of code in `rt fmt`'s layout: where each begins and ends, its parameters, and its name as a
check prints it, from its type on, or from its module where it belongs to no type."""
import dataclasses
import re

ITEM = re.compile(r"(\s*)(?:pub(?:\([\w: ]+\))? )?(?:default |const |unsafe |extern \"C\" )*fn (\w+)")
OWNER = re.compile(r"(?:pub(?:\([\w: ]+\))? )?(?:unsafe )?(impl|trait)\b(.*)")


@dataclasses.dataclass(frozen=True)
class Function:
    name: str
    first: int
    body: int
    last: int
    parameters: int

    @property
    def length(self):
        """The lines of its body, without its braces."""
        return max(0, self.last - self.body - 1)


def bare(text):
    """A type without its generic arguments, and the last word of its path."""
    depth, kept = 0, ""
    for at, letter in enumerate(text):
        depth -= letter == ">" and text[at - 1 : at] != "-"
        kept += letter if depth == 0 and letter != ">" and letter != "<" else ""
        depth += letter == "<"
    return kept.strip().rpartition("::")[2]


def owner(header):
    """The name under which the functions of an `impl` or a `trait` are printed."""
    kind, rest = OWNER.match(header).groups()
    if kind == "trait":
        return re.match(r"\s*(\w+)", rest)[1]
    if rest.startswith("<"):
        depth = 0
        for at, letter in enumerate(rest):
            depth += (letter == "<") - (letter == ">" and rest[at - 1] != "-")
            if depth == 0:
                rest = rest[at + 1 :]
                break
    rest = rest.partition(" where ")[0].rstrip(" {")
    trait, is_of, kind = rest.partition(" for ")
    if not is_of:
        return bare(rest)
    given = re.search(r"<(.*)>", trait)
    return bare(kind) + bare(trait) + (bare(given[1]) if given and "," not in given[1] and given[1][0] != "'" else "")


def module(path):
    """The module of a file of src/, as the first part of its functions' names."""
    parts = path.removeprefix("src/").removesuffix(".rt").split("/")
    return "::".join(it for it in parts if it not in ("lib", "main", "mod"))


def counted(signature):
    """How many parameters stand in a function's signature."""
    begin = re.search(r"fn \w+(?:<.*?>)?\(", signature)
    if not begin:
        return 0
    depth, number, filled = 0, 0, False
    for at, letter in enumerate(signature[begin.end() :], begin.end()):
        if letter == ")" and depth == 0:
            break
        depth += (letter in "([{<") - (letter in ")]}" or letter == ">" and signature[at - 1] != "-")
        if letter == "," and depth == 0:
            number, filled = number + filled, False
        elif not letter.isspace():
            filled = True
    return number + filled


def functions(path, text):
    """The functions of a file, in their order; `path` is its path in the crate."""
    lines, held, inside = text.split("\n"), "", []
    for number, line in enumerate(lines):
        if OWNER.match(line):
            # (a long header goes on in the next lines)
            held = owner(" ".join(it.strip() for it in lines[number : number + 4]).partition("{")[0])
        elif line == "}":
            held = ""
        if found := ITEM.match(line):
            begin = found[1]
            last = next((at for at in range(number, len(lines)) if ends(lines[at], begin, at == number)), number)
            if not lines[last].rstrip().endswith("}"):
                continue
            body = next((at for at in range(number, last + 1) if opens(lines[at], begin)), number)
            signature = " ".join(lines[number : body + 1])
            name = "::".join(it for it in (held if begin and held else module(path), found[2]) if it)
            inside.append(Function(name, number, body, last, counted(signature)))
    return inside


def ends(line, begin, is_first):
    """Whether a function that begins with this indent ends on the line: with its brace, on one line, or without a
    body."""
    if is_first:
        return line.rstrip().endswith(("}", ";")) and line.count("{") == line.count("}")
    return (
        line == begin + "}"
        or line.startswith(begin)
        and line[len(begin) :].startswith((") ", ")"))
        and line.endswith(";")
    )


def opens(line, begin):
    """Whether the body of a function opens at the end of a line."""
    return (
        line == begin + "{"
        or line.startswith(begin)
        and not line[len(begin) :].startswith(" ")
        and line.endswith(("{", "}"))
    )
