"""Manual pages in roff, made from what the program's `--help` says."""
import re
import textwrap

# Where a paragraph that follows the options begins another section.
SECTIONS = [
    ("Exits with ", "EXIT STATUS"),
    ("Exit statuses: ", "EXIT STATUS"),
    ("Orders: ", "ORDERS"),
    ("Reports, ", "REPORTS"),
]
# The pages of docs/ that have the rest, by command.
PAGES = {
    "": ["README.md", "docs"],
    "set": ["docs/sets.md", "docs/level3.md", "docs/links.md"],
    "line": ["docs/links.md"],
    "check": ["docs/process-texts.md"],
    "play": ["docs/scripts.md", "docs/seeing.md"],
    "soak": ["docs/scripts.md"],
    "draw": ["docs/seeing.md"],
}
PLACES = re.compile("(?=" + "|".join(f"(?<!\\w){re.escape(begin)}" for begin, _ in SECTIONS) + ")")


def escaped(text):
    """Text as roff has it: no hyphen is a minus, and no line begins with a request."""
    text = text.replace("\\", "\\e").replace("-", "\\-").replace("`", "\\`").replace("'", "\\(aq")
    return re.sub(r"^\.", r"\\&.", text, flags=re.M)


def filled(text):
    """A paragraph in lines of 100 columns, whatever its lines were."""
    lines = textwrap.wrap(" ".join(text.split()), 100, break_long_words=False, break_on_hyphens=False)
    return "\n".join(escaped(it) for it in lines)


def bold(text):
    return f"\\fB{escaped(text)}\\fR"


def typed(word):
    """What is typed for an option or an argument."""
    value = f"\\fI{escaped(word.value)}\\fR" if word.value else ""
    return " ".join(filter(None, [", ".join(map(bold, word.spellings)), value]))


def listed(head, entries):
    """A section that lists what may be typed, each with its meaning."""
    if not entries:
        return []
    return [f".SH {head}", *(f".TP\n{left}\n{filled(right)}." for left, right in entries)]


def sections(after):
    """The paragraph after the options, by sections."""
    found = {}
    for part in PLACES.split(" ".join(after.split())):
        head = next((head for begin, head in SECTIONS if part.startswith(begin)), "NOTES")
        if part.strip():
            found.setdefault(head, []).append(part.strip())
    return [f".SH {head}\n" + "\n.PP\n".join(map(filled, found[head])) for head in sorted(found, key=order)]


def order(head):
    return ["NOTES", "ORDERS", "REPORTS", "EXIT STATUS"].index(head)


def files(command, folder):
    """A section that names the pages of docs/, which are in a folder."""
    names = [f".I {folder}/{escaped(it)}" for it in PAGES.get(command.name, [])]
    return [".SH FILES\n" + "\n.br\n".join(names)] if names else []


def page(command, date, version, see, folder):
    """The page of a command: what it is called, how it is typed, and each of its words. `see` are other pages, `folder`
    has the pages of docs/."""
    title = f"mtp2-{command.name}" if command.name else "mtp2"
    about = command.about[0].lower() + command.about[1:]
    others = [it for it in see if it != (title, 1)]
    words = [(typed(it), it.meaning) for it in command.options]
    parts = [
        f'.TH {escaped(title).upper()} 1 "{date}" "Marblefig {version}" "User Commands"',
        f".SH NAME\n{escaped(title)} \\- {filled(about)}",
        f".SH SYNOPSIS\n.nf\n{escaped(command.usage)}\n.fi",
        f".SH DESCRIPTION\n{filled(command.about)}.",
        *listed("COMMANDS", [(bold(name), it) for name, it in command.commands]),
        *listed("ARGUMENTS", [(typed(it), it.meaning) for it in command.arguments]),
        *listed("OPTIONS", words),
        *sections(command.after),
        *files(command, folder),
        ".SH SEE ALSO\n" + ",\n".join(f".BR {escaped(name)} ({part})".replace(",", " ,") for name, part in others),
    ]
    return "\n".join(parts).replace("),\n", ") ,\n") + "\n"
