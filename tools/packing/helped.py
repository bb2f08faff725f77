"""What a program's `--help` says, as values: its commands, each with its arguments and options."""
import dataclasses
import re
import subprocess

HEADS = ("Commands", "Arguments", "Options")
# A row of a list: what is typed, two spaces or more, what it means.
ROW = re.compile(r"^ {2,}(\S.*?) {2,}(\S.*)$")
# What a value may be, by its name in the help; where the meaning names some of these, only those.
VALUES = {"MODE": ["basic", "cyclic"], "SET": ["q703", "standard", "monitors"]}
# Values that name a file, by these names; others do if their meaning says so.
FILES = {"LINE", "PATH", "SCRIPT", "OLD", "NEW"}


@dataclasses.dataclass
class Word:
    """An option or an argument: its spellings, the name of its value (none for a switch) and what it means."""

    spellings: list
    value: str
    meaning: str

    def choices(self):
        """The values that it takes, if these can be listed."""
        if "|" in (self.value or ""):
            return self.value.split("|")
        values = VALUES.get(self.kind(), [])
        return [it for it in values if it in self.meaning] or values

    def kind(self):
        """The name of the value in the table above: OLD and NEW are sets like SET."""
        return "SET" if self.value in ("OLD", "NEW") else self.value

    def takes_file(self):
        return self.value in FILES or "a file" in self.meaning

    def repeats(self):
        """Whether it may be given more than once."""
        return "Once for each" in self.meaning


@dataclasses.dataclass
class Command:
    """A command, or the program itself, whose name is empty."""

    name: str
    about: str
    usage: str
    commands: list
    arguments: list
    options: list
    after: str


def asked(program, *words):
    """What the program prints, called `mtp2`."""
    done = subprocess.run(
        ["mtp2", *words], executable=str(program), stdin=subprocess.DEVNULL, capture_output=True, text=True, check=True
    )
    return done.stdout


def rows(lines):
    """The rows of a list."""
    return [found.groups() for found in map(ROW.match, lines) if found]


def word(typed, meaning):
    """The option or argument of a row, as `-h, --help` or `--link <LINE>` or `[PROCESS]`."""
    value = re.search(r"<([^>]+)>|\[([^]]+)\]", typed)
    spellings = re.findall(r"(?<![\w<|])--?[a-zA-Z][a-z0-9-]*", typed)
    return Word(spellings, (value[1] or value[2]) if value else None, meaning)


def read(text, name=""):
    """The command that a help text describes."""
    about, _, rest = text.partition("\n\nUsage: ")
    usage, _, rest = rest.partition("\n")
    parts, after = {head: [] for head in HEADS}, []
    for part in rest.strip("\n").split("\n\n"):
        head, _, lines = part.partition("\n")
        if head.rstrip(":") in HEADS:
            parts[head.rstrip(":")] = lines.split("\n")
        else:
            after.append(part)
    options, arguments = ([word(*row) for row in rows(parts[it])] for it in ("Options", "Arguments"))
    return Command(name, about.split("\n")[-1], usage, rows(parts["Commands"]), arguments, options, "\n".join(after))


def program(path):
    """The program itself, and its commands except `help`."""
    whole = read(asked(path, "--help"))
    names = [name for name, _ in whole.commands if name != "help"]
    whole.commands = [row for row in whole.commands if row[0] != "help"]
    return whole, [read(asked(path, name, "--help"), name) for name in names]


def version(path):
    """The program's version, as `1.0`."""
    return asked(path, "--version").split()[1]
