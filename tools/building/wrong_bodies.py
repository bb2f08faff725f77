"""Tries wrong bodies, several in one check: for tools/edits.

A check of a copy of the crate has one edit in each of several functions, and asks of these functions only (`rattle
check --only`). The line that it prints for a function says whether that one is proved, or what of its own isn't; that
it calls another one that isn't proved is no matter of its own. So each edit is judged by the line of its own function:

- something of its own isn't proved: the edit is refused;
- all errors are in proof files that name what the edit took away: it is refused by a name only, which says little of
  the contract;
- else the edit is tried by itself, in a check of the whole crate: so are edits outside of the bodies of functions, and
  those in files that can't be compiled.

All checks of a crate keep their work in one folder, and begin with what `tools/rt check` kept. Where something was
refused, the functions are proved as they stand, over that folder, unless `rt ci` proved this very crate on this
machine: else the edits would be refused for a fault that isn't theirs.

It calls functions of the kit's own `rt`, which tries each edit in a check of its own and takes the time of the whole
crate's proof before the first one. Needless once `rt must-fail` tries several edits in one check."""
import collections
import dataclasses
import os
import pathlib
import re
import shutil
import signal
import tempfile

from tools.looks.functions import functions

CLAUSE = re.compile(r"\s*(requires|ensures|ghost)\b")
PLACE = re.compile(r"^(?:note: )?(?:\./)?(\S+?\.(?:rt|antt)):\d+:\d+:", re.M)
# What antt says of a proof that names what isn't there.
TAKEN_AWAY = re.compile(r"has no field|is not in scope|has no `")
# What isn't proved of a function since it calls another one, or rests on what isn't proved.
OF_OTHERS = re.compile(r"it calls .*|(it )?depends on .*|it rests on .*")
# How the kit calls what an edit came to, and how that is counted here.
REFUSED, BY_NAME, AT_LIMIT, PROVED, BAD, UNSURE = (
    "refused",
    "refused by a name only",
    "refused at a limit",
    "PROVED",
    "BAD",
    "NOT TRIED",
)


@dataclasses.dataclass
class Edit:
    """An edit, and the one function whose body it changes, by its name as a check prints it, if there is one."""

    path: pathlib.Path
    texts: dict
    why: str
    function: str = ""

    @property
    def label(self):
        folder = self.path.parent
        return f"{(folder.parent if folder.name == 'must-fail' else folder).name}/{self.path.stem}"


def changed(path):
    """The file and the line of each change of an edit: (file, the old text)."""
    file = ""
    for line in path.read_text().split("\n"):
        if line.startswith("file: "):
            file = line.removeprefix("file: ").strip()
        elif line.startswith("old: "):
            yield file, line.removeprefix("old: ")


def function_of(folder, path):
    """The function in whose body all changes of an edit stand; nothing where they don't."""
    found = set()
    for file, old in changed(path):
        if not file.endswith(".rt"):
            return ""
        text = (folder / file).read_text()
        if old not in text:
            # (it stands there only once another change is made)
            return ""
        first = text[: text.index(old)].count("\n")
        last = first + old.count("\n")
        line = text.split("\n")[first]
        held = [
            it.name
            for it in functions(file, text)
            if it.body <= first and last <= it.last and (it.body < first or not CLAUSE.match(line))
        ]
        found.add(held[-1] if held else "")
    return found.pop() if len(found) == 1 else ""


def read(rt, crate, path):
    """An edit as it is tried."""
    texts, why = rt.read_edit(str(path), crate.folder)
    return Edit(path, texts or {}, why or "", "" if why else function_of(pathlib.Path(crate.folder), path))


def joined(folder, edits):
    """The files of a crate with several edits in them, each applied to what the one in front of it left; nothing where
    one no longer fits."""
    texts = {}
    for edit in edits:
        pairs, old = [], None
        file = ""
        for line in edit.path.read_text().split("\n"):
            if line.startswith("file: "):
                file = line.removeprefix("file: ").strip()
            elif line.startswith("old: "):
                old = line.removeprefix("old: ")
            elif line.startswith("new:"):
                pairs.append((file, old, line.removeprefix("new:").removeprefix(" ")))
        for file, old, new in pairs:
            text = texts.get(file) or (folder / file).read_text()
            if text.count(old) != 1:
                return None
            texts[file] = text.replace(old, new)
    return texts


class Said:
    """What a check said: the line of each function, and what it found where."""

    def __init__(self, text):
        self.lines = {it[1]: it[2] for it in re.finditer(r"^fn (\S+): (.*)$", text, re.M)}
        self.found = [(it[1], it[0]) for it in re.finditer(PLACE.pattern + ".*", text, re.M)]

    def of(self, name):
        """The lines of a function and of the closures in it, where there is one function of this name, and what was
        found in its proofs."""
        own = [full for full in self.lines if f"::{full}".endswith(f"::{name}")]
        if len(own) != 1:
            return [], []
        folder = "/".join(["proofs", *own[0].split("::")[1:], ""])
        inside = [full for full in self.lines if f"::fn::{name}::" in full]
        return [self.lines[it] for it in own + inside], [said for file, said in self.found if file.startswith(folder)]


def judged(name, said):
    """What a check says of an edit in a function: the kind and its first words. Nothing where it says that the function
    is proved, that it can't tell, or only what isn't proved of others."""
    lines, found = said.of(name)
    errors = [it for it in found if ": error" in it and "was not admitted" not in it]
    for line in lines:
        status, _, why = line.partition(": ")
        if status not in ("no proof", "not proved"):
            continue
        reasons = [it for it in why.split("; ") if it and not OF_OTHERS.fullmatch(it)]
        if errors and not reasons and all(TAKEN_AWAY.search(it) for it in errors):
            return BY_NAME, errors[0]
        if errors or reasons:
            return REFUSED, [*errors, *reversed(reasons)][0]
    return None


class Trial:
    """The trial of a crate's edits. What each came to is told as it is known."""

    def __init__(self, rt, crate, paths, is_apart=False):
        self.rt, self.crate, self.flags, self.is_apart = rt, crate, ["--jobs", "1"], is_apart
        self.folder = pathlib.Path(crate.folder)
        self.edits, self.came = [read(rt, crate, it) for it in paths], {}

    def tell(self, edit, kind, why=""):
        self.came[edit.path] = kind
        self.rt.say(f"edits {edit.label}: {kind}{': ' + why[:160] if why else ''}")

    def check(self, texts, names, kept):
        """What a check of the crate with these files says of these functions, or of all of it; its text and status."""
        flags = [*self.flags, *(word for it in names for word in ("--only", it))]
        ran = self.rt.checked(self.crate, texts, flags, kept)
        return ran.stdout, ran.returncode

    def batch(self, edits, kept):
        """Tries edits of different functions in one check. Gives those of which it says nothing."""
        texts = joined(self.folder, edits)
        if texts is None:
            return edits
        text, status = self.check(texts, [it.function for it in edits], kept)
        said = Said(text)
        if not said.lines:
            # (some edit can't be compiled, or a name fits no function: half of them may do)
            half = len(edits) // 2
            return (
                [it for part in (edits[:half], edits[half:]) for it in self.batch(part, kept)]
                if half and status != -signal.SIGKILL
                else edits
            )
        left = []
        for edit in edits:
            if came := judged(edit.function, said):
                self.tell(edit, *came)
            else:
                left.append(edit)
        return left

    def alone(self, edit, kept):
        """Tries an edit in a check of the whole crate."""
        kind, text = self.rt.must_fail(self.crate, str(edit.path), self.flags, kept)
        if kind == self.rt.MISSED:
            # (a finding is one from nothing)
            kind, text = self.rt.must_fail(self.crate, str(edit.path), self.flags)
        if kind == self.rt.REFUSED and "only because a proof file names" in text:
            kind = BY_NAME
        else:
            kind = {self.rt.REFUSED: REFUSED, self.rt.AT_LIMIT: AT_LIMIT, self.rt.MISSED: PROVED, self.rt.BAD: BAD}.get(
                kind, UNSURE
            )
        self.tell(edit, kind, text.partition(": ")[2].removeprefix("refused, as it must be").lstrip(": "))

    def rounds(self):
        """The edits of functions, each round with at most one of a function, in their order."""
        of = collections.defaultdict(list)
        for edit in self.edits:
            if edit.function and not edit.why and not self.is_apart:
                of[edit.function].append(edit)
        while of:
            yield [it.pop(0) for it in of.values()]
            of = collections.defaultdict(list, {name: it for name, it in of.items() if it})

    def as_it_stands(self, kept):
        """Whether the functions whose edits were refused are proved without these."""
        names = sorted({it.function for it in self.edits if self.came.get(it.path) in (REFUSED, BY_NAME)} - {""})
        if not names or self.rt.libraries.is_proved(self.crate):
            return True
        text, status = self.check({}, names, kept)
        return status == 0 and bool(re.search(r"^only=(\d+) proved=\1$", text, re.M))

    def begin(self, kept):
        """Fills a folder with what a check of the crate kept, where one did."""
        begun = self.rt.work_for(self.crate) if hasattr(self.rt, "work_for") else f"{self.crate.folder}/out/incremental"
        try:
            if begun and os.path.isdir(begun):
                self.rt.linked(begun, kept)
        except OSError:
            # (another command may write what this one copies)
            shutil.rmtree(kept, ignore_errors=True)
        os.makedirs(kept, exist_ok=True)

    def run(self):
        """Tries all. Gives what each edit came to."""
        for edit in self.edits:
            if edit.why:
                self.tell(edit, BAD, edit.why)
        with tempfile.TemporaryDirectory(prefix=f"rt-edits-{os.getpid()}-") as room:
            kept = f"{room}/kept"
            self.begin(kept)
            left = [it for batch in self.rounds() for it in self.batch(batch, kept)]
            left += [it for it in self.edits if not it.why and (not it.function or self.is_apart)]
            if not self.as_it_stands(kept):
                self.rt.say(
                    f"edits {self.crate.name}: its functions aren't proved as they stand, so nothing is known of "
                    "its edits"
                )
                self.came = dict.fromkeys(self.came, UNSURE)
                return self.came
            for edit in left:
                self.alone(edit, kept)
        return self.came
