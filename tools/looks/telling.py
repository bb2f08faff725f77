"""What each call of a link set says of the two lists that the set carries for its clauses: `accepted`, what `send`
took, and `gone`, what of it left. A set's type says that the lists are those of some calls that lead to it. It can't
say that they are those of the calls made: a call that forgets both, and begins them anew, keeps the type's
invariant. So each public call that may change a set says in two equations what it adds to them. `tools/ready` asks
this.

- A public call of `Group` that takes the set to change it has one clause `accepted` and one clause `gone`, in the
  words of UNCHANGED, or of TELLS for the calls that add something; it has no ghost value, and hands out nothing to
  change.
- Nothing else takes a set to change it, or by value: no function beside, no trait of `Group` except its model, no
  impl for a type with a set in it or for every type. No type and no name stands for `Group`, no macro makes a call,
  and none of its fields is public.
- The file of such a call has the definitions that TELLS names from where FROM says, under their own names."""
import re

CRATE = "link_group"
UNCHANGED = {"accepted": "self.new.accepted ≡ self.old.accepted", "gone": "self.new.gone ≡ self.old.gone"}
# What a call adds, by its name and the list.
TELLS = {
    "send": {"accepted": "if_ok result (msu ∷ [])"},
    "retrieve": {"gone": "if_ok result (acknowledged (told_front (slice_get self.old.links link)))"},
    "abandon": {"gone": "if_ok result (unsure (unacknowledged_at (slice_get self.old.links link)))"},
    "line_in": {"gone": "acknowledged (left_between (held_at self.old link) (held_at self.new link))"},
    "command": {"gone": "if_ok result (unsure (cleared_at command (slice_get self.old.links link)))"},
}
# Where the definitions in those words come from.
FROM = {
    "if_ok": "link_group.specs.Gone",
    "acknowledged": "link_group.specs.Gone",
    "unsure": "link_group.specs.Gone",
    "told_front": "link_group.specs.Gone",
    "unacknowledged_at": "link_group.specs.Gone",
    "left_between": "link_group.specs.Gone",
    "held_at": "link_group.specs.Laws",
    "cleared_at": "link_group.specs.Commanding",
    "slice_get": "std.specs.Prelude",
}
# What makes a set: it takes none.
MAKERS = {"new"}
FUNCTION = re.compile(r'^( *)(pub )?(pub\(\w+\) )?((?:const |async |unsafe |extern "\w+" |default )*)fn (\w+)', re.M)
IMPL = re.compile(r"^( *)(?:unsafe )?impl\b(.*?)\{", re.M | re.S)
CLAUSE = re.compile(r"^\s*(requires|ensures)\b\*?\s*(\w*)\s*\{(.*)\}\s*$", re.M)
TYPE = re.compile(r"^ *(?:pub(?:\(\w+\))? )?(struct|enum|type|trait|union) (\w+)(.*?)^(?=\S)", re.M | re.S)
SHARED = re.compile(r"&(?:'\w+ )?Group\b|Snapshot<Group>")


def bare(text):
    """A file of code without its comments, the contents of its texts and its tests."""
    text = re.sub(r'"(?:[^"\\\n]|\\.)*"', '""', text)
    text = re.sub(r"//.*", "", text)
    text = re.sub(r"/\*.*?\*/", "", text, flags=re.S)
    return re.sub(r"^#\[cfg\(test\)\]\nmod tests \{.*?^\}", "", text, flags=re.M | re.S)


def block(text, start, indent):
    """What stands from a place to the end of the item that begins there."""
    end = re.compile(rf"^{indent}\}}|\{{\}}$", re.M).search(text, start)
    return text[start : end.end() if end else len(text)]


def impls(text):
    """The impls of a file: the head's words, and the text."""
    for it in IMPL.finditer(text):
        head = " ".join(it[2].split("ghost ")[0].split())
        yield head, block(text, it.start(), it[1])


def functions(text):
    """The functions of a text: (is it public, name, its head up to its body)."""
    for it in FUNCTION.finditer(text):
        body = re.compile(rf"^{it[1]}\{{|\{{ *$|\{{.*\}} *$|;$", re.M)
        at = next(
            (b.start() for b in body.finditer(text, it.end()) if not clause_line(text, b.start())), len(text)
        )
        yield bool(it[2]), it[5], text[it.start() : at]


def clause_line(text, at):
    begun = text.rfind("\n", 0, at) + 1
    return re.match(r"\s*(requires|ensures|ghost|decreases)\b", text[begun:])


def signature(head):
    """The head's parameters and result, without its clauses."""
    return " ".join(re.split(r"^\s*(?:requires|ensures|ghost|decreases)\b", head, maxsplit=1, flags=re.M)[0].split())


def receiver(head):
    given = re.search(r"\(\s*((?:mut )?(?:&(?:'\w+ )?(?:mut )?)?self\b[^,)]*)", signature(head))
    return given[1].strip() if given else None


def wanted(name):
    """The two clauses of a call."""
    more = TELLS.get(name, {})
    return {it: f"{words} ++ {more[it]}" if it in more else words for it, words in UNCHANGED.items()}


def telling(name, head):
    """What a call of a set lacks that may change it."""
    if receiver(head) not in ("&mut self",):
        yield "takes the set otherwise than by `&mut self`"
    if "&mut" in signature(head).split("->", 1)[-1] and "->" in signature(head):
        yield "hands out what a caller may change"
    if re.search(r"^\s*ghost\b", head, re.M):
        yield "has a ghost value"
    said = [(it[2], " ".join(it[3].split())) for it in CLAUSE.finditer(head) if it[1] == "ensures"]
    for clause, words in wanted(name).items():
        if [it for label, it in said if label == clause] != [words]:
            yield f"has no clause `{clause}` that says {words}"


def imported(text, name):
    """The definitions in a call's words that its file has from elsewhere, or by another name."""
    words = " ".join(TELLS.get(name, {}).values())
    for it, place in FROM.items():
        if re.search(rf"\b{it}\b", words):
            lists = re.findall(r"ghost use Rattle\.([\w.]+)\.\{([^}]*)\}", text)
            places = [where for where, names in lists if re.search(rf"\b{it}\b(?! as\b)", names)]
            if places != [place] or re.search(rf"\bas {it}\b", text):
                yield f"doesn't have `{it}` from {place}"


def of_group(text, head, part):
    """The faults of an impl of a set."""
    if head not in ("Group", "Model for Group"):
        yield f"impl {head}: a set has no trait except its model"
    for public, name, of in functions(part):
        given, taken = receiver(of), signature(of).split("->", 1)[0]
        if public and given != "&self" and not (name in MAKERS and given is None):
            yield from (f"Group::{name} {why}" for why in [*telling(name, of), *imported(text, name)])
        elif public and "&mut" in signature(of).split("->", 1)[-1] and "->" in signature(of):
            yield f"Group::{name} hands out what a caller may change"
        if public and re.search(r"\b(Self|Group)\b", taken):
            yield f"Group::{name} takes a second set"


def beside(text):
    """The faults of what isn't an impl of a set."""
    for public, name, of in functions(text):
        taken = SHARED.sub("", signature(of).split("->", 1)[0])
        if re.search(r"\bGroup\b", taken):
            yield f"{name} takes a set to change it, or by value"
    for it in TYPE.finditer(text + "\n;"):
        if it[2] != "Group" and re.search(r"\bGroup\b", SHARED.sub("", it[3])):
            yield f"{it[1]} {it[2]} has a set in it"
        if it[2] == "Group" and re.search(r"^ +pub \w", it[3], re.M):
            yield "struct Group has a public field"
    if re.search(r"\bGroup as \w|\bmacro_rules!", text):
        yield "a name or a macro stands for a set or its calls"


def lacking(root):
    """What is to be mended, a line each."""
    for path in sorted((root / "crates" / CRATE / "src").rglob("*.rt")):
        text = bare(path.read_text())
        rest, said = text, []
        for head, part in impls(text):
            kind = head.split(" for ")[-1]
            if re.search(r"\bGroup\b", head):
                said += of_group(text, head, part)
                rest = rest.replace(part, "")
            elif re.fullmatch(r"(?:&(?:mut )?)?[A-Z]\w?", kind.split(" where")[0].strip()):
                said.append(f"impl {head}: of every type, so of sets too")
        said += beside(rest)
        yield from (f"crates/{CRATE}/{path.relative_to(root / 'crates' / CRATE)}: {why}" for why in said)
