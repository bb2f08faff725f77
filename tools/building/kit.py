"""The kit's own `rt` as a module, for the tools that call its functions, and all replacements in the kit.

What is replaced, why, and what change of the kit would make that needless:

- `Crate.below` and `Crate.stamp` (`Sums`): `rt` asks for the sum of each library on every way down crates.txt, which
  takes minutes in an upper crate. Here each is asked once a run. Needless once `rt` keeps the sums of a run.
- `Crate.is_built`, `Crate.build_rlib`, `take_rlib` (`Libraries`): `rt check` builds the libraries below with all their
  proofs, and an upper crate then loads these, minutes and gigabytes. Here they are built with only their statements, as
  `rt ci` does. Needless once `rt check` builds libraries with `--statements`.
- `Crate.front_end`: before a check `rt` looks through the sources of all crates below, ten minutes and 10 GB in an
  upper crate. Here it doesn't; the build of each library finds what that would. Needless once `rt` looks only at what
  isn't built.
- LD_PRELOAD and MIMALLOC_PURGE_DELAY of what it starts (`large_pages`): the prover takes a sixth less of processor with
  large pages. Needless once the prover asks for them itself.
- the `rt` that `rt plant` calls (`plant`): it is this one. Needless with the first three.
- `KIT` and `RATTLE` of `rt try` (`keeping`): it compiles a program as one module on one processor, with the address
  sanitizer, runs it once and throws it away. Here it finds a kit with another compiler and a linker that leaves a copy
  of what it made, and looks through no names beside that. Needless once `rt try` can compile side by side, leave the
  sanitizer out and keep the program.
- `stop`, by which `rt` ends where it refuses a file (`refusals`): here what it says is kept, so that all files are
  asked. Needless once `rt` says all that it refuses.

What is called and not replaced: `in_lanes` (tools/building/build: `rt run` builds one library after the other),
`checked` and `must_fail` (tools/building/wrong_bodies.py: `rt must-fail` tries each edit in a check of its own), `fmt`,
`read_edit`.

The gate is `rt ci`, in which nothing is replaced."""
import contextlib
import importlib.machinery
import importlib.util
import os
import pathlib
import shlex
import shutil
import subprocess
import sys
import tempfile
import threading
import types

from tools.steps.built import library

ROOT = pathlib.Path(__file__).resolve().parents[2]
# A linker: the real one, but for what is linked whole, which is the sanitizer's library; it leaves a copy.
LINKER = """#!/bin/bash
words=() dropped=
for word; do
    case $word in
    {drops}
    *) [ -n "$dropped" ] || words+=("$word") ;;
    esac
done
{real} "${{words[@]}}" || exit
while [ $# -gt 1 ]; do
    [ "$1" != -o ] || cp "$2" {made}
    shift
done
"""
DROPS = "--whole-archive) dropped=1 ;; --no-whole-archive) dropped= ;;"


def large_pages():
    """A library to load before the prover, by which it asks for large pages (tools/c/pages.c): made once, where that
    can be had. A check takes a sixth less of processor so."""
    source, made = ROOT / "tools" / "c" / "pages.c", ROOT / "out" / "pages.so"
    # (LD_PRELOAD has no way to write these)
    if any(it in str(made) for it in " :"):
        return None
    try:
        if not made.exists() or made.stat().st_mtime < source.stat().st_mtime:
            made.parent.mkdir(exist_ok=True)
            with tempfile.TemporaryDirectory(dir=made.parent) as folder:
                found = library(pathlib.Path(folder), "pages")
                if found is None:
                    return None
                os.replace(found, made)
    except (OSError, subprocess.CalledProcessError):
        return None
    return str(made)


def loaded(path, name):
    """A program of the kit as a module of this name."""
    loader = importlib.machinery.SourceFileLoader(name, path)
    module = importlib.util.module_from_spec(importlib.util.spec_from_loader(name, loader))
    sys.modules[name] = module
    loader.exec_module(module)
    return module


def kit():
    """Whatever `rt` names, read as a module, with what is replaced in it; None where there is no `rt`."""
    found = shutil.which("rt")
    if not found:
        return None
    path = os.path.realpath(found)
    # (the prover keeps the memory that it frees for its own next use, and hands no page back before it ends: two page
    # faults in five are gone so)
    os.environ.setdefault("MIMALLOC_PURGE_DELAY", "-1")
    if pages := large_pages():
        os.environ.setdefault("LD_PRELOAD", pages)
    sys.dont_write_bytecode = True
    # (`rt` finds the rest of itself beside itself)
    sys.path.insert(0, os.path.dirname(path))
    module = loaded(path, "kit_rt")
    Sums(module.rtlib.Crate)
    if "--statements" in module.rtlib.help_of("build"):
        module.libraries = Libraries(module)
    return module


def by_hand(root, name):
    """The edits of a crate that aren't the gate's: tools/edits tries them."""
    return sorted((root / "edits" / name).glob("*.edit"))


@contextlib.contextmanager
def refusals(rt, said):
    """Has `rt` add to a list what it would end with, and go on."""
    before = rt.stop, rt.rtlib.stop
    rt.stop = rt.rtlib.stop = said.append
    try:
        yield
    finally:
        rt.stop, rt.rtlib.stop = before


def plant(rt, words):
    """Runs `rt plant` with these words, by the parts of `rt` that are replaced here: libraries that `rt ci` kept are
    taken as they are."""
    path = os.path.join(os.path.dirname(rt.__file__), "rt-plant")
    module = types.ModuleType("kit_plant")
    module.__file__ = path
    importlib.machinery.SourceFileLoader("kit_plant", path).exec_module(module)
    module.rt = rt.rtlib
    return module.main(*words)


def linked(folder, real, but):
    """Fills a folder with links to what is in another, but for these names."""
    folder.mkdir()
    for it in real.iterdir():
        if it.name not in but:
            (folder / it.name).symlink_to(it)


def script(file, text):
    """Writes a script that can be run."""
    file.write_text(text)
    file.chmod(0o755)


def keeping(rt, folder, made, compiler):
    """Has `rt try` take a kit, made in this folder, whose linker leaves a copy of what it made. Where a compiler is
    named, it is called in place of clang, with clang and a folder beside the copy as its first words, and the linker
    leaves the sanitizer out."""
    real = pathlib.Path(rt.rtlib.KIT)
    tools, ours = real / "toolchain" / "bin", folder / "toolchain" / "bin"
    linked(folder, real, ["toolchain"])
    linked(folder / "toolchain", real / "toolchain", ["bin"])
    linked(ours, tools, ["ld.lld", "clang"] if compiler else ["ld.lld"])
    linker, copied = (shlex.quote(str(it)) for it in (tools / "ld.lld", made))
    script(ours / "ld.lld", LINKER.format(drops=DROPS if compiler else "", real=linker, made=copied))
    if compiler:
        words = [*compiler, tools / "clang", made.parent / "parts"]
        script(ours / "clang", f'#!/bin/bash\nexec {shlex.join(map(str, words))} "$@"\n')
    # (beside a try `rt` looks through the names of all crates once more; what it would refuse so the gate refuses)
    rt.rtlib.RATTLE = "/bin/true"
    rt.rtlib.KIT = str(folder)


class Sums:
    """Has `rt` ask each library below a crate once a run: which libraries stand below it, and for the sum over its
    sources.

    `rt` itself asks for the sums of those below on each way down through crates.txt. A crate that is asked for itself,
    and not as one below another, has its own files read anew each time, so that a change while it is proved is still
    seen."""

    def __init__(self, crates):
        self.summed, self.kept, self.sums, self.inside = crates.stamp, {}, {}, threading.local()
        crates.below = lambda crate: list(self.below(crate))
        crates.stamp = lambda crate: self.stamp(crate)

    def below(self, crate):
        if crate.folder not in self.kept:
            found = {}
            for dep in crate.deps:
                found.update((id(it), it) for it in [*self.below(dep), dep])
            self.kept[crate.folder] = list(found.values())
        return self.kept[crate.folder]

    def stamp(self, crate):
        depth = getattr(self.inside, "depth", 0)
        if not depth or crate.folder not in self.sums:
            self.inside.depth = depth + 1
            try:
                self.sums[crate.folder] = self.summed(crate)
            finally:
                self.inside.depth = depth
        return self.sums[crate.folder]


class Libraries:
    """Has `rt` build each library with what other crates can cite of it and without its proofs, as `rt ci` does.

    A library as `rt check` builds it has all its proofs, and a crate loads those of every function that it calls and,
    by these, of all that these call, down to the lowest crate: minutes of processor and gigabytes in an upper crate,
    before its own first function. What is proved and what is stated are the same. A library that `rt ci` proved and
    kept on this machine is taken as it is. Else one without its proofs is proved from nothing; where a check of the
    crate left work in out/, the library is built over that, in seconds, proofs and all. Statements fit only the very
    libraries that they were built over, so which these were is kept beside them, and where one is another now, the
    library is built again."""

    def __init__(self, rt):
        self.rt, self.lib, self.store = rt, rt.rtlib, None
        crates = self.lib.Crate
        self.built, self.whole = crates.is_built, crates.build_rlib
        crates.is_built = lambda crate: self.is_built(crate)
        crates.build_rlib = lambda crate, flags, anew: self.build(crate, flags, anew)
        # (a quick pass over the sources of all crates below, before any of them is built)
        crates.front_end = lambda _: 0
        # (what another checkout built fits only what stands on that very library there; what `rt ci` kept fits in each)
        if hasattr(rt, "take_rlib"):
            self.elsewhere, rt.take_rlib = rt.take_rlib, self.take_or_elsewhere

    def folder(self, crate):
        return f"{crate.folder}/out/rlib"

    def over(self, crate):
        """Which libraries stand below a crate, by their sums."""
        return "\n".join(f"{it.name} {self.lib.sum_of(f'{it.rlib}/format')}" for it in crate.below())

    def note(self, crate, below, stamp):
        for name, text in (("over", below), ("stamp", stamp)):
            with open(f"{self.folder(crate)}/{name}", "w", encoding="utf-8") as it:
                it.write(text)

    def empty(self, crate):
        shutil.rmtree(self.folder(crate), ignore_errors=True)
        os.makedirs(self.folder(crate))

    def is_built(self, crate):
        return self.built(crate) and self.lib.text_of(f"{self.folder(crate)}/over") == self.over(crate)

    def key(self, crate):
        """The sum of all that a crate's proof reads, under which `rt ci` keeps it; nothing where it keeps nothing."""
        if not hasattr(self.rt, "Kept"):
            return None
        if self.store is None:
            self.rt.Crate.allowed = self.rt.handles_of(os.path.dirname(os.path.dirname(crate.folder)))
            self.store = self.rt.Kept([])
        for it in crate.below():
            if it.name not in self.store.rlibs:
                self.store.is_built(it)
        return self.store.key(crate)

    def is_proved(self, crate):
        """Whether `rt ci` proved this very crate on this machine, over the libraries that stand in out/."""
        key = self.key(crate)
        return bool(key and self.store.at) and os.path.isdir(self.store.place(crate, False, key))

    def take(self, crate):
        """Has the library that `rt ci` kept of the same files, over the same libraries, stand in out/, if there is one.
        Where a run of it is proving just that, it is waited for."""
        key = self.key(crate)
        if key is None:
            return False
        if self.store.give(crate, False, key):
            return True
        with self.store.in_turn(crate, False, key) as has_waited:
            return has_waited and self.store.give(crate, False, key)

    def take_or_elsewhere(self, crate):
        self.empty(crate)
        if self.take(crate):
            self.note(crate, self.over(crate), crate.stamp())
            return True
        return self.elsewhere(crate)

    def build(self, crate, flags, anew):
        if anew:
            return self.whole(crate, flags, anew)
        if self.is_built(crate):
            return 0
        stamp, below = crate.stamp(), self.over(crate)
        self.empty(crate)
        if self.take(crate):
            self.note(crate, below, stamp)
            return 0
        is_begun = crate.has_kept()
        words = [
            *crate.words(flags, keeps=is_begun),
            *(self.lib.KEPT if is_begun else ["--statements"]),
            "-o",
            crate.rlib,
        ]
        status = crate.call(self.lib.RATTLE, "build", *words)
        if status == 0 and stamp == crate.stamp():
            self.note(crate, below, stamp)
        return status
