"""Lists the pictures in docs/pictures that differ from those that `draw` makes of the sets `standard` and
examples/q703.sdl, and makes them anew.

usage: tools/pictures            the stale ones, one a line, and the status 1 if there are some
       tools/pictures --make     writes those that are stale, and takes away those of processes that are gone

The program is crates/mtp2_play/out/mtp2_play, else the one that bin/try compiles, where no source is newer, or that
MTP2_PLAY names; if there is none it says so and ends with 0. Of each set there is SET/block.dot, of each process
SET/PROCESS.svg and SET/PROCESS.states.dot. Where `dot` is on the PATH --make has it write block.svg and
PROCESS.states.svg beside them, and refuses a diagram of which it warns."""
import os
import pathlib
import shutil
import subprocess
import sys

ROOT = pathlib.Path(__file__).resolve().parents[1]
PICTURES = ROOT / "docs" / "pictures"
PROGRAMS = [
    ROOT / "crates" / "mtp2_play" / "out" / "mtp2_play",
    ROOT / "crates" / "mtp2_play" / "out" / "try" / "mtp2_play",
]
# The name of each set, and the word for it; one whose text isn't there has no pictures.
SETS = {"standard": "standard", "q703": ROOT / "examples" / "q703.sdl"}


def newest_source():
    """When the last of the sources was written."""
    folders = [it for crate in (ROOT / "crates").iterdir() for it in (crate / "src", crate / "specs") if it.is_dir()]
    return max(it.stat().st_mtime for folder in folders for it in folder.rglob("*") if it.is_file())


def program():
    """The program that draws, if one is there."""
    named = os.environ.get("MTP2_PLAY")
    if named:
        return named
    there = [it for it in PROGRAMS if it.exists() and it.stat().st_mtime >= newest_source()]
    return str(there[0]) if there else None


def run(*words):
    done = subprocess.run(words, capture_output=True, timeout=60)
    if done.returncode or done.stderr:
        sys.exit(f"tools/pictures: {' '.join(words)}: status {done.returncode}: {done.stderr.decode(errors='replace')}")
    return done.stdout


def processes(play, name):
    """The processes of a set, by what `check` prints."""
    lines = run(play, "check", name).decode().splitlines()
    return [it.split()[0] for it in lines if it.split()[1:2] == ["START"]]


def pictures(play):
    """The name of each picture, and its contents."""
    for name, word in SETS.items():
        if isinstance(word, pathlib.Path) and not word.exists():
            continue
        yield f"{name}/block.dot", run(play, "draw", word)
        for process in processes(play, word):
            yield f"{name}/{process}.svg", run(play, "draw", word, process)
            yield f"{name}/{process}.states.dot", run(play, "draw", word, process, "--states")


def make(path, text):
    path.parent.mkdir(parents=True, exist_ok=True)
    path.write_bytes(text)
    if path.suffix == ".dot" and shutil.which("dot"):
        path.with_suffix(".svg").write_bytes(run("dot", "-Tsvg", str(path)))


def gone(wanted):
    """Files of pictures that there are no more."""
    kept = {PICTURES / it for it in wanted} | {(PICTURES / it).with_suffix(".svg") for it in wanted}
    return [it for it in sorted(PICTURES.rglob("*")) if it.suffix in (".dot", ".svg") and it not in kept]


def main():
    play = program()
    if play is None:
        print("tools/pictures: there is no program of these sources to draw them (bin/try compiles one)")
        return 0
    wanted = dict(pictures(play))
    stale = [it for it, text in wanted.items() if not (PICTURES / it).exists() or (PICTURES / it).read_bytes() != text]
    over = gone(wanted)
    if sys.argv[1:] == ["--make"]:
        for it in stale:
            make(PICTURES / it, wanted[it])
        for it in over:
            it.unlink()
        return 0
    for it in stale:
        print(f"docs/pictures/{it}: isn't what `draw` makes")
    for it in over:
        print(f"{it.relative_to(ROOT)}: the picture of nothing")
    return 1 if stale or over else 0


sys.exit(main())
