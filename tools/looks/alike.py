"""Lists the pairs of places in sources, definitions and proofs that share many lines: the same ones, or ones of the
same shape with other names.

usage: tools/looks/alike [--lines N] [--most N] [--same] [PART ..]
           12 lines or more, at most 200 pairs; --same without those that share only the shape;
    PART: src, specs or proofs, or crates by their names; else all

It runs `duplicates` over copies, since that command doesn't know the endings .rt and .antt: imports, contracts' imports
and remarks are blank lines there, so the numbers of the lines are those of the files. A pair is a place to look and no
fault. Ends with status 2 where there is no `duplicates`."""
import pathlib
import re
import shutil
import subprocess
import sys
import tempfile

ROOT = pathlib.Path(__file__).resolve().parents[2]
PARTS = ("src", "specs", "proofs")
ENDINGS = {".rt": ".rs", ".antt": ".hs"}
IMPORT = re.compile(r"^(?:pub |ghost )*(?:use|mod|pub mod)\s[^{;\n]*(?:\{[^}]*\}?)?[^\n]*", re.M)
REMARK = re.compile(r"^\s*(?:--|//).*$", re.M)


def blank(found):
    """As many line ends as what was found has."""
    return "\n" * found[0].count("\n")


def copied(crates, folder, parts, names):
    """Copies the files, with endings that `duplicates` knows."""
    for file in sorted(it for ending in ENDINGS for it in crates.glob(f"*/*/**/*{ending}")):
        place = file.relative_to(crates)
        if place.parts[1] not in parts or names and place.parts[0] not in names:
            continue
        copy = folder / place.with_suffix(ENDINGS[file.suffix])
        copy.parent.mkdir(parents=True, exist_ok=True)
        copy.write_text(REMARK.sub(blank, IMPORT.sub(blank, file.read_text())))


def number(words, option, usual):
    """The number after an option, which is removed; else the usual one."""
    if option not in words:
        return usual
    at = words.index(option)
    _, found = words[at], int(words[at + 1])
    del words[at : at + 2]
    return found


def main(words):
    if shutil.which("duplicates") is None:
        print("tools/looks/alike: there is no `duplicates` on the PATH", file=sys.stderr)
        return 2
    lines, most = number(words, "--lines", 12), number(words, "--most", 200)
    parts = [it for it in words if it in PARTS] or PARTS
    names = [it for it in words if it not in PARTS and it != "--same"]
    with tempfile.TemporaryDirectory() as folder:
        copied(ROOT / "crates", pathlib.Path(folder), parts, names)
        asked = subprocess.run(
            ["duplicates", "--repo", folder, "--min-lines", str(lines), "--most", str(most), "--seconds", "600"],
            capture_output=True,
            text=True,
        )
    for line in asked.stdout.splitlines():
        if "--same" not in words or " shape" not in line:
            print(re.sub(r"\.rs\b", ".rt", re.sub(r"\.hs\b", ".antt", line)))
    return asked.returncode


if __name__ == "__main__":
    sys.exit(main(sys.argv[1:]))
