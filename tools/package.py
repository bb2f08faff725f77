"""Makes a Debian package of the program: the program, manual pages and completions of shells (both from what its
`--help` says), a service of systemd with its settings and FIFOs, the pages of docs/ and examples. What goes in as it
is lies in packaging/. It prints the path of the package, marblefig_VERSION_ARCHITECTURE.deb.

usage: tools/package [--program FILE] [--version VERSION] [FOLDER]
           of the proved program, crates/mtp2_play/out/mtp2_play, into FOLDER (crates/mtp2_play/out)
           --program   of another one, for trials; the package says that this program isn't proved
           --version   the package's version; else the program's, the number of commits and the commit

Needs dpkg-dev and binutils, packages of Debian. Status 1 if the package can't be made, 2 if the proved program isn't
there or a source is newer."""
import argparse
import gzip
import hashlib
import os
import pathlib
import platform
import shutil
import subprocess
import sys
import tempfile
import time

from tools.packing import completions, helped, manual

ROOT = pathlib.Path(__file__).resolve().parent.parent
PROVED = ROOT / "crates" / "mtp2_play" / "out" / "mtp2_play"
NAME = "marblefig"
SHARED, PAGES = f"usr/share/{NAME}", f"usr/share/doc/{NAME}"
NEEDED = ["dpkg-deb", "dpkg-shlibdeps", "strip", "objcopy"]
# Files of packaging/, and where they go.
PLACED = {
    "mtp2@.service": "lib/systemd/system/mtp2@.service",
    "tmpfiles.conf": f"usr/lib/tmpfiles.d/{NAME}.conf",
    "sysusers.conf": f"usr/lib/sysusers.d/{NAME}.conf",
    "logrotate": f"etc/logrotate.d/{NAME}",
    "fifos.conf": f"{SHARED}/fifos.conf",
    "start.orders": f"{SHARED}/start.orders",
    "set.conf": f"{PAGES}/examples/set.conf",
    "copyright": f"{PAGES}/copyright",
    "lintian": f"usr/share/lintian/overrides/{NAME}",
}
SCRIPTS = ["postinst", "prerm", "postrm"]
# What of the repository goes to the pages; folders with all files that git has there.
SHOWN = ["README.md", "CHANGELOG.md", "docs", "examples/set", "examples/level3"]
# The parts of a program that run or are read as it runs: `strip` must leave them as they are.
KEPT = [".text", ".rodata", ".data"]
MAINTAINER = "Marblefig maintainers <maintainers@users.noreply.marblefig.example>"
SUMMARY = "SS7 signalling links (MTP level 2) and their changeover"
DESCRIPTION = """ The link side of an SS7 signalling point: up to 16 signalling links of ITU-T
 Q.703 between two points, and the changeover of Q.704 between them. Each
 link is on a channel of 64 kbit/s. Programs of level 3 attach by FIFOs.
 .
 It also checks, draws and runs the SDL process texts of a link."""


def git(*words):
    """What git says of this repository; nothing if it says nothing."""
    done = subprocess.run(["git", "-C", ROOT, *words], capture_output=True, text=True)
    return done.stdout.strip()


def is_current(program):
    """Whether no source is newer than a program."""
    sources = [ROOT / "crates.txt", *(ROOT / "crates").rglob("*")]
    newest = max(it.stat().st_mtime for it in sources if it.is_file() and "out" not in it.parts)
    return newest <= program.stat().st_mtime


def version_of(program, trial):
    """The version of a package: later commits have later versions, and a trial comes before the proved program."""
    count, commit = git("rev-list", "--count", "HEAD"), git("rev-parse", "--short=9", "HEAD")
    return helped.version(program) + (f"+git{count}.{commit}" if commit else "") + ("~trial" if trial else "")


def put(tree, path, content, mode=0o644):
    """Writes a file of the package."""
    place = tree / path
    place.parent.mkdir(parents=True, exist_ok=True)
    place.write_bytes(content if isinstance(content, bytes) else content.encode())
    place.chmod(mode)


def packed(text):
    """A text as gzip has it, alike each time."""
    return gzip.compress(text.encode(), 9, mtime=0)


def parts_of(program):
    """The octets of the parts that run."""
    with tempfile.TemporaryDirectory() as name:
        words = [word for it in KEPT for word in ("--dump-section", f"{it}={name}/{it}")]
        subprocess.run(["objcopy", *words, program, "/dev/null"], check=True)
        return [(pathlib.Path(name) / it).read_bytes() for it in KEPT]


def put_program(tree, program):
    """The program without its symbols."""
    place = tree / "usr/bin/mtp2"
    place.parent.mkdir(parents=True)
    shutil.copyfile(program, place)
    subprocess.run(["strip", "--remove-section=.comment", "--remove-section=.note", place], check=True)
    place.chmod(0o755)
    if parts_of(place) != parts_of(program):
        sys.exit("tools/package: strip changed what runs")


def put_helped(tree, program, version, date):
    """Manual pages, and completions of shells."""
    whole, commands = helped.program(program)
    pages = {"mtp2": whole, **{f"mtp2-{it.name}": it for it in commands}}
    see = [*((it, 1) for it in pages), ("mtp2@.service", 8)]
    for name, command in pages.items():
        put(tree, f"usr/share/man/man1/{name}.1.gz", packed(manual.page(command, date, version, see, f"/{PAGES}")))
    service = (ROOT / "packaging" / "mtp2@.service.8").read_text().replace("DATE", date).replace("VERSION", version)
    put(tree, "usr/share/man/man8/mtp2@.service.8.gz", packed(service))
    put(tree, "usr/share/bash-completion/completions/mtp2", completions.bash(whole, commands))
    put(tree, "usr/share/zsh/vendor-completions/_mtp2", completions.zsh(whole, commands))
    put(tree, "usr/share/fish/vendor_completions.d/mtp2.fish", completions.fish(whole, commands))


def put_files(tree):
    """What goes in as it is."""
    for name, path in PLACED.items():
        put(tree, path, (ROOT / "packaging" / name).read_bytes())
    for path in git("ls-files", "-z", *SHOWN).split("\0"):
        source = ROOT / path
        if path and source.is_file():
            put(tree, f"{PAGES}/{path}", source.read_bytes(), 0o755 if os.access(source, os.X_OK) else 0o644)
    (tree / "etc/mtp2").mkdir(parents=True)


def depended(program):
    """What the program needs: the C library from the version on whose symbols it names."""
    with tempfile.TemporaryDirectory() as name:
        (pathlib.Path(name) / "debian").mkdir()
        (pathlib.Path(name) / "debian" / "control").write_text(
            f"Source: {NAME}\n\nPackage: {NAME}\nArchitecture: any\n"
        )
        asked = ["dpkg-shlibdeps", "-O", str(program.resolve())]
        done = subprocess.run(asked, cwd=name, capture_output=True, text=True, check=True)
    return done.stdout.strip().removeprefix("shlibs:Depends=")


def put_control(tree, program, version, trial):
    """The package's own files: what it is, what is done as it comes and goes, and the sums of its files."""
    size = sum(-(-it.stat().st_size // 1024) for it in tree.rglob("*") if it.is_file())
    fields = {
        "Package": NAME,
        "Version": version,
        "Architecture": architecture(),
        "Maintainer": MAINTAINER,
        "Installed-Size": size,
        "Depends": f"{depended(program)}, systemd",
        "Suggests": "logrotate, socat",
        "Section": "comm",
        "Priority": "optional",
        "Description": SUMMARY,
    }
    more = " .\n For trials: this program was compiled without proofs.\n" if trial else ""
    sums = [f"{hashlib.md5(it.read_bytes()).hexdigest()}  {it.relative_to(tree)}\n" for it in files(tree)]
    put(tree, "DEBIAN/control", "".join(f"{k}: {v}\n" for k, v in fields.items()) + DESCRIPTION + "\n" + more)
    put(tree, "DEBIAN/md5sums", "".join(sums))
    put(tree, "DEBIAN/conffiles", f"/etc/logrotate.d/{NAME}\n")
    for it in SCRIPTS:
        put(tree, f"DEBIAN/{it}", (ROOT / "packaging" / it).read_bytes(), 0o755)


def put_changes(tree, version, when):
    """The changes, as Debian has them."""
    date = time.strftime("%a, %d %b %Y %H:%M:%S +0000", time.gmtime(when))
    said = f"  * CHANGELOG.md says what changed. Made from commit\n    {git('rev-parse', 'HEAD') or 'unknown'}."
    changes = f"{NAME} ({version}) unstable; urgency=medium\n\n{said}\n\n -- {MAINTAINER}  {date}\n"
    put(tree, f"{PAGES}/changelog.gz", packed(changes))


def files(tree):
    return sorted(it for it in tree.rglob("*") if it.is_file())


def architecture():
    """Debian's name of this machine's kind."""
    asked = subprocess.run(["dpkg", "--print-architecture"], capture_output=True, text=True)
    return asked.stdout.strip() or platform.machine()


def made(program, version, trial, folder):
    """Makes the package. Returns its path."""
    when = int(os.environ.get("SOURCE_DATE_EPOCH") or git("log", "-1", "--format=%ct") or time.time())
    date = time.strftime("%d %B %Y", time.gmtime(when))
    with tempfile.TemporaryDirectory() as name:
        tree = pathlib.Path(name) / "tree"
        put_program(tree, program)
        put_helped(tree, program, version, date)
        put_files(tree)
        put_changes(tree, version, when)
        put_control(tree, program, version, trial)
        for it in [tree, *tree.rglob("*")]:
            if it.is_dir():
                it.chmod(0o755)
            os.utime(it, (when, when))
        path = folder / f"{NAME}_{version}_{architecture()}.deb"
        words = ["dpkg-deb", "--root-owner-group", "-Zxz", "--build", tree, path]
        subprocess.run(words, check=True, stdout=sys.stderr, env={**os.environ, "SOURCE_DATE_EPOCH": str(when)})
    return path


def main(words):
    parser = argparse.ArgumentParser(prog="tools/package", description=__doc__.split("\n\n")[0])
    parser.add_argument("--program", type=pathlib.Path)
    parser.add_argument("--version")
    parser.add_argument("folder", nargs="?", type=pathlib.Path, default=PROVED.parent)
    asked = parser.parse_args(words)
    program, trial = asked.program or PROVED, asked.program is not None
    if lacking := [it for it in NEEDED if not shutil.which(it)]:
        print(f"tools/package: no {', '.join(lacking)}; Debian has them in dpkg-dev and binutils", file=sys.stderr)
        return 1
    if not os.access(program, os.X_OK) or not trial and not is_current(program):
        print(f"tools/package: {program} isn't there or is old: `bin/mtp2_play --version` builds it", file=sys.stderr)
        return 2
    asked.folder.mkdir(parents=True, exist_ok=True)
    try:
        print(made(program, asked.version or version_of(program, trial), trial, asked.folder))
    except subprocess.CalledProcessError as it:
        print(f"tools/package: {it}\n{it.stderr or ''}", file=sys.stderr)
        return 1
    return 0


if __name__ == "__main__":
    sys.exit(main(sys.argv[1:]))
