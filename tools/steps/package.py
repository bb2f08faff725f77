"""Makes two Debian packages of a program with tools/package, has lintian read them, and tries them in a root of their
own: installs the first, runs two link sets by the command lines of mtp2@.service (no systemd runs there), has them
bring a link up and exchange messages, installs the second over it while they run, ends them as the unit does, runs them
again, has logrotate rotate a log, completes words in bash and fish, removes the package and looks for what is left.
Then systemd-nspawn boots that root, and systemd runs both sets: start, upgrade, stop, a set that is killed, removal.

usage: tools/steps/package [--here | --root TAR]
           of crates/mtp2_play/out/mtp2_play, or of the program that MTP2_PLAY names, in a root of Debian 12 that
           debootstrap makes in some minutes; if it can't, as with --here
           --here   in this machine's own root, with an overlay that takes all that is written
           --root   in a root of Debian 12 from a tar file, made by `tools/steps/package --make-root TAR`

It needs root's rights, and packages of Debian: dpkg-dev, binutils, lintian, debootstrap, systemd-container; with --here
also logrotate, man-db, fish and zsh. It says what it skips if one of these is missing. The last line is `N passed, M
failed`, and the status 1 if one failed."""
import contextlib
import os
import pathlib
import shutil
import subprocess
import sys
import tempfile

from tools.steps.built import PLAY, Count, missing
from tools.steps.roots import LIMIT, Booted, Unit, bootstrapped, cleared, ended_well, made_room
from tools.steps.tied_ends import Reader, message, until

ROOT = pathlib.Path(__file__).resolve().parents[2]
NEEDED = ["dpkg-deb", "dpkg-shlibdeps", "strip", "objcopy"]
VERSIONS = ("1.0+trial1", "1.0+trial2")
SETS = ("near", "far")


class Skipped(str):
    """Why a case wasn't tried, in the place of its fault."""


def lacking(room, command):
    """Says that a case isn't tried, if the root lacks this command."""
    found = any(room.at(f"/usr/{it}/{command}").exists() for it in ("bin", "sbin"))
    return None if found else Skipped(f"no {command}")


def make_root(tar):
    """Makes a root, and keeps it as a tar file. Returns the status."""
    with tempfile.TemporaryDirectory() as name:
        root = pathlib.Path(name) / "root"
        if why := bootstrapped(root) or ended_well("tar", "-C", root, "-cf", tar, "."):
            print(f"package: {why}")
        return 1 if why else 0


def packages(folder):
    """The packages of both versions."""
    for version in VERSIONS:
        words = [ROOT / "tools" / "package", "--program", PLAY, "--version", version, folder]
        yield pathlib.Path(subprocess.run(words, check=True, capture_output=True, text=True).stdout.strip())


def read_by_lintian(package):
    """What lintian calls an error."""
    done = subprocess.run(["lintian", "--allow-root", package], capture_output=True, text=True)
    return [it for it in (done.stdout + done.stderr).splitlines() if it.startswith("E:")]


def settings(room):
    """Writes the settings of two ends whose lines are FIFOs, tied directly."""
    lines = room.at("/srv")
    for name in ("a0", "b0"):
        os.mkfifo(lines / name)
        os.chmod(lines / name, 0o666)
    for at, name in enumerate(SETS):
        come, go = ("a0", "b0") if at == 0 else ("b0", "a0")
        room.at(f"/etc/mtp2/{name}.conf").write_text(
            f'# settings\nMODE=basic\nLINKS="--link /srv/{come},/srv/{go}"\nOWN={at + 1}\nPEER={2 - at}\n'
            'OPTIONS="--ahead 8"\n'
        )


def exchanged(units, number):
    """The fault of a message each way, if it doesn't come."""
    for one, other, own in (*zip(units, units[::-1], (1, 2)),):
        hexadecimal = message(own, 3 - own, number)
        if not until(lambda: one.told.count("0 tested") >= one.starts, LIMIT):
            return f"{one.name}: the link doesn't come into service: {one.told.lines[-8:]}"
        one.order(f"send {hexadecimal}")
        if not until(lambda: other.told.count(f"0 message {hexadecimal}"), 60):
            return f"{other.name}: no message comes: {other.told.lines[-8:]}"
    return None


def ended(units):
    """The fault of an end by the unit's commands."""
    found = [it.stop() for it in units]
    return None if found == [(0, [0])] * 2 else str(found)


def completed(room):
    """The faults of completions: of values in bash, fish and zsh, of a file in zsh."""
    bash = "source /usr/share/bash-completion/completions/mtp2; COMP_WORDS=(mtp2 set --bits ''); COMP_CWORD=3; _mtp2"
    done = room.run("bash", "-c", f'{bash}; echo "${{COMPREPLY[@]}}"')
    yield "completion of bash", None if done.stdout == "low high\n" else f"{done.stdout!r} {done.stderr!r}"
    yield "completion of fish", lacking(room, "fish") or typed_in_fish(room)
    files = ["q703", "standard", "settings.sdl"]
    yield "completion of zsh", lacking(room, "zsh") or typed_in_zsh(room, "mtp2 set --bits ", ["low", "high"])
    yield "completion of zsh: files", lacking(room, "zsh") or typed_in_zsh(room, "mtp2 set --set ", files)


def typed_in_fish(room):
    """What is wrong with what fish completes."""
    done = room.run("fish", "-c", "complete -C 'mtp2 set --bits '")
    words = [it.split("\t")[0] for it in done.stdout.splitlines()]
    return None if words == ["high", "low"] else repr(done.stdout + done.stderr)


def typed_in_zsh(room, typed, wanted):
    """What is wrong with what zsh lists after these words: it completes only at a terminal."""
    terminal, inner = os.openpty()
    room.at("/tmp/settings.sdl").touch()
    begun = "cd /tmp; PS1=; autoload -Uz compinit; compinit -u -d /tmp/zsh.dump; print ready$((1))\n"
    how = {**room.how(TERM="dumb"), "stdin": inner, "stdout": inner, "stderr": inner, "start_new_session": True}
    with subprocess.Popen(room.words(["zsh", "-f", "-i"], None), **how) as shell:
        os.close(inner)
        listed = Reader(open(terminal, closefd=False, errors="replace"))
        os.write(terminal, begun.encode())
        right = until(lambda: listed.count("ready1"), 60)
        os.write(terminal, f"{typed}\t\n".encode())
        right = right and until(lambda: all(listed.count(it) for it in wanted), 60)
        shell.kill()
    os.close(terminal)
    for name in ("settings.sdl", "zsh.dump"):
        room.at(f"/tmp/{name}").unlink(missing_ok=True)
    return None if right else repr(listed.lines)


def explained(room):
    """The faults of manual pages."""
    for page in ("mtp2", "mtp2-set", "mtp2@.service"):
        yield f"man {page}", lacking(room, "man") or shown(room, page)


def shown(room, page):
    """What is wrong with a manual page."""
    done = room.run("man", "--warnings", page)
    sections = [it for it in ("NAME", "SEE ALSO") if it not in done.stdout]
    return f"{done.stderr} no {sections}" if done.stderr or sections else None


def logged(room, unit):
    """The fault of a log that logrotate moves away while the set writes it."""
    unit.variables["REPORTS"] = log = f"/var/log/mtp2/{unit.name}.reports"
    unit.start()
    path, old = room.at(log), room.at(log + ".1")
    if not until(lambda: path.exists() and "ok start" in path.read_text(), 60):
        return "no report is in the log"
    done = room.run("logrotate", "--force", "/etc/logrotate.d/marblefig")
    unit.order("unsure")
    right = until(lambda: path.exists() and "unsure 0" in path.read_text(), 60) and "ok start" in old.read_text()
    unit.stop()
    return None if right and not done.returncode else f"{done.stderr} {path.exists()} {old.exists()}"


def installed(room, package):
    """The fault of an installation."""
    shutil.copy(package, room.at("/tmp"))
    done = room.run("dpkg", "-i", f"/tmp/{package.name}")
    room.at(f"/tmp/{package.name}").unlink()
    return (done.stdout + done.stderr)[-500:] if done.returncode else None


def removed(room, before):
    """The fault of a removal, and of a purge: what is left."""
    done = room.run("dpkg", "--remove", "marblefig")
    left = [it for it in ("/usr/bin/mtp2", "/run/mtp2", "/usr/share/doc/marblefig") if room.at(it).exists()]
    yield "removal", f"{done.stderr} {left}" if done.returncode or left else None
    done = room.run("dpkg", "--purge", "marblefig")
    left = room.left(before)
    yield "purge: nothing left", f"{done.stderr} {left}" if done.returncode or left else None


def lived(room, first, second):
    """What a package is for, from its installation to its removal."""
    before = room.files()
    yield "installation", installed(room, first)
    said = room.run("mtp2", "--version")
    yield "the program runs", None if said.stdout.startswith("mtp2_play ") else said.stderr
    settings(room)
    said = room.run("systemd-analyze", "verify", "--man=no", "mtp2@near.service")
    yield "the service is one of systemd", said.stderr or None
    units = [Unit(room, it) for it in SETS]
    with contextlib.ExitStack() as over:
        for it in units:
            over.callback(it.end)
            it.start()
        yield "a link comes into service", exchanged(units, 1)
        yield "an upgrade while both sets run", installed(room, second) or exchanged(units, 2)
        yield "both sets end in order", ended(units)
        for it in units:
            it.start()
        yield "both sets run again on the same FIFOs", exchanged(units, 3)
        yield "both sets end in order again", ended(units)
        yield "logrotate", lacking(room, "logrotate") or logged(room, units[0])
    yield from explained(room)
    yield from completed(room)
    shutil.rmtree(room.at("/srv"))
    room.at("/srv").mkdir()
    yield from removed(room, before)


def by_systemd(room, first, second):
    """The life of two sets under systemd, in a root in which nothing is installed."""
    room.mount_again()
    with room:
        fault = installed(room, first)
        settings(room)
        shutil.copy(second, room.at("/srv"))
    if fault:
        yield "installation for systemd", fault
        return
    room.mount_again()
    with Booted(room) as booted:
        if booted.runs():
            yield from served(booted, f"/srv/{second.name}")
        else:
            yield None, "systemd-nspawn boots no root here"
    room.unmount()


def served(booted, second):
    """Two sets as services: they start, exchange messages while the package is upgraded, end in order, start again,
    also after one was killed, and end in order as the package is removed."""
    ends = [Served(booted, it) for it in SETS]
    started = booted.run("systemctl", "start", *(it.unit for it in ends))
    yield "systemctl start", exchanged(ends, 1) if not started.returncode else started.stderr
    upgraded = booted.run("dpkg", "-i", second)
    yield "an upgrade under systemd", exchanged(ends, 2) if not upgraded.returncode else upgraded.stderr
    stopped = booted.run("systemctl", "stop", *(it.unit for it in ends))
    results = [it.shown("Result", "ExecMainStatus", "NRestarts") for it in ends]
    yield "systemctl stop", None if results == [["success", "0", "0"]] * 2 else f"{results} {stopped.stderr}"
    booted.run("systemctl", "start", *(it.unit for it in ends))
    for it in ends:
        it.starts += 1
    yield "systemctl start again", exchanged(ends, 3)
    booted.run("kill", "-KILL", ends[0].shown("MainPID")[0])
    ends[0].starts += 1
    ends[1].starts += 1
    yield "a set that fails starts again", exchanged(ends, 4)
    removed = booted.run("dpkg", "--remove", "marblefig")
    results = [it.shown("ActiveState", "Result", "ExecMainStatus") for it in ends]
    fine = not removed.returncode and results == [["inactive", "success", "0"]] * 2
    yield "a removal ends the sets in order", None if fine else f"{removed.stderr} {results}"


class Served:
    """A set that systemd runs."""

    def __init__(self, booted, name):
        self.booted, self.name, self.unit, self.starts = booted, name, f"mtp2@{name}", 1
        self.orders = f"/run/mtp2/{name}/orders"
        words = [
            "sh",
            "-c",
            f"until [ -p /run/mtp2/{name}/reports ]; do sleep 0.1; done; cat <>/run/mtp2/{name}/reports",
        ]
        enter = booted.entered(*words)
        self.told = Reader(subprocess.Popen(enter, stdout=subprocess.PIPE, text=True).stdout)

    def order(self, *orders):
        self.booted.run("sh", "-c", f"echo '{'; '.join(orders)}' >{self.orders}")

    def shown(self, *names):
        """These properties, in this order; systemctl has an order of its own."""
        done = self.booted.run("systemctl", "show", *(f"--property={it}" for it in names), self.unit)
        found = dict(it.split("=", 1) for it in done.stdout.splitlines())
        return [found.get(it) for it in names]


def tried(count, folder, words):
    first, second = packages(folder)
    if shutil.which("lintian"):
        count.case("lintian", "; ".join(read_by_lintian(first)) or None)
    else:
        count.skip(1, "no lintian")
    room, why = made_room(folder, words)
    if why:
        count.skip(1, f"no root of Debian: {why}")
        return
    with room:
        for name, fault in lived(room, first, second):
            count.skip(1, fault) if isinstance(fault, Skipped) else count.case(name, fault)
    if not shutil.which("systemd-nspawn"):
        count.skip(6, "no systemd-nspawn")
        return
    for name, fault in by_systemd(room, first, second):
        count.case(name, fault) if name else count.skip(6, fault)


def main(words):
    if words[:1] == ["--make-root"]:
        return make_root(words[1])
    if missing(PLAY):
        return 2
    count, lacking = Count("package"), [it for it in NEEDED if not shutil.which(it)]
    if lacking or os.geteuid():
        count.skip(1, f"no {', '.join(lacking)}" if lacking else "not run by root")
        return count.end()
    if not os.environ.get("PACKAGE_APART"):
        # (what is mounted is gone with this process)
        os.environ["PACKAGE_APART"] = "1"
        os.execvp("unshare", ["unshare", "--mount", sys.executable, "-m", "tools.steps.package", *words])
    folder = pathlib.Path(tempfile.mkdtemp(prefix="package-"))
    try:
        tried(count, folder, words)
    finally:
        cleared(folder)
    return count.end()


if __name__ == "__main__":
    sys.exit(main(sys.argv[1:]))
