"""Roots in which a package is tried, for tools/steps/package: what a root is, what is left there, a service of systemd
whose commands this tool runs, and a root that systemd-nspawn boots."""
import contextlib
import os
import pathlib
import re
import shlex
import shutil
import stat
import subprocess
import tempfile

from tools.steps.tied_ends import Reader, until

SUITE, INCLUDED = "bookworm", "systemd,systemd-sysv,dbus,logrotate,man-db,bash-completion,fish,zsh"
PATH = "/usr/sbin:/usr/bin:/sbin:/bin"
# Seconds that a command may take, and that a link may take until it carries messages.
LIMIT = 180
# Where dpkg and other tools keep their own notes.
NOTES = re.compile(
    r"(var/(lib/(dpkg|systemd|logrotate|man-db)|cache|log)|tmp|run|proc|dev|sys)(/|$)|etc/(.*-|\.pwd\.lock)$"
)


class Room:
    """A root of its own: a folder, or an overlay over this machine's root whose changes are in `changed`."""

    def __init__(self, path, changed=None):
        self.path, self.changed = path, changed or path

    def __enter__(self):
        dev = self.path / "dev"
        for words in [["-t", "proc", "proc", self.path / "proc"], ["-t", "tmpfs", "tmpfs", dev]]:
            subprocess.run(["mount", *words], check=True)
        for name, minor in [("null", 3), ("zero", 5), ("urandom", 9), ("random", 8)]:
            os.mknod(dev / name, 0o666 | stat.S_IFCHR, os.makedev(1, minor))
            os.chmod(dev / name, 0o666)
        (dev / "fd").symlink_to("/proc/self/fd")
        # (no index of all manual pages is made each time that a package comes or goes)
        self.at("/var/lib/man-db/auto-update").unlink(missing_ok=True)
        return self

    def __exit__(self, *_fault):
        self.unmount()

    def unmount(self):
        # (lazily: something that was begun there may still run)
        for it in ("dev", "proc", ""):
            subprocess.run(["umount", "--lazy", self.path / it], stderr=subprocess.DEVNULL)

    def mount_again(self):
        """Mounts an overlay again that was unmounted."""
        if self.changed != self.path:
            mount_overlay(self.changed.parent, self.path)

    def run(self, *words, user=None, **how):
        """Runs a command in the root. Returns how it ended."""
        how = {**self.how(), "capture_output": True, "text": True, "timeout": LIMIT, **how}
        return run_in_time(self.words(words, user), how)

    def words(self, words, user=None):
        return ["chroot", *([f"--userspec={user}:{user}"] if user else []), str(self.path), *words]

    def how(self, **variables):
        return {"env": {"PATH": PATH, "HOME": "/tmp", "LC_ALL": "C.UTF-8", **variables}, "stdin": subprocess.DEVNULL}

    def at(self, path):
        return self.path / path.lstrip("/")

    def files(self, under=None):
        """All that is there except the notes of tools: of a file in etc the octets, of another one its size. Only what
        is written in an overlay; then what is under it, at the same places, is asked by another call."""
        found = {}
        for folder, folders, files in os.walk(self.changed):
            above = os.path.relpath(folder, self.changed).removeprefix(".")
            names = {it: os.path.join(above, it) for it in [*folders, *files]}
            kept = {it: path for it, path in names.items() if not NOTES.match(path)}
            # (what a note holds isn't looked at: what is in /proc comes and goes)
            folders[:] = [it for it in folders if it in kept]
            found |= {path: held(under or self.changed, path) for path in kept.values()}
        return found

    def left(self, before):
        """What is there now and wasn't before, or was something else; or is there no more."""
        if self.changed != self.path:
            before = self.files(pathlib.Path("/"))
        after = self.files()
        return [it for it in {**before, **after} if after.get(it) != before.get(it)]


def held(root, name):
    """What a path holds."""
    path = root / name
    if path.is_symlink():
        return os.readlink(path)
    if path.is_dir() or not path.exists():
        return "folder" if path.is_dir() else None
    return path.read_bytes() if name.startswith("etc/") else path.stat().st_size


class Unit:
    """A service of systemd: its command lines as systemd runs them (systemd.service(5), 'Command lines')."""

    def __init__(self, room, name):
        self.room, self.name, self.process = room, name, None
        # What it reported, and how often it was started.
        self.told, self.starts = None, 0
        text = room.at("/lib/systemd/system/mtp2@.service").read_text().replace("%i", name)
        self.lines = re.findall(r"^(\w+)=(.*)$", text, re.M)
        self.variables = dict(it.split("=", 1) for it in shlex.split(self.all("Environment")[0]))
        settings = room.at(self.all("EnvironmentFile")[0]).read_text()
        for line in filter(lambda it: it and it[0] not in "#;", settings.splitlines()):
            name, _, value = line.partition("=")
            self.variables[name] = " ".join(shlex.split(value))

    def all(self, key):
        return [value for name, value in self.lines if name == key]

    def command(self, line):
        """The words of a command line, and the user whose rights it has."""
        user = None if line.startswith("+") else self.all("User")[0]
        words = []
        for word in shlex.split(line.lstrip("+-")):
            if re.fullmatch(r"\$\w+", word):
                words += self.variables[word[1:]].split()
            else:
                words.append(re.sub(r"\$\{(\w+)\}", lambda it: self.variables[it[1]], word))
        return words, user

    def calls(self, key, **variables):
        """Runs all commands of a key. Raises an error if one fails."""
        for line in self.all(key):
            words, user = self.command(line)
            how = self.room.how(**self.variables, **variables)
            self.room.run(*words, user=user, check=True, timeout=LIMIT, **how)

    def start(self):
        self.calls("ExecStartPre")
        words, user = self.command(self.all("ExecStart")[0])
        self.process = subprocess.Popen(self.room.words(words, user), **self.room.how(**self.variables))
        reports = self.room.at(self.variables["REPORTS"])
        if not self.told and reports.is_fifo():
            self.told = Reader(open(os.open(reports, os.O_RDWR)))
        self.calls("ExecStartPost")
        self.starts += 1

    def stop(self):
        """Ends it as the unit does. Returns its status, and how the commands ended."""
        ended = []
        for line in self.all("ExecStop"):
            words, user = self.command(line)
            how = self.room.how(**self.variables, MAINPID=str(self.process.pid))
            stopping = subprocess.Popen(self.room.words(words, user), **how)
            # (a process that has ended is there until somebody asks for its status, as systemd does)
            until(lambda: (self.process.poll(), stopping.poll())[1] is not None, 60)
            ended.append(stopping.poll())
        return self.process.poll(), ended

    def order(self, *orders):
        self.room.at(f"/run/mtp2/{self.name}/orders").write_text("".join(f"{it}\n" for it in orders))

    def end(self):
        if self.process and self.process.poll() is None:
            self.process.kill()
            self.process.wait()


class Booted:
    """A root that systemd-nspawn boots, in which systemd runs services."""

    def __init__(self, room):
        words = ["systemd-nspawn", "--quiet", f"--directory={room.path}", "--register=no", "--keep-unit"]
        words += ["--private-network", "/lib/systemd/systemd", "--unit=multi-user.target"]
        self.log, self.inner = tempfile.TemporaryFile(), None
        self.process = subprocess.Popen(words, stdin=subprocess.DEVNULL, stdout=self.log, stderr=subprocess.STDOUT)

    def __enter__(self):
        return self

    def __exit__(self, *_fault):
        self.process.terminate()
        with contextlib.suppress(subprocess.TimeoutExpired):
            self.process.wait(30)
        self.process.kill()
        self.process.wait()

    def runs(self):
        """Whether systemd runs there, after a while."""

        def up():
            found = subprocess.run(["pgrep", "-P", str(self.process.pid)], capture_output=True, text=True)
            self.inner = (found.stdout.split() or [None])[0]
            return self.inner and self.run("systemctl", "is-system-running").stdout.strip() in ("running", "degraded")

        return until(lambda: self.process.poll() is not None or up(), 60) and self.process.poll() is None

    def run(self, *words):
        """Runs a command there. Returns how it ended."""
        how = {"capture_output": True, "text": True, "stdin": subprocess.DEVNULL, "timeout": LIMIT}
        return run_in_time(self.entered(*words), how)

    def entered(self, *words):
        """The words of a command that runs there."""
        enter = ["nsenter", "-t", self.inner, "-m", "-u", "-i", "-n", "-p", "-r", "-w"]
        return [*enter, "env", "-i", f"PATH={PATH}", "LC_ALL=C.UTF-8", *words]


def run_in_time(words, how):
    """Runs a command. Returns how it ended; status 124 if it took too long."""
    try:
        return subprocess.run(words, **how)
    except subprocess.TimeoutExpired:
        return subprocess.CompletedProcess(words, 124, "", f"too slow: {shlex.join(map(str, words))}")


def ended_well(*words):
    """Runs a command. Returns why it failed, if it did."""
    done = subprocess.run(words, capture_output=True, text=True)
    return (done.stdout + done.stderr).strip().splitlines()[-1] if done.returncode else None


def bootstrapped(folder):
    """Makes a root of Debian in a folder. Returns why there is none, if there is none."""
    if not shutil.which("debootstrap"):
        return "no debootstrap"
    return ended_well("debootstrap", "--variant=minbase", f"--include={INCLUDED}", SUITE, folder)


def made_room(folder, words):
    """A root, as these words of the command say, and why there is none, if there is none."""
    root = folder / "root"
    root.mkdir()
    if words[:1] == ["--root"]:
        return Room(root), ended_well("tar", "-C", root, "-xf", words[1])
    if words[:1] != ["--here"]:
        why = bootstrapped(root)
        if not why or not shutil.which("systemd-sysusers"):
            return Room(root), why
        print(f"package: in an overlay of this machine's root, since debootstrap made none: {why}")
    return over_this(folder)


def over_this(folder):
    """An overlay over this machine's root, and why there is none, if there is none."""
    root, over = folder / "here", folder / "over"
    root.mkdir()
    over.mkdir()
    subprocess.run(["mount", "-t", "tmpfs", "tmpfs", over], check=True)
    for it in ("changed", "work"):
        (over / it).mkdir()
    return Room(root, over / "changed"), mount_overlay(over, root)


def mount_overlay(over, root):
    """Mounts this machine's root with an overlay. Returns why it isn't, if it isn't."""
    how = f"lowerdir=/,upperdir={over}/changed,workdir={over}/work"
    return ended_well("mount", "-t", "overlay", "overlay", "-o", how, root)


def cleared(folder):
    """Removes a folder with nothing that is mounted there: this process ends all mounts if one is left."""
    subprocess.run(["umount", "--lazy", folder / "over"], stderr=subprocess.DEVNULL)
    mounts = [it.split()[1] for it in pathlib.Path("/proc/self/mounts").read_text().splitlines()]
    if not any(pathlib.Path(it).is_relative_to(folder) for it in mounts):
        shutil.rmtree(folder)
