"""How a text that is made to be slow is written and kept: by its name, a function of its size (octets)."""
import os
import pathlib
import shutil
import subprocess
import tempfile

FOLDER = pathlib.Path(__file__).resolve().parent
MOST = 262144
TEXTS = {}


def text(name):
    def keep(make):
        TEXTS[name] = make
        return make

    return keep


def fill(size, head, part, tail, most=10**9, join=""):
    """A head, parts by number as long as they fit or `most` are there, and a tail."""
    parts, used, number = [], len(head) + len(tail), 0
    while number < most:
        piece = part(number)
        if used + len(piece) + len(join) > size:
            break
        parts.append(piece)
        used += len(piece) + len(join)
        number += 1
    return head + join.join(parts) + tail


def block(inner):
    return f"BLOCK B; {inner} ENDBLOCK;\n"


def process(inner, declared="DCL x, y Integer := 0, b Boolean := TRUE;"):
    return block(f"SIGNAL n, i(Integer), u; SIGNALROUTE r FROM P TO ENV WITH n, i; FROM ENV TO P WITH u; PROCESS P; {declared} {inner} ENDPROCESS;")


def in_start(size, part, head="", tail="", most=10**9, join=""):
    """START with parts by number."""
    mark = "@@"
    before, behind = process(f"START; {head}{mark}{tail} STOP;").split(mark)
    return fill(size, before, part, behind, most, join)


def searched(source, *words):
    """The lines that a program in C of this folder prints; none where there is no C compiler."""
    if not shutil.which("cc"):
        return []
    with tempfile.TemporaryDirectory() as folder:
        program = os.path.join(folder, "search")
        subprocess.run(["cc", "-O2", "-o", program, str(FOLDER / source)], check=True)
        return subprocess.run([program, *map(str, words)], stdout=subprocess.PIPE, check=True, text=True).stdout.splitlines()
