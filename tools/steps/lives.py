"""Runs `mtp2_play line` on the lives of examples/line/lives.txt, and compares its reports with those there, and the
octets that go out with those of a plain terminal (plain_filter.py). Each life is also run with the first bit of an
octet on top, and by its own reports in place of its orders: the octets that go out are unchanged.

usage: tools/steps/lives        of crates/mtp2_play/out/mtp2_play, or of the program that MTP2_PLAY names

The last line is `N passed, M failed`, and the status 1 if one failed."""
import pathlib
import sys
import tempfile

from tools.oracles.plain_filter import incoming, lives, run, said
from tools.steps.built import PLAY, ROOT, Count, Run, differs, missing

TEXT = (ROOT / "examples" / "standard.sdl").read_bytes()
MIRRORED = bytes(int(f"{octet:08b}"[::-1], 2) for octet in range(256))


def made(folder, mode, octets, orders, *words):
    """How a run ended: the octets that went out, and the reports."""
    (folder / "orders").write_text(orders)
    (folder / "reports").write_bytes(b"")
    ended = Run(
        ["line", mode, "--set", "standard", "--orders", f"{folder}/orders", "--reports", f"{folder}/reports", *words],
        octets,
        limit=300,
    )
    return ended, (folder / "reports").read_bytes()


def fault(name, mode, schedule, orders, lines):
    """What is wrong with a life, if something is."""
    octets, wanted, text = (
        incoming(schedule),
        "".join(f"{it}\n" for it in lines).encode(),
        "".join(f"{it}\n" for it in orders),
    )
    gives = run(TEXT, mode == "cyclic", octets, said(orders), lambda _: None)
    with tempfile.TemporaryDirectory() as room:
        folder = pathlib.Path(room)
        ended, told = made(folder, mode, octets, text)
        if ended.status != 0:
            return f"status {ended.status}"
        if told != wanted:
            return f"of what is told {differs(wanted, told)}"
        if ended.wrote != gives:
            return "other octets go out"
        if made(folder, mode, octets.translate(MIRRORED), text, "--bits", "high")[0].wrote.translate(MIRRORED) != gives:
            return "other octets go out with the first bit on top"
        if made(folder, mode, octets, told.decode())[0].wrote != gives:
            return "other octets go out by its own reports"
    return None


def main():
    if missing(PLAY):
        return 2
    count = Count("lives")
    count.all([(it[0], *it) for it in lives()], fault)
    return count.end()


if __name__ == "__main__":
    sys.exit(main())
