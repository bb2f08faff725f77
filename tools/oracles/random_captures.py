"""Compares captures of `mtp2_play line` with tools/oracles/plain_capture.py, on the lines of
tools/oracles/random_lines: the octets that go out are those without a capture, and the capture is that of the octets
each way.

usage: tools/oracles/random_captures [COUNT [SEED]]
           100 lines if nothing is said; ends with status 1 if one differs"""
import pathlib
import sys
import tempfile

from tools.oracles import plain_capture
from tools.oracles import random_lines as lines
from tools.oracles.plain_tied import turned
from tools.oracles.random_cases import dice
from tools.steps.built import PLAY, Run, missing


def fault(number, seed, path):
    """What is wrong with the captures of a line, if something is, and how many records they have."""
    words, come, (wrote, status, told), shown = lines.case(dice(seed, number))
    turn = turned if "high" in words else int
    ahead = int(words[words.index("--ahead") + 1]) if "--ahead" in words else 0
    came, went = bytes(map(turn, come)), bytes(map(turn, wrote))[ahead:]
    count = 0
    for more in ([], ["--every"]):
        done = Run([*words, "--capture", str(path), *more], come)
        if (done.wrote, done.status, done.said) != (wrote, status, told):
            return f"{number}: {shown}: another line", count
        wanted = plain_capture.capture(came[: len(went)], went, bool(more))
        if path.read_bytes() != wanted:
            return f"{number}: {shown}: another capture", count
        count += len(plain_capture.read(wanted))
    return None, count


def main(words):
    if missing(PLAY):
        return 1
    count, seed = [*map(int, words), *[100, 1][len(words) :]]
    found, records = [], 0
    with tempfile.TemporaryDirectory() as room:
        for number in range(count):
            wrong, more = fault(number, seed, pathlib.Path(room) / "capture")
            records += more
            if wrong:
                found.append(wrong)
                print(wrong, flush=True)
    print(f"random_captures: {count - len(found)} of {count} lines agree, {records} records", flush=True)
    return 1 if found else 0


if __name__ == "__main__":
    sys.exit(main(sys.argv[1:]))
