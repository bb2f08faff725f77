"""Plays the acceptance tests of examples/q781 (tools/q781) by the built program, on the sets `q703` and `standard`: a
test fails just where known.txt says so. And each one-place change of `q703` in changes.txt whose test passes is seen by
that test.

usage: tools/steps/acceptance [SET ..]     of crates/mtp2_play/out/mtp2_play, or of the program that MTP2_PLAY names

The last line is `N passed, M failed`, and the status 1 if one failed."""
import sys

from tools import q781 as asked
from tools.steps.built import PLAY, Count, missing


def strange(word, name, known):
    """Why the result of a test isn't the known one."""
    why = asked.fault(False, word, name)
    if known:
        return None if why else "passed, which known.txt doesn't say"
    return why or None


def main(words):
    if missing(PLAY):
        return 1
    count = Count("acceptance")
    for word in words or ["q703", "standard"]:
        known = asked.known(word)
        count.all([(f"{word} {it}", word, it, it in known) for it in asked.scripts([])], strange)
    known = asked.known("q703")
    if not words:
        count.all(
            [(f"{it[0]} sees: {it[1]}", False, *it) for it in asked.changes() if it[0] not in known], asked.unseen
        )
    return count.end()


if __name__ == "__main__":
    sys.exit(main(sys.argv[1:]))
