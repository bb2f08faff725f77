"""The kit's `rt`, which asks for each library's sum once a run (tools/building/kit.py says how): with the words and
answers of `rt`, in seconds in the upper crates. The gate is `rt ci`, the kit's own."""
import sys

from tools.building.kit import kit, plant


def main(words):
    rt = kit()
    if rt is None:
        sys.exit("tools/rt: there is no rt on the PATH")
    sys.argv = [rt.__file__, *words]
    return plant(rt, words[1:]) if words[:1] == ["plant"] else rt.main(words)


if __name__ == "__main__":
    sys.exit(main(sys.argv[1:]))
