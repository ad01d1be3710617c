"""Times the parsing of long expressions.

usage: expressions.py PATH_OF_YQ [TURNS]

The command edits a file that isn't there, so it parses and ends. A word of the command line holds 128 KiB at most, so
120 KB is the longest expression here; from 30 KB on the time above that of `.a = 1` is to grow in proportion.
All numbers are of one run: the processor's time of a command, the mean of its turns, in milliseconds.
"""

import os
import resource
import subprocess
import sys
import tempfile

SIZES = (30_000, 60_000, 120_000)


def repeated(front, part, end):
    """Makes an expression of about so many bytes of a part that is repeated; `{}` in it is its number."""

    def make(size):
        parts, length, n = [], 0, 0
        while length < size:
            parts.append(part.format(n))
            length += len(parts[-1])
            n += 1
        return front + "".join(parts) + end

    return make


KINDS = {
    "steps of a path": repeated(".a", ".key[-1]", " = 1"),
    "terms of a sum": repeated(".a = 0", " + 1234567", ""),
    "keys of a mapping": repeated('.a = {{"x": 1'.format(), ', "k{}": null', "}"),
    "one string": repeated('.a = "', "text\\\\n", '"'),
    "updates": repeated(".a = 1", " | .b.c = 2", ""),
    "stages of a pipe": repeated("(.a", " | select(.b == 1)", ") = 1"),
}


def spent():
    """The processor's time of all commands that ended so far."""
    used = resource.getrusage(resource.RUSAGE_CHILDREN)
    return used.ru_utime + used.ru_stime


def mean(yq, folder, expression, turns):
    begun = spent()
    for _ in range(turns):
        done = subprocess.run([yq, "-i", expression, "none"], cwd=folder, capture_output=True)
        assert done.stderr == b"Error: S1 not there\n", done.stderr[:200]
    return (spent() - begun) / turns


def main():
    yq = os.path.realpath(sys.argv[1])
    turns = int(sys.argv[2]) if len(sys.argv) > 2 else 20
    print(f"mean of {turns} turns, ms above a short expression")
    print(f"{'':>18}" + "".join(f"{size:>10}" for size in SIZES) + f"{'ms/MiB':>10}")
    with tempfile.TemporaryDirectory(prefix="yq-bench-") as folder:
        short = mean(yq, folder, ".a = 1", turns)
        for name, make in KINDS.items():
            texts = [make(size) for size in SIZES]
            times = [mean(yq, folder, text, turns) - short for text in texts]
            per_mebibyte = times[-1] * 1000 * (1 << 20) / len(texts[-1])
            print(f"{name:>18}" + "".join(f"{t * 1000:>10.2f}" for t in times) + f"{per_mebibyte:>10.1f}")


main()
