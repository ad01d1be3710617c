"""Times the reading of texts of 1 MB and 16 MB, next to a floor, and prints the memory that it takes.

usage: read.py PATH_OF_YQ [TURNS]

The command is an update without `-i` that is refused at the root of the text: it reads the whole text as documents, plans,
and ends without writing. The floor starts a process that ends at once, reads the file and counts its line feeds by one
pass of memchr.
All numbers of a table are of one run: the processor's time, the least of all turns, and the peak of the resident memory;
the ratios are what to look at.
"""

import os
import random
import sys
import tempfile
import time

from edit import SEED, mappings
from measured import used_by

# Entries of a mapping; in each, K is the key and N a number.
ENTRIES = (
    "  K: plain N # note\n",
    "  # above\n  K: N\n",
    "  K: [N, b c, {d: 'e', \"f\": ~}, [true]]\n",
    "  K: {a: N,\n    b: [], # none\n    c: {}}\n",
    "\n  K: \"quoted\\tN\"\n",
    "  K: 'it''s N'\n",
    "  K: |\n    literal N\n      text\n",
    "  K: >-\n    folded N\n    text\n",
    "  K: plain N\n    on two lines\n",
    "  K: *a\n",
    "  K:\n  - one\n  - - two\n    - &b N\n",
)


def mixed(size, seed):
    """A sequence of mappings of about so many bytes: comments, flow values, scalars of all styles, anchors, aliases."""
    pick = random.Random(seed)
    items, length = [], 0
    while length < size:
        item = f"- id: &a {len(items)}\n"
        for i in range(pick.randrange(1, 9)):
            item += pick.choice(ENTRIES).replace("K", f"k{i}").replace("N", str(pick.randrange(10**6)))
        items.append(item)
        length += len(item)
    return "".join(items).encode()


def floor(folder):
    spent = used_by(["/bin/true"], folder)[0]
    begun = time.process_time()
    with open(os.path.join(folder, "f"), "rb") as file:
        file.read().count(b"\n")
    return spent + time.process_time() - begun


def read(yq, folder, expression):
    spent, peak, said = used_by([yq, expression, "f"], folder)
    assert said.startswith((b"Error: X", b"Error: E2")), said[:200]
    return spent, peak


KINDS = (
    ("nested mappings", lambda size: mappings(size, SEED)[0], ".[0] = 1"),
    ("mixed", lambda size: mixed(size, SEED), ".no = 1"),
)


def main():
    yq = os.path.realpath(sys.argv[1])
    turns = int(sys.argv[2]) if len(sys.argv) > 2 else 5
    print(f"seed {SEED}, least of {turns} turns")
    print(f"{'':>16}{'bytes':>11}{'lines':>9}{'floor s':>9}{'read s':>9}{'read/floor':>12}{'ns/byte':>9}{'peak/bytes':>12}")
    for name, make, expression in KINDS:
        for size in (1_000_000, 16_000_000):
            text = make(size)
            with tempfile.TemporaryDirectory(prefix="yq-bench-") as folder:
                with open(os.path.join(folder, "f"), "wb") as out:
                    out.write(text)
                floors = [floor(folder) for _ in range(turns)]
                reads = [read(yq, folder, expression) for _ in range(turns)]
            f, r = min(floors), min(spent for spent, _ in reads)
            peak = max(peak for _, peak in reads) / len(text)
            lines = text.count(b"\n")
            print(f"{name:>16}{len(text):>11}{lines:>9}{f:>9.4f}{r:>9.4f}{r / f:>12.1f}{r / len(text) * 1e9:>9.1f}{peak:>12.1f}")


main()
