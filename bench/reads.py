"""Times reads of texts of 1 MB and 16 MB, next to a floor, and prints the memory that they take.

usage: reads.py PATH_OF_YQ [TURNS]

The text is a sequence of 100,000 mappings of one entry, every other one with the key `a`; the reads print one value, the
items, the text as one value, and by `select` the values of `a`. The floor starts a process that ends at once, reads the
file, counts its line feeds by one pass of memchr and writes as many bytes as the read prints.
All numbers of a table are of one run: the processor's time, the least of all turns, and the peak of the resident memory.
Where valgrind is there, a second table has the instructions for each byte of the text, which don't vary: callgrind
counts those of the whole run, less those of a run that prints the help.
"""

import os
import shutil
import subprocess
import sys
import tempfile
import time

from measured import instructions, used_by

ITEMS = 100_000
READS = (
    ("one value", ".[-1].b"),
    ("all items", ".[]"),
    ("the whole text", "."),
    ("select", ".[] | select(.a != null) | .a"),
)


def text(size):
    """A text of about so many bytes with 100,000 items."""
    fill = size // ITEMS - len("- a: \n")
    return "".join(f"- {'ab'[i % 2]}: {str(i).rjust(fill, 'x')[-fill:]}\n" for i in range(ITEMS)).encode()


def floor(folder, printed):
    spent = used_by(["/bin/true"], folder)[0]
    begun = time.process_time()
    with open(os.path.join(folder, "f"), "rb") as file:
        file.read().count(b"\n")
    with open(os.devnull, "wb") as out:
        out.write(bytes(printed))
    return spent + time.process_time() - begun


def read(yq, folder, expression):
    spent, peak, said = used_by([yq, expression, "f"], folder)
    assert said == b"", said[:200]
    return spent, peak


def times(yq, folder, size, turns):
    for name, expression in READS:
        printed = len(subprocess.run([yq, expression, "f"], cwd=folder, capture_output=True, check=True).stdout)
        floors = [floor(folder, printed) for _ in range(turns)]
        reads = [read(yq, folder, expression) for _ in range(turns)]
        f, r = min(floors), min(spent for spent, _ in reads)
        peak = max(peak for _, peak in reads) / size
        print(f"{name:>18}{size:>11}{printed:>11}{f:>9.4f}{r:>9.4f}{r / f:>12.1f}{r / size * 1e9:>9.1f}{peak:>12.1f}")


def counts(yq, folder, size):
    start = instructions([yq, "--help"], folder)
    for name, expression in READS:
        print(f"{name:>18}{size:>11}{(instructions([yq, expression, 'f'], folder) - start) / size:>20.1f}")


def main():
    yq = os.path.realpath(sys.argv[1])
    turns = int(sys.argv[2]) if len(sys.argv) > 2 else 5
    print(f"least of {turns} turns")
    print(f"{'':>18}{'bytes':>11}{'printed':>11}{'floor s':>9}{'read s':>9}{'read/floor':>12}{'ns/byte':>9}{'peak/bytes':>12}")
    with tempfile.TemporaryDirectory(prefix="yq-bench-") as folder:
        made = [text(size) for size in (1_000_000, 16_000_000)]
        for one in made:
            with open(os.path.join(folder, "f"), "wb") as out:
                out.write(one)
            times(yq, folder, len(one), turns)
        if shutil.which("valgrind") is None:
            print("no valgrind: instructions aren't counted")
            return
        print(f"{'':>18}{'bytes':>11}{'instructions/byte':>20}")
        with open(os.path.join(folder, "f"), "wb") as out:
            out.write(made[0])
        counts(yq, folder, len(made[0]))


main()
