"""Times an edit and its undo on nested block mappings of 1 MB and 16 MB, next to a floor.

usage: edit.py PATH_OF_YQ [TURNS]

The floor does what each of the two commands cannot do without: it starts a process that ends at once, reads the file,
writes a journal of that size next to its name, syncs it, renames it and syncs the folder, then the file, then the
journal again.
All numbers of a table are of one run; the ratios are what to look at.
"""

import os
import random
import subprocess
import sys
import tempfile
import time

from measured import used_by

SEED = 20261122


def mappings(size, seed):
    """Nested block mappings of about so many bytes, and the path and value of one entry near the end."""
    pick = random.Random(seed)
    lines, length, depth, n = [], 0, 0, 0
    open_keys = []
    last = None
    while length < size or not last:
        depth = min(pick.randrange(0, depth + 2), 6, len(open_keys))
        del open_keys[depth:]
        key = f"k{n}"
        n += 1
        indent = "  " * depth
        if pick.random() < 0.2 and depth < 6 and length < size:
            lines.append(f"{indent}{key}:\n{indent}  only: 0\n")
            open_keys.append(key)
        else:
            comment = " # note" if pick.random() < 0.1 else ""
            lines.append(f"{indent}{key}: value {pick.randrange(10**6)}{comment}\n")
            if length > size * 9 // 10:
                last = open_keys + [key]
        length += len(lines[-1])
    return "".join(lines).encode(), "." + ".".join(last)


def written(folder, name, data):
    beside = os.path.join(folder, name + ".new")
    out = os.open(beside, os.O_WRONLY | os.O_CREAT | os.O_TRUNC, 0o600)
    os.write(out, data)
    os.fsync(out)
    os.close(out)
    os.rename(beside, os.path.join(folder, name))
    names = os.open(folder, os.O_RDONLY)
    os.fsync(names)
    os.close(names)


def floor(folder, text):
    begun = time.perf_counter()
    subprocess.run(["/bin/true"], check=True)
    with open(os.path.join(folder, "f"), "rb") as file:
        file.read()
    written(folder, "j", b"x" * (len(text) * 4 // 3))
    written(folder, "f", text)
    written(folder, "j", b"x" * 200)
    return time.perf_counter() - begun


def timed(folder, *words):
    begun = time.perf_counter()
    subprocess.run(words, cwd=folder, check=True)
    return time.perf_counter() - begun


def main():
    yq = os.path.realpath(sys.argv[1])
    turns = int(sys.argv[2]) if len(sys.argv) > 2 else 5
    print(f"seed {SEED}, least of {turns} turns")
    print(f"{'bytes':>10} {'floor s':>9} {'edit s':>9} {'undo s':>9} {'edit/floor':>11} {'undo/floor':>11} {'peak/bytes':>11}")
    for size in (1_000_000, 16_000_000):
        with tempfile.TemporaryDirectory(prefix="yq-bench-") as folder:
            text, path = mappings(size, SEED)
            with open(os.path.join(folder, "f"), "wb") as out:
                out.write(text)
            used = used_by([yq, "-i", f"{path} = 1", "f"], folder)[1]
            timed(folder, yq, "undo", "f")
            floors, edits, undos = [], [], []
            for _ in range(turns):
                floors.append(floor(folder, text))
                edits.append(timed(folder, yq, "-i", f"{path} = 1", "f"))
                undos.append(timed(folder, yq, "undo", "f"))
            with open(os.path.join(folder, "f"), "rb") as file:
                assert file.read() == text, "undo did not restore the bytes"
            f, e, u = min(floors), min(edits), min(undos)
            print(f"{len(text):>10} {f:>9.4f} {e:>9.4f} {u:>9.4f} {e / f:>11.2f} {u / f:>11.2f} {used / len(text):>11.1f}")


if __name__ == "__main__":
    main()
