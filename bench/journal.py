"""Says what the journal costs an edit, an undo and a history, by how many records it holds, and what many edits cost.

usage: journal.py PATH_OF_YQ [EDITS]

First so many edits (1,000 where no number is given) of a file of 1,000 lines, each by a process of its own, next to `sed -i` and
a process that ends at once: the processor's time of all, and of the first and the last tenth.
Then, on a file of 30 lines next to journals of 1, 1,000 and 4,000 records of 175 bytes: where valgrind is there, the instructions
of an edit, an undo and a history, which don't vary; else the processor's time. Last, an edit of a file of 100,000 items after
three updates of all of them, whose journal holds 300,000 splices: processor's time, and the peak of the resident memory. And an
undo of records of 350 to 350,000 splices at both ends of a text of 16 MB by turns.
"""

import base64
import json
import os
import resource
import shutil
import subprocess
import sys
import tempfile

from measured import instructions, used_by

RECORD = 175


def spent():
    used = resource.getrusage(resource.RUSAGE_CHILDREN)
    return used.ru_utime + used.ru_stime


def written(folder, name, data):
    with open(os.path.join(folder, name), "wb") as out:
        out.write(data)


def records(count):
    """A text of 30 lines after so many edits of its port, and its journal as the program writes it."""
    rows = [b"key%d: value%d\n" % (n, n) for n in range(29)]
    texts = [b"".join(rows[:15] + [b"port: %d\n" % port] + rows[15:]) for port in (8000, 8001)]
    found = []
    for n in range(count):
        old, new = (base64.b64encode(b"%d" % (8000 + at % 2)).decode() for at in (n, n + 1))
        splice = {"at": texts[0].index(b"port: ") + 6, "new": new, "old": old}
        record = {"after_len": len(texts[0]), "before_len": len(texts[0]), "count": 1, "expr": f".port = {8000 + (n + 1) % 2}", "splices": [splice]}
        record["expr"] += " " * (RECORD - 1 - len(json.dumps(record, separators=(",", ":"))))
        found.append(record)
    journal = {"at": count, "pending": None, "records": found, "version": 2}
    return texts[count % 2], json.dumps(journal, separators=(",", ":")).encode() + b"\n"


def many(yq, edits):
    """The processor's time of many edits, one by one: all, the first tenth and the last."""
    print(f"{edits} edits of 1,000 lines by {edits} processes{'s':>12}{'first tenth':>14}{'last tenth':>14}")
    commands = (
        ("true", lambda n: ["/bin/true"]),
        ("sed -i", lambda n: ["sed", "-i", f"s/^k500: .*/k500: {n}/", "f"]),
        ("yq -i", lambda n: [yq, "-i", f".k500 = {n}", "f"]),
    )
    for name, words in commands:
        with tempfile.TemporaryDirectory(prefix="yq-bench-") as folder:
            written(folder, "f", b"".join(b"k%d: some value %d\n" % (n, n) for n in range(1000)))
            marks = [spent()]
            for n in range(edits):
                subprocess.run(words(n), cwd=folder, check=True)
                marks.append(spent())
            tenth = max(1, edits // 10)
            whole, first, last = marks[-1] - marks[0], marks[tenth] - marks[0], marks[-1] - marks[-1 - tenth]
            print(f"{name:>40}{whole:>12.2f}{first:>14.2f}{last:>14.2f}")


def by_records(yq):
    """What an edit, an undo and a history take, by the records of the journal."""
    counted = shutil.which("valgrind") is not None
    print(f"{'records':>10}{'bytes':>10}{'edit':>12}{'undo':>12}{'history':>12}{'  M instructions' if counted else '  s'}")
    for count in (1, 1000, 4000):
        text, journal = records(count)
        row = []
        for words in (["-i", ".port = 1", "f"], ["undo", "f"], ["history", "f"]):
            with tempfile.TemporaryDirectory(prefix="yq-bench-") as folder:
                written(folder, "f", text)
                written(folder, "f.undo.json", journal)
                row.append(instructions([yq, *words], folder) / 1e6 if counted else used_by([yq, *words], folder)[0])
        print(f"{count:>10}{len(journal):>10}" + "".join(f"{it:>12.3f}" for it in row))


def many_splices(yq):
    with tempfile.TemporaryDirectory(prefix="yq-bench-") as folder:
        written(folder, "f", b"".join(b"- %d\n" % n for n in range(100_000)))
        for value in (7, 77, 7):
            subprocess.run([yq, "-i", f".[] = {value}", "f"], cwd=folder, check=True)
        size = os.path.getsize(os.path.join(folder, "f.undo.json"))
        seconds, peak, _ = used_by([yq, "-i", ".[0] = 1", "f"], folder)
        print(f"an edit beside a journal of 300,000 splices, {size} bytes: {seconds:.3f} s, peak {peak / 1e6:.0f} MB")


def ends_by_turns(yq):
    """An undo of splices of no bytes, at the beginning and at the end of a text of 16 MB by turns."""
    text = b"n: 1\n# ".ljust(15_999_999, b"x") + b"\n"
    for count in (350, 35_000, 350_000):
        splices = [{"at": n % 2 * len(text), "new": "", "old": ""} for n in range(count)]
        record = {"after_len": len(text), "before_len": len(text), "count": 1, "expr": ".", "splices": splices}
        journal = json.dumps({"at": 1, "pending": None, "records": [record], "version": 2}, separators=(",", ":")).encode()
        with tempfile.TemporaryDirectory(prefix="yq-bench-") as folder:
            written(folder, "f", text)
            written(folder, "f.undo.json", journal)
            seconds, peak, _ = used_by([yq, "undo", "f"], folder)
        print(f"an undo of {count:>7} splices at both ends of 16 MB, a journal of {len(journal):>8} bytes: {seconds:.3f} s, peak {peak / 1e6:.0f} MB")


def main():
    yq = os.path.realpath(sys.argv[1])
    many(yq, int(sys.argv[2]) if len(sys.argv) > 2 else 1000)
    by_records(yq)
    many_splices(yq)
    ends_by_turns(yq)


if __name__ == "__main__":
    main()
