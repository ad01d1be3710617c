"""Texts of the tables with bytes cut, doubled, swapped and exchanged: read, edited and undone.

usage: mutations.py PATH_OF_YQ COUNT [SEED]

A run of the program on such a text never crashes: it answers with a value, or with a fault that has a code and a line of the
text. An edit is refused and leaves the file, or leaves a text that is read, and its undo gives the first bytes. The seed is another
one in each run and is printed; with the same seed (here, or as YQ_SEED in the environment of run.py) the same texts and edits come.
"""

import collections
import os
import random
import re
import sys
from functools import partial

sys.path.insert(0, os.path.dirname(os.path.abspath(__file__)))

from harness import equal, run_alone, seed_of_run, side_by_side
from tables import TABLES, rows_of, text_of

COUNT, LARGEST, FILE = 300, 4000, "f"
TOKENS = [b": ", b"- ", b"#", b" #", b"\n", b"\r\n", b"\r", b"\t", b" ", b"  ", b'"', b"'", b"&a ", b"*a", b"|\n", b">-\n", b"[", b"]", b"{",
          b"}", b",", b"---\n", b"...\n", b"!", b"%", b"?", b"\x00", b"\xff", b"\xc3", b"\xef\xbb\xbf", b"\xe2\x80\xa8", "é".encode(), b"~", b"<<: "]
STEPS = [".a", ".b", ".k", "[0]", "[1]", "[-1]", "[]"]
EDITS = ["{} = 1", '{} = "x y"', '{} = [1, {{"k": "v"}}]', "{} = {{}}", '{} |= "z"', "{} += 1", '{} += ["s"]', "del({})",
         '{} line_comment = "c"', '{} head_comment = "two words"', '{} line_comment = ""']
FAULT = re.compile(rb"Error: (Y\d+) line (\d+): [a-z0-9 ]+\n")
REFUSAL = re.compile(rb"Error: ([EXJ]\d+) [a-zA-Z0-9 ]+\n")


def corpus():
    """The texts of the tables, each once, but for large ones."""
    texts = set()
    for name in sorted(it for it in os.listdir(TABLES) if it.endswith(".json")):
        for _, row in rows_of(name):
            values = [row[it] for it in ("text", "gives") if it in row] + list(row.get("files", {}).values())
            texts.update(text_of(it) for it in values if it is not None)
    return sorted(it for it in texts if 0 < len(it) <= LARGEST)


def place(source, text):
    """Where a run of some bytes begins and ends."""
    start = source.randrange(len(text) + 1)
    return start, min(len(text), start + source.choice([1, 1, 1, 2, 3, 8, 30]))


def mutated(source, text, other):
    """The text with one change."""
    start, end = place(source, text)
    kind = source.choice(["cut", "doubled", "swapped", "exchanged", "put", "put", "moved", "joined"])
    if kind == "cut":
        return text[:start] + text[end:]
    if kind == "doubled":
        return text[:end] + text[start:end] + text[end:]
    if kind == "swapped":
        return text[:start] + text[start:end][::-1] + text[end:]
    if kind == "exchanged":
        return text[:start] + bytes([source.randrange(256)]) + text[end:]
    if kind == "put":
        return text[:start] + source.choice(TOKENS) + text[start:]
    if kind == "moved":
        to = source.randrange(len(text) + 1)
        rest = text[:start] + text[end:]
        return rest[:to] + text[start:end] + rest[to:]
    return text[:start] + other[source.randrange(len(other)) :]


def edit(source, text):
    """An edit at a path of words that are in the text, mostly."""
    keys = [f'.["{it.decode()}"]' for it in set(re.findall(rb"[A-Za-z_]\w*(?=['\"]? *:)", text))]
    steps = [source.choice([*sorted(keys), *sorted(keys), *STEPS] if keys else STEPS) for _ in range(source.choice([0, 1, 1, 1, 2, 2]))]
    path = "".join(steps)
    return source.choice(EDITS).format(path if path.startswith(".") else "." + path)


def is_read(folder, tally):
    """Whether the file is read, perhaps with a value that isn't printed; where it isn't, it has a fault at a line of it."""
    status, out, err = folder.run(".", FILE)
    if (status, err) == (0, b"") or (status, out) == (1, b"") and REFUSAL.fullmatch(err):
        return True
    found = FAULT.fullmatch(err)
    equal((status, out, found is not None), (1, b"", True), err)
    equal(1 <= int(found[2]) <= len(re.findall(rb"\r\n|\r|\n", folder.read(FILE))) + 1, True, err)
    tally[found[1].decode()] += 1
    return False


def is_edited(folder, text, words, tally):
    """One edit, which is refused and leaves the file, or is undone to the byte."""
    status, out, err = folder.run("-i", words, FILE)
    if status:
        found = REFUSAL.fullmatch(err)
        equal((status, out, found is not None, folder.read(FILE)), (1, b"", True, text), err)
        tally["edits refused"] += 1
        return
    equal((out, err), (b"", b""), "edited")
    new = folder.read(FILE)
    equal(is_read(folder, tally), True, "the edited text is read")
    tally["edits undone" if new != text else "edits of no byte"] += 1
    if new != text:
        folder.accepts("undo", FILE)
        equal(folder.read(FILE), text, "undone")
        folder.accepts("redo", FILE)
        equal(folder.read(FILE), new, "made again")


def one_text(texts, folder, seed):
    """One text with one to three changes, and two edits of it where it is read."""
    source, tally = random.Random(seed), collections.Counter()
    text = source.choice(texts)
    for _ in range(source.choice([1, 1, 2, 3])):
        text = mutated(source, text, source.choice(texts))
    words = "."
    try:
        folder.write(FILE, text)
        if is_read(folder, tally):
            tally["read"] += 1
            for _ in range(2):
                for name in folder.names():
                    os.remove(folder.name(name))
                folder.write(FILE, text)
                words = edit(source, text)
                is_edited(folder, text, words, tally)
    except AssertionError as why:
        raise AssertionError(f"seed {seed}: {text!r}, {words}: {why}") from None
    return tally


def run_texts(folder, count, seed):
    """What came of so many texts."""
    texts, tally = corpus(), collections.Counter()
    for each in side_by_side(folder, count, seed, partial(one_text, texts)):
        tally.update(each)
    faults = sum(number for what, number in tally.items() if re.fullmatch(r"Y\d+", what))
    others = ", ".join(f"{number} {what}" for what, number in sorted(tally.items()) if not re.fullmatch(r"Y\d+", what))
    print(f"mutations: seed {seed}, {count} texts of {len(texts)}: {others}, {faults} with a fault", flush=True)
    return tally


def check_mutated_texts_are_read_or_have_a_fault(folder):
    tally = run_texts(folder, COUNT, seed_of_run())
    equal((tally["read"] > 0, tally["edits undone"] > 0), (True, True))


if __name__ == "__main__":
    run_alone(run_texts, *sys.argv[1:])
