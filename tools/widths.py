"""The lines of specs/ and proofs/: none is wider than 240 columns.

usage: widths.py [--break]      with --break it breaks those that are, each where its outermost parts meet

A line that is broken goes on four columns further in. Imports are laid out by imports.py.
"""

import os
import re
import sys

from crates import ROOT, folder, libraries

MOST, AIM = 240, 150
OPEN, CLOSE = "([{", ")]}"
# What comes at the end of a line, and what at the beginning of the next one.
ENDS = ("→", "=", "↦", "in")
BEGINS = ("|", "∙", "++", "×", "∷")
# What keeps its two sides on one line.
JOINS = (":", "λ", "let", "≡", *ENDS, *BEGINS)


def indent(line):
    return len(line) - len(line.lstrip())


def files():
    """The paths of the definitions and proofs of all crates."""
    for crate in libraries():
        for part in ("specs", "proofs"):
            for top, folders, names in os.walk(os.path.join(folder(crate), part)):
                folders.sort()
                yield from (os.path.join(top, name) for name in sorted(names) if name.endswith(".antt"))


def is_wide(line):
    return len(line) > MOST and not line.startswith("use ")


def breaks(line):
    """Where a line can be broken: how many brackets are open there, whether arguments are parted, and the column."""
    words, opened = list(re.finditer(r"\S+", line)), 0
    for before, word in zip(words, words[1:]):
        opened += sum((it in OPEN) - (it in CLOSE) for it in before.group())
        if before.group() in ENDS or before.group().endswith(",") or word.group() in BEGINS:
            yield opened, False, word.start()
        elif before.group() not in JOINS and word.group() not in JOINS:
            yield opened, True, word.start()


def broken(line):
    """The lines that a line becomes: each as long as it can be where it is broken outermost."""
    deeper, lines = " " * (indent(line) + 4), []
    while len(line) > AIM:
        places = [it for it in breaks(line) if indent(line) + 20 < it[2] <= AIM]
        if not places:
            break
        outermost = min(it[:2] for it in places)
        at = max(column for *kind, column in places if tuple(kind) == outermost)
        lines.append(line[:at].rstrip())
        line = deeper + line[at:]
    return [*lines, line]


def broken_comment(line):
    """The lines that a comment becomes."""
    lines = [" " * indent(line) + "--"]
    for word in line.split()[1:]:
        if len(lines[-1]) + 1 + len(word) > AIM:
            lines.append(lines[0][: indent(line)] + "--")
        lines[-1] += " " + word
    return lines


def laid_out(line):
    if not is_wide(line):
        return [line]
    return broken_comment(line) if line.lstrip().startswith("--") else broken(line)


def wide_lines():
    """What says that a line is wider than it may be."""
    for path in files():
        with open(path, encoding="utf-8") as source:
            for number, line in enumerate(source, 1):
                if is_wide(line.rstrip("\n")):
                    yield f"{os.path.relpath(path, ROOT)}:{number} is over {MOST} columns: tools/widths.py breaks it"


def break_lines():
    """Breaks the lines that are too wide."""
    for path in files():
        with open(path, encoding="utf-8") as source:
            lines = source.read().split("\n")
        if any(map(is_wide, lines)):
            with open(path, "w", encoding="utf-8") as out:
                out.write("\n".join(it for line in lines for it in laid_out(line)))


def main(words):
    if words not in ([], ["--break"]):
        print(__doc__.strip(), file=sys.stderr)
        return 2
    if words:
        break_lines()
    found = list(wide_lines())
    print("".join(f"{it}\n" for it in found), end="")
    return 1 if found else 0


if __name__ == "__main__":
    sys.exit(main(sys.argv[1:]))
