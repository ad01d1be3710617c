"""Finds the pairs of places in the .rt and .antt files of crates/ that are alike but for names, strings and numbers.

usage: alike.py [LEAST [COUNT [WORD]]]      at least LEAST lines alike (6), the COUNT longest pairs (20), WORD in one of their paths

Comments, empty lines, imports and lines of brackets alone are passed over, and don't count. Where a run of lines is in more than
40 places it is a form, and isn't reported. The longest pairs come first; one of which both places begin in places of longer ones is left
out.
"""

import collections
import os
import re
import sys

from crates import ROOT, libraries

LEAST, COUNT, FORM = 6, 20, 40
IMPORT = re.compile(r"\s*(?:(?:pub )?(?:ghost )?use|(?:pub )?mod|pub use|import|open|module)\b")
KEPT = frozenset("""abbrev as break const continue data else ensures enum fn for if impl in let loop match module mut mutual pub record ref
requires return self struct trait type unfoldable unfolding use where while by search rules refl""".split())
TOKEN = re.compile(r'"(?:[^"\\]|\\.)*"|\'(?:[^\'\\]|\\.)\'|\d+|[^\W\d][\w\'-]*|[^\s\w]')


def folded(line, comment):
    """A line less its comment, with one mark for each name, string and number; empty if it doesn't count."""
    if IMPORT.match(line):
        return ""
    tokens = []
    for token in TOKEN.findall(line.partition(comment)[0]):
        if token[0] in "\"'" or token.isdigit():
            tokens.append("0")
        else:
            tokens.append(token if token in KEPT or not (token[0].isalpha() or token[0] == "_") else "x")
    return " ".join(tokens) if any(it[0].isalnum() for it in tokens) else ""


def lines_of(path):
    """The lines of a file that count, folded, each with its number."""
    comment = "//" if path.endswith(".rt") else "--"
    with open(os.path.join(ROOT, path), encoding="utf-8") as text:
        each = [(folded(line, comment), number) for number, line in enumerate(text.read().split("\n"), 1)]
    return [it for it in each if it[0]]


def files():
    """All files, by their paths, with the lines that count."""
    found = {}
    for crate in libraries():
        for room in ("src", "specs", "proofs"):
            for top, folders, names in os.walk(os.path.join(ROOT, "crates", crate, room)):
                folders.sort()
                for name in sorted(names):
                    if name.endswith((".rt", ".antt")):
                        path = os.path.relpath(os.path.join(top, name), ROOT)
                        found[path] = lines_of(path)
    return found


def length_of(texts, one, other, most):
    """How many lines are alike from two places on."""
    (a, i), (b, j) = one, other
    count = 0
    while count < most and i + count < len(texts[a]) and j + count < len(texts[b]) and texts[a][i + count][0] == texts[b][j + count][0]:
        count += 1
    return count


def pairs(texts, least):
    """The pairs of places from which at least so many lines are alike, and which are not so one line before, with their lengths."""
    places = collections.defaultdict(list)
    for path, lines in texts.items():
        for at in range(len(lines) - least + 1):
            places[tuple(text for text, _ in lines[at : at + least])].append((path, at))
    for each in places.values():
        for n, one in enumerate(each if len(each) <= FORM else ()):
            for other in each[n + 1 :]:
                (a, i), (b, j) = one, other
                is_first = i == 0 or j == 0 or texts[a][i - 1][0] != texts[b][j - 1][0]
                # The same lines twice, one right after the other, are no longer than what lies between their beginnings.
                count = length_of(texts, one, other, j - i if a == b else sys.maxsize)
                if is_first and count >= least:
                    yield count, one, other


def longest(texts, least, count, word):
    """The longest pairs, each as its length and its two places, none of which both places begin in longer ones, and how many there are."""
    chosen, lines, found = [], set(), sorted(pairs(texts, least), key=lambda it: (-it[0], it[1:]))
    for length, *places in found:
        if len(chosen) < count and not lines.issuperset(places) and any(word in path for path, _ in places):
            chosen.append((length, *places))
            lines.update((path, at + n) for path, at in places for n in range(length))
    return chosen, len(found)


def main(words):
    sys.stdout.reconfigure(errors="replace")
    if len(words) > 3 or not all(it.isdigit() for it in words[:2]):
        print(__doc__.strip(), file=sys.stderr)
        return 2
    least, count, word = [*words, *(LEAST, COUNT, "")[len(words) :]]
    least, count = int(least), int(count)
    texts = files()
    chosen, number = longest(texts, least, count, word)
    for length, *places in chosen:
        shown = [f"{path}:{texts[path][at][1]}-{texts[path][at + length - 1][1]}" for path, at in places]
        print(f"{length:4} lines  " + "  ".join(shown))
    print(f"{number} pairs of at least {least} lines")
    return 0


if __name__ == "__main__":
    sys.exit(main(sys.argv[1:]))
