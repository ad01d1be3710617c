"""Clauses that come together: more than two functions of a crate that ensure the same two, word for word, ensure one record of them.

usage: together.py [--write]      with --write it writes tools/repeated_clauses.txt anew, where there are no more than it counts in all

The list has a line for each crate that had such pairs before: how many, which may only become fewer.
"""

import sys
from collections import Counter
from itertools import combinations, groupby

from clauses import clauses_of
from counted import Counted, by_crate

MOST = 2
COUNTED = Counted(f"pairs of clauses that more than {MOST} functions repeat", "repeated_clauses.txt")


def pairs_of(path):
    """The pairs of clauses that a function of a file ensures, of each function."""
    for _, clauses in groupby(clauses_of(path), lambda clause: clause[0]):
        ensured = {text.partition("{")[2] for _, name, text in clauses if name.startswith("ensures")}
        yield from combinations(sorted(ensured), 2)


def repeated():
    """The pairs that more functions of a crate ensure than may, of each crate, with how many do."""
    return {crate: {pair: count for pair, count in Counter(each).items() if count > MOST} for crate, each in by_crate(pairs_of).items()}


def counts():
    return {crate: len(pairs) for crate, pairs in repeated().items()}


def too_many_together():
    """What says that there are more of them than there may be."""
    grown = COUNTED.grown(counts())
    return [grown] if grown else []


def main(words):
    for crate, pairs in repeated().items():
        print("".join(f"{crate}: {count} functions ensure {{{one} and {{{other}\n" for (one, other), count in pairs.items()), end="")
    return COUNTED.main(words, __doc__, counts(), "together.py")


if __name__ == "__main__":
    sys.exit(main(sys.argv[1:]))
