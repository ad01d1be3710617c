"""The width of clauses: none is over 240 columns, and no more of a crate's are over 100 than tools/wide_clauses.txt counts.

usage: clauses.py [--write]      with --write it writes that list anew, where no more are over 100 than it counts in all

A clause is as wide as it is joined to one line, with single spaces between its lines. The list has a line for each crate, with how many
of its clauses are over 100 columns.
"""

import re
import sys

from counted import Counted, by_crate

MOST, AIM = 240, 100
COUNTED = Counted(f"clauses over {AIM} columns, joined to one line", "wide_clauses.txt")
ITEM = re.compile(r"\s*(?:pub(?:\([^)]*\))? )?(?:const |unsafe )*(?:fn|struct|enum) (\w+)")
CLAUSE = re.compile(r"\s*(?:ghost )?((?:ensures|requires|invariant)(?: \w+)?)(?: =)? *\{")
# What can hold a brace that isn't one of the clause: a literal, a comment.
LITERAL = re.compile(r"\"(?:\\.|[^\"\\])*\"|'(?:\\.|[^'\\])'|//.*")


def inside(line):
    """How many more braces a line opens than it closes."""
    bare = LITERAL.sub("", line)
    return bare.count("{") - bare.count("}")


def clauses_of(path):
    """The clauses of a file: the function or type of each, its name, and the clause joined to one line."""
    with open(path, encoding="utf-8") as text:
        lines = text.read().split("\n")
    item, name, depth, joined = None, None, 0, []
    for line in lines:
        found = ITEM.match(line)
        item = found[1] if found else item
        found = None if depth else CLAUSE.match(line)
        if found:
            name, joined = found[1], []
        if found or depth:
            joined.append(line.strip())
            depth += inside(line)
            if not depth:
                yield item, name, " ".join(joined)


def over(found):
    """How many clauses of each crate are over 100 columns, and which are over 240."""
    counts = {crate: sum(len(text) > AIM for *_, text in each) for crate, each in found.items()}
    wide = [(crate, item, name) for crate, each in found.items() for item, name, text in each if len(text) > MOST]
    return counts, [f"{crate}: `{name}` of {item} is over {MOST} columns in one line: name its hypotheses" for crate, item, name in wide]


def too_wide():
    """What is wider than it may be."""
    counts, wide = over(by_crate(clauses_of))
    grown = COUNTED.grown(counts)
    return [*wide, grown] if grown else wide


def main(words):
    counts, wide = over(by_crate(clauses_of))
    print("".join(f"{it}\n" for it in wide), end="")
    return COUNTED.main(words, __doc__, counts, "clauses.py") or (1 if wide else 0)


if __name__ == "__main__":
    sys.exit(main(sys.argv[1:]))
