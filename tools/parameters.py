"""Functions of six and more parameters: no more than tools/many_parameters.txt counts. `self` counts, and so do ghost parameters.

usage: parameters.py [--write]      with --write it writes that list anew, where there are no more than it counts in all
"""

import re
import sys

from counted import Counted, by_crate

MANY = 6
COUNTED = Counted(f"functions of {MANY} and more parameters", "many_parameters.txt")
COMMENT = re.compile(r"(?m)//.*$")
NAME = re.compile(r"\bfn\s+(\w+)\s*")
OPEN, CLOSE = "([{<", ")]}>"


def pieces(text, at):
    """What is between the bracket at a place and the one that closes it, cut at its own commas, and the place after that."""
    found, depth = [""], 0
    for i in range(at, len(text)):
        arrow = text[i] == ">" and text[i - 1] in "-="
        depth += (text[i] in OPEN) - (text[i] in CLOSE and not arrow)
        if not depth:
            return [it for it in found if it.strip()], i + 1
        if text[i] == "," and depth == 1:
            found.append("")
        elif i > at:
            found[-1] += text[i]
    return [], len(text)


def functions(path):
    """The functions of a file, each with the count of its parameters."""
    with open(path, encoding="utf-8") as source:
        text = COMMENT.sub("", source.read())
    for found in NAME.finditer(text):
        at = found.end()
        if text[at : at + 1] == "<":
            _, at = pieces(text, at)
            at += len(text[at:]) - len(text[at:].lstrip())
        if text[at : at + 1] == "(":
            yield found[1], len(pieces(text, at)[0])


def counts():
    """How many functions of each crate have many parameters."""
    return {crate: sum(count >= MANY for _, count in each) for crate, each in by_crate(functions).items()}


def too_many():
    """What says that there are more of them than there may be."""
    grown = COUNTED.grown(counts())
    return [grown] if grown else []


if __name__ == "__main__":
    sys.exit(COUNTED.main(sys.argv[1:], __doc__, counts(), "parameters.py"))
