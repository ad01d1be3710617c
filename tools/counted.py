"""Counts by crate that may only become fewer all together. Each kind has a list, with a line for each crate."""

import os
import sys

from crates import folder, libraries


def sources(crate):
    """The paths of the code of a crate."""
    for top, folders, names in os.walk(os.path.join(folder(crate), "src")):
        folders.sort()
        yield from (os.path.join(top, name) for name in sorted(names) if name.endswith(".rt"))


def by_crate(found_in):
    """For each crate what a function finds in its sources."""
    return {crate: [it for path in sources(crate) for it in found_in(path)] for crate in libraries()}


class Counted:
    """What is counted, as its list says it in a line, and the list's file next to this one."""

    def __init__(self, what, name):
        self.what, self.path = what, os.path.join(os.path.dirname(os.path.abspath(__file__)), name)

    def most(self):
        """How many a list allows of each crate."""
        with open(self.path, encoding="utf-8") as lines:
            rows = (line.partition("#")[0].split() for line in lines)
            return {row[0]: int(row[1]) for row in rows if row}

    def grown(self, counts):
        """That there are more than the list allows, and of which crates, or None."""
        most = self.most() if os.path.exists(self.path) else counts
        if sum(counts.values()) <= sum(most.values()):
            return None
        more = [f"{crate} {most.get(crate, 0)} to {it}" for crate, it in counts.items() if it > most.get(crate, 0)]
        return f"{self.what} grew from {sum(most.values())} to {sum(counts.values())}: {', '.join(more)}"

    def write(self, counts, tool):
        with open(self.path, "w", encoding="utf-8") as out:
            out.write(f"# How many {self.what} each crate has: all together may only become fewer. Written by `python3 tools/{tool} --write`.\n")
            out.writelines(f"{crate} {count}\n" for crate, count in counts.items() if count)

    def main(self, words, doc, counts, tool):
        """Says how many there are, writes the list anew where that is asked for and there aren't more, and gives the status."""
        if words not in ([], ["--write"]):
            print(doc.strip(), file=sys.stderr)
            return 2
        grown = self.grown(counts)
        print(grown or f"{sum(counts.values())} {self.what}")
        if words and not grown:
            self.write(counts, tool)
        return 1 if grown else 0
