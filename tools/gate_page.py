"""The page docs/GATE.md: what the proofs, tests and wrong bodies of each crate took when the gate last did them, and the longest chain."""

import os
import re
import time

from crates import ROOT, folder, libraries
from watch import EDITS, PROOF, TESTS

PAGE = os.path.join(ROOT, "docs", "GATE.md")
KINDS = PROOF, TESTS, EDITS
HEAD = """\
# The gate by crate

What `make test` took for each crate, in processor seconds, and for its proof also in seconds by the clock. `tools/gate.py` writes this
page after a run that proved something and passed `rt ci`. A crate that the run didn't prove anew keeps its numbers and its day.

"""
ROW = re.compile(r"\| `(\w+)` \|" + r" ([\d,]*) \|" * 4 + r" ([\d-]*) \|")
BY_HAND = "\n| From nothing |"


class Row:
    """What is known of a crate: processor seconds by kind, those of its proof by the clock, and the day."""

    def __init__(self, seconds=(), clock=0, day=""):
        self.seconds, self.clock, self.day = dict(seconds), clock, day

    def all(self):
        return sum(self.seconds.values())

    def length(self):
        """How long the proof is in a chain: by the clock, where that is known."""
        return self.clock or self.seconds.get(PROOF, 0)


def rows_of_page():
    """The rows that the page has."""
    rows = {}
    if os.path.exists(PAGE):
        with open(PAGE, encoding="utf-8") as page:
            for found in filter(None, map(ROW.match, page)):
                numbers = [int(it.replace(",", "") or 0) for it in found.groups()[1:5]]
                rows[found[1]] = Row(zip(KINDS, [numbers[0], *numbers[2:4]]), numbers[1], found[6])
    return rows


def by_hand():
    """The end of the page, which is written by hand: what runs from nothing took."""
    if not os.path.exists(PAGE):
        return ""
    with open(PAGE, encoding="utf-8") as page:
        _, mark, rest = page.read().partition(BY_HAND)
    return mark + rest


def of_now(crate, row):
    """The row of a crate without what it no longer has: wrong bodies that are tried."""
    if not os.path.isdir(os.path.join(folder(crate), "must-fail")):
        row.seconds.pop(EDITS, None)
    return row


def with_tasks(rows, tasks):
    """The row of each crate that crates.txt lists, after a run, and the crates of which the run did something."""
    now = time.strftime("%Y-%m-%d", time.gmtime())
    new = {crate: of_now(crate, rows.get(crate, Row())) for crate in libraries()}
    for (crate, kind), task in tasks.items():
        if crate in new:
            new[crate].seconds[kind] = round(task.seconds())
            new[crate].day = now
            if kind == PROOF:
                new[crate].clock = round(task.seen - task.began)
    return new, {crate for crate, _ in tasks}


def chain(rows):
    """The crates of the chain whose proofs take longest one after the other, lowest first, and its length."""
    ends = {}
    for crate, below in libraries().items():
        length, crates = max((ends[it] for it in below), default=(0, ()), key=lambda it: it[0])
        own = rows.get(crate, Row()).length()
        ends[crate] = length + own, (*crates, crate)
    return max(ends.values(), key=lambda it: it[0], default=(0, ()))


def chain_line(rows, mark=""):
    length, crates = chain(rows)
    return f"The longest chain of proofs takes {length:,} s: " + ", ".join(f"{mark}{it}{mark} {rows[it].length()}" for it in crates)


def table(rows, done):
    """The rows as lines for a terminal, with `kept` at those of which the run did nothing."""
    lines = [f"{'processor seconds':20}" + "".join(f"{it:>14}" for it in (*KINDS, "all", "proof's clock"))]
    for crate, row in rows.items():
        numbers = [*(row.seconds.get(kind, 0) for kind in KINDS), row.all(), row.clock]
        lines.append(f"{crate:20}" + "".join(f"{it:14.0f}" for it in numbers) + ("  kept" if crate not in done else ""))
    sums = [*(sum(row.seconds.get(kind, 0) for row in rows.values()) for kind in KINDS), sum(row.all() for row in rows.values())]
    return [*lines, f"{'all':20}" + "".join(f"{it:14.0f}" for it in sums)]


def cell(number):
    return f"{number:,}" if number else ""


def write(rows, total):
    """Writes the page of these rows, and of what `rt ci` took in all; what is written by hand stays."""
    end = by_hand()
    lines = ["| Crate | Proof | By the clock | Tests | Wrong bodies | Day |", "|---|---|---|---|---|---|"]
    for crate, row in rows.items():
        proof, tests, edits = (cell(row.seconds.get(kind, 0)) for kind in KINDS)
        lines.append(f"| `{crate}` | {proof} | {cell(row.clock)} | {tests} | {edits} | {row.day} |")
    proof, tests, edits = (cell(sum(row.seconds.get(kind, 0) for row in rows.values())) for kind in KINDS)
    lines.append(f"| All | {proof} | | {tests} | {edits} | |")
    with open(PAGE, "w", encoding="utf-8") as page:
        last = max((row.day for row in rows.values()), default="")
        page.write(HEAD + "\n".join(lines) + f"\n\nThe last run, of {last}, {total}.\n\n{chain_line(rows, '`')}.\n{end}")
