"""Tries the wrong bodies of crates/NAME/wrong-bodies/*.edit: the prover must refuse each.

usage: wrong_bodies.py [--look] [CRATE ..]      all crates that have some, if none is named
With --look it only says which of them can't be applied to the code as it is.

`rt ci` tries them in a temporary copy of these crates and of those below, in which they replace must-fail/. What it proves of the
crates themselves is kept on this machine, where the kit does that. The rows of these crates in docs/EVIDENCE.md are written anew.
The last line is `N refused, N not`, and the status 0 exactly where none was not refused.
"""

import os
import re
import signal
import sys
import tempfile

from copies import copy_to
from crates import carry_out, libraries, took
from edits import hindrance, names_in
from evidence import write_rows
from gate import BEGAN, KEPT, prove, say

REFUSED = re.compile(r"rt: must-fail (\w+)/(\w+)\.edit: refused, as it must be: (?:note: )?(\S+)")


def look(crates):
    """Says which wrong bodies can't be applied, and whether all can."""
    found = [(crate, name, hindrance(crate, name)) for crate in crates for name in names_in(crate)]
    for crate, name, why in found:
        if why:
            print(f"{crate}/wrong-bodies/{name} can't be applied: {why}")
    return not any(why for _, _, why in found)


def tried(crates):
    """Tries the wrong bodies of crates, and gives for each that was refused the place that the prover named first."""
    known, refused = libraries(), {}

    def hear(line):
        found = REFUSED.match(line)
        if found:
            refused[found[1], found[2]] = found[3]

    with_those_below = [it for it in known if it in crates or any(it in known[crate] for crate in crates)]
    with tempfile.TemporaryDirectory(prefix="wrong-bodies-") as room:
        copy = os.path.join(room, "copy")
        copy_to(copy, with_those_below, crates)
        status, _, reasons = prove(copy, [], hear)
    for line in reasons.told() if status else ():
        say(line)
    return refused


def parsed(words):
    """Whether the wrong bodies are only looked at, and the crates; None where the words are wrong."""
    only_looks = words[:1] == ["--look"]
    names = words[1:] if only_looks else words
    known = libraries()
    if not all(it in known for it in names):
        return None
    return only_looks, [it for it in known if names_in(it) and (not names or it in names)]


def main(words):
    sys.stdout.reconfigure(errors="replace")
    asked = parsed(words)
    if not asked:
        print(__doc__.strip(), file=sys.stderr)
        return 2
    only_looks, crates = asked
    can_be_applied = look(crates)
    if only_looks:
        return 0 if can_be_applied else 1
    signal.signal(signal.SIGTERM, lambda *_: sys.exit(143))
    count, refused = sum(len(names_in(crate)) for crate in crates), tried(crates)
    write_rows(crates, refused)
    say(took(BEGAN, KEPT))
    say(f"{len(refused)} refused, {count - len(refused)} not")
    return 0 if len(refused) == count else 1


if __name__ == "__main__":
    carry_out(main)
