"""What docs/EVIDENCE.md says of the second tier: for each crate what came of its wrong bodies when they were last tried."""

import os
import re

from crates import ROOT, libraries
from edits import names_in

PAGE = os.path.join(ROOT, "docs", "EVIDENCE.md")
HEAD = "| Crate | Tried | Of these refused inside a written proof | Not refused |"
ROW = re.compile(r"\| `(\w+)` \|")


def row(crate, refused):
    """What came of a crate's wrong bodies, by the place that the prover named first of each that it refused."""
    names = [name.removesuffix(".edit") for name in names_in(crate)]
    inside = sum("proofs/" in refused.get((crate, name), "") for name in names)
    left = ", ".join(f"`{name}`" for name in names if (crate, name) not in refused)
    return f"| `{crate}` | {len(names)} | {inside} | {left} |"


def write_rows(crates, refused):
    """Writes the rows of these crates anew; those of others stay, and those of crates that aren't there go."""
    with open(PAGE, encoding="utf-8") as page:
        lines = page.read().split("\n")
    first = lines.index(HEAD) + 2
    end = next(at for at in range(first, len(lines)) if not lines[at].startswith("|"))
    rows = {ROW.match(it)[1]: it for it in lines[first:end]}
    rows.update((crate, row(crate, refused)) for crate in crates)
    lines[first:end] = [rows[crate] for crate in libraries() if crate in rows and names_in(crate)]
    with open(PAGE, "w", encoding="utf-8") as page:
        page.write("\n".join(lines))
