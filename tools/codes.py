"""The rows of the manual's tables on what is refused, as the program has them (`yq --explain CODE`): this script writes them there."""

import re
from pathlib import Path

from crates import ROOT

FROM, TO = "docs/MANUAL.md", "crates/yq_explain/src/codes.rt"
ROW = re.compile(r"^\| `(?:null⏎)?Error: (\w\d+)(?: line \d+:)? ([\w ]+)` \|(.*)\|$", re.MULTILINE)
HERE, LINK = re.compile(r"\[([^]]*)\]\(#[^)]*\)"), re.compile(r"\[([^]]*)\]\([^)]*\)")
CELL = re.compile(r"(?<!\\)\|")
BEGIN, END = "// The rows of the manual: begin.\n", "// The rows of the manual: end.\n"


def plain(cell):
    """A cell's text without the marks of Markdown; what is between backticks is in quotes."""
    text = LINK.sub(r"\1", HERE.sub(r'"\1" of MANUAL.md', cell.strip().replace("\\|", "|")))
    return re.sub(r"`([^`]*)`", lambda it: it[1] if it[0] == text else f"'{it[1]}'", text)


def rows():
    """Of each row the code, its words, the cause, and what to do."""
    manual = Path(ROOT, FROM).read_text("utf-8")
    for code, words, cells in ROW.findall(manual):
        cause, cure = (plain(cell) for cell in CELL.split(cells)[-2:])
        yield code, words, cause, cure


def in_rust():
    """The rows as a text, each a line of four parts with tabs between them."""
    lines = ("\\t".join(text.replace("\\", "\\\\").replace('"', '\\"') for text in row) for row in rows())
    return 'pub const ROWS: &str = "\\\n' + "".join(f"{line}\n" for line in lines) + '";\n'


def retold_codes():
    """The file that has other rows than the manual, with the text that it is to have."""
    text = Path(ROOT, TO).read_text("utf-8")
    head, rest = text.split(BEGIN, 1)
    now, end = rest.split(END, 1)
    if now != in_rust():
        yield TO, head + BEGIN + in_rust() + END + end


if __name__ == "__main__":
    for path, new in retold_codes():
        Path(ROOT, path).write_text(new, "utf-8")
