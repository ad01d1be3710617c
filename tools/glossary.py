"""The glossary of docs/ARCHITECTURE.md, and names in src/ and specs/ that hold a word for which it has a better one.

Its table has four columns: a term, what it means, its section of YAML 1.2.2 or `own`, and the words that aren't used for it.
"""

import os
import re

from crates import ROOT, libraries

PAGE = os.path.join(ROOT, "docs", "ARCHITECTURE.md")
ROW = re.compile(r"^\|(.*)\|$")
NAME = re.compile(r"[A-Za-z_][A-Za-z0-9_']*")
# What isn't a name: comments and texts.
COMMENT = {".rt": re.compile(r"//.*"), ".antt": re.compile(r"(^|\s)--(\s.*|$)")}
TEXT = re.compile(r'"(?:\\.|[^"\\])*"')
# A text of several lines.
LINES = re.compile(r'"\\\n(?:\\.|[^"\\])*"')


def other_words():
    """The words that the glossary's last column has, with the term of each."""
    words, inside = {}, False
    with open(PAGE, encoding="utf-8") as page:
        for line in page.read().split("\n"):
            if line.startswith("## "):
                inside = line == "## Glossary"
            row = ROW.match(line) if inside else None
            cells = [cell.strip() for cell in row.group(1).split("|")] if row else []
            if len(cells) == 4 and not set(cells[0]) <= set("-: ") and cells[0] != "Term":
                words.update((word, cells[0]) for word in re.findall(r"`(\w+)`", cells[3]))
    return words


def parts(name):
    """The words of a name, in lower case: of `row_place` and `RowPlace` row and place."""
    return re.sub(r"(?<=[a-z0-9])(?=[A-Z])", "_", name).lower().strip("'").split("_")


def coined(top):
    """Names in src/ and specs/ that hold one of the words, the first of each file."""
    words = other_words()
    for crate in libraries():
        for room in ("src", "specs"):
            for folder, _, files in os.walk(os.path.join(top, "crates", crate, room)):
                for file in sorted(files):
                    path, kind = os.path.join(folder, file), os.path.splitext(file)[1]
                    if kind not in COMMENT:
                        continue
                    with open(path, encoding="utf-8") as source:
                        text = "\n".join(COMMENT[kind].sub("", TEXT.sub('""', line)) for line in LINES.sub('""', source.read()).split("\n"))
                    for name in sorted(set(NAME.findall(text)) | {os.path.splitext(file)[0]}):
                        for word in parts(name):
                            if word in words:
                                yield f"{os.path.relpath(path, top)}: {name}: {words[word]}, not {word} (glossary of docs/ARCHITECTURE.md)"
