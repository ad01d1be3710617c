"""Words and sentences of the pages, the man page, and the docs of the code that a reader who isn't at home in them stumbles on.

usage: plain.py [FILE ..]      the pages and the docs of the code, if no file is named

Four words have a plainer one: of a thousand words at most one may be of these. A sentence has at most 35 words; what is in code marks
counts as one word, and so does a link's text for its words. The last line is the number of words, and of the four among them.
"""

import os
import re
import sys

from crates import ROOT

PLAINER = {"behind": "after", "stand": "be", "stands": "is", "stood": "was", "told": "said or reported", "who": "if you, or the person"}
MOST, LONGEST = 1 / 1000, 35
RARE = re.compile(r"\b(?:" + "|".join(PLAINER) + r")\b", re.IGNORECASE)
WORD = re.compile(r"[\w'’-]+")
FENCE, LINK, CODE = re.compile(r"^```.*?^```", re.DOTALL | re.MULTILINE), re.compile(r"\[([^\]]*)\]\([^)]*\)"), re.compile(r"`[^`]*`")
# Where a paragraph, an item of a list, a heading or a row begins; where a sentence ends.
BEGIN, END = re.compile(r"\s*([-*>] |\d+\. |#|\||$)"), re.compile(r"(?<=[.!?])(?:\*\*)?\s+(?=[A-Z`*\[(])")
COMMENT = {".rt": re.compile(r"\s*//[/!]?(?: |$)(.*)"), ".antt": re.compile(r"\s*--(?: |$)(.*)")}
SKIPPED = ("unfinished", "out", ".git", "dist")


def is_page(path):
    return path.endswith(".md")


def files(top):
    """The pages, and the sources of the crates."""
    for folder, folders, names in os.walk(top):
        folders[:] = sorted(it for it in folders if it not in SKIPPED)
        for name in sorted(names):
            path = os.path.relpath(os.path.join(folder, name), top)
            if is_page(path) or os.path.splitext(name)[1] in COMMENT:
                yield path


def text_of(top, path):
    """A page without what is fenced or indented as code, or the comments of a source; each line where it was."""
    with open(os.path.join(top, path), encoding="utf-8") as source:
        text = source.read()
    if is_page(path):
        text = FENCE.sub(lambda found: "\n" * found.group().count("\n"), text)
        return ["" if line.startswith("    ") and not BEGIN.match(line) else line for line in text.split("\n")]
    found = [COMMENT[os.path.splitext(path)[1]].match(line) for line in text.split("\n")]
    return [it.group(1) if it else "" for it in found]


def plain(text):
    """A text without links' targets, with one word for what is in code marks."""
    return CODE.sub("`c`", LINK.sub(r"\1", text))


def paragraphs(lines):
    """The paragraphs, items and cells, each with the number of its first line."""
    number, kept = 1, []
    for at, line in enumerate([*lines, ""], 1):
        if BEGIN.match(line) and kept:
            yield number, " ".join(kept)
            kept = []
        if line.startswith("|"):
            yield from ((at, cell) for cell in plain(line).strip("|").split("|"))
        elif line.strip() and not line.startswith("#"):
            number, kept = (number if kept else at), [*kept, line.strip()]


def long_sentences(top, path):
    """The pages' sentences that are too long."""
    for number, paragraph in paragraphs(text_of(top, path)) if is_page(path) else ():
        for sentence in END.split(plain(paragraph)):
            count = len(WORD.findall(sentence))
            if count > LONGEST:
                yield f"{path}:{number}: a sentence of {count} words: {sentence[:60]}"


def rare_words(top, path):
    """How many words a file has, and those of the four among them, each with its line."""
    lines = [plain(line) for line in text_of(top, path)]
    found = [(number, it.lower()) for number, line in enumerate(lines, 1) for it in RARE.findall(line)]
    return sum(len(WORD.findall(line)) for line in lines), [f"{path}:{number}: {word}: say {PLAINER[word]}" for number, word in found]


def not_plain(top):
    """Sentences that are too long; and the four words, if they are too many in the pages or in the docs of the code."""
    for pages in (True, False):
        counted = [rare_words(top, path) for path in files(top) if is_page(path) == pages]
        words, rare = sum(count for count, _ in counted), [line for _, found in counted for line in found]
        yield from rare if len(rare) > MOST * words else ()
    for path in files(top):
        yield from long_sentences(top, path)


def main(names):
    words, rare = 0, []
    for path in [os.path.relpath(it, ROOT) for it in names] or files(ROOT):
        count, found = rare_words(ROOT, path)
        words, rare = words + count, rare + found
        for line in [*found, *long_sentences(ROOT, path)]:
            print(line)
    print(f"{words} words, {len(rare)} of the four")


if __name__ == "__main__":
    main(sys.argv[1:])
