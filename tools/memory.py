"""Where the sources say that memory ran out although nothing was asked of it, which `make ready` refuses.

Want of memory may be made of want of memory alone: in a `From` of it, in the arm of a match whose pattern names it, and where a line of
GROWTHS has just asked for memory. So no `map_err(|_| AllocError)`, no `Err(_) => Err(AllocError)` and no `None => Err(AllocError)`.
"""

import os
import re

from crates import ROOT, libraries

# How want of memory is made, and how a pattern names it.
MADE = re.compile(r"\bAllocError\)|(?:=>|\|) *AllocError\b|::(?:Memory|OutOfMemory)\b")
NAMED = re.compile(r"\bAllocError\b|\bAllocFailed\b|\bMemory\b|\bOutOfMemory\b|\bis_memory\(\)")
FROM = re.compile(r"fn from\(\w+: Alloc(?:Error|Failed<T>)\)")
CLAUSE = re.compile(r"\s*(?:ghost|ensures|requires|pub use|use)\b")
COMMENT = re.compile(r"\s*//")
COMPARED = re.compile(r"[=!]= *[\w:]+")
# Lines before which memory was asked for in another way than by `?`, by file: how often each comes there.
GROWTHS = {
    "crates/yq_journal/src/journal.rt": {"Err(Move::Edit(back)) => Err((back, JournalError::Memory)),": 1},
    "crates/yq_journal/src/opening.rt": {"Err(_) => Err((step, JournalError::Memory)),": 1, "return Err(JournalError::Memory);": 1},
    "crates/yq_store/src/disk/links.rt": {"return Err(io::Error::from(ErrorKind::OutOfMemory));": 1},
}


def makes(line, before):
    """Whether a line makes want of memory of something else, by its own text and the line before it."""
    if COMMENT.match(line) or FROM.search(before + line):
        return False
    pattern, arrow, answer = line.rpartition("=>")
    return bool(MADE.search(COMPARED.sub("", arrow + answer))) and not (arrow and NAMED.search(pattern))


def unasked(top):
    """Lines that say memory ran out where none was asked for, and lines of GROWTHS that aren't there."""
    for crate in libraries():
        for folder, _, files in os.walk(os.path.join(top, "crates", crate, "src")):
            for file in sorted(it for it in files if it.endswith(".rt")):
                path = os.path.relpath(os.path.join(folder, file), top)
                left, before, inside = dict(GROWTHS.get(path, {})), "", False
                with open(os.path.join(folder, file), encoding="utf-8") as source:
                    for number, line in enumerate(source, 1):
                        inside = inside or bool(CLAUSE.match(line))
                        if not inside and makes(line, before):
                            if left.get(line.strip(), 0):
                                left[line.strip()] -= 1
                            else:
                                yield f"{path}:{number} says that memory ran out where none was asked for"
                        # A clause or an import goes on up to the line that closes it.
                        inside, before = inside and not line.rstrip().endswith(("}", ";")), line
                yield from (f"tools/memory.py allows {line} in {path} once too often" for line, times in left.items() if times)
