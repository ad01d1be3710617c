"""Looks at what needs no proof, and refuses:
- sources that are not in the layout of `rt fmt`, or whose imports are not in the form of tools/imports.py; symbolic links; sources that no
  check reads
- definitions whose comments name no section, and names that two files of specs/ define
- names that have a better word in the glossary, names of crates that crates.txt doesn't list, and lines of crates.txt that lack what a
  crate names or list what it doesn't
- lines that say memory ran out where none was asked for (tools/memory.py)
- sentences of the pages with more than 35 words, and words that have a plainer one (tools/plain.py)
- lines of definitions and proofs, and clauses, that are too wide, more functions of many parameters, more clauses that come together,
  wrong bodies of both tiers that can't be applied, versions that differ, options that help, man page or a completion says otherwise than
  the table, rows of codes that are other than the manual's, and links of pages that lead nowhere

usage: ready.py

It takes some seconds; where it says `ready`, the gate can still refuse anything else. The last line is `ready`, with the status 0,
or `not ready`. It works on a copy, so that checks may run meanwhile.
"""

import os
import re
import shutil
import subprocess
import sys
import tempfile

from clauses import too_wide
from codes import retold_codes
from crates import ROOT, RT, libraries, listed
from edits import hindrance, names_in
from glossary import coined
from imports import misformed
from memory import unasked
from options import retold
from parameters import too_many
from plain import not_plain
from together import too_many_together
from version import other_versions
from widths import wide_lines

sys.path.append(os.path.join(ROOT, "tests", "cli"))

from docs_agree import broken_links

# Where a crate's sources are, by their ending.
PLACES = {".rt": ("src",), ".antt": ("specs", "proofs")}
LEFT = shutil.ignore_patterns(".git", "out", "__pycache__")
# How a definition of specs/ begins, at the left or in a mutual block.
DEFINITION = re.compile(r"(?:(?:abbrev|unfoldable) )?pub (?:(?:data|record) )?(?!(?:use|mod) )(\S+)")
INNER = re.compile(r"  pub (?:(?:data|record) )?(\S+)")
# How a comment says that what is below is own, and how it names a section.
OWN = re.compile(r"\(own[;)]|[;,] own\)")
SECTION = re.compile(r"\d\.\d|\(\d+[,;)]|RFC \d")
# How sources name a library, in paths of code and of proofs.
NAMED = re.compile(r"\bRattle\.([a-z0-9_]+)|\b([a-z0-9_]+)::")
# A crate's name, how a lemma of such a name begins, and the files that keep names of earlier days.
CRATE = re.compile(r"\byq_[a-z0-9_]+")
LEMMA = re.compile(r"^\s*(?:pub )?(yq_\w+) :", re.MULTILINE)
DATED = ("CHANGELOG.md", os.path.join("docs", "GATE.md"))


def misplaced(top):
    """Links, and sources that are not a listed crate's."""
    crates = libraries()
    for folder, folders, files in os.walk(top):
        for name in folders + files:
            path = os.path.relpath(os.path.join(folder, name), top)
            parts, kind = path.split(os.sep), os.path.splitext(name)[1]
            if os.path.islink(os.path.join(top, path)):
                yield f"{path} is a link"
            elif kind in PLACES and not (parts[0] == "crates" and parts[1] in crates and parts[2] in PLACES[kind]):
                yield f"no check reads {path}"


def badly_laid(top):
    """Sources that the toolchain would lay out in another way."""
    for crate in libraries():
        done = subprocess.run([*RT, "fmt"], cwd=os.path.join(top, "crates", crate), stdout=subprocess.PIPE, stderr=subprocess.STDOUT, encoding="utf-8", errors="replace")
        for line in done.stdout.splitlines():
            if "formatted " in line:
                yield f"crates/{crate}/{line.partition('formatted ')[2]} is not in the layout of rt fmt"
            elif done.returncode:
                yield f"crates/{crate}: {line}"


def definitions(lines):
    """What a file of specs/ defines for others: the number of the line, and the name."""
    mutual = False
    for number, line in enumerate(lines):
        if line[:1].strip() and not line.startswith("--"):
            mutual = line.split()[-1] == "mutual"
        found = DEFINITION.match(line) or (mutual and INNER.match(line))
        if found:
            yield number, found.group(1)


def untold(lines, path):
    """The definitions of a file that have no comment, or whose comment names no section and says nothing of own."""
    own = lines[0].startswith("--") and OWN.search(lines[0])
    for number, name in definitions(lines):
        first = number
        while first and lines[first - 1].lstrip().startswith("--"):
            first -= 1
        told = " ".join(lines[first:number]).replace("YAML 1.2.2", "")
        if not told:
            yield f"{path}:{number + 1}: {name} has no comment"
        elif not (own or OWN.search(told) or SECTION.search(told)):
            yield f"{path}:{number + 1}: the comment of {name} names no section and doesn't say own"


def faulty_definitions(top):
    """Definitions of all crates without a comment, or without a section or own in it or in the first line of their file, and names that
    two files define."""
    places = {}
    for crate in libraries():
        for folder, _, files in os.walk(os.path.join(top, "crates", crate, "specs")):
            for file in sorted(it for it in files if it.endswith(".antt")):
                path = os.path.relpath(os.path.join(folder, file), top)
                with open(os.path.join(folder, file), encoding="utf-8") as source:
                    lines = source.read().split("\n")
                yield from untold(lines, path)
                for number, name in definitions(lines):
                    places.setdefault(name, {}).setdefault(path, number + 1)
    for name, files in places.items():
        if len(files) > 1:
            yield f"{name} is defined in several files: " + ", ".join(f"{path}:{number}" for path, number in files.items())


def unknown_crates(top):
    """Paths and files that name a crate which crates.txt doesn't list, each name once a file, where it comes first."""
    known = listed()
    for folder, _, files in os.walk(top):
        for file in sorted(files):
            path = os.path.relpath(os.path.join(folder, file), top)
            try:
                with open(os.path.join(folder, file), encoding="utf-8") as source:
                    text = source.read()
            except (OSError, UnicodeDecodeError):
                continue
            own = set(LEMMA.findall(text)) if file.endswith(".antt") else ()
            for name in dict.fromkeys(CRATE.findall(path) + CRATE.findall(text) * (path not in DATED)):
                if name not in known and name not in own:
                    line = f":{text.partition(name)[0].count(chr(10)) + 1}" if name in text else ""
                    yield f"{path}{line} names {name}, which crates.txt doesn't list"


def other_libraries(top):
    """Lines of crates.txt that lack a library which the crate's sources name, or list one that they don't."""
    lines = listed()
    known = {*lines, *(it for libraries in lines.values() for it in libraries)}
    for crate, libraries in lines.items():
        named = set()
        for kind, places in PLACES.items():
            for place in places:
                for folder, _, files in os.walk(os.path.join(top, "crates", crate, place)):
                    for file in (it for it in files if it.endswith(kind)):
                        with open(os.path.join(folder, file), encoding="utf-8") as source:
                            named |= {a or b for a, b in NAMED.findall(source.read())}
        for name in sorted((named & known) - {crate, *libraries}):
            yield f"crates.txt: the line of {crate} lacks {name}, which its sources name"
        for name in sorted(set(libraries) - named):
            yield f"crates.txt: the line of {crate} lists {name}, which its sources don't name"


def not_applied():
    """Wrong bodies that can't be applied to the code as it is."""
    for crate in libraries():
        for tier in ("must-fail", "wrong-bodies"):
            for name in names_in(crate, tier):
                why = hindrance(crate, name, tier)
                if why:
                    yield f"{crate}/{tier}/{name} can't be applied: {why}"


def otherwise_told():
    """Files that name options otherwise than the table."""
    for path, _ in retold():
        yield f"{path} has other options than completions/options.json: tools/options.py writes it anew"


def other_codes():
    """Rows of codes that are other than the manual's."""
    for path, _ in retold_codes():
        yield f"{path} has other rows than docs/MANUAL.md: tools/codes.py writes them anew"


def lost_links():
    """Links of pages that lead nowhere."""
    for page, link in broken_links():
        yield f"{page}: {link} leads nowhere"


def main(words):
    if words:
        print(__doc__.strip(), file=sys.stderr)
        return 2
    room = tempfile.mkdtemp(prefix="ready-")
    try:
        copy = os.path.join(room, "copy")
        shutil.copytree(ROOT, copy, symlinks=True, ignore=LEFT)
        of_copy = (misplaced, badly_laid, misformed, faulty_definitions, coined, unasked, unknown_crates, other_libraries, not_plain)
        found = [it for look in of_copy for it in look(copy)]
        found += [*wide_lines(), *too_wide(), *too_many(), *too_many_together(), *not_applied(), *other_versions(), *otherwise_told(), *other_codes(), *lost_links()]
    finally:
        shutil.rmtree(room, ignore_errors=True)
    for it in found:
        print(it)
    print("not ready" if found else "ready")
    return 1 if found else 0


if __name__ == "__main__":
    sys.exit(main(sys.argv[1:]))
