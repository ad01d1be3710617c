"""The notices of the toolchain's libraries that the program contains: those that crates.txt names, and those that these are built on."""

import os
import re
import subprocess

from crates import ROOT, RT

NAMED = re.compile(r"(?<![\w:])(\w+)::")
# `core` holds tables made of Unicode's data, of which the terms are with another library.
DATA_OF = {"core": "unicode"}
RULE = "=" * 80
HEAD = """\
yq contains code of these libraries of its toolchain, most of them ports of Rust crates of the same name.
After their names come the terms of each.
"""


def kit():
    """The folder of the toolchain's libraries."""
    page = subprocess.run([*RT, "doc"], check=True, capture_output=True, encoding="utf-8").stdout.strip()
    return os.path.join(os.path.dirname(page), "rattle")


def texts_below(top):
    """The texts of the sources below a folder, but for tests."""
    for place, folders, names in os.walk(top):
        folders[:] = [it for it in folders if it != "tests"]
        for name in names:
            if name.endswith(".rt"):
                with open(os.path.join(place, name), encoding="utf-8") as text:
                    yield re.sub(r"//.*", "", text.read())


def below(top, name):
    """The libraries that one of them names, where it has no module of that name."""
    found = {it for text in texts_below(os.path.join(top, name, "src")) for it in NAMED.findall(text)} - {name}
    own = {os.path.splitext(it)[0] for _, folders, names in os.walk(os.path.join(top, name, "src")) for it in folders + names}
    return [it for it in found - own if os.path.isdir(os.path.join(top, it, "src"))]


def contained(top):
    """The libraries that the program contains, in order of their names."""
    with open(os.path.join(ROOT, "crates.txt"), encoding="utf-8") as text:
        left = [it for line in text for it in line.partition("#")[0].replace(":", " ").split()]
    found = set()
    while left:
        name = left.pop()
        if name not in found and os.path.isdir(os.path.join(top, name, "src")):
            found.add(name)
            left += below(top, name)
    return sorted(found)


def notices():
    """The libraries by the texts of their terms, each text once."""
    top, names, bare = kit(), {}, []
    for name in contained(top):
        place = os.path.join(top, DATA_OF.get(name, name))
        files = sorted(it for it in os.listdir(place) if "LICENSE" in it)
        bare += [name] * (not files)
        for file in files:
            with open(os.path.join(place, file), encoding="utf-8") as text:
                names.setdefault(text.read().strip("\n"), []).append(name)
    parts = [f"\n{RULE}\n{', '.join(each)}\n{RULE}\n\n{text}\n" for text, each in names.items()]
    return "".join([HEAD, f"Without terms of their own, and the toolchain's: {', '.join(bare)}.\n", *parts])
