"""The program's version: the line of help names it, and the man page and CHANGELOG.md have to agree."""

import os
import re

from crates import ROOT

HELP = os.path.join("crates", "yq_commands", "src", "help.rt")
# Where else it is: in the man page's foot, and as the first heading of the changes.
OTHERS = {
    os.path.join("man", "yq.1"): re.compile(r"^\.Os yq (\S+)$", re.MULTILINE),
    "CHANGELOG.md": re.compile(r"^## (\S+)", re.MULTILINE),
}
LINE = re.compile(r"^Version: +(\d+\.\d+\.\d+)$", re.MULTILINE)


def number_in(name, pattern):
    with open(os.path.join(ROOT, name), encoding="utf-8") as text:
        found = pattern.search(text.read())
    return found[1] if found else None


def version():
    """The version that help prints."""
    return number_in(HELP, LINE)


def other_versions():
    """Where another version is than the one that help prints."""
    wanted = version()
    if wanted is None:
        yield f"{HELP} names no version"
    for name, pattern in OTHERS.items():
        seen = number_in(name, pattern)
        if seen != wanted:
            yield f"{name} has the version {seen}, and help {wanted}"
