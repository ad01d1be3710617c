"""The crates of the repository, as crates.txt lists them, the command that proves them, and what a run of it took."""

import os
import re
import resource
import sys
import time

ROOT = os.path.dirname(os.path.dirname(os.path.abspath(__file__)))
# The toolchain's command; another one may be in the environment, as RT="nice rt".
RT = os.environ.get("RT", "rt").split()


def listed():
    """For each crate, in the order of the lines, the libraries that its line lists."""
    with open(os.path.join(ROOT, "crates.txt"), encoding="utf-8") as lines:
        return {name_of(line): line.partition("#")[0].partition(":")[2].split() for line in lines if name_of(line)}


def libraries():
    """For each crate, lowest first, the crates of the repository below it, lowest first, in whatever order the lines come."""
    named, below = listed(), {}

    def add(crate):
        direct = [it for it in named[crate] if it in named]
        for it in direct:
            if it not in below:
                add(it)
        known = {it for library in direct for it in [library, *below[library]]}
        below[crate] = [it for it in below if it in known]

    for crate in named:
        if crate not in below:
            add(crate)
    return below


def name_of(line):
    """The crate that a line of crates.txt lists, or None."""
    name, colon, _ = line.partition("#")[0].partition(":")
    return name.split()[0] if colon else None


def number_in(path, pattern):
    """The number that a pattern finds in a file, or None."""
    try:
        with open(path, encoding="utf-8") as text:
            found = re.search(pattern, text.read(), re.MULTILINE)
    except OSError:
        return None
    return int(found[1]) if found else None


def folder(crate):
    return os.path.join(ROOT, "crates", crate)


def carry_out(main):
    """Ends as a script's `main` does with the words after its name, and with status 130 where it is interrupted."""
    try:
        sys.exit(main(sys.argv[1:]))
    except KeyboardInterrupt:
        sys.exit(130)


def kept_by_host():
    """The processor seconds that the host of a virtual machine gave to others since the machine's start; 0 where it doesn't say."""
    return (number_in("/proc/stat", r"^cpu +(?:\d+ +){7}(\d+)") or 0) / os.sysconf("SC_CLK_TCK")


def took(began, kept):
    """What this process and those that it started took, since a time by the clock at which the host had kept so many processor seconds."""
    used = [resource.getrusage(it) for it in (resource.RUSAGE_SELF, resource.RUSAGE_CHILDREN)]
    seconds = sum(it.ru_utime + it.ru_stime for it in used)
    told = f"took {seconds:.0f} processor seconds (user and system), {time.monotonic() - began:.0f} s by the clock"
    kept = kept_by_host() - kept
    return f"{told}; the machine's host kept {kept:.0f} processor seconds from it" if kept >= 1 else told
