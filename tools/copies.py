"""A copy of some crates, in which `rt ci` proves them and nothing else."""

import os
import shutil

from crates import ROOT, folder, name_of


def copy_to(copy, crates, tried=()):
    """Copies crates without what must fail; of those to be tried, the wrong bodies are in its place."""
    os.mkdir(copy)
    shutil.copy2(os.path.join(ROOT, "HANDLES"), copy)
    with open(os.path.join(ROOT, "crates.txt"), encoding="utf-8") as lines, open(os.path.join(copy, "crates.txt"), "w", encoding="utf-8") as out:
        out.writelines(line for line in lines if name_of(line) in crates)
    for crate in crates:
        source, to = folder(crate), os.path.join(copy, "crates", crate)
        shutil.copytree(source, to, ignore=shutil.ignore_patterns("out", "must-fail", "wrong-bodies"))
        if crate in tried:
            shutil.copytree(os.path.join(source, "wrong-bodies"), os.path.join(to, "must-fail"))
