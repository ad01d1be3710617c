"""The wrong bodies of a crate: files *.edit in the form of `rt must-fail`, in crates/NAME/must-fail/ those of the gate, in wrong-bodies/ the others."""

import os
import re

from crates import folder, listed


def names_in(crate, tier="wrong-bodies"):
    """The names of a crate's wrong bodies, in the order in which they are tried."""
    place = os.path.join(folder(crate), tier)
    found = os.listdir(place) if os.path.isdir(place) else ()
    return sorted(it for it in found if it.endswith(".edit"))


def hindrance(crate, name, tier="wrong-bodies"):
    """Why an edit can't be applied to its crate as it is, or None: each old text is once in its file, and the new one names no
    crate that crates.txt doesn't list for this one."""
    texts, path, old, libraries = {}, None, None, listed()
    with open(os.path.join(folder(crate), tier, name), encoding="utf-8") as lines:
        for line in lines.read().split("\n"):
            word, _, text = line.partition(": ")
            if word == "file":
                path = text.strip()
            elif word == "old":
                old = text
            elif line.startswith("new:"):
                if path not in texts and not os.path.isfile(os.path.join(folder(crate), path)):
                    return f"there is no {path}"
                if path not in texts:
                    with open(os.path.join(folder(crate), path), encoding="utf-8") as it:
                        texts[path] = it.read()
                found = texts[path].count(old)
                if found != 1:
                    return f"an old text is in {path} {found} times, and not once"
                unlisted = [it for it in re.findall(r"\b(\w+)::", text) if it in libraries and it not in libraries[crate]]
                if unlisted and path.endswith(".rt"):
                    return f"it names {unlisted[0]}, which crates.txt doesn't list for {crate}"
                texts[path] = texts[path].replace(old, text)
    return None if texts else "it changes nothing"
