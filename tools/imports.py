"""The form of imports: one `use` for each library whose names a file brings in, in as many lines as 140 columns ask for.

usage: imports.py [--look]      rewrites the imports of src/, specs/ and proofs/ of all crates

With --look it changes nothing and prints the files whose imports have another form; the status is 1 where there are some. The names of a
library come by module, each module and each name in the order in which the file has them. Lines that bring in a whole module, pass names
on (`pub use`), are inside an item or are Rust's own stay as they are.
"""

import os
import re
import sys

from crates import ROOT, libraries

MOST = 140
ROOMS = ("src", "specs", "proofs")
# An import of names, at the left: of a source file with `ghost`, of a proof file without.
USE = {".rt": re.compile(r"ghost use ([^{;\s]+)\.\{(.*)\};$"), ".antt": re.compile(r"use ([^{;\s]+)\.\{(.*)\}$")}
SHAPE = {".rt": "ghost use {};", ".antt": "use {}"}


def parts(text):
    """The parts of a text between its commas, but for those inside braces."""
    found, depth = [""], 0
    for sign in text:
        depth += (sign == "{") - (sign == "}")
        if sign == "," and not depth:
            found.append("")
        else:
            found[-1] += sign
    return [it.strip() for it in found if it.strip()]


def names_of(path, text):
    """Each name that an import brings in, with its module: `a as b` where it gets another."""
    for part in parts(text):
        if part.endswith("}"):
            inner, _, names = part[:-1].partition(".{")
            yield from names_of(f"{path}.{inner}", names)
        else:
            name, _, other = part.partition(" as ")
            module, _, name = f"{path}.{name}".rpartition(".")
            yield module, f"{name} as {other}" if other else name


def in_group(module, names):
    """Names of a module as a part of an import, the module's path from its library on."""
    if not module:
        return ", ".join(names)
    return f"{module}.{{{', '.join(names)}}}" if len(names) > 1 else f"{module}.{names[0]}"


def lines_of(library, modules, shape):
    """The imports of a library's names, each as wide as it may be and no wider, as far as one name alone allows."""

    def line(chosen):
        if len(chosen) > 1:
            return shape.format(f"{library}.{{{', '.join(in_group(*it) for it in chosen.items())}}}")
        module, names = next(iter(chosen.items()))
        path = f"{library}.{module}" if module else library
        return shape.format(f"{path}.{{{', '.join(names)}}}")

    found, last = [], {}
    for module, names in modules.items():
        whole = {**last, module: names}
        if last and len(line(whole)) > MOST:
            found.append(line(last))
            last, whole = {}, {module: names}
        if len(line(whole)) <= MOST:
            last = whole
            continue
        for name in names:
            more = {module: [*last.get(module, ()), name]}
            if last and len(line(more)) > MOST:
                found.append(line(last))
                more = {module: [name]}
            last = more
    return [*found, line(last)]


def in_form(text, kind):
    """The text of a source of this kind with its imports in the form, where the first of them is."""
    lines = text.split("\n")
    found = {number: USE[kind].match(line) for number, line in enumerate(lines)}
    found = {number: it for number, it in found.items() if it}
    by_library = {}
    for it in found.values():
        for module, name in names_of(it[1], it[2]):
            library = ".".join(module.split(".")[:2])
            names = by_library.setdefault(library, {}).setdefault(module[len(library) + 1 :], [])
            names += [name] * (name not in names)
    new = [line for library, modules in by_library.items() for line in lines_of(library, modules, SHAPE[kind])]
    out = []
    for number, line in enumerate(lines):
        out += [line] if number not in found else new if number == min(found) else []
    return "\n".join(out)


def others(top):
    """The sources below a folder whose imports have another form, each with its text in that form."""
    for crate in libraries():
        for room in ROOMS:
            for folder, folders, files in os.walk(os.path.join(top, "crates", crate, room)):
                folders.sort()
                for path in (os.path.join(folder, it) for it in sorted(files) if os.path.splitext(it)[1] in USE):
                    with open(path, encoding="utf-8") as source:
                        text = source.read()
                    new = in_form(text, os.path.splitext(path)[1])
                    if new != text:
                        yield path, new


def misformed(top):
    """The crates below a folder with such sources: how many, and the first."""
    found = {}
    for path, _ in others(top):
        path = os.path.relpath(path, top)
        found.setdefault(path.split(os.sep)[1], []).append(path)
    for each in found.values():
        more = f" and {len(each) - 1} more" if len(each) > 1 else ""
        yield f"{each[0]}{more}: imports are not one for each library (python3 tools/imports.py mends it)"


def main(words):
    sys.stdout.reconfigure(errors="replace")
    if words not in ([], ["--look"]):
        print(__doc__.strip(), file=sys.stderr)
        return 2
    found = list(others(ROOT))
    for path, new in found:
        if words:
            print(os.path.relpath(path, ROOT))
        else:
            with open(path, "w", encoding="utf-8") as source:
                source.write(new)
    if not words:
        print(f"{len(found)} files changed")
    return 1 if words and found else 0


if __name__ == "__main__":
    sys.exit(main(sys.argv[1:]))
