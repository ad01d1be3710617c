"""Tries shorter proofs of a crate's lemmas, and keeps what passes.

usage: shorter.py CRATE tries       writes after each lemma copies of it, shorter by one form each
       shorter.py CRATE keep LOG    takes the copies out again, and those that LOG doesn't refuse take the places of what they shorten

Between the two, in crates/CRATE: `rt check --allow-holes > LOG`, which takes 0.3 s for a copy. Work in a clone of the repository. The
forms are: `search` with the lemmas that are cited, in place of a lemma that doesn't cite itself; the same in place of a clause of two
lines and more; and one clause for those of a lemma whose right sides are alike. Afterwards take out the lemmas that nothing cites any
more, and run `rt check --fix-imports`, `rt fmt` and tools/imports.py.
"""

import json
import os
import re
import sys

from crates import ROOT

GOALS = {"Answers.antt", "Invariants.antt", "Preserved.antt", "Proof.antt", "Requires.antt", "Lib.antt"}
LEMMA = re.compile(r"(\s*)(?:pub )?([^\s:(){},]+) : ")
OTHERS = {"use", "record", "data", "abbrev", "unfoldable", "opaque", "module", "mutual", "ruleset", "private"}
WORD = re.compile(r"[^\s(){}\[\],.;:=λ`\"'|]+(?:\.[^\s(){}\[\],.;:=λ`\"'|]+)*'*")
# Names of the kit's Common that a search can rewrite by; its other names are no lemmas.
COMMON = {"append_assoc", "append-nil", "add-one", "length-append", "length-drop", "length-take", "drop-cons"}
FAILED = re.compile(r"(?m)^\./proofs/(\S+\.antt):(\d+):\d+: error: (.)")


def indent(line):
    return len(line) - len(line.lstrip())


def whole(name):
    """A pattern of a name that is no part of another one."""
    return re.compile(rf"(?<![\w\-'.≡≢◌]){re.escape(name)}(?![\w\-'≡≢◌])")


def parts(text):
    """A text cut at each space outside of brackets."""
    found, depth, start = [], 0, 0
    for at, char in enumerate(text):
        depth += (char in "([{") - (char in ")]}")
        if char == " " and depth == 0:
            found.append(text[start:at])
            start = at + 1
    return [it for it in found + [text[start:]] if it.strip()]


class Lemma:
    """A lemma of a file: its lines from `first`, its clauses from `body`, up to before `end`."""

    def __init__(self, lines, first, body, end, name):
        self.first, self.body, self.end, self.name = first, body, end, name
        self.indent = indent(lines[first])
        self.starts = [it for it in range(body, end) if lines[it].startswith(" " * self.indent + name + " ")]
        self.heads = [self.patterns(lines[it]) for it in self.starts]
        self.spans = list(zip(self.starts, self.starts[1:] + [end]))

    def patterns(self, line):
        """A clause's patterns, and what is on its line after the =."""
        text, depth = line[self.indent + len(self.name):], 0
        for at, char in enumerate(text):
            depth += (char in "([{") - (char in ")]}")
            if depth == 0 and f"{text} "[at:at + 3] == " = ":
                return parts(text[:at]), text[at + 3:].strip()
        return parts(text), ""

    def text(self, lines, start, end):
        """The lines without the names that begin the clauses."""
        return "\n".join(it[self.indent + len(self.name):] if at in self.starts else it for at, it in enumerate(lines[start:end], start))


def goes_on(line, clause, column):
    """Whether a lemma's clauses go on with a line: one of theirs, an empty one, a deeper one, or one that closes a bracket."""
    return line.startswith(clause) or not line.strip() or indent(line) > column or line.strip()[0] in ")]}"


def lemmas(lines):
    """The lemmas of a file, of its sections too; those in mutual and where blocks are passed over."""
    at = 0
    while at < len(lines):
        found = LEMMA.match(lines[at])
        if not found or found[2] in OTHERS or indent(lines[at]) not in (0, 2):
            at += 1
            continue
        name, body = found[2], at + 1
        clause = " " * indent(lines[at]) + name + " "
        while body < len(lines) and lines[body].strip() and not lines[body].startswith(clause):
            body += 1
        end = last = body
        while end < len(lines) and goes_on(lines[end], clause, indent(lines[at])):
            end += 1
            last = end if lines[end - 1].strip() else last
        if last > body:
            yield Lemma(lines, at, body, last, name)
        at = max(last, at + 1)


def known(lines, own):
    """The names of lemmas that a file can cite."""
    names = set(own)
    for line in lines:
        if line.startswith("use ") and ".Goals" not in line:
            words = set(re.findall(r"[a-z][^\s{},.]*", line.split("proofs.", 1)[-1])) if "proofs." in line else set()
            names |= words & COMMON if "proofs.Common" in line else words - {"proofs", "specs", "lemmas"}
    return names


def searched(text, names, name):
    """A search with the lemmas that a text cites."""
    cited = [it for it in dict.fromkeys(WORD.findall(re.sub(r"--.*", "", text))) if it in names and it != name]
    return f"search (rules, {', '.join(cited)})" if cited else "search rules"


def laid(left, right):
    """A clause on one line, or on two where it is longer than 160 columns."""
    return [f"{left} {right}"] if len(left) + len(right) < 160 else [left, " " * (indent(left) + 4) + right]


def binders(signature):
    """What a signature calls each argument that isn't in braces, or None."""
    names = []
    for piece in re.split(r"\s→\s", re.sub(r"\s+", " ", signature.split(" : ", 1)[1])):
        groups = parts(piece.strip())
        if all(re.fullmatch(r"[({].* : .*[)}]", it) for it in groups):
            names += [name for it in groups if it[0] == "(" for name in it[1:].split(" : ")[0].split()]
        elif piece.count("(") == piece.count(")"):
            names.append(None)
        else:
            return []
    return names


def variables(lines, lemma):
    """A name for each argument of a lemma: what its signature or a clause calls it, or its place."""
    of_signature, named = binders("\n".join(lines[lemma.first:lemma.body])), []
    for place in range(len(lemma.heads[0][0])):
        told = of_signature[place:place + 1] + [it[0][place] for it in lemma.heads if re.fullmatch(r"[a-z]\w*'*", it[0][place])]
        told = [it for it in told if it not in (None, "zero", "true", "false", "refl", "tt")]
        named.append(told[0] if told and told[0] not in named else f"h{place}")
    return named


def merged(lines, lemma):
    """The clauses of a lemma, one at the end for those whose right sides are alike; None if there are none."""
    sides = [re.sub(r"\s+", " ", lemma.text(lines, *it).split("=", 1)[1]).strip() for it in lemma.spans]
    alike = [it for it in range(len(sides)) if sides.count(sides[it]) > 1 and sides[it] == max(sides, key=sides.count)]
    if not alike or any("where" in it for it in sides):
        return None
    columns = list(zip(*(lemma.heads[it][0] for it in alike)))
    used = {it for column in columns if len(set(column)) > 1 for pattern in column for it in WORD.findall(pattern)}
    if used & set(WORD.findall(sides[alike[0]])):
        return None
    head = [column[0] if len(set(column)) == 1 else "{_}" if column[0][0] == "{" else "_" for column in columns]
    start, end = lemma.spans[alike[0]]
    rest = [line for it, span in enumerate(lemma.spans) if it not in alike for line in lines[slice(*span)]]
    return rest + [" " * lemma.indent + " ".join([lemma.name, *head, "="]) + f" {lemma.heads[alike[0]][1]}".rstrip(), *lines[start + 1:end]]


def shorter(lines, lemma, names):
    """For each form: the lines that a copy has after its signature, which lines it takes the place of, and what comes there."""
    if len({len(it[0]) for it in lemma.heads}) != 1 or lemma.end - lemma.body < 2:
        return
    name, text, mine = lemma.name, lemma.text(lines, lemma.body, lemma.end), " " * lemma.indent
    if not whole(name).search(text) and not any("{" in it[0] for head in lemma.heads for it in head[0]):
        clause = laid(mine + " ".join([name, *variables(lines, lemma), "="]), searched(text, names, name))
        yield clause, (lemma.body, lemma.end), clause
    for (start, end), (patterns, _) in zip(lemma.spans, lemma.heads):
        if len(lemma.spans) > 1 and end - start > 1 and not whole(name).search(lemma.text(lines, start, end)):
            clause = laid(mine + " ".join([name, *patterns, "="]), searched(lemma.text(lines, start, end), names, name))
            yield lines[lemma.body:start] + clause + lines[end:lemma.end], (start, end), clause
    clauses = merged(lines, lemma)
    if clauses:
        yield clauses, (lemma.body, lemma.end), clauses


def files(crate):
    """Each file of lemmas of a crate: its path in proofs/, and its lines."""
    top = os.path.join(ROOT, "crates", crate, "proofs")
    for folder, _, found in os.walk(top):
        for file in sorted(it for it in found if it.endswith(".antt") and it not in GOALS):
            with open(os.path.join(folder, file), encoding="utf-8") as source:
                yield os.path.relpath(os.path.join(folder, file), top), source.read().split("\n")


def write(crate, path, lines):
    with open(os.path.join(ROOT, "crates", crate, "proofs", path), "w", encoding="utf-8") as file:
        file.write("\n".join(lines))


def tries(crate):
    """Writes the copies; the list of them, with the lines of each, goes to tries.json next to the crate's sources."""
    listed = {}
    for path, lines in files(crate):
        found, new, copies = list(lemmas(lines)), ["use Rattle.std.proofs.Common.{rules}"], []
        names, done = known(lines, {it.name for it in found}), 0
        for lemma in found:
            new += lines[done:lemma.end]
            done = lemma.end
            for number, (body, span, put) in enumerate(shorter(lines, lemma, names)):
                copy = [whole(lemma.name).sub(f"{lemma.name}-t{number}", it) for it in lines[lemma.first:lemma.body] + body]
                if sum(len(parts(it)) and it.count("(") - it.count(")") for it in copy) == 0:
                    copies.append((len(new) + 2, len(new) + 1 + len(copy), span, put))
                    new += ["", *copy]
        if copies:
            listed[path] = lines, copies
            write(crate, path, new + lines[done:])
    with open(os.path.join(ROOT, "crates", crate, "tries.json"), "w", encoding="utf-8") as file:
        json.dump(listed, file)
    print(sum(len(it[1]) for it in listed.values()), "copies")


def keep(crate, log):
    """Puts the files back, with the copies that the log doesn't refuse in place."""
    failed, fewer, note = {}, 0, os.path.join(ROOT, "crates", crate, "tries.json")
    with open(log, encoding="utf-8") as text, open(note, encoding="utf-8") as file:
        found, listed = FAILED.findall(text.read()), json.load(file)
    for path, line, _ in found:
        failed.setdefault(path, set()).add(int(line))
    broken = [path for path, _, sign in found if sign != "`"]
    for path, (lines, copies) in listed.items():
        passed = [it for it in copies if not broken and not failed.get(path, set()) & set(range(it[0], it[1] + 1))]
        taken = []
        for _, _, (start, end), put in sorted(passed, key=lambda it: len(it[3]) - (it[2][1] - it[2][0])):
            if len(put) < end - start and max(map(len, put)) <= 160 and all(end <= it[0] or it[1] <= start for it in taken):
                taken.append((start, end, put))
        for start, end, put in sorted(taken, reverse=True):
            fewer += end - start - len(put)
            lines[start:end] = put
        write(crate, path, lines)
    os.remove(note)
    print(f"a file can't be read: {', '.join(broken)}" if broken else f"{fewer} lines fewer")


if __name__ == "__main__":
    if sys.argv[2:] == ["tries"]:
        tries(sys.argv[1])
    elif sys.argv[2:3] == ["keep"] and len(sys.argv) == 4:
        keep(sys.argv[1], sys.argv[3])
    else:
        sys.exit(__doc__)
