"""Runs expressions on texts that are made to be slow: each is to take at most 5 s of the processor and 512 MB.

usage: hostile.py PATH_OF_YQ [TENTH]      with TENTH, every tenth of the runs alone, from that one on (0 to 9)

20 expressions on each of 62 texts of 1 MB, and one or two expressions of their own on the other texts. A refused run counts like
others: what matters is what it takes. Runs that are known to take more are listed with their cause (KNOWN): they end after 5 s
at most, and are reported. The
last line is `N within, N known, N above`.
"""

import os
import resource
import subprocess
import sys
import tempfile
from concurrent.futures import ThreadPoolExecutor

SECONDS, MEGABYTES = 5, 512
SIZE = 1_000_000

EXPRESSIONS = [
    ".", ".a", ".[]", ".a.b.c.d", ".a[0]", ".[] | select(.a == 1)", ".a = 1", ".zz = 1", ".a += 1", ".a += [1]", ".[] = 1", ".[].z = 1",
    "del(.a)", "del(.[])", "del(.a[])", ".a |= .", ".[] = .", ".a += .a", '.a line_comment = "x"', '.[] head_comment = "x\\ny"',
]


def lines(of_number, size):
    """Lines of rising numbers, to about so many bytes."""
    made, length, number = [], 0, 0
    while length < size:
        made.append(of_number(number))
        length += len(made[-1])
        number += 1
    return "".join(made)


def items(of_number, size, between=", "):
    return between.join(lines(lambda n: of_number(n) + "\n", size).splitlines())


def deep_blocks(size):
    one = "".join(" " * n + f"k{n}:\n" for n in range(60)) + " " * 60 + "a: 1\n"
    return lines(lambda n: f"r{n}:\n" + "".join(" " + line + "\n" for line in one.splitlines()), size)


def deep_flows(size):
    return lines(lambda n: f"r{n}: " + "[" * 60 + "1" + "]" * 60 + "\n", size)


def of_a(text):
    return "a:\n" + "".join("  " + line + "\n" for line in text.splitlines())


TEXTS = {
    "keys": lambda s: lines(lambda n: f"k{n}: {n}\n", s),
    "keys under a": lambda s: of_a(lines(lambda n: f"k{n}: {n}\n", s * 3 // 4)),
    "items": lambda s: lines(lambda n: f"- {n}\n", s),
    "items under a": lambda s: of_a(lines(lambda n: f"- {n}\n", s * 3 // 4)),
    "one flow list": lambda s: "a: [" + items(str, s) + "]\n",
    "one flow mapping": lambda s: "a: {" + items(lambda n: f"k{n}: {n}", s) + "}\n",
    "a flow list as root": lambda s: "[" + items(str, s) + "]\n",
    "a flow mapping as root": lambda s: "{" + items(lambda n: f"k{n}: {n}", s) + "}\n",
    "flow over lines": lambda s: "a: [\n" + lines(lambda n: f"  {n},\n", s) + "]\n",
    "flow mapping over lines": lambda s: "a: {\n" + lines(lambda n: f"  k{n}: {n},\n", s) + "}\n",
    "JSON objects in one row": lambda s: '{"items": [' + items(lambda n: '{"id": %d, "on": true}' % n, s) + "]}\n",
    "JSON objects in rows": lambda s: "[\n" + lines(lambda n: '{"id": %d, "on": true},\n' % n, s)[:-2] + "\n]\n",
    "empty lists in one row": lambda s: "a: [" + "[], " * (s // 4) + "[]]\n",
    "commas": lambda s: "a: [" + "1," * (s // 2) + "1]\n",
    "mappings in items": lambda s: lines(lambda n: f"- a: {n}\n  b: x\n", s),
    "lists in items": lambda s: lines(lambda n: f"- - {n}\n  - x\n", s),
    "lists of no items": lambda s: lines(lambda n: f"k{n}: []\n", s),
    "nulls": lambda s: lines(lambda n: f"k{n}:\n", s),
    "bare dashes": lambda s: "-\n" * (s // 2),
    "60 deep, in blocks": deep_blocks,
    "60 deep, in flow": deep_flows,
    "64 dashes a row": lambda s: lines(lambda n: "- " * 64 + "1\n", s),
    "65 dashes a row": lambda s: lines(lambda n: "- " * 65 + "1\n", s),
    "open brackets": lambda s: "[" * s,
    "open braces": lambda s: "{" * s,
    "anchors": lambda s: lines(lambda n: f"k{n}: &x{n} 1\n", s),
    "anchors and aliases": lambda s: lines(lambda n: f"k{n}: &x{n} 1\nl{n}: *x{n}\n", s),
    "aliases of one anchor": lambda s: "a: &x 1\n" + lines(lambda n: f"k{n}: *x\n", s),
    "aliases in one row": lambda s: "a: &x 1\nb: [" + "*x, " * (s // 4) + "*x]\n",
    "an anchor of all": lambda s: "a: &x\n" + lines(lambda n: f"  k{n}: {n}\n", s) + "b: *x\n",
    "comments": lambda s: "# note\n" * (s // 7) + "a: 1\n",
    "comments between": lambda s: lines(lambda n: f"# note {n}\nk{n}: 1\n", s),
    "comments in rows": lambda s: lines(lambda n: f"k{n}: 1 # note {n}\n", s),
    "one long comment": lambda s: "a: 1 # " + "x" * s + "\n",
    "comments of many columns": lambda s: lines(lambda n: " " * (n % 300) + "# x\n", s) + "a: 1\n",
    "blank lines": lambda s: "\n" * s + "a: 1\n",
    "white lines": lambda s: (" " * 99 + "\n") * (s // 100) + "a: 1\n",
    "one long plain scalar": lambda s: "a: " + "x" * s + "\n",
    "one long quoted scalar": lambda s: 'a: "' + "x" * s + '"\n',
    "escapes": lambda s: 'a: "' + "\\n" * (s // 2) + '"\n',
    "escapes of eight digits": lambda s: 'a: "' + "\\U0001F600" * (s // 10) + '"\n',
    "doubled quotes": lambda s: "a: '" + "''" * (s // 2) + "'\n",
    "folded quoted lines": lambda s: 'a: "' + "x\n " * (s // 3) + '"\n',
    "a quote that is open": lambda s: 'a: "' + "x\n " * (s // 3),
    "a plain scalar of many lines": lambda s: "a: x\n" + "  x\n" * (s // 4),
    "one long literal": lambda s: "a: |\n" + "  x\n" * (s // 4),
    "one long folded scalar": lambda s: "a: >\n" + "  x\n" * (s // 4),
    "a literal of blank lines": lambda s: "a: |+\n" + "\n" * s,
    "blank literals": lambda s: lines(lambda n: f"k{n}: |\n\n\n", s),
    "literals": lambda s: lines(lambda n: f"k{n}: |\n  x\n", s),
    "documents": lambda s: "---\na: 1\n" * (s // 9),
    "empty documents": lambda s: "---\n" * (s // 4),
    "documents of lists": lambda s: "---\n- 1\n" * (s // 8),
    "long keys": lambda s: lines(lambda n: f"{n:01000}: 1\n", s),
    "too long a key": lambda s: "k" * s + ": 1\n",
    "one key twice at the end": lambda s: lines(lambda n: f"k{n}: 1\n", s) + "k0: 1\n",
    "keys that fall": lambda s: lines(lambda n: f"k{999_999 - n}: 1\n", s),
    "quoted keys": lambda s: lines(lambda n: f'"k{n}\\n": 1\n', s),
    "non-ASCII": lambda s: lines(lambda n: f"k{n}: \u4e2d\U0001f600\n", s),
    "CR LF": lambda s: lines(lambda n: f"k{n}: 1\r\n", s),
    "entries between blank lines": lambda s: lines(lambda n: f"k{n}: {n}\n\n", s),
    "items between comments": lambda s: lines(lambda n: f"# c\n\n- {n}\n", s),
}

# Texts of a few large lists, or many small ones, and others, with expressions of their own that write many times as much.
LISTS = {
    "in flow": lambda size: "- [" + "1," * (size // 2) + "1]\n",
    "in blocks": lambda size: "-\n" + "  - 1\n" * (size // 6),
    "of lists": lambda size: "-\n" + "  - [1]\n" * (size // 8),
}
SUMS = [".[] |= " + "+".join(["."] * 500), ".[] |= [" + ",".join(["1"] * 480) + "]"]
SUMMED = {
    f"{count} lists {kind}": lambda size, one=one, count=count: one(size // count) * count
    for kind, one in LISTS.items()
    for count in (3, 10, 100, 10_000)
}
ENTRIES = [".[] += {" + ",".join(f'"k{number}":1' for number in range(count)) + "}" for count in (20, 100, 400)]
BELOW = "del(." + "[]" * 60 + ".a[])"
OWN = {name: SUMS for name in SUMMED} | {
    "a long string": [*SUMS, ".[0] += " + "+".join([".[0]"] * 240)],
    "ten long strings": SUMS,
    "mappings and nulls": ENTRIES[:2],
    "few mappings and nulls": ENTRIES[2:],
    "mappings alone on lines": ENTRIES[:1],
    "an alias last": [".c = .a"],
    "a list below long keys": [BELOW],
}
TEXTS.update(SUMMED)
TEXTS["a long string"] = lambda size: "- " + "x" * size + "\n"
TEXTS["ten long strings"] = lambda size: ("- " + "x" * (size // 10) + "\n") * 10
TEXTS["mappings and nulls"] = lambda size: "- {a: 1}\n- null\n" * (size // 16)
TEXTS["few mappings and nulls"] = lambda size: "- {a: 1}\n- null\n" * (size // 1000)
TEXTS["mappings alone on lines"] = lambda size: "-\n  {a: 1}\n" * (size // 11)
SHORT_KEYS = "".join(f"{' ' * n}k:\n" for n in range(1, 61))
TEXTS["an alias last"] = lambda size: "b: &x 1\na:\n" + SHORT_KEYS + (" " * 62 + "- 1\n") * (size // 66) + " " * 62 + "- *x\n"
LONG_KEYS = "".join(f"{' ' * n}{n:01000}:\n" for n in range(60))
TEXTS["a list below long keys"] = lambda size: LONG_KEYS + " " * 60 + "a: [" + "1, " * (size * 3 // 10) + "1]\n"

ONE_BY_ONE = "entries are added to a flow mapping one by one, and each time those before them are read"

# What takes more, by its cause: texts, and expressions on them.
ABOVE = [
    (ONE_BY_ONE, ["mappings and nulls", "mappings alone on lines"], ENTRIES[:1]),
    (ONE_BY_ONE, ["few mappings and nulls"], ENTRIES[2:]),
]
KNOWN = {(name, expression): cause for cause, names, expressions in ABOVE for name in names for expression in expressions}


def pairs():
    """All runs, in order: the name of a text, and an expression."""
    return [(name, expression) for name in TEXTS for expression in of_text(name)]


def of_text(name):
    """The expressions that are run on a text."""
    return OWN.get(name, EXPRESSIONS)


def tenth(number):
    """Every tenth run, from 0 to 9: most texts by two expressions."""
    rows = [(i + j, pair) for i, name in enumerate(TEXTS) for j, pair in enumerate((name, e) for e in of_text(name))]
    return [pair for place, pair in rows if place % 10 == number]


def used(yq, path, expression, seconds):
    """The status, the seconds of the processor and the megabytes of a run that is ended after so many seconds."""

    def limit():
        resource.setrlimit(resource.RLIMIT_CPU, (seconds + 1, seconds + 1))
        resource.setrlimit(resource.RLIMIT_AS, (2 << 30, 2 << 30))

    null = subprocess.DEVNULL
    run = subprocess.Popen([yq, expression, path], stdin=null, stdout=null, stderr=null, preexec_fn=limit)
    _pid, status, usage = os.wait4(run.pid, 0)
    run.returncode = os.waitstatus_to_exitcode(status)
    return run.returncode, usage.ru_utime + usage.ru_stime, usage.ru_maxrss / 1024


def hostile_runs(yq, folder, wanted, size=SIZE, seconds=SECONDS):
    """What each of these runs takes on texts of this size: its text and expression, its status, seconds and megabytes."""
    paths = {}
    for name, _expression in wanted:
        if name not in paths:
            paths[name] = os.path.join(folder, f"{len(paths)}.yaml")
            with open(paths[name], "w", encoding="utf-8", newline="") as text:
                text.write(TEXTS[name](size))
    with ThreadPoolExecutor(max(1, (os.cpu_count() or 1) - 1)) as pool:
        jobs = [(pair, pool.submit(used, yq, paths[pair[0]], pair[1], seconds)) for pair in wanted]
        return [(*pair, *job.result()) for pair, job in jobs]


def is_within(status, seconds, megabytes):
    return status in (0, 1) and seconds <= SECONDS and megabytes <= MEGABYTES


def main():
    yq = os.path.abspath(sys.argv[1])
    wanted = tenth(int(sys.argv[2])) if len(sys.argv) > 2 else pairs()
    within = known = above = 0
    with tempfile.TemporaryDirectory(prefix="yq-hostile-") as folder:
        for name, expression, *took in hostile_runs(yq, folder, wanted):
            cause = KNOWN.get((name, expression))
            if is_within(*took):
                within += 1
                word = "known, and within" if cause else ""
            elif cause:
                known += 1
                word = "known: " + cause
            else:
                above += 1
                word = "above"
            if word:
                print(f"{name}, {expression[:40]}: status {took[0]}, {took[1]:.2f} s, {took[2]:.0f} MB: {word}")
    print(f"{within} within, {known} known, {above} above")
    return 1 if above else 0


if __name__ == "__main__":
    sys.exit(main())
