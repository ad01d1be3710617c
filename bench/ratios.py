"""Counts the instructions of each kind of update on each shape of text, and says how many times those of a read and print it takes.

usage: ratios.py PATH_OF_YQ [PLACES]

A shape is a text with so many places (4,000) and the path to them; the updates are those that fit what is at the places. Each is carried
out without `-i` and counted by valgrind's callgrind, next to `.` on the old text or the new one, whichever takes more. A line has the shape,
the update, the instructions of both and the quotient. All processors are used: instructions don't depend on what runs beside them. The last
line is `N at most 4, N above`. A program with checks takes more, so this is for the linked one.
"""

import os
import subprocess
import sys
import tempfile
from concurrent.futures import ThreadPoolExecutor

from measured import by_callgrind

MOST = 4
PLACES = 4_000


def lines(of_number):
    return lambda n: "".join(of_number(i) for i in range(n))


def flow(of_number, between=", ", start="[", end="]\n"):
    return lambda n: start + between.join(of_number(i) for i in range(n)) + end


def below(head, of_number, after=""):
    return lambda n: head + lines(of_number)(n) + after


def deep(levels):
    return lambda n: "".join(" " * k + "d:\n" for k in range(levels)) + "".join(" " * levels + f"- {i}\n" for i in range(n))


def after_long(levels):
    """A sequence as deep as so many levels, in each of which as many entries are before it."""

    def text(n):
        before = ["".join("  " * k + f"p{i}: 1\n" for i in range(n)) + "  " * k + "z:\n" for k in range(levels)]
        return "".join(before) + "".join("  " * levels + f"- {i}\n" for i in range(n))

    return text


def cube(n):
    side = max(2, round(n ** (1 / 3)))
    inner = "".join(f"    c{k}: {k}\n" for k in range(side))
    return "".join(f"a{i}:\n" + "".join(f"  b{j}:\n{inner}" for j in range(side)) for i in range(side))


def cube_of_four(n):
    side = max(2, round(n**0.25))
    text = "".join(" " * 12 + f"- {k}\n" for k in range(side))
    for indent, key in ((8, "c"), (4, "b"), (0, "a")):
        text = (" " * indent + f"- {key}:\n" + text) * side
    return text


def aliased(n):
    anchors, aliases = lines(lambda i: f"  - &a{i} x{i}\n")(n), lines(lambda i: f"  - *a{i}\n")(n)
    return "r:\n" + anchors + "s:\n" + aliases + "t:\n" + lines(lambda i: f"  - {i}\n")(n)


# What is at the places: an int, a text, a mapping with `a` and `b`, a list, nothing.
INT, TEXT, MAPPING, LIST, NULL = range(5)
A_PAIR, A_ROW = (lambda i: "{a: %d, b: 1}" % i), (lambda i: f"[{i}, 1]")
SHAPES = {
    "sequence": (lines(lambda i: f"- {i}\n"), ".[]", INT),
    "mapping": (lines(lambda i: f"k{i}: {i}\n"), ".[]", INT),
    "mapping under a key": (below("a: 1\nb:\n", lambda i: f"  k{i}: {i}\n", "c: 1\n"), ".b[]", INT),
    "sequence under a key": (below("a: 1\nb:\n", lambda i: f"  - {i}\n", "c: 1\n"), ".b[]", INT),
    "quoted keys": (lines(lambda i: f'"key {i}": {i}\n'), ".[]", INT),
    "escaped keys": (lines(lambda i: f'"key\\t{i}": {i}\n'), ".[]", INT),
    "Cyrillic keys": (lines(lambda i: f"ключ{i}: {i}\n"), ".[]", INT),
    "nulls": (lines(lambda i: f"k{i}:\n"), ".[]", NULL),
    "flow sequence": (flow(str), ".[]", INT),
    "flow sequence over lines": (flow(lambda i: f"  {i}", ",\n", "[\n", "\n]\n"), ".[]", INT),
    "flow mapping": (flow(lambda i: f"k{i}: {i}", start="{", end="}\n"), ".[]", INT),
    "flow mapping over lines": (flow(lambda i: f"  k{i}: {i}", ",\n", "a: {\n", "\n  }\n"), ".a[]", INT),
    "mappings in items": (lines(lambda i: f"- a: {i}\n  b: 1\n"), ".[]", MAPPING),
    "first values of items": (lines(lambda i: f"- a: {i}\n  b: 1\n"), ".[].a", INT),
    "last values of items": (lines(lambda i: f"- a: {i}\n  b: 1\n"), ".[].b", INT),
    "mappings under keys": (lines(lambda i: f"k{i}:\n  a: {i}\n  b: 1\n"), ".[]", MAPPING),
    "values under keys": (lines(lambda i: f"k{i}:\n  a: {i}\n  b: 1\n"), ".[].b", INT),
    "sequences under keys": (lines(lambda i: f"k{i}:\n  - {i}\n  - 1\n"), ".[]", LIST),
    "items under keys": (lines(lambda i: f"k{i}:\n  - {i}\n  - 1\n"), ".[][1]", INT),
    "flow mappings": (lines(lambda i: f"- {A_PAIR(i)}\n"), ".[]", MAPPING),
    "values of flow mappings": (lines(lambda i: f"- {A_PAIR(i)}\n"), ".[].b", INT),
    "flow sequences": (lines(lambda i: f"- {A_ROW(i)}\n"), ".[]", LIST),
    "items of flow sequences": (lines(lambda i: f"- {A_ROW(i)}\n"), ".[][0]", INT),
    "mappings in flow": (flow(A_PAIR), ".[]", MAPPING),
    "values in flow": (flow(A_PAIR), ".[].b", INT),
    "sequences in flow": (flow(A_ROW), ".[]", LIST),
    "documents": (lines(lambda i: f"---\na: {i}\n"), ".a", INT),
    "roots": (lines(lambda i: f"---\n{i}\n"), ".", INT),
    "mappings in documents": (lines(lambda i: f"---\na:\n  x: {i}\n"), ".a", MAPPING),
    "20 deep": (deep(20), "." + ".".join(["d"] * 20) + "[]", INT),
    "60 deep": (deep(60), "." + ".".join(["d"] * 60) + "[]", INT),
    "anchors": (lines(lambda i: f"- &a{i} {i}\n"), ".[]", INT),
    "after aliases": (aliased, ".t[]", INT),
    "literals": (lines(lambda i: f"- |\n  text {i}\n  more\n"), ".[]", TEXT),
    "literals under keys": (lines(lambda i: f"k{i}: |\n  text {i}\n  more\n"), ".[]", TEXT),
    "literals with blank lines": (lines(lambda i: f"- |+\n  text {i}\n\n"), ".[]", TEXT),
    "CR LF": (lines(lambda i: f"- {i}\r\n"), ".[]", INT),
    "comments": (lines(lambda i: f"# about {i}\n- {i} # c\n\n"), ".[]", INT),
    "texts of two lines": (lines(lambda i: f"- word {i}\n  and more\n"), ".[]", TEXT),
    "texts": (lines(lambda i: f"- word {i}\n"), ".[]", TEXT),
    "quoted texts": (lines(lambda i: f'- "word\\t{i}"\n'), ".[]", TEXT),
    "compact sequences": (lines(lambda i: f"- - {i}\n  - 1\n"), ".[]", LIST),
    "first items, compact": (lines(lambda i: f"- - {i}\n  - 1\n"), ".[][0]", INT),
    "last items, compact": (lines(lambda i: f"- - {i}\n  - 1\n"), ".[][1]", INT),
    "three dashes": (lines(lambda i: f"- - - {i}\n"), ".[][][]", INT),
    "three levels": (cube, ".[][][]", INT),
    "four levels": (cube_of_four, ".[].a[].b[].c[]", INT),
    "after long mappings, 1": (after_long(1), ".z[]", INT),
    "after long mappings, 2": (after_long(2), ".z.z[]", INT),
    "after long mappings, 3": (after_long(3), ".z.z.z[]", INT),
    "JSON": (flow(lambda i: '  {\n    "a": %d,\n    "b": [1, 2]\n  }' % i, ",\n", "[\n", "\n]\n"), ".[].a", INT),
    "lists of items": (below("items:\n", lambda i: f"  - name: n{i}\n    value: {i}\n    tags: [a, b]\n"), ".items[].tags", LIST),
    "nodes alone on a line": (lines(lambda i: f"-\n  {i}\n"), ".[]", INT),
}
# `@` is the path.
OF_ALL = [
    "@ = 77", '@ = "x y"', "@ = [1, 2]", '@ = {"z": 1}', '@ = {"z": {"y": [1]}}', "@ = null", "del(@)",
    '@ line_comment = "x"', '@ head_comment = "x"', '@ line_comment = ""', '@ head_comment = ""',
]
OF_KIND = {
    INT: ["@ |= . + 1", "@ += 1", "del(@ | select(. == 1))", "(@ | select(. != 1)) = 5"],
    TEXT: ['@ += "x"', '@ |= . + "x"', '@ = "x\\ny\\n"'],
    MAPPING: [
        "@.x = 1", '@.x.y = {"q": [1]}', '@ += {"n": 1, "b": 3}', '@ += {"n": {"o": [1]}}', "del(@.b)", "del(@.a)",
        '@.b line_comment = "x"', "@.a = 3",
    ],
    LIST: ["@ += 5", "@ += [5, 6]", '@ += {"a": 1}', "del(@[0])", "del(@[-1])", "@[0] = 3", '@[0] line_comment = "x"', "del(@[])"],
    NULL: ["@.x = 1", "@ += 1"],
}


def counted(yq, expression, text):
    """The status of a run, its instructions, and what it prints."""
    with tempfile.TemporaryDirectory(prefix="yq-bench-") as folder:
        with open(os.path.join(folder, "f"), "wb") as out:
            out.write(text)
        done, total = by_callgrind([yq, expression, "f"], folder, printed=subprocess.PIPE)
    return done.returncode, total, done.stdout


def both(yq, places, shape, update):
    """The instructions of an update and of the dearer read; nothing, where the update is refused."""
    make, path, _ = SHAPES[shape]
    old = make(places).encode()
    status, spent, new = counted(yq, update.replace("@", path), old)
    if status != 0:
        return None
    # A text of a fourth of the length isn't the dearer one.
    texts = [old] + [new] * (len(new) > len(old) // 4)
    return spent, max(counted(yq, ".", text)[1] for text in texts)


def main():
    yq = os.path.realpath(sys.argv[1])
    places = int(sys.argv[2]) if len(sys.argv) > 2 else PLACES
    runs = [(shape, update) for shape, (_, _, kind) in SHAPES.items() for update in OF_ALL + OF_KIND[kind]]
    within = above = 0
    with ThreadPoolExecutor(os.cpu_count()) as pool:
        for (shape, update), found in zip(runs, pool.map(lambda run: both(yq, places, *run), runs)):
            if not found:
                continue
            spent, read = found
            above += spent > MOST * read
            within += spent <= MOST * read
            print(f"{shape:<28}{update:<28}{spent:>13,}{read:>13,}{spent / read:>7.2f}", flush=True)
    print(f"{within} at most {MOST}, {above} above")


main()
