"""Times updates of many places, and programs of many updates, next to one read and one print of the same text, in one run.

usage: updates.py PATH_OF_YQ [MOST]

Texts: so many items in a block sequence (`- i`), a block mapping (`ki: i`) and one flow sequence, 1,000, 10,000 and
100,000 of them, or MOST at most. Each update is carried out without `-i`, so the new text is printed, and no journal is
touched. The floor reads the text and prints it (`.`). Seconds are the processor's, the least of two turns; where a turn
takes more than ten seconds there is one, and where it would take more than a hundred by the square of what it took of fewer
places, it is left out.

Programs: 1, 10, 100 and 1,000 updates of one place each on services of 1 MB.
"""

import os
import sys
import tempfile

from measured import used_by
from services import services

COUNTS = (1_000, 10_000, 25_000, 100_000)

# What is asked of the items of a text, which are at the root.
IN_ALL = (".[] = 77", ".[] |= . + 1", "del(.[])")
IN_BLOCK = ('.[] line_comment = "x"',)


def sequence(n):
    return "".join(f"- {i}\n" for i in range(n))


def mapping(n):
    return "".join(f"k{i}: {i}\n" for i in range(n))


def flow(n):
    return "[" + ", ".join(str(i) for i in range(n)) + "]\n"


def mappings(n):
    return "".join(f"- {{a: {i}}}\n" for i in range(n))


def appended(n):
    return "a:\n  - 0\nb:\n" + "".join(f"  - {i}\n" for i in range(n)), ".a += .b"


def by_turns(n):
    there = "".join(f"  k{i}: {i}\n" for i in range(n))
    return f"a:\n{there}b:\n" + "".join(f"  k{i}: x\n  n{i}: y\n" for i in range(n)), ".a += .b"


def cases(n):
    """What a text is, the text, and an update of it."""
    for name, text in (("block sequence", sequence(n)), ("block mapping", mapping(n)), ("flow sequence", flow(n))):
        for update in IN_ALL + (() if name == "flow sequence" else IN_BLOCK):
            yield name, text, update
    yield "zeros and ones", "".join(f"- {i % 2}\n" for i in range(n)), "del(.[] | select(. == 1))"
    yield "mappings", mappings(n), ".[].x = 1"
    yield "a block sequence of one", *appended(n)
    yield "a block mapping by turns", *by_turns(n)


def seconds(folder, yq, expression):
    turns = []
    while len(turns) < 2 and not (turns and turns[0][0] > 10):
        turns.append(used_by([yq, expression, "f"], folder))
    return min(spent for spent, _, _ in turns), turns[0][2]


def put(folder, text):
    with open(os.path.join(folder, "f"), "w", encoding="utf-8") as out:
        out.write(text)


def shown(expression):
    return expression if len(expression) < 40 else expression[:36] + " .."


def row(folder, yq, name, text, expression):
    """Prints what an update takes, and gives it."""
    put(folder, text)
    floor, _ = seconds(folder, yq, ".")
    spent, said = seconds(folder, yq, expression)
    told = "" if said == b"" else said.decode().strip()[:60]
    print(f"{name:>24}  {shown(expression):<40}{floor:>10.3f}{spent:>10.3f}{spent / floor:>8.1f}  {told}", flush=True)
    return spent


def places(folder, yq, most):
    took = {}
    for n in COUNTS:
        if n > most:
            continue
        print(f"\n{n:,} places\n{'':>24}  {'update':<40}{'read':>10}{'update':>10}{'ratio':>8}")
        for name, text, update in cases(n):
            fewer, spent = took.get((name, shown(update)), (n, 0))
            if spent * (n / fewer) ** 2 > 100:
                print(f"{name:>24}  {shown(update):<40}  left out")
                continue
            took[(name, shown(update))] = n, row(folder, yq, name, text, update)


def programs(folder, yq):
    text, steps = services(1_000_000)
    path = "".join(f"[{step}]" if isinstance(step, int) else f'.["{step}"]' for step in steps)
    print(f"\nprograms on {len(text):,} bytes\n{'':>24}  {'updates':<40}{'read':>10}{'all':>10}{'ratio':>8}")
    for n in (1, 10, 100, 1_000):
        row(folder, yq, "services", text.decode(), " | ".join(f"{path} = {i}" for i in range(n)))


def main():
    yq = os.path.realpath(sys.argv[1])
    most = int(sys.argv[2]) if len(sys.argv) > 2 else COUNTS[-1]
    with tempfile.TemporaryDirectory(prefix="yq-bench-") as folder:
        programs(folder, yq)
        places(folder, yq, most)


main()
