"""Files of the forms in which YAML is written for real programs (tests/data/forms/*.yaml): read, edited and undone.

usage: forms.py PATH_OF_YQ [SEED]      says what was tried on each

tests/data/forms/rows.json has for each file what is written by hand of it: `{"reads": [[EXPR, VALUE], ..], "edits": [[EXPR, OLD, NEW], ..]}`,
where a read prints the value and a line feed, and an edit of the file makes NEW of OLD, which is once in it, and is undone; or
`{"refused": LINE}`. Where PyYAML is there, values at random places are read and random edits done too, as a second implementation
means them, with a seed that is another one in each run and is printed; YQ_SEED in the environment of run.py sets it.
"""

import collections
import json
import os
import random
import sys
import tempfile
from concurrent.futures import ThreadPoolExecutor

sys.path.insert(0, os.path.dirname(os.path.abspath(__file__)))

from corpus import library
from harness import ROOT, Folder, equal, seed_of_run
from oracle import documents_of
from random_edits import FILE, Program, is_right

FORMS = os.path.join(ROOT, "tests", "data", "forms")
VALUES, LISTS, EDITS = 5, 3, 3


def rows():
    """The files, with what is written by hand of each."""
    with open(os.path.join(FORMS, "rows.json"), encoding="utf-8") as text:
        found = json.load(text)
    equal(sorted(found), sorted(it for it in os.listdir(FORMS) if it.endswith(".yaml")), "files of forms/")
    return found


def put(folder, text):
    """The file alone, with this text."""
    for name in folder.names():
        os.remove(folder.name(name))
    folder.write(FILE, text)


def as_written(folder, text, row, tally):
    """What is written by hand of a file is so."""
    put(folder, text)
    if "refused" in row:
        folder.refuses(row["refused"], ".", FILE)
        tally["refused"] += 1
        return
    for expr, value in row["reads"]:
        equal(folder.accepts(expr, FILE), value.encode() + b"\n", expr)
        tally["reads"] += 1
    for expr, old, new in row["edits"]:
        put(folder, text)
        equal(text.count(old.encode()), 1, (expr, "the old part is there once"))
        folder.accepts("-i", expr, FILE)
        equal(folder.read(FILE).decode(), text.replace(old.encode(), new.encode()).decode(), expr)
        folder.accepts("undo", FILE)
        equal(folder.read(FILE), text, (expr, "undone"))
        tally["edits"] += 1


def leaves(node, steps=()):
    """The scalars of a document to which no alias leads, by their paths."""
    if node.kind in ("list", "map"):
        for step, child in node.under():
            yield from leaves(child, (*steps, step))
    elif node.kind != "alias":
        yield steps, node


def path_of(steps):
    text = "".join(f"[{it}]" if isinstance(it, int) else f"[{json.dumps(it, ensure_ascii=False)}]" for it in steps)
    return "." + text


def at_random(yaml, folder, text, source, tally):
    """Values at random places are read, and random edits are as they are meant, each list of them undone."""
    put(folder, text)
    roots = documents_of(yaml, text.decode())
    scalars = list(leaves(roots[0])) if len(roots) == 1 else []
    for steps, node in source.sample(scalars, min(VALUES, len(scalars))):
        equal(folder.accepts(path_of(steps), FILE), node.text.encode() + b"\n", path_of(steps))
        tally["random reads"] += 1
    for _ in range(LISTS):
        put(folder, text)
        now, texts = roots, [text]
        for _ in range(EDITS):
            came, now = is_right(yaml, folder, now, Program(source, now))
            tally["random edits" if came == "edited" else "random edits refused"] += 1
            if folder.read(FILE) != texts[-1]:
                texts.append(folder.read(FILE))
        for before in texts[-2::-1]:
            folder.accepts("undo", FILE)
            equal(folder.read(FILE), before, "undone")


def one_form(yaml, folder, name, row, seed):
    """What was tried on a file, and why something isn't so, if it isn't."""
    tally = collections.Counter()
    with open(os.path.join(FORMS, name), "rb") as file:
        text = file.read()
    try:
        as_written(folder, text, row, tally)
        if yaml and "refused" not in row:
            at_random(yaml, folder, text, random.Random(f"{seed} {name}"), tally)
    except AssertionError as why:
        return name, tally, f"{name}, seed {seed}: {why}"
    return name, tally, None


def run_forms(folder, seed, each=False):
    """What was tried on all files, said by one line, or by one for each of them too; and what isn't so."""
    yaml, found = library(), rows()
    jobs = []
    with ThreadPoolExecutor(os.cpu_count()) as pool:
        for name, row in found.items():
            os.mkdir(folder.name(name))
            jobs.append(pool.submit(one_form, yaml, Folder(folder.yq, folder.name(name)), name, row, seed))
    total, wrong = collections.Counter(), []
    for name, tally, why in (job.result() for job in jobs):
        total.update(tally)
        wrong += [why] if why else []
        if each:
            print(f"{name}: " + counts(tally))
    print(f"forms: seed {seed}, {len(found)} files: {counts(total)}", flush=True)
    return wrong


def counts(tally):
    return ", ".join(f"{number} {what}" for what, number in sorted(tally.items()))


def check_forms_of_real_programs(folder):
    equal(run_forms(folder, seed_of_run()), [])


if __name__ == "__main__":
    with tempfile.TemporaryDirectory(prefix="yq-forms-") as top:
        bad = run_forms(Folder(os.path.realpath(sys.argv[1]), top), sys.argv[2] if len(sys.argv) > 2 else seed_of_run(), True)
    print("\n".join(bad))
    sys.exit(1 if bad else 0)
