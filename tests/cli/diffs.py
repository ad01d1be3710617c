"""What `--diff` prints: a unified diff, which leads from the old text to the new one and back, of updates and of what a history holds.

usage: diffs.py PATH_OF_YQ COUNT [SEED]     the diffs of random edits of so many random texts
"""

import json
import os
import random
import re
import shutil
import subprocess
import sys

sys.path.insert(0, os.path.dirname(os.path.abspath(__file__)))

from harness import SECONDS, Skip, equal, run_alone
from random_edits import Update
from random_texts import Texts
from oracle import documents_of
from tables import TABLES, text_of

LISTS = 100
CONTEXT = 3
FILE = "f"
RANGES = re.compile(rb"@@ -(\d+)(?:,(\d+))? \+(\d+)(?:,(\d+))? @@\n")
NOTE = b"\\ No newline at end of file\n"
RECORD = re.compile(rb'(\d+) (done|undone) (".*")\n')
UNFIT = b"no diff: this edit doesn't fit FILE any more\n"
NO_TEXT = b"no diff: FILE is not UTF-8 before or after this edit\n"


def lines_of(text):
    """The lines of a text with their breaks; only a line feed ends one."""
    lines = text.split(b"\n")
    return [line + b"\n" for line in lines[:-1]] + [line for line in lines[-1:] if line]


def hunks_of(diff, name=b"f"):
    """The hunks of a diff: where each begins in either text, counted from 0, and its marks with their lines."""
    lines = lines_of(diff)
    equal(lines[:2], [b"--- " + name + b"\n", b"+++ " + name + b"\n"], "names")
    hunks = []
    for line in lines[2:]:
        ranges = RANGES.fullmatch(line)
        if ranges:
            old, old_count, new, new_count = (1 if n is None else int(n) for n in ranges.groups())
            hunks.append((old - (old_count > 0), old_count, new - (new_count > 0), new_count, []))
        elif line == NOTE:
            mark, text = hunks[-1][4][-1]
            hunks[-1][4][-1] = mark, text[:-1]
        else:
            hunks[-1][4].append((line[:1], line[1:]))
    return hunks


def applied(hunks, text, back=False):
    """The text after the hunks, of which each has to be where it says."""
    lines, out, done = lines_of(text), [], 0
    goes, comes = (b"+", b"-") if back else (b"-", b"+")
    for old, old_count, new, new_count, marked in hunks:
        at, count, made = (new, new_count, old_count) if back else (old, old_count, new_count)
        there, put = ([line for mark, line in marked if mark != other] for other in (comes, goes))
        equal((at >= done, len(there), len(put)), (True, count, made), "ranges")
        equal(lines[at:at + count], there, "lines of a hunk")
        out += lines[done:at] + put
        done = at + count
    return b"".join(out + lines[done:])


def has_context(hunks, old):
    """Three lines stay before the first change of a hunk and after the last one, where there are so many, and no more than six between two."""
    count, before = len(lines_of(old)), 0
    for at, length, _, _, marked in hunks:
        runs = "".join("s" if mark == b" " else "c" for mark, _ in marked)
        front, after = len(runs) - len(runs.lstrip("s")), len(runs) - len(runs.rstrip("s"))
        equal((front, after), (min(CONTEXT, front + at), min(CONTEXT, after + count - at - length)), runs)
        equal((at > before or before == 0, "s" * (2 * CONTEXT + 1) in runs), (True, False), runs)
        before = at + length


def patched(folder, diff, old, new):
    """`patch` makes the new text of the old one, and the old one again."""
    for text, made, ways in ((old, new, []), (new, old, ["-R"])):
        folder.write(FILE, text)
        done = subprocess.run(["patch", "-p0", "-s", "-f", *ways], input=diff, cwd=folder.path, capture_output=True)
        equal((done.returncode, done.stdout), (0, b""), (diff, ways))
        equal(folder.read(FILE) if FILE in folder.names() else b"", made, (diff, ways))


def sections(listing):
    """The numbers and states of a listing's records, and what comes after the line of each."""
    found = []
    for line in lines_of(listing):
        record = RECORD.fullmatch(line)
        if record:
            found.append([int(record[1]), record[2].decode(), b""])
        else:
            found[-1][2] += line
    return [tuple(section) for section in found]


def in_place(folder, old, new, expr, diff):
    """With `-i` the edit is made and the same diff is printed; `history --diff` has it too, before an undo and after it."""
    equal(folder.accepts("-i", "-d", expr, FILE), diff, expr)
    equal(folder.read(FILE), new, expr)
    if old == new:
        equal(folder.names(), [FILE], expr)
        return
    for state, text in (("done", new), ("undone", old)):
        before = folder.files()
        equal(sections(folder.accepts("history", "--diff", FILE)), [(1, state, diff)], expr)
        equal((folder.files(), folder.read(FILE)), (before, text), expr)
        if state == "done":
            folder.accepts("undo", FILE)
    os.remove(folder.name(FILE + ".undo.json"))


def shows(folder, old, expr):
    """The diff of an edit of a text, tried both ways; what is refused is refused as without `--diff`."""
    folder.write(FILE, old)
    seen = folder.run("eval", "--diff", expr, FILE)
    status, new, err = folder.run("eval", expr, FILE)
    equal((folder.names(), folder.read(FILE)), ([FILE], old), expr)
    if status:
        equal(seen, (status, new, err), expr)
        return
    equal((seen[0], seen[2]), (0, b""), expr)
    diff = seen[1]
    in_place(folder, old, new, expr, diff)
    if old == new:
        equal(diff, b"", expr)
        return
    hunks = hunks_of(diff)
    equal((applied(hunks, old), applied(hunks, new, back=True)), (new, old), expr)
    has_context(hunks, old)
    if shutil.which("patch"):
        patched(folder, diff, old, new)


def rows():
    """The texts and expressions of all rows of the tables that edit, but for reads."""
    for name in sorted(os.listdir(TABLES)):
        with open(os.path.join(TABLES, name), encoding="utf-8") as table:
            for row in json.load(table)["rows"]:
                if "edit" in row and row.get("refused") != "X15 not an update":
                    yield text_of(row["text"]), row["edit"]


def random_diffs(folder, count, seed):
    try:
        import yaml
    except ImportError:
        raise Skip("needs PyYAML") from None
    for number in range(count):
        source = random.Random(f"{seed} {number}")
        text = Texts(source).text()
        try:
            roots = documents_of(yaml, text)
        except yaml.YAMLError:
            continue
        folder.write(FILE, text.encode())
        if folder.run(".", FILE)[2].startswith(b"Error: Y"):
            continue
        shows(folder, text.encode(), " | ".join(Update(source, roots).text for _ in range(source.randrange(1, 4))))


def check_a_diff_goes_to_patch_in_each_shell(folder):
    if shutil.which("patch") is None:
        raise Skip("needs patch")
    for shell in filter(shutil.which, ("dash", "bash")):
        folder.write("f", b"a: 1 # c\n")
        script = '"$0" -d ".a = 2" f | patch -p0 -s && "$0" -i --diff ".a = 3" f | patch -p0 -s -R -o old f'
        done = subprocess.run([shell, "-c", script, folder.yq], cwd=folder.path, capture_output=True, timeout=SECONDS)
        equal((done.returncode, done.stdout + done.stderr), (0, b""), shell)
        equal((folder.read("f"), folder.read("old")), (b"a: 3 # c\n", b"a: 2 # c\n"), shell)


def check_a_diff_has_colours_on_a_terminal_alone(folder):
    """Its lines, each in the colour of what it is; none with NO_COLOR, of what is no diff, or into a pipe."""
    folder.write("f", b"- 1\n- 2\n")
    folder.accepts("-i", ".[1] = 3", "f")
    plain = b"--- f\n+++ f\n@@ -1,2 +1,2 @@\n-- 1\n+- 5\n - 3\n"
    shown = b"\x1b[1m--- f\x1b[0m\n\x1b[1m+++ f\x1b[0m\n\x1b[36m@@ -1,2 +1,2 @@\x1b[0m\n\x1b[31m-- 1\x1b[0m\n\x1b[32m+- 5\x1b[0m\n - 3\n"
    bare = {name: value for name, value in os.environ.items() if name != "NO_COLOR"}
    for env, wanted in ((bare, shown), ({**bare, "NO_COLOR": ""}, shown), ({**bare, "NO_COLOR": "1"}, plain)):
        equal(folder.on_terminal("stdout", "--diff", ".[0] = 5", "f", env=env), (0, wanted, b""), env.get("NO_COLOR"))
    equal(folder.accepts("--diff", ".[0] = 5", "f"), plain)
    equal(folder.on_terminal("stdout", ".", "f", env=bare), (0, b"- 1\n- 3\n", b""))
    status, seen, _err = folder.on_terminal("stdout", "history", "--diff", "f", env=bare)
    equal((status, seen.split(b"\n")[0], seen.count(b"\x1b[32m+- 3\x1b[0m\n")), (0, b'1 done ".[1] = 3"', 1))
    folder.accepts("history", "f")


def check_diffs_of_the_rows_that_edit(folder):
    for old, expr in rows():
        if len(old) < 1_000_000:
            shows(folder, old, expr)


def check_diffs_of_random_edits(folder):
    random_diffs(folder, LISTS, 1)


def check_a_diff_has_the_name_of_its_file(folder):
    for name, printed in (("a b.yaml", b'"a b.yaml"'), ('a"b', b'"a\\"b"'), ("a\\b", b'"a\\\\b"'), ("x\ty", b'"x\\ty"'), ("./f", b"./f"), ("ä", "ä".encode())):
        folder.write(name, b"n: 1\n")
        diff = folder.accepts("-d", ".n = 2", name)
        equal(diff, b"--- " + printed + b"\n+++ " + printed + b"\n@@ -1 +1 @@\n-n: 1\n+n: 2\n")
        if shutil.which("patch"):
            subprocess.run(["patch", "-p0", "-s", "-f"], input=diff, cwd=folder.path, check=True)
            equal(folder.read(name), b"n: 2\n", name)


def check_places_far_apart_have_hunks_of_their_own(folder):
    old = b"".join(b"k%02d: %d\n" % (i, i) for i in range(40))
    folder.write(FILE, old)
    diff = folder.accepts("--diff", ".k30 = 0 | .k02 = 0 | .k09 = 0 | .k17 = 0", FILE)
    equal([(at, count) for at, count, _, _, _ in hunks_of(diff)], [(0, 13), (14, 7), (27, 7)])


def check_a_large_text(folder):
    old = b"".join(b"k%07d: value %07d # c\n" % (i, i) for i in range(500_000))
    folder.write(FILE, old[:16_000_000].rsplit(b"\n", 1)[0] + b"\n")
    diff = folder.accepts("--diff", ".k0400000 = 7 | .k0000007 = 1", FILE)
    equal([(at, count) for at, count, _, _, _ in hunks_of(diff)], [(4, 7), (399_997, 7)])


def edited(folder, texts, *edits):
    """Edits of the file in place, of which each text is kept."""
    for words in edits:
        folder.accepts("-i", *words, FILE)
        texts.append(folder.read(FILE))


def check_a_history_shows_what_each_record_did(folder):
    texts = [b"a: 1\nb: 2\n" + b"x: 0 # keep\n" * 0 + b"c: [1, 2]\n"]
    folder.write(FILE, texts[0])
    edited(folder, texts, (".a = 10",), (".c += [3]",), ('.d = "new"',), ("del(.b)",), ('.a line_comment = "ten"',))
    for done in (5, 4, 2, 0):
        while folder.read(FILE) != texts[done]:
            folder.accepts("undo", FILE)
        found = sections(folder.accepts("history", "-d", FILE))
        equal([record[:2] for record in found], [(i + 1, "done" if i < done else "undone") for i in range(5)])
        for (_, _, diff), old, new in zip(found, texts, texts[1:]):
            hunks = hunks_of(diff)
            equal((applied(hunks, old), applied(hunks, new, back=True)), (new, old))
    folder.accepts("redo", FILE)
    folder.accepts("redo", FILE)
    folder.accepts("squash", "2", FILE)
    (number, state, diff), *others = sections(folder.accepts("history", "--diff", FILE))
    equal((number, state, applied(hunks_of(diff), texts[0]), len(others)), (1, "done", texts[2], 3))


def check_a_history_says_which_record_does_not_fit(folder):
    texts = [b"a: 1\nb: 2\nc: 3\n"]
    folder.write(FILE, texts[0])
    edited(folder, texts, (".a = 7",), (".b = 8",), (".c = 9",))
    folder.accepts("undo", FILE)
    for text, parts in (
        (b"a: 0\nb: 8\nc: 3\n", [UNFIT, None, None]),
        (b"a: 7\nb: 0\nc: 3\n", [b"", UNFIT, None]),
        (b"a: 7\nb: 8\nc: 0\n", [None, None, UNFIT]),
        (b"a: 7\nb: 8\n", [b"", UNFIT, UNFIT]),
        (b"a: 7\nb: 8\nc:\xff3\n", [NO_TEXT, NO_TEXT, NO_TEXT]),
        (b"a: 7\nb: 0\nc:\xff3\n", [b"", UNFIT, NO_TEXT]),
    ):
        folder.write(FILE, text)
        before = folder.files()
        found = sections(folder.accepts("history", "--diff", FILE))
        equal(folder.files(), before)
        for (_, _, seen), part in zip(found, parts):
            if part is None:
                hunks_of(seen)
            else:
                equal(seen, part, (text, found))
        equal(folder.accepts("history", FILE), b"".join(b"%d %s %s\n" % (i + 1, b"done" if i < 2 else b"undone", quoted) for i, quoted in enumerate((b'".a = 7"', b'".b = 8"', b'".c = 9"'))))


def check_an_edit_stays_whose_diff_is_not_put(folder):
    if not os.path.exists("/dev/full"):
        raise Skip("needs /dev/full")
    folder.write(FILE, b"n: 1\n")
    with open("/dev/full", "wb") as full:
        done = subprocess.run([folder.yq, "-i", "-d", ".n = 2", FILE], cwd=folder.path, stdout=full, stderr=subprocess.PIPE)
    equal((done.returncode, done.stderr, folder.read(FILE)), (1, b"Error: S4 out failed\n", b"n: 2\n"))
    equal(folder.accepts("history", FILE), b'1 done ".n = 2"\n')


def check_other_options_stay_beside_a_diff(folder):
    folder.write(FILE, b"n: 1\n")
    folder.refuses("N1 no matches found", "--diff", "--expect-change", ".n = 1", FILE)
    folder.refuses("N1 no matches found", "-i", "--diff", "--expect-change", ".n = 1", FILE)
    equal((folder.accepts("-d", ".n", FILE), folder.accepts("-id", ".n = 1", FILE)), (b"1\n", b""))
    for words in (("undo",), ("redo",), ("squash", "1")):
        folder.refuses("U1 usage", *words, "--diff", FILE)
    equal(folder.names(), [FILE])


if __name__ == "__main__":
    run_alone(random_diffs, *sys.argv[1:3], *(sys.argv[3:4] or "1"))
    print(f"{sys.argv[2]} texts: each diff leads both ways")
