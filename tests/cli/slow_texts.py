"""A tenth of the hostile runs of bench/hostile.py, on texts of a tenth: none ends by a signal or takes long. And a program of
many updates."""

import multiprocessing
import os
import sys
from concurrent.futures import ProcessPoolExecutor

from harness import ROOT, equal

sys.path.insert(0, os.path.join(ROOT, "bench"))

import hostile
from measured import used_by
from services import services

SIZE = hostile.SIZE // 10
SECONDS, MEGABYTES = 1, 64
# Values that are made however short the text is: in parts of 256 MiB, or of 480 items at each place.
MADE = [".[] = .", hostile.SUMS[1]]
# Texts of which each removal leaves the lines between two entries.
LEAVING_LINES = ["blank literals", "entries between blank lines", "items between comments"]
UPDATES, SERVICES = 200, 200_000
# Of each of three levels, and of the sequence below them.
MANY = 16_000
PLACES = ".z.z.z[]"
# It is put as deep as the first collection under a key is.
NESTED = ' = {"z": {"y": [1]}}'


def runs(folder, wanted, size=SIZE):
    """These runs, begun by a small process: the most memory of a run counts that of the process which began it."""
    with ProcessPoolExecutor(1, multiprocessing.get_context("spawn")) as small:
        return small.submit(hostile.hostile_runs, folder.yq, folder.path, wanted, size).result()


def check_a_tenth_of_the_hostile_runs(folder):
    """Those that are known to take more are left out."""
    wanted = [pair for pair in hostile.tenth(0) if pair not in hostile.KNOWN]
    equal(len(wanted) > 90, True, len(wanted))
    for name, expression, status, seconds, megabytes in runs(folder, wanted):
        most = (hostile.SECONDS, hostile.MEGABYTES) if expression in MADE else (SECONDS, MEGABYTES)
        within = status in (0, 1), seconds <= most[0], megabytes <= most[1]
        equal(within, (True, True, True), (name, expression, status, seconds, megabytes))


def grows_with_the_text(folder, wanted, size):
    """On four times the text they take at most eight times as long, where that is more than 0.4 s."""
    for small, large in zip(runs(folder, wanted, size), runs(folder, wanted, 4 * size)):
        within = small[2], large[2], large[3] <= 8 * max(small[3], 0.05), large[4] <= MEGABYTES
        equal(within, (0, 0, True, True), (small, large))


def check_removals_that_leave_lines_between_entries(folder):
    grows_with_the_text(folder, [(name, "del(.[])") for name in LEAVING_LINES], SIZE)


def check_several_items_put_into_empty_collections(folder):
    grows_with_the_text(folder, [("empty lists in one row", ".a[] += [1, 2]")], SIZE // 4)


def check_a_program_does_not_read_its_text_for_each_update(folder):
    """So many updates of a place in the middle take less than a fifth of so many reads."""
    text, steps = services(SERVICES)
    folder.write("f", text)
    path = "".join(f"[{step}]" if isinstance(step, int) else f'.["{step}"]' for step in steps)
    program = " | ".join(f"{path} = {n}" for n in range(UPDATES))
    read, spent = (min(used_by([folder.yq, it, "f"], folder.path)[0] for _ in range(3)) for it in (path, program))
    equal(spent < read * UPDATES / 5, True, (read, spent))


def each_within_a_second(folder, updates):
    for update in updates:
        status, seconds, _megabytes = hostile.used(folder.yq, folder.name("f"), update, 2 * SECONDS)
        equal((status, seconds <= SECONDS), (0, True), (update, seconds))


def check_paths_through_long_collections(folder):
    """The way to each place goes on from that to the one before it, in all collections that it passes."""
    levels = ["".join("  " * level + f"p{n}: 1\n" for n in range(MANY)) + "  " * level + "z:\n" for level in range(3)]
    folder.write("f", ("".join(levels) + "".join(f"      - {n}\n" for n in range(MANY))).encode())
    puts = [" = 77", " += 1", " = [1, 2]", NESTED, ' line_comment = "x"', ' head_comment = "x"']
    each_within_a_second(folder, [*(PLACES + put for put in puts), f"del({PLACES})"])


def check_values_at_the_ends_of_long_paths(folder):
    """They are put in parts, as each operation has all keys of its path: together they would take 1.3 GB."""
    keys = "".join('{"' + f"k{n}".ljust(1000, "x") + '": ' for n in range(60))
    folder.write("f", (keys + "[" + ", ".join("1" for _ in range(MANY)) + "]" + "}" * 60 + "\n").encode())
    for update in (" = 22", " += 1", " |= . + 1"):
        status, seconds, megabytes = hostile.used(folder.yq, folder.name("f"), f".{'[]' * 61}{update}", 2 * hostile.SECONDS)
        within = status, seconds <= hostile.SECONDS, megabytes <= hostile.MEGABYTES
        equal(within, (0, True, True), (update, seconds, megabytes))


def check_collections_put_on_lines_of_their_own(folder):
    """Each stays on its line: how deep collections are isn't asked."""
    folder.write("f", b"-\n  5\n" * MANY)
    each_within_a_second(folder, [f".[]{NESTED}"])


def check_removals_from_several_collections(folder):
    """They go together in each of two documents, and in each of two mappings."""
    items = "".join(f"  # about {n}\n  - {n}\n\n" for n in range(MANY))
    folder.write("f", (f"a:\n{items}b:\n{items}---\na:\n{items}").encode())
    each_within_a_second(folder, ["del(.[][])"])


def check_paths_through_a_long_flow_mapping(folder):
    """Each entry is looked for next to the one before it."""
    folder.write("f", ("{" + ", ".join(f'"p{n}": {{"v": 1, "w": [2]}}' for n in range(2 * MANY)) + "}\n").encode())
    each_within_a_second(folder, ['.[].v = "x"', ".[].x = 1", ".[].w += [3]"])


def check_values_put_in_one_row_in_any_order(folder):
    """The row is read once, in whichever order the keys and items come."""
    keys = [f"p{n * 7919 % MANY}" for n in range(MANY)]
    mapping = ", ".join(f'"p{n}": 1' for n in range(MANY))
    for others in (keys, [key for there in keys for key in (there, "n" + there)]):
        added = ", ".join(f'"{key}": 2' for key in others)
        folder.write("f", f'{{"a": {{{mapping}}}, "b": {{{added}}}}}\n'.encode())
        each_within_a_second(folder, [".a += .b"])
    folder.write("f", ("[" + ", ".join('{"a": 1, "b": 2}' for _ in range(MANY)) + "]\n").encode())
    each_within_a_second(folder, ['.[] += {"c": 3, "b": 4, "a": 5}'])


def check_values_put_in_rows_in_any_order(folder):
    """The rows are read once, in whichever order the keys come."""
    mapping = "".join(f"  p{n}: 1\n  'q{n}': |\n    t\n  {chr(34)}r {n}{chr(34)}: x # c\n" for n in range(MANY))
    others = "".join(f"  p{n * 7919 % MANY}: 2\n  r {n * 5171 % MANY}: y\n" for n in range(MANY))
    folder.write("f", f"a:\n{mapping}b:\n{others}".encode())
    each_within_a_second(folder, [".a += .b"])


def check_entries_put_into_a_mapping_by_turns(folder):
    """Values in its rows and new entries go in one pass, wherever it is, however keys are written and lines end."""
    keys = [f'"p\\t{n}"' if n % 9 else f"p{n}" for n in range(MANY)]
    root = "".join(f"{key}: 1\n" for key in keys)
    lines = "".join(f"  {key}: 1\n" for key in keys)
    added = "b:\n" + "".join(f"  {key}: 2\n  n{n}: x y\n" for n, key in enumerate(keys))
    for text, update in ((root, ". += .b"), (f"a:\n{lines}", ".a += .b"), (f"a:\n-{lines[1:]}", ".a[0] += .b")):
        for line_break in ("\n", "\r\n"):
            folder.write("f", f"{text}{added}".replace("\n", line_break).encode())
            each_within_a_second(folder, [update])


def check_collections_emptied_in_one_row(folder):
    """The row is read once, also where some of them keep an item."""
    for items, removal in (["[1]"], "del(.[][])"), (["[1, 2]", "{a: 1}"], "del(.[][])"), (["[1]", "[1, 2]"], "del(.[][0])"):
        folder.write("f", ("[" + ", ".join(items * (MANY // len(items))) + "]\n").encode())
        each_within_a_second(folder, [removal])


def check_sums_that_no_text_holds(folder):
    """They aren't made: a text has at least two bytes for each item, and for each eight bytes of a string."""
    of_root, of_a = "+".join(["."] * 140), "+".join([".a"] * 140)
    of_itself, of_first = "+".join(["."] * 600), "+".join([".[0]"] * 600)
    wanted = [*(("bare dashes", f". {operator} {of_root}") for operator in ("=", "|=", "+=")), ("commas", f".b = {of_a}")]
    wanted += [("a long string", update) for update in (f".[] |= {of_itself}", f".[0] = {of_first}", f".[0] += {of_first}")]
    for name, expression, status, seconds, megabytes in runs(folder, wanted, 8 * MANY):
        within = status, seconds <= SECONDS, megabytes <= MEGABYTES
        equal(within, (1, True, True), (name, expression[:9], status, seconds, megabytes))


def check_sums_of_one_term_many_times(folder):
    """It is evaluated once, and added until that changes nothing."""
    of_root = "+".join(["."] * 480)
    wanted = [("keys", f". = {of_root}"), ("bare dashes", f".[] |= {of_root}")]
    for name, expression, status, seconds, megabytes in runs(folder, wanted, 8 * MANY):
        within = status, seconds <= SECONDS, megabytes <= MEGABYTES
        equal(within, (0, True, True), (name, expression[:9], status, seconds, megabytes))


def check_head_comments_in_a_text_with_a_long_first_line(folder):
    """The text's first break isn't looked for again for each of them."""
    folder.write("f", b'- "' + b"x" * 400_000 + b'"\n' + b"- 1\n" * (4 * MANY))
    each_within_a_second(folder, ['.[] head_comment = "x"'])


def check_an_edit_in_a_row_makes_no_tree_of_the_row(folder):
    """Of 4 MB in one row, such a tree would take 75 MB."""
    inside = (".items[5].id = 77", ".items[5].x = 1", "del(.items[5].on)")
    edits = (*inside, ".items += [1]", "del(.items[5])", "del(.items[-1])", '. += {"x": 1}')
    for name, expression, status, _seconds, megabytes in runs(folder, [("JSON objects in one row", edit) for edit in edits], 4_000_000):
        equal((status, megabytes <= MEGABYTES), (0, True), (name, expression, megabytes))
