"""Tables of worked texts, edits and commands (tests/data/tables/*.json), run on the program.

A table is `{"about": .., "source": .., "rows": [..]}`, and a row one of

- `{"text": T, "edit": EXPR, "gives": T2, "splices"?: [[AT, OLD, NEW], ..]}`: `yq -i EXPR f` makes T2 of the file `f`
  and prints nothing, and `yq undo f` gives T back. An edit to T itself writes nothing.
- `{"text": T, "edit": EXPR, "refused": LINE}`: the edit is refused with the line `Error: LINE`.
- `{"text": T, "edit" | "read": EXPR, "refused": LINE, "at": PLACE}`: with `--explain` the line about the value is PLACE,
  or there is none where that is null. In the place of EXPR a row may have the `words`.
- `{"text": T, "words": [WORD, ..], "prints": OUT, "no_match"?: true}`, or with `refused`; `behind` is the lines between
  `U1 usage` and the ways to call the program.
- `{"files": {NAME: T, ..}, "steps": [STEP, ..]}`, where a step is `{"set": {NAME: T}}` or `{"words": [..],
  "refused"?: LINE, "prints"?: OUT, "no_match"?: true, "files"?: {NAME: T}, "same"?: true | [NAME, ..]}`. A T that is null
  means no file.

What is refused prints nothing and writes nothing; `same` says that a step writes nothing, or none of these files;
`no_match` says that what it was asked for isn't there. A row may have a `name`.
A text is a string, `{"base64": ..}`, `{"repeat": T, "times": N, "then"?: T}`, `{"json": ..}` (as journals are written:
keys sorted, no spaces, a line feed at the end), or a list of such, one after the other.
"""

import base64
import json
import os
from concurrent.futures import ThreadPoolExecutor

from harness import ROOT, Folder, equal

TABLES = os.path.join(ROOT, "tests", "data", "tables")
FILE, JOURNAL = "f", "f.undo.json"
NO_MATCH = b"Error: N1 no matches found\n"


def text_of(value):
    """The bytes that a text of a table means."""
    if isinstance(value, str):
        return value.encode()
    if isinstance(value, list):
        return b"".join(text_of(part) for part in value)
    if "base64" in value:
        return base64.b64decode(value["base64"], validate=True)
    if "json" in value:
        return json.dumps(value["json"], sort_keys=True, separators=(",", ":"), ensure_ascii=False).encode() + b"\n"
    return text_of(value["repeat"]) * value["times"] + text_of(value.get("then", ""))


def put(folder, files):
    for name, value in files.items():
        if value is not None:
            folder.write(name, text_of(value))
        elif name in folder.names():
            os.remove(folder.name(name))


def holds(folder, files):
    for name, value in files.items():
        seen = folder.read(name) if name in folder.names() else None
        equal(seen, None if value is None else text_of(value), name)


def stands(folder):
    """Each file with its bytes and the marks of its last write."""
    seen = {}
    for name in folder.names():
        marks = os.stat(folder.name(name))
        seen[name] = (folder.read(name), marks.st_ino, marks.st_mtime_ns)
    return seen


def is_told(folder, step):
    """The answer to the words, and what they print."""
    status, out, err = folder.run(*step["words"])
    if "refused" not in step:
        equal((status, err), (1, NO_MATCH) if step.get("no_match", False) else (0, b""), step["words"])
        equal(out, text_of(step.get("prints", "")), step["words"])
        return
    line, usage = err.split(b"\n", 1)
    equal((status, out, line), (1, b"", b"Error: " + step["refused"].encode()), step["words"])
    told, ways, rest = usage.decode().partition("Usage: yq ")
    is_usage = step["refused"] == "U1 usage"
    equal((ways != "", rest.endswith("\ntry 'yq --help'\n"), told != ""), (is_usage,) * 3, usage)
    if "behind" in step:
        equal(told.splitlines(), step["behind"], step["words"])


def stays(before, after, same):
    """No file was written or made, or none of these."""
    names = sorted({*before, *after}) if same is True else same
    equal({name: after.get(name) for name in names}, {name: before.get(name) for name in names})


def take(folder, step):
    if "set" in step:
        known(step, ["set"])
        put(folder, step["set"])
        return
    known(step, ["words", "refused", "behind", "prints", "no_match", "files", "same"])
    before = stands(folder)
    is_told(folder, step)
    stays(before, stands(folder), True if "refused" in step else step.get("same", []))
    holds(folder, step.get("files", {}))


def has_splices(folder, splices):
    """The last record of the journal has these."""
    record = json.loads(folder.read(JOURNAL))["records"][-1]
    seen = [(one["at"], base64.b64decode(one["old"]), base64.b64decode(one["new"])) for one in record["splices"]]
    equal(seen, [(at, text_of(old), text_of(new)) for at, old, new in splices], "splices")


def is_edited(folder, row):
    known(row, ["name", "text", "edit", "gives", "splices"])
    old, new = text_of(row["text"]), text_of(row["gives"])
    take(folder, {"words": ["-i", row["edit"], FILE], **({"same": True} if old == new else {})})
    equal(folder.read(FILE), new)
    equal(folder.names(), [FILE] if old == new else [FILE, JOURNAL])
    if old != new:
        if "splices" in row:
            has_splices(folder, row["splices"])
        take(folder, {"words": ["undo", FILE]})
        equal(folder.read(FILE), old, "undone")


def is_explained(folder, row):
    """The value at which an expression is refused is named, or none is."""
    known(row, ["name", "text", "edit", "read", "words", "refused", "at"])
    words = ["-i", row["edit"], FILE] if "edit" in row else row.get("words") or [row["read"], FILE]
    before = stands(folder)
    status, out, err = folder.run("--explain", *words)
    lines = err.decode().splitlines()
    equal((status, out, lines[:2]), (1, b"", [f"Error: {row['refused']}", f"FILE: {FILE}"]), words)
    equal(None if lines[2].startswith("Cause: ") else lines[2], row["at"], words)
    stays(before, stands(folder), True)


def is_so(folder, row):
    put(folder, row.get("files", {}))
    if "text" in row:
        folder.write(FILE, text_of(row["text"]))
    if "steps" in row:
        known(row, ["name", "text", "files", "steps"])
        for step in row["steps"]:
            take(folder, step)
    elif "at" in row:
        is_explained(folder, row)
    elif "gives" in row:
        is_edited(folder, row)
    elif "edit" in row:
        known(row, ["name", "text", "edit", "refused"])
        take(folder, {"words": ["-i", row["edit"], FILE], "refused": row["refused"]})
    else:
        known(row, ["name", "text", "files", "words", "prints", "no_match", "refused", "behind"])
        take(folder, {key: row[key] for key in ("words", "prints", "no_match", "refused", "behind") if key in row})


def known(row, keys):
    """No key of a row is passed over."""
    unknown = sorted(set(row) - set(keys))
    equal(unknown, [], "unknown keys")


def title(row):
    """What names a row, as short as may be."""
    named = [row[key] for key in ("name", "edit", "read", "words") if key in row][:1]
    text = json.dumps([*named, row.get("text", "")], ensure_ascii=False)
    return text if len(text) < 120 else text[:118] + ".."


def rows_of(name):
    """The rows of a table, each with the name that the output gives it."""
    with open(os.path.join(TABLES, name), encoding="utf-8") as text:
        table = json.load(text)
    known(table, ["about", "source", "rows"])
    return [(f"{name} row {i} {title(row)}", row) for i, row in enumerate(table["rows"], 1)]


def run_row(yq, path, row):
    """Why a row isn't so, if it isn't."""
    os.mkdir(path)
    try:
        is_so(Folder(yq, path), row)
    except Exception as why:
        return f"{type(why).__name__}: {why}"
    return None


def run_tables(yq, top, wanted):
    """Runs the rows whose names hold a word. Gives how many were so, and of the others name and cause."""
    names = sorted(name for name in os.listdir(TABLES) if name.endswith(".json"))
    rows = [row for name in names for row in rows_of(name) if wanted in row[0]]
    with ThreadPoolExecutor(os.cpu_count()) as pool:
        jobs = [(name, pool.submit(run_row, yq, os.path.join(top, str(i)), row)) for i, (name, row) in enumerate(rows)]
        failed = [(name, job.result()) for name, job in jobs if job.result() is not None]
    return len(rows) - len(failed), failed
