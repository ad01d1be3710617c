"""Each system call of a command fails in turn, or is the last one before which the process is killed.

After each of these the file holds the text before the command or the one after it, whole and with its mode; the next
command settles what was begun; and undo and redo give the bytes of each text again.
"""

import json
import os
import re
from concurrent.futures import ThreadPoolExecutor
from functools import partial

from harness import equal
from tracing import calls_in, own_calls, traced

ERRORS = ("ENOSPC", "EIO", "EACCES")
FAULTS = (b"Error: S2 read failed\n", b"Error: S3 write failed\n", b"Error: M1 out of memory\n")
FILE, JOURNAL = "f", "f.undo.json"
MODE, PRIVATE = 0o640, 0o600
WORKERS = 2 * (os.cpu_count() or 1)
TEMPORARY = re.compile(r"\.(f|f\.undo\.json)\.yq-[0-9a-f]{16}")


def text(n):
    return b"# first\nm: x\nn: %d # note\n" % n


class History:
    """Whole texts in order, and how many edits of the first one are done."""

    def __init__(self, numbers, at):
        self.texts = [text(n) for n in numbers]
        self.at = at

    def now(self):
        return self.texts[self.at]


class Scenario:
    """A command, the history before it, and the one after it."""

    def __init__(self, words, prepare, before, after):
        self.words = words
        self.prepare = prepare
        self.before = before
        self.after = after


EDIT_2, EDIT_3 = ["-i", ".n = 2", FILE], ["-i", ".n = 3", FILE]
UNDO, REDO = ["undo", FILE], ["redo", FILE]
FIRST_EDIT = Scenario(EDIT_2, [], History([1], 0), History([1, 2], 1))
EDIT = Scenario(["-i", ".n = 4", FILE], [EDIT_2, EDIT_3, UNDO], History([1, 2, 3], 1), History([1, 2, 4], 2))
UNDO_OF_TWO = Scenario(UNDO, [EDIT_2, EDIT_3], History([1, 2, 3], 2), History([1, 2, 3], 1))
REDO_OF_TWO = Scenario(REDO, [EDIT_2, EDIT_3, UNDO], History([1, 2, 3], 1), History([1, 2, 3], 2))
SQUASH = Scenario(["squash", "2", FILE], [EDIT_2, EDIT_3], History([1, 2, 3], 2), History([1, 3], 1))
COMMANDS = {"a first edit": FIRST_EDIT, "an edit": EDIT, "an undo": UNDO_OF_TWO, "a redo": REDO_OF_TWO, "a squash": SQUASH}


def prepared(folder, scenario):
    first = type(folder)(folder.yq, folder.name("first"))
    os.mkdir(first.path)
    first.write(FILE, text(1))
    os.chmod(first.name(FILE), MODE)
    for words in scenario.prepare:
        first.accepts(*words)
    equal(first.read(FILE), scenario.before.now())
    return first


def outcome(first, folder, scenario):
    """The history in which a command left the files."""
    if scenario.before.now() != scenario.after.now():
        whole = {scenario.before.now(): scenario.before, scenario.after.now(): scenario.after}
        now = folder.read(FILE)
        equal(now in whole, True, now)
        return whole[now]
    equal(folder.read(FILE), scenario.before.now())
    unchanged = folder.read(JOURNAL) == first.read(JOURNAL)
    return scenario.before if unchanged else scenario.after


def modes_stay(folder):
    equal(folder.mode(FILE), MODE)
    if JOURNAL in folder.names():
        equal(folder.mode(JOURNAL), MODE)
        json.loads(folder.read(JOURNAL))


def leftovers(folder):
    """What a cut left next to the two files: name, mode and bytes."""
    names = [name for name in folder.names() if name not in (FILE, JOURNAL)]
    return [(name, folder.mode(name), folder.read(name)) for name in names]


def walk_through(folder, history):
    """Undoes to the first text and does all again."""
    for wanted in reversed(history.texts[: history.at]):
        folder.accepts(*UNDO)
        equal(folder.read(FILE), wanted)
    folder.refuses("J1 nothing to undo", *UNDO)
    for wanted in history.texts[1:]:
        folder.accepts(*REDO)
        equal(folder.read(FILE), wanted)
    folder.refuses("J2 nothing to redo", *REDO)


def edit_on(folder, history):
    """Edits, and undoes that and all before it."""
    folder.accepts("-i", ".n = 77", FILE)
    equal(folder.read(FILE), text(77))
    for wanted in reversed(history.texts[: history.at + 1]):
        folder.accepts(*UNDO)
        equal(folder.read(FILE), wanted)
    folder.refuses("J1 nothing to undo", *UNDO)


def tells_its_history(folder, history):
    """Lists what is done and what is undone, and writes nothing."""
    before = {name: folder.read(name) for name in folder.names()}
    status, out, err = folder.run("history", FILE)
    equal((status, err), (0, b""))
    marks = [line.split()[1] for line in out.split(b"\n")[:-1]]
    undone = len(history.texts) - 1 - history.at
    equal(marks, [b"done"] * history.at + [b"undone"] * undone)
    equal({name: folder.read(name) for name in folder.names()}, before)


def goes_on(folder, history, *ways):
    left = leftovers(folder)
    modes_stay(folder)
    tells_its_history(folder, history)
    for way in ways:
        later = folder.copy(f"{folder.path}-{way.__name__}")
        way(later, history)
        modes_stay(later)
        equal(leftovers(later) in ([], left if way is walk_through else []), True, left)


def fails(first, path, scenario, call, error, own):
    """The command with one call failing."""
    folder = first.copy(path)
    status, err, trace = traced(folder, scenario.words, f"{call.name}:error={error}:when={call.number}")
    equal(any("(INJECTED)" in line for line in trace), True, "the call was reached")
    history = outcome(first, folder, scenario)
    if status == 0:
        equal((history is scenario.after, err), (True, b""))
    elif own:
        equal((status, err in FAULTS), (1, True), (status, err))
    equal(leftovers(folder), [])
    goes_on(folder, history, walk_through if error != ERRORS[0] else edit_on)


def is_killed(first, path, scenario, call):
    """The command, killed before one call."""
    folder = first.copy(path)
    _status, _err, trace = traced(folder, scenario.words, f"{call.name}:signal=KILL:when={call.number}")
    equal(any("killed by SIGKILL" in line for line in trace), True, "the call was reached")
    history = outcome(first, folder, scenario)
    left = leftovers(folder)
    equal(len(left) <= 1, True, left)
    for name, mode, _bytes in left:
        equal((TEMPORARY.fullmatch(name) is not None, mode in (MODE, PRIVATE)), (True, True), (name, mode))
    goes_on(folder, history, walk_through, edit_on)


def tried(what, first, path, *given):
    try:
        what(first, path, *given)
    except Exception as why:
        raise AssertionError(f"{what.__name__} {given[1:]}: {why}") from why


def each_call(folder, name, scenario):
    first = prepared(folder, scenario)
    status, _err, trace = traced(first.copy(folder.name("whole")), scenario.words)
    equal(status, 0)
    calls = calls_in(trace)
    own = own_calls(calls, FILE)
    with ThreadPoolExecutor(WORKERS) as pool:
        jobs = []
        for call in calls:
            path = folder.name(f"{call.name}-{call.number}")
            jobs.append(pool.submit(tried, is_killed, first, path + "-killed", scenario, call))
            for error in ERRORS if call.name != "exit_group" else ():
                jobs.append(pool.submit(tried, fails, first, f"{path}-{error}", scenario, call, error, call in own))
        for job in jobs:
            job.result()
    calls = f"{len(calls)} system calls, {len(own)} of them its own"
    print(f"{name}: {calls}; each failed with {', '.join(ERRORS)}, and was the first that a killed run didn't make")


def of_each_command(what, tries):
    """A check of its own for each command, which tries it with a folder, the command's name and its scenario."""
    return {f"check_each_{what}_of_{name.replace(' ', '_')}": partial(tries, name=name, scenario=it) for name, it in COMMANDS.items()}


globals().update(of_each_command("call", each_call))


def check_a_temporary_file_that_can_not_be_removed(folder):
    first = prepared(folder, EDIT)
    for write in (1, 2, 3):
        later = first.copy(folder.name(f"rename-{write}"))
        failing = [f"rename:error=EIO:when={write}", "unlink:error=EIO"]
        status, err, _trace = traced(later, EDIT.words, *failing)
        equal((status, err), (1, b"Error: S3 write failed\n"))
        equal(len(leftovers(later)), 1)
        goes_on(later, outcome(first, later, EDIT), walk_through, edit_on)


STEPS = ["write", "fchown", "fchmod", "fsync", "rename", "fsync"]


def check_each_write_is_synced_before_and_after_its_rename(folder):
    first = prepared(folder, EDIT)
    _status, _err, trace = traced(first, EDIT.words)
    steps = [line for line in trace if line.startswith(("openat", "write", "fchown", "fchmod", "fsync", "rename"))]
    steps = [line.replace(" ", "") for line in steps]
    begun = [i for i, line in enumerate(steps) if "O_EXCL" in line]
    equal(len(begun), 3, "three writes")
    for i in begun:
        folder_fd, file_fd = steps[i - 1].split("=")[-1], steps[i].split("=")[-1]
        equal("0600" in steps[i], True, steps[i])
        equal([line.split("(")[0] for line in steps[i + 1 : i + 7]], STEPS)
        equal(steps[i + 4].startswith(f"fsync({file_fd})"), True, steps[i + 4])
        equal(steps[i + 6].startswith(f"fsync({folder_fd})"), True, steps[i + 6])
