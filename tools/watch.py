"""Which checks run below a process, and the processor seconds that they take, as /proc reports them."""

import os
import time

TICKS = os.sysconf("SC_CLK_TCK")
# What a check is of: a crate, its tests, or a copy of it with a wrong body.
PROOF, TESTS, EDITS = "proof", "tests", "wrong bodies"
# A task has ended where no check of it was seen for so many seconds: the pauses within one are shorter.
PAUSE = 5


def processes():
    """Each process with its parent and the processor seconds of itself and of its children that have ended."""
    found = {}
    for name in os.listdir("/proc") if os.path.isdir("/proc") else ():
        if name.isdigit():
            try:
                with open(f"/proc/{name}/stat", encoding="utf-8", errors="replace") as it:
                    fields = it.read().rpartition(")")[2].split()
            except OSError:
                continue
            found[int(name)] = int(fields[1]), sum(map(int, fields[11:15])) / TICKS
    return found


def check_of(pid):
    """The crate and the kind of the check that a process is; None if it is none."""
    try:
        with open(f"/proc/{pid}/cmdline", "rb") as it:
            words = it.read().decode(errors="replace").split("\0")
        folder = os.readlink(f"/proc/{pid}/cwd")
    except OSError:
        return None
    if "--crate-name" not in words[:-1]:
        return None
    crate = words[words.index("--crate-name") + 1]
    if os.path.basename(folder).startswith("rt-edit-"):
        return crate, EDITS
    return crate, TESTS if "--test" in words else PROOF


def checks_below(top):
    """The checks below a process, each with its own process and the processor seconds that it and those below it took."""
    found = processes()
    children = {}
    for pid, (parent, _) in found.items():
        children.setdefault(parent, []).append(pid)

    def seconds(pid):
        return found[pid][1] + sum(map(seconds, children.get(pid, ())))

    checks, left = [], list(children.get(top, ()))
    while left:
        pid = left.pop()
        check = check_of(pid)
        if check:
            checks.append((pid, check, seconds(pid)))
        else:
            left += children.get(pid, ())
    return checks


class Task:
    """All checks of one kind of a crate."""

    def __init__(self, now):
        self.began = self.seen = now
        self.is_told = False
        self.each = {}

    def seconds(self):
        return sum(self.each.values())


class Watch:
    """Follows the checks below a process. `begins` and `ends` are called with a crate, a kind and its task."""

    def __init__(self, top, begins, ends):
        self.top, self.begins, self.ends = top, begins, ends
        self.tasks, self.looked = {}, 0

    def look(self):
        """Looks at what runs, once in a second at most."""
        now = time.monotonic()
        if now - self.looked < 1:
            return
        self.looked = now
        for pid, (crate, kind), seconds in checks_below(self.top):
            task = self.tasks.get((crate, kind))
            if not task:
                task = self.tasks[crate, kind] = Task(now)
                self.begins(crate, kind, task)
            task.seen = now
            task.each[pid] = max(seconds, task.each.get(pid, 0))
        self.close(now - PAUSE)

    def end(self, crate, kind):
        """Says the end of a task, once."""
        task = self.tasks.get((crate, kind))
        if task and not task.is_told:
            task.is_told = True
            self.ends(crate, kind, task)

    def close(self, seen=float("inf")):
        """Says the end of each task of which no check was seen since."""
        for (crate, kind), task in self.tasks.items():
            if task.seen < seen:
                self.end(crate, kind)
