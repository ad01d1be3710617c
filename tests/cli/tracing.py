"""The system calls of a run, listed by strace, and made to fail or to be the last."""

import functools
import os
import pwd
import re
import shutil
import signal
import subprocess
import time

from harness import NOBODY, SECONDS, Skip, equal

RECENT = 0.03
LINE = re.compile(r"(\w+)\((.*)")


class Call:
    """The Nth system call of a name in a run, from 1."""

    def __init__(self, name, number, text):
        self.name = name
        self.number = number
        self.text = text

    def __repr__(self):
        return f"{self.name} {self.number}: {self.text[:60]}"


@functools.cache
def strace():
    """The path of strace, where it works here."""
    path = shutil.which("strace")
    if path is None:
        raise Skip("needs strace")
    if subprocess.run([path, "-o", "/dev/null", "true"], capture_output=True).returncode != 0:
        raise Skip("strace may not trace here")
    return path


def rest(folder):
    """Waits until no file of the folder was changed just now: such a file is read twice, so its calls would be others."""
    for name in folder.names():
        age = time.time() - os.lstat(folder.name(name)).st_ctime
        time.sleep(min(max(RECENT - age, 0), RECENT))


def traced_line(log, nobody):
    """What runs a command under strace, as the user who runs the tests or as nobody."""
    return [strace(), *(["-u", pwd.getpwuid(NOBODY).pw_name] if nobody else []), "-o", log, "-s", "64"]


def traced(folder, words, *injections, env=None, nobody=False, log=".trace"):
    """Runs the program under strace. Gives status, standard error and the lines of the trace."""
    rest(folder)
    log = folder.path + log
    line = traced_line(log, nobody)
    for injection in injections:
        line += ["-e", "inject=" + injection]
    line += [folder.yq, *words]
    done = subprocess.run(
        line, cwd=folder.path, stdin=subprocess.DEVNULL, capture_output=True, timeout=SECONDS, env=env
    )
    with open(log, encoding="utf-8", errors="replace") as trace:
        return done.returncode, done.stderr, trace.read().split("\n")


def calls_in(trace):
    """The system calls of a trace after the one that begins the program."""
    counts = {}
    calls = []
    for line in trace:
        found = LINE.match(line)
        if found:
            name, text = found.groups()
            counts[name] = counts.get(name, 0) + 1
            calls.append(Call(name, counts[name], text))
    return [call for call in calls if call.name != "execve"]


def own_calls(calls, file):
    """The calls from the first one on that names this file."""
    first = next(i for i, call in enumerate(calls) if f'"{file}"' in call.text)
    return calls[first:]


def stops_in(log):
    """How often a run was stopped."""
    with open(log, encoding="utf-8", errors="replace") as trace:
        return trace.read().count("--- stopped by SIGSTOP ---")


def child_of(pid):
    with open(f"/proc/{pid}/task/{pid}/children") as children:
        return int(children.read().split()[0])


class Held:
    """A run that is stopped after one of its system calls; another one may be made to do something else."""

    def __init__(self, folder, call, words, nobody=False, rests=True, also=None):
        if rests:
            rest(folder)
        log = folder.path + ".trace"
        stop = f"inject={call.name}:signal=STOP:when={call.number}"
        line = [*traced_line(log, nobody), "-e", stop, *(["-e", f"inject={also}"] if also else []), folder.yq, *words]
        self.run = subprocess.Popen(
            line, cwd=folder.path, stdin=subprocess.DEVNULL, stdout=subprocess.PIPE, stderr=subprocess.PIPE
        )
        end = time.monotonic() + SECONDS
        while not (os.path.exists(log) and stops_in(log)):
            equal(time.monotonic() < end and self.run.poll() is None, True, f"the run was stopped at {call}")
            time.sleep(0.01)
        self.pid = child_of(self.run.pid)

    def sent(self, what=signal.SIGCONT):
        """Lets it go on, or ends it, and gives its status and what it printed."""
        os.kill(self.pid, what)
        out, err = self.run.communicate(timeout=SECONDS)
        return self.run.returncode, out, err


def stepped(folder, name, words, at_stop, nobody=False):
    """Stops a run after each of its system calls of a name, and does something at each stop. Gives status and standard error."""
    rest(folder)
    log = folder.path + ".trace"
    line = [*traced_line(log, nobody), "-e", f"inject={name}:signal=STOP:when=1+", folder.yq, *words]
    run = subprocess.Popen(line, cwd=folder.path, stdin=subprocess.DEVNULL, stdout=subprocess.PIPE, stderr=subprocess.PIPE)
    stops, end = 0, time.monotonic() + SECONDS
    while run.poll() is None:
        equal(time.monotonic() < end, True, f"the run of {words} ends")
        if os.path.exists(log) and stops_in(log) > stops:
            stops += 1
            at_stop(stops)
            os.kill(child_of(run.pid), signal.SIGCONT)
        time.sleep(0.002)
    _out, err = run.communicate()
    return run.returncode, err
