"""Runs at the same time: each has the lock of its file, and no edit is lost."""

import fcntl
import json
import os
import pty
import select
import signal
import subprocess
import time
from concurrent.futures import ThreadPoolExecutor, wait

from harness import NOBODY, SECONDS, each_user, equal
from tracing import Held, calls_in, own_calls, traced

DONE, NO_LOCK = (0, b"", b""), (1, b"", b"Error: S2 read failed\n")
RUNS = 8
EDITS, EDITS_OF_NOBODY = 50, 10
MOMENT = 0.5
LONGEST_WAIT = 60


def text(value):
    return b"a: 1 # one\nn: " + value + b"\nz: 2\n" + b"# " + b"x" * 7_000 + b"\n"


def value(i):
    """Values of lengths that differ, so that texts that are mixed are seen."""
    return b"v%d" % i + b"w" * (i * 97 % 1009)


def expression(i):
    return f'.n = "{value(i).decode()}"'


def words(i, file="f"):
    return ["-i", expression(i), file]


def listed(folder, lines):
    """The expressions of the history, oldest first, all of which are done."""
    parts = [line.split(" ", 2) for line in lines.decode().split("\n")[:-1]]
    equal([part[:2] for part in parts], [[str(i + 1), "done"] for i in range(len(parts))])
    return [json.loads(part[2]) for part in parts]


def holds_all(folder, numbers):
    """The history holds each of these edits once and no other; undone one by one they give all texts back."""
    equal(folder.names(), sorted({"f"} | ({"f.undo.json"} if numbers else set())))
    order = listed(folder, folder.accepts("history", "f"))
    equal(sorted(order), sorted(expression(i) for i in numbers))
    texts = {expression(i): text(value(i)) for i in numbers}
    for i in reversed(range(len(order))):
        equal(folder.read("f"), texts[order[i]])
        folder.accepts("undo", "f")
    equal(folder.read("f"), text(value(0)))
    folder.refuses("J1 nothing to undo", "undo", "f")


def edited(folder, numbers, before):
    for i in numbers:
        equal(folder.run(*words(i), before=before), DONE, i)


def check_runs_at_the_same_time(folder):
    for place, user, before in each_user(folder):
        place.write("f", text(value(0)))
        os.chown(place.name("f"), user, user)
        edits = EDITS_OF_NOBODY if user else EDITS
        began = time.monotonic()
        with ThreadPoolExecutor(RUNS) as pool:
            jobs = [pool.submit(edited, place, range(run * edits + 1, (run + 1) * edits + 1), before) for run in range(RUNS)]
            for job in jobs:
                job.result()
        print(f"runs at once: {RUNS} times {edits} edits in {time.monotonic() - began:.1f} s, none of them lost")
        holds_all(place, range(1, RUNS * edits + 1))


def prepared(folder):
    first = folder.copy(folder.name("first"))
    first.write("f", text(value(0)))
    return first


def calls_of(first, path, given):
    """The calls of a run, and from which one on and up to which one it has the lock."""
    _status, _err, trace = traced(first.copy(path), given)
    own = own_calls([call for call in calls_in(trace) if call.name != "exit_group"], "f")
    taken = next(i for i, call in enumerate(own) if call.name == "flock")
    opened = [i for i, call in enumerate(own) if '".f.yq-' in call.text and "O_EXCL" in call.text]
    last = opened[0] if opened else taken
    file = own[last].text.split()[-1] if opened else own[last].text.split(",")[0]
    closed = (i for i, call in enumerate(own) if call.name == "close" and call.text.startswith(f"{file})"))
    return own, taken, next(i for i in closed if i > last)


def run_between(first, path, call, waits, given, later, file="f"):
    """One run is stopped after a call, and another one runs, which waits where the first one has the lock."""
    both = first.copy(path)
    held = Held(both, call, given)
    old = both.files()
    with ThreadPoolExecutor(1) as pool:
        job = pool.submit(both.run, *later)
        if waits:
            wait([job], timeout=MOMENT)
            equal((job.done(), both.files()), (False, old), call)
        else:
            job.result()
        ended = held.sent()
        return both, ended, job.result()


def is_between(first, path, call, waits):
    both, ended, later = run_between(first, path, call, waits, words(1), words(2))
    equal((ended, later), (DONE, DONE), call)
    holds_all(both, [1, 2])


def between_any_two_calls(folder, first, of, check):
    """Stops a command after each of its calls, each time in a copy of the folder, and checks what comes of it."""
    own, taken, given = calls_of(first, folder.name("whole"), of)
    with ThreadPoolExecutor(len(own)) as pool:
        jobs = []
        for i, call in enumerate(own):
            path = folder.name(f"{call.name}-{call.number}")
            jobs.append(pool.submit(check, first, path, call, taken <= i < given))
        for job in jobs:
            job.result()


def check_a_run_between_any_two_calls_of_another(folder):
    between_any_two_calls(folder, prepared(folder), words(1), is_between)


def is_listed(first, path, call, waits):
    """A history, stopped after a call, while two edits are made."""
    both, ended, later = run_between(first, path, call, waits, ["history", "f"], words(2))
    equal((ended[0], ended[2], later), (0, b"", DONE), call)
    order = listed(both, ended[1])
    equal(order in ([expression(1)], [expression(1), expression(2)]), True, order)
    holds_all(both, [1, 2])


def check_an_edit_between_any_two_calls_of_a_history(folder):
    first = prepared(folder)
    first.accepts(*words(1))
    between_any_two_calls(folder, first, ["history", "f"], is_listed)


def check_a_history_waits_for_a_move(folder):
    """After each of the three writes of an edit."""
    first = prepared(folder)
    own, _taken, _given = calls_of(first, folder.name("whole"), words(1))
    renames = [call for call in own if call.name == "rename"]
    equal(len(renames), 3)
    for call in renames:
        path = folder.name(f"rename-{call.number}")
        both, ended, later = run_between(first, path, call, True, words(1), ["history", "f"])
        equal((ended, later[0], later[2]), (DONE, 0, b""))
        equal(listed(both, later[1]), [expression(1)])


def check_a_history_that_nobody_reads_holds_no_edit_back(folder):
    """It has no lock any more when it prints more than a pipe takes."""
    folder.write("f", text(value(0)))
    folder.accepts("-i", f'.n = "{"w" * 100_000}"', "f")
    history = subprocess.Popen([folder.yq, "history", "f"], cwd=folder.path, stdout=subprocess.PIPE)
    select.select([history.stdout], [], [])
    folder.accepts(*words(1))
    equal((history.poll(), len(history.communicate()[0]) > 100_000, history.returncode), (None, True, 0))


def check_histories_do_not_wait_for_each_other(folder):
    first = prepared(folder)
    first.accepts(*words(1))
    own, taken, _given = calls_of(first, folder.name("whole"), ["history", "f"])
    _both, ended, later = run_between(first, folder.name("both"), own[taken], False, ["history", "f"], ["history", "f"])
    equal((ended == later, ended[0]), (True, 0))


def check_edits_of_two_files_do_not_wait_for_each_other(folder):
    """Of one folder; an edit of the same file by a link of another folder waits."""
    first = prepared(folder)
    first.write("g", b"n: 1\n")
    os.mkdir(first.name("d"))
    os.symlink("../f", first.name("d/l"))
    own, taken, _given = calls_of(first, folder.name("whole"), words(1))
    both, ended, later = run_between(first, folder.name("two"), own[taken], False, words(1), ["-i", ".n = 2", "g"])
    equal((ended, later, both.read("f"), both.read("g")), (DONE, DONE, text(value(1)), b"n: 2\n"))
    both, ended, later = run_between(first, folder.name("one"), own[taken], True, words(1), words(2, "d/l"))
    equal((ended, later, both.read("f")), (DONE, DONE, text(value(2))))


def check_a_run_that_holds_the_lock_is_killed(folder):
    """The lock is had by whoever waits for it."""
    first = prepared(folder)
    own, taken, _given = calls_of(first, folder.name("whole"), words(1))
    held = Held(first, own[taken], words(1))
    with ThreadPoolExecutor(1) as pool:
        later = pool.submit(first.run, *words(2))
        wait([later], timeout=MOMENT)
        equal(later.done(), False, "it waits")
        held.sent(signal.SIGKILL)
        equal(later.result(), DONE)
    holds_all(first, [2])


def check_a_run_does_not_wait_for_ever(folder):
    """It asks for the lock for a minute, and then changes nothing."""
    first = prepared(folder)
    first.accepts(*words(1))
    own, taken, _given = calls_of(first, folder.name("whole"), words(2))
    both = first.copy(folder.name("both"))
    held = Held(both, own[taken], words(2))
    old = both.files()
    for given in (words(3), ["undo", "f"], ["history", "f"]):
        status, err, trace = traced(both, given, "clock_nanosleep:retval=0", log=".other")
        equal((status, err, both.files()), (1, NO_LOCK[2], old), given)
        pauses = [line for line in trace if line.startswith("clock_nanosleep(")]
        equal(all("tv_nsec=5000000" in line for line in pauses), True)
        equal(len(pauses) * 5, LONGEST_WAIT * 1_000)
    equal(held.sent(), DONE)
    holds_all(both, [1, 2])


def lines_on(terminal, seconds):
    """What a terminal gets until its other end is closed, or no more of it comes."""
    told = b""
    while select.select([terminal], [], [], seconds)[0]:
        try:
            told += os.read(terminal, 4096)
        except OSError:
            break
        if told.endswith(b"\n"):
            break
    return told


def check_a_wait_is_told_on_a_terminal(folder):
    """Where standard error is one, a run that waits longer than a second says once for what."""
    folder.write("f", b"n: 1\n")
    ours, theirs = pty.openpty()
    with open(folder.name("f"), "rb") as held:
        fcntl.flock(held, fcntl.LOCK_EX)
        begun = time.monotonic()
        run = subprocess.Popen(
            [folder.yq, "-i", ".n = 2", "f"], cwd=folder.path, stdin=subprocess.DEVNULL, stdout=subprocess.DEVNULL, stderr=theirs
        )
        os.close(theirs)
        told = lines_on(ours, SECONDS)
        equal(time.monotonic() - begun >= 1, True)
    equal((told, run.wait(SECONDS), lines_on(ours, SECONDS)), (b'yq: waiting for another run at "f"\r\n', 0, b""))
    os.close(ours)
    equal(folder.read("f"), b"n: 2\n")


def goes_on_without_locks(place, error, nobody):
    """A command that may write is refused where locks fail in this way, unless it is asked for."""
    failing = f"flock:error={error}"
    for word in (None, "", "0", "yes"):
        env = {**os.environ, **({} if word is None else {"YQ_NO_LOCK": word})}
        status, err, trace = traced(place, words(1), failing, env=env, nobody=nobody)
        equal((status, err, place.names(), place.read("f")), (1, NO_LOCK[2], ["f"], text(value(0))), (error, word))
    status, err, trace = traced(place, words(1), failing, env={**os.environ, "YQ_NO_LOCK": "1"}, nobody=nobody)
    equal((status, err), (0, b""), error)
    opens = [line for line in trace if line.startswith("openat(") and '"f"' in line]
    equal((len(opens), "O_RDWR" in opens[0]), (1, True), opens)
    equal(traced(place, ["history", "f"], failing, nobody=nobody)[:2], (0, b""))
    holds_all(place, [1])


def check_a_file_system_without_locks(folder):
    """One that lends a lock only to who may write finds the file open so."""
    for of_user, user, _before in each_user(folder):
        for error in ("ENOLCK", "EOPNOTSUPP", "ENOSYS"):
            place = type(folder)(folder.yq, of_user.name(error))
            os.mkdir(place.path)
            place.write("f", text(value(0)))
            for path in (place.path, place.name("f")):
                os.chown(path, user, user)
            goes_on_without_locks(place, error, user == NOBODY)
    folder.write("f", text(value(0)))
    for error in ("EBADF", "EIO"):
        status, err, _trace = traced(folder, words(1), f"flock:error={error}", env={**os.environ, "YQ_NO_LOCK": "1"})
        equal((status, err, folder.read("f")), (1, NO_LOCK[2], text(value(0))), error)


def check_what_only_prints_asks_for_no_lock(folder):
    folder.write("f", text(value(0)))
    for given, asked in ([expression(1), "f"], []), (["--help"], []), (["history", "f"], ["LOCK_SH|LOCK_NB"]):
        _status, _err, trace = traced(folder, given)
        locks = [call.text for call in calls_in(trace) if call.name == "flock"]
        equal(len(locks), len(asked), locks)
        equal(all(how in lock for how, lock in zip(asked, locks)), True, locks)
