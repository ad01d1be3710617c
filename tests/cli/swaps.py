"""What the owner of a folder exchanges between two calls of root's run gains no right and shows no secret."""

import ctypes
import os
import random
import stat
import threading
import time
from concurrent.futures import ThreadPoolExecutor

from harness import NOBODY, as_nobody, each_user, equal
from tracing import Held, calls_in, own_calls, stepped, traced

ONE, TWO = b"n: 1 # text of nobody\n", b"n: 2 # text of nobody\n"
SECRET = b"token: TOP-SECRET\n"
EDIT = ["-i", ".n = 2", "f"]
LINE = (b"", b"Error: S1 not there\n", b"Error: S2 read failed\n", b"Error: S3 write failed\n", b"Error: Y18 line 1: too large\n")
WORKERS = 2 * (os.cpu_count() or 1)


def of_nobody(folder, name):
    """A folder of nobody's with a file, next to what only root may read or run with its rights."""
    place = type(folder)(folder.yq, folder.name(name))
    os.mkdir(place.path)
    os.chmod(place.path, 0o755)
    os.mkdir(place.name("box"))
    os.mkdir(place.name("root"), 0o700)
    place.write("root/secret", SECRET)
    place.write("root/program", b"n: 3\n")
    place.write("root/open", b"n: 4\n")
    for name, mode in (("secret", 0o600), ("program", 0o4755), ("open", 0o666)):
        os.chmod(place.name("root/" + name), mode)
    place.write("box/f", ONE)
    os.chmod(place.name("box/f"), 0o644)
    for name in ("box", "box/f"):
        os.chown(place.name(name), NOBODY, NOBODY)
    box = type(folder)(folder.yq, place.name("box"))
    return place, box


def exchanged(box, name, kept, other):
    """Puts `other` in the place of a name whose file is kept under another name, or puts it back."""
    os.rename(box.name(name), box.name(kept))
    os.rename(box.name(other), box.name(name))


def nothing_is_gained(place, box):
    """The file is none of root's that others may write or run as root, nothing shows the secret, and root's own files keep their rights."""
    for name in ("root/secret", "root/program", "root/open"):
        equal(stat.S_IMODE(os.lstat(place.name(name)).st_mode), {"secret": 0o600, "program": 0o4755, "open": 0o666}[name[5:]])
    equal(place.read("root/secret").startswith(SECRET), True)
    for name in box.names():
        seen = os.lstat(box.name(name))
        if not stat.S_ISREG(seen.st_mode):
            continue
        equal(seen.st_mode & 0o7000, 0, name)
        equal(name == "f" and seen.st_uid == 0 and seen.st_mode & 0o022 != 0, False, name)
        if seen.st_uid == NOBODY or seen.st_mode & 0o044:
            equal(b"TOP-SECRET" in box.read(name), False, name)


def calls_of(box, path, words):
    whole = box.copy(path)
    status, err, trace = traced(whole, words)
    equal((status, err), (0, b""), words)
    return own_calls([call for call in calls_in(trace) if call.name != "exit_group"], "f")


def link_put(folder, name, call, target):
    """A link takes the place of the file after a call, and stays."""
    place, box = of_nobody(folder, name)
    held = Held(box, call, EDIT)
    os.symlink("../root/" + target, box.name("link"))
    os.rename(box.name("link"), box.name("f"))
    status, _out, err = held.sent()
    equal((status in (0, 1), err in LINE), (True, True), (call, err))
    nothing_is_gained(place, box)


def each(folder, tried, rows):
    with ThreadPoolExecutor(WORKERS) as pool:
        jobs = [pool.submit(tried, folder, f"{number}", *row) for number, row in enumerate(rows)]
        for job in jobs:
            job.result()


def check_a_link_in_the_place_of_the_file_behind_each_call(folder):
    """To a file that runs with root's rights, or that all may write: the new file takes over nothing of it."""
    as_nobody()
    _place, box = of_nobody(folder, "first")
    calls = calls_of(box, folder.name("whole"), EDIT)
    equal(len(calls) > 30, True, calls)
    each(folder, link_put, [(call, target) for call in calls for target in ("program", "open")])


def link_for_a_while(folder, name, begin, end):
    """A link to a secret is in the place of the file from one look of the run to another, and then the file again."""
    place, box = of_nobody(folder, name)
    os.symlink("../root/secret", box.name("link"))

    def at_stop(number):
        if number == begin:
            exchanged(box, "f", "kept", "link")
        if number == end:
            exchanged(box, "f", "link", "kept")

    status, err = stepped(box, "statx", ["-i", '.new = "x"', "f"], at_stop)
    equal((status in (0, 1), err in LINE), (True, True), (begin, end, err))
    nothing_is_gained(place, box)


def check_a_link_to_a_secret_comes_and_goes(folder):
    """From after any of the first looks at the file to after any later one."""
    as_nobody()
    _place, box = of_nobody(folder, "first")
    looks = [call.number for call in calls_of(box, folder.name("whole"), EDIT) if call.name == "statx"]
    each(folder, link_for_a_while, [(begin, end) for begin in looks[:4] for end in looks if begin < end])


def journal_for_a_while(folder, name, begin, end, words):
    """In a folder with the sticky bit: a link to another journal of root's, for a while."""
    place, box = of_nobody(folder, name)
    place.write("root/g", SECRET)
    os.chmod(place.name("root/g"), 0o600)
    place.accepts("-i", '.token = "x"', "root/g")
    os.chown(box.path, 0, 0)
    os.chmod(box.path, 0o1777)
    os.chown(box.name("f"), 0, 0)
    os.symlink("../root/g.undo.json", box.name("link"))
    os.lchown(box.name("link"), NOBODY, NOBODY)

    def at_stop(number):
        if number == begin:
            os.rename(box.name("link"), box.name("f.undo.json"))
        if number == end and os.path.islink(box.name("f.undo.json")):
            os.rename(box.name("f.undo.json"), box.name("link"))

    status, err = stepped(box, "statx", words, at_stop)
    equal((status in (0, 1), err in (*LINE, b"Error: J1 nothing to undo\n")), (True, True), (begin, end, err))
    for journal in set(box.names()) - {"f", "link"}:
        equal(b"token" in box.read(journal) and not os.path.islink(box.name(journal)), False, journal)


def check_a_link_to_another_journal_comes_and_goes(folder):
    as_nobody()
    _place, box = of_nobody(folder, "first")
    looks = [call.number for call in calls_of(box, folder.name("whole"), EDIT) if call.name == "statx"]
    rows = [(begin, begin + more, EDIT) for begin in looks[:9] for more in (1, 2, 3)]
    each(folder, journal_for_a_while, rows)


def pipe_put(folder, name, call, words, owner):
    """A pipe takes the place of the journal after a call."""
    _place, box = of_nobody(folder, name)
    os.chmod(box.path, 0o1777)
    box.write("f.undo.json", b"x")
    os.mkfifo(box.name("pipe"))
    os.chown(box.name("f"), owner, owner)
    for path in ("pipe", "f.undo.json"):
        os.chown(box.name(path), NOBODY, NOBODY)
        os.chmod(box.name(path), 0o644)
    held = Held(box, call, words)
    os.rename(box.name("pipe"), box.name("f.undo.json"))
    status, _out, err = held.sent()
    equal((status, err in (*LINE, b"Error: J4 bad journal\n")), (1, True), (call, err))
    equal(box.read("f"), ONE)


def check_a_pipe_in_the_place_of_the_journal(folder):
    """No edit waits for its other end; nor does a history, where who put it there may not write the file."""
    as_nobody()
    _place, box = of_nobody(folder, "first")
    os.chmod(box.path, 0o1777)
    rows = []
    for words, owner in ((EDIT, NOBODY), (EDIT, 0), (["undo", "f"], NOBODY), (["history", "f"], 0)):
        box.write("f.undo.json", b"x")
        for name in ("f", "f.undo.json"):
            os.chown(box.name(name), NOBODY, NOBODY)
        os.chown(box.name("f"), owner, owner)
        _status, _err, trace = traced(box, words)
        own = own_calls([call for call in calls_in(trace) if call.name != "exit_group"], "f")
        rows += [(call, words, owner) for call in own if call.name in ("statx", "openat", "flock")]
    each(folder, pipe_put, rows)


def journal_is_kept(folder, name, first, call, nobody):
    """A call that says "not there" while the journal is there begins no new one."""
    copy = first.copy(folder.name(name))
    os.chmod(copy.path, 0o777)
    status, err, _trace = traced(copy, ["-i", ".n = 3", "f"], f"{call.name}:error=ENOENT:when={call.number}", nobody=nobody)
    done = copy.accepts("history", "f", nobody=nobody).count(b" done ")
    equal((status, done) in ((0, 2), (1, 1)) and err in LINE, True, (call, status, done, err))


def check_a_journal_is_not_taken_for_none(folder):
    for place, user, before in each_user(folder):
        first = type(folder)(folder.yq, place.name("first"))
        os.mkdir(first.path)
        first.write("f", b"n: 1\n")
        for path in (first.path, first.name("f")):
            os.chown(path, user, user)
        first.accepts(*EDIT, before=before)
        whole = first.copy(place.name("whole"))
        os.chown(whole.path, user, user)
        status, err, trace = traced(whole, ["-i", ".n = 3", "f"], nobody=user == NOBODY)
        equal((status, err), (0, b""))
        calls = own_calls([call for call in calls_in(trace) if call.name != "exit_group"], "f")
        made = next(i for i, call in enumerate(calls) if "O_EXCL" in call.text)
        rows = [(first, call, user == NOBODY) for call in calls[:made] if call.name in ("statx", "openat", "read")]
        equal(len(rows) > 10, True, rows)
        each(place, journal_is_kept, rows)


RUNS = 1_000
AT_CWD, EXCHANGE = -100, 2


def exchanging(box, stop):
    """Exchanges the file and a link to a secret again and again, as its owner may."""
    calls = ctypes.CDLL(None, use_errno=True)
    names = [os.fsencode(box.name(name)) for name in ("f", "link")]
    while not stop.is_set():
        equal(calls.renameat2(AT_CWD, names[0], AT_CWD, names[1], EXCHANGE), 0)
        time.sleep(random.random() / 500)


def edits_beside_exchanges(folder, name, count):
    place, box = of_nobody(folder, name)
    os.symlink("../root/secret", box.name("link"))
    stop = threading.Event()
    other = threading.Thread(target=exchanging, args=(box, stop))
    other.start()
    try:
        seen = [box.run("-i", f".new = {number}", "f") for number in range(count)]
    finally:
        stop.set()
        other.join()
    for status, _out, err in seen:
        equal((status in (0, 1), err in (*LINE, b"Error: J5 unsettled\n", b"")), (True, True), err)
    nothing_is_gained(place, box)


def check_a_thousand_edits_beside_exchanges(folder):
    """A link to a secret is in the place of the file at any moments."""
    as_nobody()
    each(folder, edits_beside_exchanges, [(RUNS // WORKERS + 1,)] * WORKERS)
