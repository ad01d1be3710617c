"""What a cut left next to a file is neither read nor in the way, and goes with the next edit, unless a run is at work on it."""

import fcntl
import os
import time

from harness import as_nobody, each_user, equal
from tracing import calls_in, traced

WEB = b"name: web # main\nport: 8080\n"
EDITED = b"name: web # main\nport: 9090\n"
EDIT = ["-i", ".port = 9090", "f"]
DIGITS = "0123456789abcdef"
SAME_NAME = ".f.undo.json.yq-" + "0" * 16
HOUR = 3_600


def grow_old(folder, name, seconds):
    then = time.time() - seconds
    os.utime(folder.name(name), (then, then), follow_symlinks=False)


def check_what_a_cut_left_goes_at_once(folder):
    """Of the file and of its journal, whatever is in it."""
    for place, user, before in each_user(folder):
        left = [f".f.yq-{DIGITS}", f".f.undo.json.yq-{DIGITS}", ".f.yq-" + "f" * 16]
        place.write("f", WEB)
        os.chown(place.name("f"), user, user)
        for words, wanted in ((EDIT, EDITED), (["undo", "f"], WEB)):
            for name in left:
                place.write(name, b"port: 1\n")
                os.chown(place.name(name), user, user)
                os.chmod(place.name(name), 0o600)
            place.accepts(*words, before=before)
            equal((place.read("f"), place.names()), (wanted, ["f", "f.undo.json"]))


def check_what_a_run_is_at_work_on_stays(folder):
    """A lock on it says that, however old it is."""
    folder.write("f", WEB)
    names = [f".f.yq-{DIGITS}", f".f.undo.json.yq-{DIGITS}"]
    held = []
    for name in names:
        folder.write(name, b"port: 1\n")
        grow_old(folder, name, 10 * HOUR)
        held.append(open(folder.name(name), "rb"))
        fcntl.flock(held[-1], fcntl.LOCK_EX)
    folder.accepts(*EDIT)
    equal(folder.names(), sorted([*names, "f", "f.undo.json"]))
    for file in held:
        file.close()
    folder.accepts("undo", "f")
    equal(folder.names(), ["f", "f.undo.json"])


def check_what_can_not_be_opened_goes_after_an_hour(folder):
    """What another user left: whether a run is at work on it isn't reported."""
    before = as_nobody()
    folder.give_away()
    folder.write("f", WEB)
    os.chmod(folder.name("f"), 0o666)
    old, young = f".f.yq-{DIGITS}", ".f.yq-" + "1" * 16
    for name in (old, young):
        folder.write(name, b"port: 1\n")
        os.chmod(folder.name(name), 0o600)
        grow_old(folder, name, HOUR + 60 if name == old else HOUR - 60)
    folder.accepts(*EDIT, before=before)
    equal((folder.read("f"), folder.names()), (EDITED, sorted([young, "f", "f.undo.json"])))


def check_what_has_no_lock_goes_after_an_hour(folder):
    """On a file system without locks."""
    folder.write("f", WEB)
    old, young = f".f.yq-{DIGITS}", ".f.yq-" + "1" * 16
    for name in (old, young):
        folder.write(name, b"port: 1\n")
        grow_old(folder, name, HOUR + 60 if name == old else HOUR - 60)
    status, err, _trace = traced(folder, EDIT, "flock:error=ENOLCK", env={**os.environ, "YQ_NO_LOCK": "1"})
    equal((status, err, folder.names()), (0, b"", sorted([young, "f", "f.undo.json"])))


def check_a_pipe_under_the_name_of_what_was_left(folder):
    """It isn't waited for: no edit opens it."""
    folder.write("f", WEB)
    os.mkfifo(folder.name(f".f.yq-{DIGITS}"))
    folder.accepts(*EDIT)
    equal((folder.read("f"), folder.names()), (EDITED, [f".f.yq-{DIGITS}", "f", "f.undo.json"]))


def check_a_run_that_is_killed_leaves_nothing_for_long(folder):
    """Before a write, a sync or a renaming of each of the three files of an edit; by Ctrl-C, too, and a limit of a file's size."""
    for place, user, before in each_user(folder):
        for signal in ("KILL", "INT", "TERM", "XFSZ"):
            for call in ("fchmod", "rename"):
                for number in (1, 2, 3):
                    cut = type(folder)(folder.yq, place.name(f"{signal}-{call}-{number}"))
                    os.mkdir(cut.path)
                    cut.write("f", WEB)
                    for path in (cut.path, cut.name("f")):
                        os.chown(path, user, user)
                    traced(cut, EDIT, f"{call}:signal={signal}:when={number}", nobody=user != 0)
                    left = [name for name in cut.names() if name.startswith(".")]
                    equal(len(left) <= 1, True, left)
                    for name in left:
                        seen = cut.mode(name) & 0o077 & ~cut.mode("f"), os.stat(cut.name(name)).st_uid
                        equal(seen, (0, user))
                    cut.accepts("-i", ".port = 1", "f", before=before)
                    equal((cut.read("f"), cut.names()), (WEB.replace(b"8080", b"1"), ["f", "f.undo.json"]))


def check_what_is_no_temporary_file_stays(folder):
    """Other names, also those of other files, and what is no regular file."""
    kept = [
        f".yq-{DIGITS}", f".g.yq-{DIGITS}", f"f.yq-{DIGITS}", f"..f.yq-{DIGITS}", f".f.undo.yq-{DIGITS}",
        ".f.yq-", ".f.yq-new", ".f.yq-" + DIGITS[:-1], f".f.yq-{DIGITS}0", f".f.yq-{DIGITS}.undo.json",
        ".f.yq-" + DIGITS.upper(), ".f.yq-" + "\u0663" * 8,
    ]
    folder.write("f", WEB)
    for name in kept:
        folder.write(name, b"port: 1\n")
        grow_old(folder, name, 10 * HOUR)
    with open(os.fsencode(folder.path) + b"/.f.yq-\xff", "wb"):
        pass
    os.mkdir(folder.name(".f.yq-" + "3" * 16))
    os.symlink("g", folder.name(".f.yq-" + "4" * 16))
    os.mkfifo(folder.name(".f.yq-" + "5" * 16))
    for digit in "345":
        grow_old(folder, ".f.yq-" + digit * 16, 10 * HOUR)
    before = folder.names()
    for words in (EDIT, ["undo", "f"], ["redo", "f"]):
        folder.accepts(*words)
        equal(folder.names(), sorted([*before, "f.undo.json"]))


def check_what_writes_nothing_removes_nothing(folder):
    folder.write("f", WEB)
    folder.write(f".f.yq-{DIGITS}", b"")
    grow_old(folder, f".f.yq-{DIGITS}", 10 * HOUR)
    for words in ([".port", "f"], ["history", "f"], ["-i", ".port = 8080", "f"]):
        folder.accepts(*words)
    folder.refuses("J1 nothing to undo", "undo", "f")
    equal(folder.run("-i", ".port.a = 1", "f")[0], 1)
    equal(folder.names(), [f".f.yq-{DIGITS}", "f"])


def check_what_can_not_be_removed_stays(folder):
    """In a folder in which each user removes only its own files."""
    before = as_nobody()
    os.chmod(folder.path, 0o1777)
    folder.write("f", WEB)
    os.chown(folder.name("f"), 65534, 65534)
    folder.write(f".f.yq-{DIGITS}", b"")
    grow_old(folder, f".f.yq-{DIGITS}", 10 * HOUR)
    folder.accepts(*EDIT, before=before)
    equal((folder.read("f"), folder.names()), (EDITED, [f".f.yq-{DIGITS}", "f", "f.undo.json"]))


def check_long_names(folder):
    """With the longest names that a file and its journal may have."""
    for name in ("a" * 245, "\u00e9" * 122, "x" + "\u20ac" * 81):
        folder.write(name, WEB)
        left = "." + name.encode()[:234].decode(errors="ignore") + f".yq-{DIGITS}"
        folder.write(left, b"")
        grow_old(folder, left, 10 * HOUR)
        folder.accepts("-i", ".port = 9090", name)
        equal((folder.read(name), folder.names()), (EDITED, sorted([name, name + ".undo.json"])))
        folder.accepts("undo", name)
        equal(folder.read(name), WEB)
        for old in folder.names():
            os.remove(folder.name(old))


def names_tried(trace):
    return sum("O_EXCL" in line for line in trace)


def own_randoms(folder):
    """Which calls for random bytes are the program's own, for one name each."""
    again = folder.copy(folder.path + "-again")
    _status, _err, trace = traced(again, EDIT)
    return [call.number for call in calls_in(trace) if call.name == "getrandom" and ", 8, 0)" in call.text]


def edit_with_its_name_taken(folder, more=""):
    """An edit, while another run is at work on a file of its first name; its status, its error, and how many names it tried."""
    folder.write("f", WEB)
    folder.write(SAME_NAME, b"left")
    first = own_randoms(folder)[0]
    with open(folder.name(SAME_NAME), "rb") as left:
        fcntl.flock(left, fcntl.LOCK_EX)
        status, err, trace = traced(folder, EDIT, f"getrandom:retval=8:when={first}{more}")
    return status, err, names_tried(trace)


def check_another_name_is_tried(folder):
    equal(edit_with_its_name_taken(folder), (0, b"", 4))
    equal((folder.read("f"), folder.read(SAME_NAME)), (EDITED, b"left"))
    equal(folder.names(), [SAME_NAME, "f", "f.undo.json"])


def check_names_are_not_tried_for_ever(folder):
    equal(edit_with_its_name_taken(folder, "+"), (1, b"Error: S3 write failed\n", 64))
    equal((folder.read("f"), folder.read(SAME_NAME)), (WEB, b"left"))
    equal(folder.names(), [SAME_NAME, "f"])
