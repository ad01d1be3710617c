"""Files that can't be read or written, leftovers, and moves that were cut."""

import json
import os
import subprocess

from harness import as_nobody, each_user, equal
from other_users import put
from tracing import traced

WEB = b"name: web # main\nport: 8080\n"
EDITED = b"name: web # main\nport: 9090\n"
LIMIT = 16_777_216
OPEN = (
    b'{"at":0,"pending":{"from":"bjogMQo=","kind":"edit","record":{"after_len":5,"before_len":5,"count":1,'
    b'"expr":".n = 2","splices":[{"at":3,"new":"Mg==","old":"MQ=="}]}},"records":[],"version":2}\n'
)


def check_a_folder_as_file(folder):
    os.mkdir(folder.name("d"))
    folder.refuses("S2 read failed", "undo", "d")
    folder.refuses("S2 read failed", "-i", ".n = 2", "d")
    equal(folder.names(), ["d"])


def check_a_pipe_as_file(folder):
    """Nobody writes to its other end, and no command waits for that."""
    os.mkfifo(folder.name("p"))
    folder.write("f", WEB)
    pairs = (["p"], ["--journal", "p", "f"])
    for pair in pairs:
        for words in (["undo", *pair], ["history", *pair], ["-i", ".port = 2", *pair]):
            folder.refuses("S2 read failed", *words)
            equal((folder.read("f"), folder.names()), (WEB, ["f", "p"]))


def check_a_path_through_a_file(folder):
    for place, user, before in each_user(folder):
        place.write("f", WEB)
        os.chown(place.name("f"), user, user)
        old = place.files()
        for name in ("f/x", "f/", "f/."):
            for words in (["-i", ".port = 2", name], ["undo", name], ["history", name], [".port", name]):
                place.refuses("S1 not there", *words, before=before)
        place.refuses("S3 write failed", "-i", ".port = 2", "--journal", "f/j", "f", before=before)
        place.refuses("J1 nothing to undo", "undo", "--journal", "f/j", "f", before=before)
        equal(place.files(), old)


def with_input(folder, line, name):
    """What a command answers with this file as its standard input."""
    with open(folder.name(name), "rb") as opened:
        done = subprocess.run(line, cwd=folder.path, stdin=opened, capture_output=True)
    return done.returncode, done.stdout, done.stderr


def check_no_name_leads_through_the_files_of_processes(folder):
    """An open file is edited by its own name; what only prints may read it by any."""
    for place, user, before in each_user(folder):
        place.write("f", WEB)
        os.chown(place.name("f"), user, user)
        names = ["/proc/self/fd/0", "/dev/fd/0", "/dev/stdin", "/proc/self/cwd/f", "//proc//self/fd/0"]
        for number, leads in enumerate(names[:4]):
            os.symlink(leads, place.name(f"l{number}"))
        old = place.files()
        for name in [*names, "l0", "l1", "l2", "l3"]:
            edit = ["-i", ".port = 2"]
            for words in ([*edit, name], ["undo", name], ["history", name], [*edit, "--journal", name, "f"]):
                answer = with_input(place, [*before, place.yq, *words], "f")
                equal((answer, place.files()), ((1, b"", b"Error: S2 read failed\n"), old), words)
            equal(with_input(place, [*before, place.yq, ".port", name], "f"), (0, b"8080\n", b""), name)


def check_a_text_that_is_too_long_is_not_undone(folder):
    """What is read of it isn't all, so its end would be lost."""
    line = b"n: 1 # " + b"x" * (LIMIT + 1 - 8) + b"\n"
    splices = [{"at": 3, "new": "MQ==", "old": "OQ=="}]
    record = {"after_len": LIMIT + 1, "before_len": LIMIT + 1, "count": 1, "expr": ".n = 1", "splices": splices}
    equal(len(line), LIMIT + 1)
    for place, user, before in each_user(folder):
        place.write("f", line + b"o: 3\n")
        place.write("f.undo.json", json.dumps({"at": 1, "pending": None, "records": [record], "version": 2}).encode())
        for name in place.names():
            os.chown(place.name(name), user, user)
        old = place.files()
        for words in (["undo", "f"], ["redo", "f"], ["squash", "1", "f"]):
            place.refuses("S2 read failed", *words, before=before)
            equal(place.files(), old)
        place.refuses("Y18 line 1: too large", "-i", ".n = 2", "f", before=before)
        equal(place.files(), old)
        os.truncate(place.name("f"), LIMIT)
        place.refuses("J3 does not stand", "undo", "f", before=before)


def check_a_text_without_an_end(folder):
    """Of a file that is too large no more is read than shows this, and a character that is cut there is no fault."""
    character = "\u00e9".encode()
    for front in (b"", b"k"):
        folder.write("f", front + character * (LIMIT // 2 + 8))
        folder.refuses("Y18 line 1: too large", "-i", ".a = 1", "f")
    os.truncate(folder.name("f"), 1 << 40)
    status, err, trace = traced(folder, ["-i", ".a = 1", "f"])
    equal((status, err), (1, b"Error: Y18 line 1: too large\n"))
    equal(sum(int(line.rsplit("= ", 1)[1]) for line in trace if line.startswith("read(") and '"k' in line) > 0, True)
    reads = [line for line in trace if line.startswith("read(")]
    equal(sum(int(line.rsplit("= ", 1)[1]) for line in reads) < 2 * LIMIT, True, "bytes read")
    equal(folder.names(), ["f"])


def check_a_file_that_nobody_may_read(folder):
    as_nobody()
    folder.give_away()
    put(folder, "f", WEB, 0, 0, 0o600)
    folder.refuses("S2 read failed", "undo", "f", nobody=True)
    folder.refuses("S2 read failed", "-i", ".port = 9090", "f", nobody=True)
    equal((folder.read("f"), folder.names()), (WEB, ["f"]))


def check_a_folder_that_nobody_may_write(folder):
    as_nobody()
    put(folder, "f", WEB, 0, 0, 0o644)
    os.chmod(folder.path, 0o755)
    folder.refuses("S3 write failed", "-i", ".port = 9090", "f", nobody=True)
    equal((folder.read("f"), folder.names()), (WEB, ["f"]))


def check_nobody_in_a_folder_of_its_own(folder):
    as_nobody()
    folder.give_away()
    put(folder, "f", WEB, 0, 0, 0o646)
    folder.accepts("-i", ".port = 9090", "f", nobody=True)
    equal((folder.read("f"), folder.mode("f"), folder.mode("f.undo.json")), (EDITED, 0o646, 0o646))
    folder.accepts("undo", "f", nobody=True)
    equal(folder.read("f"), WEB)


REPAIR = r"""
cp -p f.undo.json f.undo.json.kept
sed -n 's/.*"pending":{"from":"\([^"]*\)".*/\1/p' f.undo.json.kept | base64 -d > f.before
sed 's/"pending":{.*},"records":\[/"pending":null,"records":[/' f.undo.json.kept > f.undo.json
"""


def check_a_cut_and_then_another_hand(folder):
    """The commands of the page on the journal keep both texts, and what was done before the cut can be undone."""
    folder.write("f", b"m: 1\nn: 1\n")
    folder.accepts("-i", '.m = "},\\"records\\":["', "f")
    folder.accepts("-i", ".m = 3", "f")
    cut = folder.read("f")
    _status, err, _trace = traced(folder, ["-i", ".n = 2", "f"], "rename:error=EIO:when=2")
    equal(err, b"Error: S3 write failed\n")
    theirs = cut.replace(b"n: 1", b"n: 7")
    folder.write("f", theirs)
    for words in (["-i", ".n = 3", "f"], ["undo", "f"], ["redo", "f"], ["history", "f"], ["squash", "2", "f"]):
        folder.refuses("J5 unsettled", *words)
        equal(folder.read("f"), theirs)
    done = subprocess.run(["sh", "-ec", REPAIR], cwd=folder.path, capture_output=True)
    equal((done.returncode, done.stderr), (0, b""))
    equal((folder.read("f"), folder.read("f.before")), (theirs, cut))
    equal(folder.accepts("history", "f").count(b" done "), 2)
    for wanted in (theirs.replace(b"m: 3", b'm: "},\\"records\\":["'), theirs.replace(b"m: 3", b"m: 1")):
        folder.accepts("undo", "f")
        equal(folder.read("f"), wanted)
    folder.refuses("J1 nothing to undo", "undo", "f")


def check_an_edit_that_is_cut_leaves_its_open_move(folder):
    folder.write("f", b"n: 1\n")
    status, err, _trace = traced(folder, ["-i", ".n = 2", "f"], "rename:error=EIO:when=2")
    equal((status, err), (1, b"Error: S3 write failed\n"))
    equal((folder.read("f"), folder.read("f.undo.json"), folder.names()), (b"n: 1\n", OPEN, ["f", "f.undo.json"]))


def check_nothing_is_left_beside_the_files(folder):
    folder.write("f", WEB)
    for words in (["-i", ".port = 9090", "f"], ["undo", "f"], ["redo", "f"], ["-i", ".port = 1", "f"]):
        folder.accepts(*words)
    equal(folder.names(), ["f", "f.undo.json"])


def check_a_name_that_leaves_no_room_for_that_of_its_journal(folder):
    """A journal under a shorter name is taken."""
    for length in (246, 255):
        name = "a" * length
        folder.write(name, WEB)
        for words in (["-i", ".port = 9090"], ["undo"], ["history"]):
            folder.refuses("S2 read failed", *words, name)
        equal((folder.read(name), folder.names()), (WEB, [name]))
        folder.accepts("-i", ".port = 9090", "--journal", "j", name)
        folder.accepts("undo", "--journal", "j", name)
        equal(folder.read(name), WEB)
        for old in (name, "j"):
            os.remove(folder.name(old))


def check_a_system_that_sets_no_modes(folder):
    """Nothing is written."""
    folder.write("f", WEB)
    status, err, _trace = traced(folder, ["-i", ".port = 9090", "f"], "fchmod:error=EPERM")
    equal((status, err, folder.read("f"), folder.names()), (1, b"Error: S3 write failed\n", WEB, ["f"]))
