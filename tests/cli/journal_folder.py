"""`YQ_JOURNALS`: journals in a folder of their own, each under a name that is made of its file's path."""

import os
import subprocess

from harness import NOBODY, SECONDS, Folder, as_nobody, each_user, equal
from other_users import EMPTY, SOMEBODY

ONE, TWO = b"n: 1\n", b"n: 2\n"
EDIT = ["-i", ".n = 2"]
MOST_OF_NAME = 255
TOO_LONG = "the journal's name in YQ_JOURNALS would be longer than 255 bytes: name one by '--journal PATH'"
NO_FILE_PATH = "FILE's path isn't had, or isn't UTF-8, so its journal has no name in YQ_JOURNALS"
NO_PATH = "YQ_JOURNALS is no absolute path in UTF-8"


def kept_in(folder, journals="j"):
    """What runs a command with journals in a folder of the check's."""
    return ["env", "YQ_JOURNALS=" + folder.name(journals)]


def name_of(path):
    """The name that a path's journal has in a folder of journals."""
    return os.path.realpath(path).replace("%", "%25").replace("/", "%2F") + ".undo.json"


def told(folder, line, *words, before):
    """The words are refused, with this line after `U1 usage`, and nothing is written."""
    old = folder.files()
    status, out, err = folder.run(*words, before=before)
    equal((status, out, err.decode().splitlines()[:2]), (1, b"", ["Error: U1 usage", line]), words)
    equal(folder.files(), old, words)


def stays(folder, line, *words, before=()):
    """The command is refused, and every file is as it was."""
    old = folder.files()
    folder.refuses(line, *words, before=before)
    equal(folder.files(), old, words)


def check_all_commands_use_the_folder(folder):
    kept = kept_in(folder, "state/yq/j")
    folder.write("f", ONE)
    folder.accepts(*EDIT, "f", before=kept)
    equal((folder.read("f"), folder.names()), (TWO, ["f", "state"]))
    equal(os.listdir(folder.name("state/yq/j")), [name_of(folder.name("f"))])
    equal([folder.mode(name) for name in ("state", "state/yq", "state/yq/j")], [0o700] * 3)
    folder.accepts("-i", ".n = 3", "f", before=kept)
    equal(folder.accepts("history", "f", before=kept), b'1 done ".n = 2"\n2 done ".n = 3"\n')
    folder.accepts("squash", "2", "f", before=kept)
    folder.accepts("undo", "f", before=kept)
    equal(folder.read("f"), ONE)
    folder.accepts("redo", "f", before=kept)
    equal((folder.read("f"), folder.names()), (b"n: 3\n", ["f", "state"]))
    equal(folder.accepts("history", "f"), b"")
    stays(folder, "J1 nothing to undo", "undo", "f")


def check_names_of_every_kind(folder):
    kept = kept_in(folder)
    names = ["%", "a%2Fb", "a/b", "a%2fb", "x y", "-n", "\u00e9\u6f22\U0001f600", "q\"'\\", "line\nbreak", ".hidden", "100%25", "*?[", "c.undo.json"]
    os.mkdir(folder.name("a"))
    for name in names:
        folder.write(name, ONE)
    for name in names:
        folder.accepts(*EDIT, "--", name, before=kept)
    equal(sorted(os.listdir(folder.name("j"))), sorted(name_of(folder.name(name)) for name in names))
    equal(len(set(os.listdir(folder.name("j")))), len(names))
    for name in names:
        equal(folder.accepts("history", "--", name, before=kept), b'1 done ".n = 2"\n')
        folder.accepts("undo", "--", name, before=kept)
        equal(folder.read(name), ONE)


def check_a_file_has_one_journal_by_all_its_names(folder):
    kept = kept_in(folder)
    for name in ("d", "d/e", "other"):
        os.mkdir(folder.name(name))
    folder.write("d/e/f", ONE)
    os.symlink("d/e/f", folder.name("l"))
    os.symlink("d", folder.name("linked"))
    folder.accepts(*EDIT, "d/e/f", before=kept)
    ways = [
        ([], "d/e/f"),
        ([], folder.name("d/e/f")),
        ([], "./d//e/../e/f"),
        ([], "l"),
        ([], "linked/e/f"),
        (["-C", folder.name("d/e")], "f"),
        (["-C", folder.name("linked/e")], "f"),
        (["-C", folder.name("other")], "../l"),
        (["-C", "/"], folder.name("linked/e/f")),
    ]
    for place, file in ways:
        before = [kept[0], *place, kept[1]]
        equal(folder.accepts("history", file, before=before), b'1 done ".n = 2"\n', file)
        folder.accepts("undo", file, before=before)
        equal(folder.read("d/e/f"), ONE, file)
        folder.accepts("redo", file, before=before)
        equal(folder.read("d/e/f"), TWO, file)
    equal(os.listdir(folder.name("j")), [name_of(folder.name("d/e/f"))])
    equal((folder.names(), os.listdir(folder.name("other"))), (["d", "j", "l", "linked", "other"], []))


def check_a_journal_beside_the_file_comes_first(folder):
    kept = kept_in(folder)
    folder.write("f", ONE)
    folder.accepts(*EDIT, "f")
    folder.accepts("-i", ".n = 3", "f", before=kept)
    equal(folder.names(), ["f", "f.undo.json"])
    equal(folder.accepts("history", "f", before=kept), b'1 done ".n = 2"\n2 done ".n = 3"\n')
    folder.accepts("undo", "f", before=kept)
    equal(folder.read("f"), TWO)
    os.remove(folder.name("f.undo.json"))
    folder.accepts("-i", ".n = 4", "f", before=kept)
    equal((folder.names(), os.listdir(folder.name("j"))), (["f", "j"], [name_of(folder.name("f"))]))
    os.symlink("nowhere", folder.name("f.undo.json"))
    stays(folder, "S3 write failed", "-i", ".n = 5", "f", before=kept)


def check_a_journal_that_is_named_comes_first(folder):
    kept = kept_in(folder)
    folder.write("f", ONE)
    folder.accepts("-i", "--journal=own", ".n = 2", "f", before=kept)
    folder.accepts("-i", "--journal", "f.undo.json", ".n = 3", "f", before=kept)
    equal(folder.names(), ["f", "f.undo.json", "own"])
    os.remove(folder.name("f.undo.json"))
    equal(folder.accepts("history", "--journal=own", "f", before=["env", "YQ_JOURNALS=relative"]), b'1 done ".n = 2"\n')
    stays(folder, "J1 nothing to undo", "undo", "--journal=f.undo.json", "f", before=kept)
    folder.write("--journal=x", ONE)
    folder.accepts(*EDIT, "--", "--journal=x", before=kept)
    equal(os.listdir(folder.name("j")), [name_of(folder.name("--journal=x"))])


def check_a_name_of_255_bytes_and_one_of_256(folder):
    kept = kept_in(folder)
    room = MOST_OF_NAME - len(name_of(folder.name("a"))) + 1
    fits, too_long = "a" * room, "a" * (room + 1)
    for name in (fits, too_long):
        folder.write(name, ONE)
    equal(len(name_of(folder.name(fits))), MOST_OF_NAME)
    folder.accepts(*EDIT, fits, before=kept)
    folder.accepts("undo", fits, before=kept)
    equal((folder.read(fits), os.listdir(folder.name("j"))), (ONE, [name_of(folder.name(fits))]))
    for words in (EDIT, ["undo"], ["redo"], ["history"], ["squash", "1"]):
        told(folder, TOO_LONG, *words, too_long, before=kept)
    equal(folder.accepts(".n", too_long, before=kept), b"1\n")
    equal(folder.accepts(".n = 2", too_long, before=kept), TWO)
    folder.accepts("-i", "--journal=own", ".n = 2", too_long, before=kept)
    equal(folder.read(too_long), TWO)


def check_a_folder_without_an_absolute_path(folder):
    folder.write("f", ONE)
    for value in ("j", "./j", "~/j", " /j"):
        told(folder, NO_PATH, *EDIT, "f", before=["env", "YQ_JOURNALS=" + value])
        told(folder, NO_PATH, "history", "f", before=["env", "YQ_JOURNALS=" + value])
        equal(folder.accepts(".n", "f", before=["env", "YQ_JOURNALS=" + value]), b"1\n")
    environment = {**os.environb, b"YQ_JOURNALS": folder.name("j").encode() + b"\xff"}
    done = subprocess.run([folder.yq, *EDIT, "f"], cwd=folder.path, env=environment, capture_output=True, timeout=SECONDS)
    equal((done.returncode, done.stderr.decode().splitlines()[:2]), (1, ["Error: U1 usage", NO_PATH]))
    equal((folder.names(), folder.read("f")), (["f"], ONE))
    folder.accepts(*EDIT, "f", before=["env", "YQ_JOURNALS="])
    equal(folder.names(), ["f", "f.undo.json"])


def check_what_is_refused_makes_no_folder(folder):
    kept = kept_in(folder)
    folder.write("f", ONE)
    stays(folder, "E1 syntax", "-i", ".n =", "f", before=kept)
    stays(folder, "X1 not a map", "-i", ".n.x = 1", "f", before=kept)
    stays(folder, "S1 not there", *EDIT, "g", before=kept)
    stays(folder, "S1 not there", *EDIT, "f/g", before=kept)
    stays(folder, "J1 nothing to undo", "undo", "f", before=kept)
    stays(folder, "J7 bad count", "squash", "1", "f", before=kept)
    folder.accepts("-i", ".n = 1", "f", before=kept)
    equal(folder.accepts("history", "f", before=kept), b"")
    equal(folder.names(), ["f"])


def check_the_mode_of_the_folder(folder):
    folder.write("f", ONE)
    os.chmod(folder.name("f"), 0o640)
    folder.accepts(*EDIT, "f", before=["sh", "-c", 'umask 0; exec "$@"', "sh", *kept_in(folder)])
    equal((folder.mode("j"), folder.mode(os.path.join("j", name_of(folder.name("f"))))), (0o700, 0o640))
    os.chmod(folder.name("j"), 0o755)
    folder.accepts("undo", "f", before=kept_in(folder))
    equal((folder.mode("j"), folder.read("f")), (0o755, ONE))


def check_a_folder_that_is_none(folder):
    folder.write("f", ONE)
    folder.write("j", b"")
    for journals in ("j", "j/below"):
        kept = kept_in(folder, journals)
        stays(folder, "S3 write failed", *EDIT, "f", before=kept)
        stays(folder, "J1 nothing to undo", "undo", "f", before=kept)
        equal(folder.accepts("history", "f", before=kept), b"")
    os.symlink("nowhere", folder.name("l"))
    stays(folder, "S3 write failed", *EDIT, "f", before=kept_in(folder, "l"))
    os.mkdir(folder.name("real"))
    os.symlink("real", folder.name("r"))
    folder.accepts(*EDIT, "f", before=kept_in(folder, "r"))
    equal(os.listdir(folder.name("real")), [name_of(folder.name("f"))])


def check_a_folder_of_another_user(folder):
    before = as_nobody()
    os.chmod(folder.path, 0o755)
    for name, user in (("of-root", 0), ("of-nobody", NOBODY)):
        os.mkdir(folder.name(name))
        os.chown(folder.name(name), user, user)
        os.chmod(folder.name(name), 0o755)
    folder.write("of-nobody/f", ONE)
    os.chown(folder.name("of-nobody/f"), NOBODY, NOBODY)
    stays(folder, "S3 write failed", *EDIT, "of-nobody/f", before=[*before, *kept_in(folder, "of-root")])
    stays(folder, "S3 write failed", *EDIT, "of-nobody/f", before=[*before, *kept_in(folder, "of-root/below")])
    folder.write("f", ONE)
    folder.accepts(*EDIT, "f", before=kept_in(folder, "of-nobody"))
    made = os.stat(folder.name(os.path.join("of-nobody", name_of(folder.name("f")))))
    equal((made.st_uid, made.st_mode & 0o777, folder.read("f")), (0, folder.mode("f"), TWO))


def check_whose_journal_is_believed_there(folder):
    """A journal in the folder is judged as one next to its file."""
    os.chmod(folder.path, 0o755)
    for place, user, before in each_user(folder):
        kept = [*before, *kept_in(place)]
        os.mkdir(place.name("j"))
        os.chown(place.name("j"), user, user)
        place.write("f", ONE)
        os.chown(place.name("f"), user, user)
        os.chmod(place.name("f"), 0o644)
        journal = os.path.join("j", name_of(place.name("f")))
        for owner, mode, line in ((SOMEBODY, 0o644, "S2 read failed"), (user, 0o666, "S2 read failed"), (user, 0o644, None)):
            place.write(journal, EMPTY)
            os.chown(place.name(journal), owner, owner)
            os.chmod(place.name(journal), mode)
            if line is None:
                place.accepts(*EDIT, "f", before=kept)
            else:
                stays(place, line, *EDIT, "f", before=kept)
                stays(place, line, "history", "f", before=kept)
        os.remove(place.name(journal))
        os.symlink("nowhere", place.name(journal))
        stays(place, "S3 write failed", "-i", ".n = 3", "f", before=kept)
        os.remove(place.name(journal))
        place.write("j/mine", EMPTY)
        os.chown(place.name("j/mine"), user, user)
        os.symlink("mine", place.name(journal))
        os.chown(place.name(journal), SOMEBODY, SOMEBODY, follow_symlinks=False)
        stays(place, "S2 read failed", "-i", ".n = 3", "f", before=kept)


def check_a_path_that_is_not_told(folder):
    """From inside a folder that may be written, below one that may not be searched."""
    before = as_nobody()
    os.mkdir(folder.name("in"))
    os.mkdir(folder.name("j"))
    folder.write("in/f", ONE)
    for name in ("in", "in/f", "j"):
        os.chown(folder.name(name), NOBODY, NOBODY)
    os.chmod(folder.path, 0o700)
    inside = Folder(folder.yq, folder.name("in"))
    told(inside, NO_FILE_PATH, *EDIT, "f", before=[*before, *kept_in(folder)])
    inside.accepts(*EDIT, "f", before=before)
    equal(inside.names(), ["f", "f.undo.json"])


def check_a_path_that_is_no_utf8(folder):
    place = os.path.join(folder.path.encode(), b"\xff")
    os.mkdir(place)
    with open(os.path.join(place, b"f"), "wb") as text:
        text.write(ONE)
    done = subprocess.run([*kept_in(folder), folder.yq, *EDIT, "f"], cwd=place, capture_output=True, timeout=SECONDS)
    equal((done.returncode, done.stderr.decode().splitlines()[:2]), (1, ["Error: U1 usage", NO_FILE_PATH]))
    equal((os.listdir(place), os.listdir(folder.path.encode())), ([b"f"], [b"\xff"]))


def check_a_file_that_is_its_own_journal(folder):
    """A link in the folder of journals, to the file whose journal has the link's name."""
    folder.write("f", ONE)
    os.mkdir(folder.name("j"))
    link = folder.name(os.path.join("j", name_of(folder.name("f"))))
    os.symlink("../f", link)
    told(folder, "the journal has the name of FILE", *EDIT, link, before=kept_in(folder))
    stays(folder, "S2 read failed", *EDIT, "f", before=kept_in(folder))
