"""Symbolic links: what they lead to is edited, and they stay."""

import os

from harness import as_nobody, each_user, equal

WEB = b"name: web # main\nport: 8080\n"
EDITED = b"name: web # main\nport: 9090\n"
EDIT = ["-i", ".port = 9090"]
MOST_LINKS = 40


def is_edited_and_undone(folder, link, file):
    """Edits and undoes by the link. The file changes, and the link leads where it led."""
    leads = os.readlink(folder.name(link))
    before = folder.names()
    folder.accepts(*EDIT, link)
    equal((folder.read(file), os.readlink(folder.name(link))), (EDITED, leads))
    equal(folder.names(), sorted(before + [link + ".undo.json"]))
    folder.accepts("undo", link)
    equal((folder.read(file), os.readlink(folder.name(link))), (WEB, leads))


def check_a_link_to_a_file(folder):
    folder.write("f", WEB)
    os.chmod(folder.name("f"), 0o640)
    os.symlink("f", folder.name("l"))
    is_edited_and_undone(folder, "l", "f")
    equal((folder.mode("f"), folder.mode("l.undo.json")), (0o640, 0o640))


def check_an_absolute_link(folder):
    os.mkdir(folder.name("d"))
    folder.write("d/f", WEB)
    os.symlink(folder.name("d/f"), folder.name("l"))
    is_edited_and_undone(folder, "l", "d/f")
    equal(os.listdir(folder.name("d")), ["f"])


def check_a_chain_of_links_over_folders(folder):
    for name in ("a", "b", "b/c"):
        os.mkdir(folder.name(name))
    folder.write("f", WEB)
    os.symlink("../../f", folder.name("b/c/third"))
    os.symlink("../b/c/third", folder.name("a/second"))
    os.symlink("a/second", folder.name("l"))
    is_edited_and_undone(folder, "l", "f")
    equal((os.listdir(folder.name("a")), os.listdir(folder.name("b/c"))), (["second"], ["third"]))


def check_a_link_in_a_folder_behind_a_link(folder):
    os.makedirs(folder.name("real/deep"))
    folder.write("real/f", WEB)
    os.symlink("real/deep", folder.name("d"))
    os.symlink("../f", folder.name("real/deep/l"))
    folder.accepts(*EDIT, "d/l")
    equal((folder.read("real/f"), os.path.islink(folder.name("real/deep/l"))), (EDITED, True))
    folder.accepts("undo", "d/l")
    equal((folder.read("real/f"), folder.names()), (WEB, ["d", "real"]))


def check_as_many_links_as_the_system_follows(folder):
    folder.write("l0", WEB)
    for i in range(MOST_LINKS + 1):
        os.symlink(f"l{i}", folder.name(f"l{i + 1}"))
    is_edited_and_undone(folder, f"l{MOST_LINKS}", "l0")
    folder.refuses("S2 read failed", *EDIT, f"l{MOST_LINKS + 1}")
    equal(folder.read("l0"), WEB)


def check_a_link_to_nothing(folder):
    os.symlink("f", folder.name("l"))
    folder.refuses("S1 not there", *EDIT, "l")
    folder.refuses("S1 not there", "undo", "l")
    equal(folder.names(), ["l"])


def check_links_in_a_circle(folder):
    os.symlink("a", folder.name("b"))
    os.symlink("b", folder.name("a"))
    folder.refuses("S2 read failed", *EDIT, "a")
    equal(folder.names(), ["a", "b"])
    folder.write("f", WEB)
    folder.refuses("S2 read failed", *EDIT, "--journal", "a", "f")
    equal((folder.read("f"), folder.names()), (WEB, ["a", "b", "f"]))


def check_a_journal_behind_a_link(folder):
    os.mkdir(folder.name("d"))
    folder.write("f", WEB)
    folder.accepts("-i", ".port = 1", "--journal", "d/j", "f")
    os.symlink("d/j", folder.name("f.undo.json"))
    folder.accepts(*EDIT, "f")
    equal((folder.read("f"), folder.mode("d/j")), (EDITED, folder.mode("f")))
    for wanted in (WEB.replace(b"8080", b"1"), WEB):
        folder.accepts("undo", "f")
        equal((folder.read("f"), os.readlink(folder.name("f.undo.json"))), (wanted, "d/j"))
    equal((folder.names(), os.listdir(folder.name("d"))), (["d", "f", "f.undo.json"], ["j"]))


def check_a_journal_behind_a_link_to_nothing(folder):
    """Nothing is made where it leads, and nothing is written."""
    for place, user, before in each_user(folder):
        os.mkdir(place.name("d"))
        os.chmod(place.name("d"), 0o777)
        place.write("f", WEB)
        os.chown(place.name("f"), user, user)
        os.symlink("d/j", place.name("f.undo.json"))
        os.symlink("f.undo.json", place.name("l"))
        old = place.files()
        for words in ([*EDIT, "f"], [*EDIT, "--journal", "l", "f"], [*EDIT, "--journal", "d/../l", "f"]):
            place.refuses("S3 write failed", *words, before=before)
            place.refuses("J1 nothing to undo", "undo", *words[2:], before=before)
            equal(place.files(), old)
        equal(place.accepts("history", "f", before=before), b"")
        place.accepts("-i", ".port = 8080", "f", before=before)
        equal(place.files(), old)


def check_a_link_in_a_folder_that_nobody_may_write(folder):
    as_nobody()
    os.mkdir(folder.name("d"))
    folder.write("d/f", WEB)
    os.chmod(folder.name("d/f"), 0o666)
    os.chmod(folder.name("d"), 0o777)
    os.symlink("d/f", folder.name("l"))
    os.chmod(folder.path, 0o755)
    folder.accepts(*EDIT, "--journal", "d/j", "l", nobody=True)
    equal((folder.read("d/f"), folder.names()), (EDITED, ["d", "l"]))
    folder.accepts("undo", "--journal", "d/j", "l", nobody=True)
    equal((folder.read("d/f"), sorted(os.listdir(folder.name("d")))), (WEB, ["f", "j"]))
