"""Owners, groups and modes."""

import os
import stat

from harness import NOBODY, Skip, as_nobody, as_user, equal
from other_users import SOMEBODY, SOME_GROUP, put

WEB = b"name: web # main\nport: 8080\n"
EDITED = b"name: web # main\nport: 9090\n"
EDIT = ["-i", ".port = 9090"]


def rights(folder, file):
    seen = os.stat(folder.name(file))
    return seen.st_uid, seen.st_gid, stat.S_IMODE(seen.st_mode)


def check_the_owner_and_the_mode_stay(folder):
    as_nobody()
    for mode in (0o600, 0o644, 0o4755, 0o2770, 0o6711, 0o1444):
        put(folder, "f", WEB, SOMEBODY, SOME_GROUP, mode)
        folder.accepts(*EDIT, "f")
        equal((folder.read("f"), rights(folder, "f")), (EDITED, (SOMEBODY, SOME_GROUP, mode)))
        folder.accepts("undo", "f")
        equal((folder.read("f"), rights(folder, "f")), (WEB, (SOMEBODY, SOME_GROUP, mode)))


def check_the_journal_keeps_its_owner(folder):
    """And gets the group of its file."""
    as_nobody()
    folder.write("f", WEB)
    os.chown(folder.name("f"), SOMEBODY, SOMEBODY)
    folder.accepts(*EDIT, "f")
    for owner, group in ((SOMEBODY, SOME_GROUP), (0, SOME_GROUP), (0, 0)):
        os.chown(folder.name("f.undo.json"), owner, group)
        os.chmod(folder.name("f.undo.json"), 0o640)
        folder.accepts("undo", "f")
        equal(rights(folder, "f.undo.json"), (owner, SOMEBODY, 0o640))
        folder.accepts("redo", "f")


def check_who_may_not_give_files_away(folder):
    """The new file is its maker's. Its group gains nothing, and no bit changes the user of a run."""
    as_nobody()
    folder.give_away()
    for mode, left in ((0o646, 0o646), (0o606, 0o606), (0o676, 0o666), (0o2626, 0o626), (0o6777, 0o777), (0o4757, 0o757)):
        put(folder, "f", WEB, SOMEBODY, SOME_GROUP, mode)
        folder.accepts(*EDIT, "f", nobody=True)
        equal((folder.read("f"), rights(folder, "f")), (EDITED, (NOBODY, NOBODY, left)), oct(mode))
        folder.accepts("undo", "f", nobody=True)


def check_a_new_journal_has_the_rights_of_its_file(folder):
    as_nobody()
    for mode, left in ((0o600, 0o600), (0o664, 0o664), (0o640, 0o640), (0o2775, 0o775)):
        put(folder, "f", WEB, SOMEBODY, SOME_GROUP, mode)
        old = os.umask(0o077)
        try:
            folder.accepts(*EDIT, "f")
        finally:
            os.umask(old)
        equal(rights(folder, "f.undo.json"), (SOMEBODY, SOME_GROUP, left), oct(mode))
        os.remove(folder.name("f.undo.json"))


def check_a_member_of_the_group_may_go_on(folder):
    """Who may write the file by its group may write the journal that another member made."""
    as_nobody()
    folder.give_away()
    put(folder, "f", WEB, SOMEBODY, SOME_GROUP, 0o660)
    members = [as_user(user, user, SOME_GROUP) for user in (SOMEBODY, NOBODY)]
    folder.accepts(*EDIT, "f", before=members[0])
    equal(rights(folder, "f.undo.json"), (SOMEBODY, SOME_GROUP, 0o660))
    folder.accepts("undo", "f", before=members[1])
    equal(folder.read("f"), WEB)
    folder.accepts("redo", "f", before=members[0])
    equal((folder.read("f"), rights(folder, "f.undo.json")[1:]), (EDITED, (SOME_GROUP, 0o660)))


def stays_protected(folder, *commands):
    """Each command is refused, and each file stays as it is."""
    before = {name: (folder.read(name), rights(folder, name)) for name in folder.names()}
    for words in commands:
        folder.refuses("S3 write failed", *words, nobody=True)
        equal({name: (folder.read(name), rights(folder, name)) for name in folder.names()}, before, words)


def check_a_file_that_its_user_may_not_write(folder):
    as_nobody()
    folder.give_away()
    for owner, mode in ((SOMEBODY, 0o644), (NOBODY, 0o444), (NOBODY, 0o400)):
        put(folder, "f", WEB, owner, owner, mode | 0o044 if owner == SOMEBODY else mode)
        stays_protected(folder, [*EDIT, "f"])
        equal(folder.names(), ["f"])
        os.remove(folder.name("f"))


def check_a_file_that_is_protected_between_two_edits(folder):
    as_nobody()
    folder.give_away()
    put(folder, "f", WEB, NOBODY, NOBODY, 0o644)
    for words in ([*EDIT, "f"], ["-i", ".port = 1", "f"], ["undo", "f"]):
        folder.accepts(*words, nobody=True)
    os.chmod(folder.name("f"), 0o444)
    stays_protected(folder, ["-i", ".port = 2", "f"], ["undo", "f"], ["redo", "f"])
    os.chmod(folder.name("f"), 0o644)
    folder.accepts("undo", "f", nobody=True)
    equal(folder.read("f"), WEB)


def check_a_journal_that_its_user_may_not_write(folder):
    as_nobody()
    folder.give_away()
    put(folder, "f", WEB, 0, 0, 0o666)
    folder.accepts(*EDIT, "f", nobody=True)
    for owner, mode in ((SOMEBODY, 0o644), (NOBODY, 0o444)):
        os.chown(folder.name("f.undo.json"), owner, owner)
        os.chmod(folder.name("f.undo.json"), mode)
        stays_protected(folder, ["-i", ".port = 2", "f"], ["undo", "f"])


def check_protection_does_not_hold_root_back(folder):
    as_nobody()
    put(folder, "f", WEB, 0, 0, 0o444)
    folder.accepts(*EDIT, "f")
    equal((folder.read("f"), folder.mode("f"), folder.mode("f.undo.json")), (EDITED, 0o444, 0o444))
    folder.accepts("undo", "f")
    equal(folder.read("f"), WEB)


def check_a_group_of_ones_own_stays(folder):
    as_nobody()
    folder.give_away()
    put(folder, "f", WEB, SOMEBODY, SOME_GROUP, 0o2660)
    folder.accepts(*EDIT, "f", before=as_user(NOBODY, NOBODY, SOME_GROUP))
    equal((folder.read("f"), rights(folder, "f")), (EDITED, (NOBODY, SOME_GROUP, 0o660)))


def check_a_mask_takes_nothing_from_the_mode(folder):
    folder.write("f", WEB)
    os.chmod(folder.name("f"), 0o666)
    old = os.umask(0o077)
    try:
        folder.accepts(*EDIT, "f")
    finally:
        os.umask(old)
    equal((folder.read("f"), folder.mode("f")), (EDITED, 0o666))


def check_a_device_is_not_replaced(folder):
    as_nobody()
    try:
        os.mknod(folder.name("zero"), 0o666 | stat.S_IFCHR, os.makedev(1, 5))
    except OSError as why:
        raise Skip("may not make a device") from why
    folder.write("f", WEB)
    for words in (["-i", ".a = 1", "zero"], ["undo", "zero"], ["history", "zero"], [*EDIT, "--journal", "zero", "f"]):
        folder.refuses("S2 read failed", *words)
        equal((folder.read("f"), folder.names()), (WEB, ["f", "zero"]))
    equal(stat.S_ISCHR(os.stat(folder.name("zero")).st_mode), True)


def check_another_hard_link_keeps_the_old_bytes(folder):
    folder.write("f", WEB)
    os.link(folder.name("f"), folder.name("g"))
    folder.accepts(*EDIT, "f")
    equal((folder.read("f"), folder.read("g")), (EDITED, WEB))
