"""Journals that others than the writers of their file may write or read, and files that may not be renamed over."""

import os

from harness import NOBODY, as_nobody, as_user, each_user, equal
from other_users import EMPTY, ONE, RECORDED, SOME_GROUP, is_believed, is_refused, put, told


def check_a_journal_that_others_may_write_is_not_believed(folder):
    """By its mode, as its group, or by another name of it; whoever owns it."""
    as_nobody()
    one, other = (0, 0), (0, SOME_GROUP)
    rows = [
        (0o644, one, one, 0o644, 1, True),
        (0o644, one, one, 0o646, 1, False),
        (0o644, one, one, 0o664, 1, False),
        (0o644, one, one, 0o666, 1, False),
        (0o600, one, one, 0o622, 1, False),
        (0o664, one, one, 0o664, 1, True),
        (0o664, one, one, 0o666, 1, False),
        (0o664, one, other, 0o664, 1, False),
        (0o664, one, other, 0o644, 1, True),
        (0o646, one, other, 0o666, 1, True),
        (0o666, one, other, 0o666, 1, True),
        (0o644, one, one, 0o644, 2, False),
        (0o666, one, one, 0o666, 2, False),
    ]
    for mode, of_file, of_journal, mode_of_journal, names, believed in rows:
        put(folder, "f", ONE, *of_file, mode)
        put(folder, "f.undo.json", RECORDED, *of_journal, mode_of_journal)
        if names == 2:
            os.link(folder.name("f.undo.json"), folder.name("g"))
        is_believed(folder, 0, believed)
        if names == 2:
            os.remove(folder.name("g"))
            is_believed(folder, 0, True)


FORGED = (
    b'{"at":1,"pending":null,"records":[{"after_len":%d,"before_len":%d,"count":1,"expr":".n = 1","splices":'
    b'[{"at":%d,"new":"","old":"ZXZpbDogeWVzCg=="}]}],"version":2}\n'
)


def forged(text):
    """A journal whose undo adds a line at the end of a text: of that the length alone has to agree."""
    return (FORGED % (len(text), len(text) + 10, len(text))).decode()


def check_a_journal_from_when_the_file_was_open_to_all(folder):
    """The file was closed, and the journal wasn't: a stranger writes it."""
    as_nobody()
    os.chmod(folder.path, 0o1777)
    users = b"users: [root]\n"
    put(folder, "f", users, 0, 0, 0o666)
    folder.accepts("-i", ".n = 1", "f")
    folder.accepts("undo", "f")
    os.chmod(folder.name("f"), 0o644)
    told(folder, NOBODY, NOBODY, "sh", "-ec", f"cat > f.undo.json <<'END'\n{forged(users)}END\n")
    for words in (["history", "f"], ["undo", "f"], ["squash", "1", "f"], ["-i", ".port = 2", "f"]):
        is_refused(folder, "S2 read failed", *words)
    equal(folder.read("f"), users)
    os.remove(folder.name("f.undo.json"))
    folder.accepts("-i", ".port = 2", "f")
    folder.accepts("undo", "f")
    equal((folder.read("f"), folder.mode("f.undo.json")), (users, 0o644))


CURE = """
cp -p f.undo.json f.undo.json.new
chgrp --reference=f f.undo.json.new
chmod --reference=f f.undo.json.new
mv f.undo.json.new f.undo.json
"""


def check_a_journal_that_is_refused_is_closed(folder):
    """By the commands of the manual."""
    as_nobody()
    for place, user, before in each_user(folder):
        put(place, "f", ONE, user, user, 0o664)
        place.accepts("-i", ".n = 2", "f", before=before)
        os.link(place.name("f.undo.json"), place.name("g"))
        os.chmod(place.name("f"), 0o600)
        is_refused(place, "S2 read failed", "undo", "f", before=before)
        told(place, user, user, "sh", "-ec", CURE)
        equal(place.accepts("history", "f", before=before), b'1 done ".n = 2"\n')
        place.accepts("undo", "f", before=before)
        equal((place.read("f"), place.mode("f"), place.mode("f.undo.json")), (ONE, 0o600, 0o600))


def check_a_file_of_root_put_in_the_place_of_a_journal(folder):
    """By a hard link, which the system allows to who may write that file."""
    as_nobody()
    os.chmod(folder.path, 0o1777)
    users = b"users: [root]\n"
    put(folder, "f", users, 0, 0, 0o644)
    put(folder, "lock", b"", 0, 0, 0o666)
    told(folder, NOBODY, NOBODY, "sh", "-ec", f"ln lock f.undo.json; cat > f.undo.json <<'END'\n{forged(users)}END\n")
    for words in (["history", "f"], ["undo", "f"], ["-i", ".port = 2", "f"]):
        is_refused(folder, "S2 read failed", *words)
    equal(folder.read("f"), users)


def check_a_journal_gets_the_group_of_its_file(folder):
    """Who is in the group that the file had reads no secret of today in it."""
    as_nobody()
    for name in ("d", "e"):
        os.mkdir(folder.name(name))
    edits = [["-i", f'.n = "{word}"'] for word in ("first", "second", "third")]
    for journal, first, second in (("d/f.undo.json", 0o640, 0o640), ("e/j", 0o640, 0o600)):
        put(folder, "d/f", ONE, 0, 0, 0o640)
        choice = ["--journal", journal, "d/f"]
        folder.accepts(*edits[0], *choice)
        equal((os.stat(folder.name(journal)).st_gid, folder.mode(journal)), (0, first))
        os.chown(folder.name("d/f"), 0, SOME_GROUP)
        os.chmod(folder.name("d/f"), 0o640)
        for words in edits[1:]:
            folder.accepts(*words, *choice)
            seen = os.stat(folder.name(journal))
            equal((seen.st_gid, folder.mode(journal)), (SOME_GROUP if journal[0] == "d" else 0, second), journal)


def check_a_journal_of_a_group_that_can_not_be_given(folder):
    """The user isn't in the file's group, so the group that the journal has loses its bits."""
    before = as_user(NOBODY, NOBODY)
    folder.give_away()
    put(folder, "f", ONE, NOBODY, NOBODY, 0o640)
    for word in ("first", "second"):
        folder.accepts("-i", f'.n = "{word}"', "f", before=before)
    os.chown(folder.name("f"), NOBODY, SOME_GROUP)
    os.chmod(folder.name("f"), 0o640)
    folder.accepts("squash", "2", "f", before=before)
    equal((os.stat(folder.name("f.undo.json")).st_gid, folder.mode("f.undo.json")), (NOBODY, 0o600))


def check_a_journal_that_is_its_file(folder):
    """By another spelling of its name."""
    for place, user, before in each_user(folder):
        put(place, "f", EMPTY, user, user, 0o644)
        os.mkdir(place.name("d"))
        os.symlink("f", place.name("l"))
        for journal in ("./f", "d/../f", "l"):
            for words in (["-i", ".n = 2"], ["undo"], ["history"]):
                is_refused(place, "S2 read failed", *words, "--journal", journal, "f", before=before)


def check_a_folder_in_which_only_owners_rename(folder):
    """A user who may write the file there is refused before anything is written, and its owners aren't."""
    before = as_user(NOBODY, NOBODY)
    for owner_of_folder, owner, mode, may in ((0, 0, 0o1777, False), (NOBODY, 0, 0o1777, True), (0, NOBODY, 0o1777, True), (0, 0, 0o777, True)):
        place = type(folder)(folder.yq, folder.name(f"{owner_of_folder}-{owner}-{mode}"))
        os.mkdir(place.path)
        os.chown(place.path, owner_of_folder, owner_of_folder)
        os.chmod(place.path, mode)
        put(place, "f", ONE, owner, owner, 0o666)
        if may:
            place.accepts("-i", ".n = 2", "f", before=before)
            place.accepts("undo", "f", before=before)
        else:
            is_refused(place, "S3 write failed", "-i", ".n = 2", "f", before=before)
            place.accepts("-i", ".n = 2", "f")
            is_refused(place, "S3 write failed", "undo", "f", before=before)
            place.accepts("undo", "f")


def check_a_journal_in_a_folder_in_which_only_owners_rename(folder):
    before = as_user(NOBODY, NOBODY)
    os.chmod(folder.path, 0o755)
    os.mkdir(folder.name("d"))
    os.mkdir(folder.name("s"))
    os.chmod(folder.name("d"), 0o777)
    os.chmod(folder.name("s"), 0o1777)
    put(folder, "d/f", ONE, NOBODY, NOBODY, 0o666)
    put(folder, "s/j", RECORDED, 0, 0, 0o666)
    is_refused(folder, "S3 write failed", "undo", "--journal", "s/j", "d/f", before=before)
    os.chown(folder.name("s/j"), NOBODY, NOBODY)
    folder.accepts("undo", "--journal", "s/j", "d/f", before=before)
