"""What other users put in the folder of a file neither leads a run astray nor is believed."""

import os
import subprocess

from harness import NOBODY, as_nobody, as_user, each_user, equal

ONE, TWO = b"n: 1\n", b"n: 2\n"
EDIT = ["-i", ".n = 2", "f"]
EMPTY = b'{"at":0,"pending":null,"records":[],"version":2}\n'
SOMEBODY, SOME_GROUP = 12345, 23456
RECORDED = (
    b'{"at":1,"pending":null,"records":[{"after_len":5,"before_len":5,"count":1,"expr":".n = 1","splices":'
    b'[{"at":3,"new":"MQ==","old":"OQ=="}]}],"version":2}\n'
)


def stranger_of(user):
    """Who is neither this user nor root."""
    return SOMEBODY if user == NOBODY else NOBODY


def told(folder, user, group, *line):
    """Another user's command."""
    done = subprocess.run([*as_user(user, group), *line], cwd=folder.path, capture_output=True)
    equal((done.returncode, done.stderr), (0, b""), line)


def put(folder, name, data, user, group, mode):
    folder.write(name, data)
    os.chown(folder.name(name), user, group)
    os.chmod(folder.name(name), mode)


def is_refused(folder, line, *words, before=()):
    """The command is refused, and every file is as it was."""
    old = folder.files()
    folder.refuses(line, *words, before=before)
    equal(folder.files(), old, words)


def check_a_stranger_puts_a_link_in_the_place_of_a_journal(folder):
    """Its target would be made, and given to the owner of the file."""
    as_nobody()
    os.chmod(folder.path, 0o755)
    for name in ("m", "somewhere"):
        os.mkdir(folder.name(name))
    os.chown(folder.name("m"), NOBODY, NOBODY)
    told(folder, NOBODY, NOBODY, "sh", "-ec", "printf 'n: 1\\n' > m/f.yaml")
    told(folder, NOBODY, NOBODY, "ln", "-s", folder.name("somewhere/evil"), "m/f.yaml.undo.json")
    is_refused(folder, "S3 write failed", "-i", ".n = 2", "m/f.yaml")
    equal((os.listdir(folder.name("somewhere")), folder.read("m/f.yaml")), ([], ONE))


def check_a_stranger_puts_an_empty_journal_beside_a_secret(folder):
    """Its old text would be written into that file."""
    as_nobody()
    os.chmod(folder.path, 0o1777)
    put(folder, "f", b"n: 1 # secret\n", 0, 0, 0o600)
    told(folder, NOBODY, NOBODY, "sh", "-ec", "umask 0; cat > f.undo.json <<'END'\n" + EMPTY.decode() + "END\n")
    equal(folder.mode("f.undo.json"), 0o666)
    is_refused(folder, "S2 read failed", *EDIT)
    equal((folder.read("f.undo.json"), os.stat(folder.name("f.undo.json")).st_uid), (EMPTY, NOBODY))


def check_the_records_of_a_stranger_are_not_done(folder):
    as_nobody()
    for place, user, before in each_user(folder):
        os.chmod(place.path, 0o1777)
        put(place, "f", ONE, user, user, 0o644)
        put(place, "f.undo.json", RECORDED, stranger_of(user), stranger_of(user), 0o644)
        for words in (["undo", "f"], ["redo", "f"], ["squash", "1", "f"], ["history", "f"], EDIT):
            is_refused(place, "S2 read failed", *words, before=before)
        os.chown(place.name("f.undo.json"), user, user)
        place.accepts("undo", "f", before=before)
        equal(place.read("f"), b"n: 9\n")


def check_a_link_of_a_stranger_to_a_journal_of_ones_own(folder):
    as_nobody()
    for place, user, before in each_user(folder):
        os.chmod(place.path, 0o777)
        for name in ("f", "g"):
            put(place, name, ONE, user, user, 0o644)
        place.accepts("-i", ".n = 3", "g", before=before)
        told(place, stranger_of(user), stranger_of(user), "ln", "-s", "g.undo.json", "f.undo.json")
        for words in (EDIT, ["undo", "f"], ["history", "f"]):
            is_refused(place, "S2 read failed", *words, before=before)
        os.lchown(place.name("f.undo.json"), user, user)
        place.accepts("history", "f", before=before)


def check_a_link_of_the_owner_to_the_journal_of_another_user(folder):
    """Who owns the file may give it a journal, and not lead to one that it may not write."""
    as_nobody()
    for place, user, before in each_user(folder):
        os.chmod(place.path, 0o777)
        put(place, "g", ONE, user, user, 0o644)
        place.accepts("-i", ".n = 3", "g", before=before)
        owner = stranger_of(user)
        put(place, "f", ONE, owner, owner, 0o666)
        told(place, owner, owner, "ln", "-s", "g.undo.json", "f.undo.json")
        for words in (EDIT, ["undo", "f"], ["history", "f"]):
            is_refused(place, "S2 read failed", *words, before=before)
        os.chmod(place.name("g.undo.json"), 0o666)
        place.accepts("history", "f", before=before)
        os.chmod(place.name("g.undo.json"), 0o644)
        told(place, owner, owner, "sh", "-ec", "rm f.undo.json; cp g.undo.json j; ln -s j f.undo.json")
        place.accepts("history", "f", before=before)


def is_believed(folder, user, believed):
    """Root's undo does the record that the journal holds; another user, who may not write all of them, lists it."""
    before = as_user(user, user) if user else []
    words = ["history", "f"] if user else ["undo", "f"]
    if not believed:
        is_refused(folder, "S2 read failed", *words, before=before)
    else:
        folder.accepts(*words, before=before)
        equal(folder.read("f"), ONE if user else b"n: 9\n")


def check_whose_journal_is_believed(folder):
    """Its owner is root, the user of the run or the owner of the file, or may write the file anyway."""
    as_nobody()
    owner, other = (SOMEBODY, SOME_GROUP), (NOBODY, NOBODY)
    rows = [
        (0, 0o644, owner, (0, 0), True),
        (0, 0o644, owner, owner, True),
        (0, 0o644, owner, other, False),
        (0, 0o646, owner, other, True),
        (0, 0o664, owner, other, False),
        (0, 0o664, owner, (NOBODY, SOME_GROUP), True),
        (0, 0o644, owner, (NOBODY, SOME_GROUP), False),
        (0, 0o600, (0, 0), (0, 0), True),
        (0, 0o600, (0, 0), other, False),
        (NOBODY, 0o644, other, (0, 0), True),
        (NOBODY, 0o644, other, other, True),
        (NOBODY, 0o644, other, owner, False),
        (NOBODY, 0o666, owner, other, True),
        (NOBODY, 0o666, owner, owner, True),
        (NOBODY, 0o664, (NOBODY, SOME_GROUP), owner, True),
        (NOBODY, 0o664, (NOBODY, SOME_GROUP), (SOMEBODY, SOMEBODY), False),
    ]
    folder.give_away()
    for user, mode, of_file, of_journal, believed in rows:
        put(folder, "f", ONE, *of_file, mode)
        put(folder, "f.undo.json", RECORDED, *of_journal, mode | 0o044)
        is_believed(folder, user, believed)


def check_two_colleagues_edit_and_squash_in_turn(folder):
    """The file belongs to one, and their group may write it."""
    as_nobody()
    folder.give_away()
    put(folder, "f", ONE, SOMEBODY, SOME_GROUP, 0o660)
    first, second = as_user(SOMEBODY, SOMEBODY, SOME_GROUP), as_user(NOBODY, NOBODY, SOME_GROUP)
    number = 1
    for _ in range(3):
        for one, other in ((first, second), (second, first)):
            for who in (one, other):
                number += 1
                folder.accepts("-i", f".n = {number}", "f", before=who)
            folder.accepts("squash", "2", "f", before=one)
            folder.accepts("history", "f", before=other)
            folder.accepts("undo", "f", before=other)
            equal(folder.read("f"), b"n: %d\n" % (number - 2))
            folder.accepts("redo", "f", before=one)
            equal(folder.read("f"), b"n: %d\n" % number)
    for name in ("f", "f.undo.json"):
        seen = os.stat(folder.name(name))
        equal((seen.st_gid, folder.mode(name)), (SOME_GROUP, 0o660), name)


def check_a_new_journal_elsewhere_is_not_given_away(folder):
    """Beside its file it is the file's owner's; elsewhere its maker's, with the file's mode less the set-id bits and, for another group, its bits."""
    as_nobody()
    for name in ("d", "e"):
        os.mkdir(folder.name(name))
    put(folder, "d/f", ONE, NOBODY, SOME_GROUP, 0o6640)
    os.chown(folder.name("d"), NOBODY, NOBODY)
    of_file, own = (NOBODY, SOME_GROUP, 0o640), (0, 0, 0o600)
    for journal, wanted in (("d/j", of_file), ("e/j", own), ("e/../d/k", of_file)):
        folder.accepts("-i", ".n = 2", "--journal", journal, "d/f")
        folder.accepts("undo", "--journal", journal, "d/f")
        seen = os.stat(folder.name(journal))
        equal((seen.st_uid, seen.st_gid, folder.mode(journal)), wanted, journal)
    os.symlink("d/f", folder.name("l"))
    folder.accepts("-i", ".n = 2", "l")
    seen = os.stat(folder.name("l.undo.json"))
    equal((seen.st_uid, seen.st_gid, folder.mode("l.undo.json")), own)


def check_a_journal_loses_what_its_file_lacks(folder):
    for place, user, before in each_user(folder):
        rows = ((0o600, 0o644, 0o600), (0o640, 0o644, 0o640), (0o644, 0o600, 0o600), (0o664, 0o645, 0o644), (0o666, 0o664, 0o664))
        for mode, of_journal, left in rows:
            put(place, "f", ONE, user, user, mode)
            put(place, "f.undo.json", RECORDED, user, user, of_journal)
            place.accepts("undo", "f", before=before)
            equal((place.read("f"), place.mode("f"), place.mode("f.undo.json")), (b"n: 9\n", mode, left))
            os.chmod(place.name("f.undo.json"), of_journal)
            place.accepts("redo", "f", before=before)
            equal(place.mode("f.undo.json"), left)


def check_a_set_id_bit_is_not_taken_over_by_a_journal(folder):
    as_nobody()
    put(folder, "f", ONE, NOBODY, NOBODY, 0o6755)
    folder.accepts(*EDIT)
    equal((folder.read("f"), folder.mode("f"), folder.mode("f.undo.json")), (TWO, 0o6755, 0o755))
