"""A journal has a limit of bytes, which an edit doesn't pass, and a listing says how near it is to its limit of records."""

import base64
import json
import os
import pty
import resource
import subprocess

from harness import SECONDS, each_user, equal

MIB = 1 << 20
LONGEST = 16 * MIB
USUAL, FOR_TEXT = 64, 32
ONE, TWO = b"n: 1\n", b"n: 2\n"
EDIT = ["-i", ".n = 2", "f"]
COMMANDS = (EDIT, ["undo", "f"], ["redo", "f"], ["squash", "1", "f"], ["history", "f"])
HINT = b"yq: the journal is too large: YQ_JOURNAL_LIMIT=N allows N MiB (64 without it)\n"
SPLICES, PROCESSOR = 35_000, 5
TOO_LONG = b"yq: the journal's name is too long: --journal PATH gives another\n"
S2, S3 = b"Error: S2 read failed\n", b"Error: S3 write failed\n"
MEMORY = 300 * MIB


def run_within(folder, limit, *words):
    """With this limit of a journal, and little memory."""

    def few_bytes():
        resource.setrlimit(resource.RLIMIT_AS, (MEMORY, MEMORY))

    env = {**os.environ, **({} if limit is None else {"YQ_JOURNAL_LIMIT": limit})}
    done = subprocess.run(
        [folder.yq, *words], cwd=folder.path, stdin=subprocess.DEVNULL, capture_output=True, timeout=SECONDS, env=env,
        preexec_fn=few_bytes,
    )
    return done.returncode, done.stdout, done.stderr


def check_a_journal_that_is_too_large_is_not_read(folder):
    """That takes neither its time nor its memory, also where it takes no room on the disk."""
    rows = ((None, USUAL + FOR_TEXT), ("no number", USUAL + FOR_TEXT), ("-1", USUAL + FOR_TEXT), ("1", 1 + FOR_TEXT), ("0", FOR_TEXT))
    folder.write("f", ONE)
    for limit, most in rows:
        for more in (1, 2_000 * MIB):
            folder.write("f.undo.json", b"")
            os.truncate(folder.name("f.undo.json"), most * MIB + more)
            for words in COMMANDS:
                equal(run_within(folder, limit, *words), (1, b"", S2 + HINT), (limit, more, words))
            equal((folder.read("f"), folder.names()), (ONE, ["f", "f.undo.json"]))


def check_a_journal_of_the_largest_size_is_read(folder):
    folder.write("f", ONE)
    folder.accepts(*EDIT)
    text = folder.read("f.undo.json").rstrip()
    most = (1 + FOR_TEXT) * MIB
    folder.write("f.undo.json", text + b" " * (most - len(text)))
    equal(run_within(folder, "1", "history", "f"), (0, b'1 done ".n = 2"\n', b""))
    equal(run_within(folder, "1", "undo", "f"), (0, b"", b""))
    equal((folder.read("f"), len(folder.read("f.undo.json")) < 1_000), (ONE, True))


def check_an_edit_does_not_make_the_journal_too_large(folder):
    """It is refused with nothing written; what it would have made can always be read."""
    long = b"n: 1\nm: " + b"x" * (MIB // 2) + b"\n"
    folder.write("f", long)
    equal(run_within(folder, "0", *EDIT), (1, b"", S3 + HINT))
    equal((folder.read("f"), folder.names()), (long, ["f"]))
    equal(run_within(folder, "1", *EDIT), (0, b"", b""))
    equal(run_within(folder, "1", "-i", ".m = 1", "f"), (1, b"", S3 + HINT))
    equal((folder.read("f"), folder.names()), (long.replace(b"1", b"2"), ["f", "f.undo.json"]))
    equal(run_within(folder, "2", "-i", ".m = 1", "f"), (0, b"", b""))
    for words, wanted in (("undo", long.replace(b"1", b"2")), ("undo", long), ("redo", long.replace(b"1", b"2"))):
        equal(run_within(folder, "0", words, "f"), (0, b"", b""), words)
        equal(folder.read("f"), wanted)


def check_an_undo_makes_no_text_that_is_too_long(folder):
    """It would be one that nothing edits or undoes; one of the largest size is made and undone again."""
    for place, user, before in each_user(folder):
        for more, refused in ((1, True), (0, False)):
            long = b"n: 1 # ".ljust(LONGEST + more - 1, b"x") + b"\n"
            splice = {"at": 0, "new": base64.b64encode(ONE).decode(), "old": base64.b64encode(long).decode()}
            record = {"after_len": len(ONE), "before_len": len(long), "count": 1, "expr": ".", "splices": [splice]}
            place.write("f", ONE)
            place.write("f.undo.json", json.dumps({"at": 1, "pending": None, "records": [record], "version": 2}).encode())
            for name in place.names():
                os.chown(place.name(name), user, user)
            old = place.files()
            if refused:
                place.refuses("S3 write failed", "undo", "f", before=before)
                equal(place.files() == old, True)
            else:
                place.accepts("undo", "f", before=before)
                equal(place.read("f") == long, True)
                place.accepts("redo", "f", before=before)
                equal(place.read("f"), ONE)


def run_in_seconds(folder, *words):
    """With so many seconds of the processor."""

    def few_seconds():
        resource.setrlimit(resource.RLIMIT_CPU, (PROCESSOR, PROCESSOR))

    done = subprocess.run([folder.yq, *words], cwd=folder.path, capture_output=True, timeout=SECONDS, preexec_fn=few_seconds)
    return done.returncode, done.stdout, done.stderr


def check_splices_at_both_ends_by_turns(folder):
    """A journal of 1.3 MB, whose record puts lines before and after a text of nearly 16 MB in turn, holds no run up."""
    line, half = b"#\n", SPLICES // 2
    old = b"n: 1\n# ".ljust(LONGEST - len(line) * SPLICES - 1, b"x") + b"\n"
    text = line * half + old + line * half
    splices = [
        {"at": n % 2 * (len(old) + len(line) * n), "new": base64.b64encode(line).decode(), "old": ""} for n in range(SPLICES)
    ]
    record = {"after_len": len(text), "before_len": len(old), "count": 1, "expr": ".", "splices": splices}
    journal = {"at": 1, "pending": None, "records": [record], "version": 2}
    folder.write("f", text)
    folder.write("f.undo.json", json.dumps(journal, separators=(",", ":")).encode())
    for words, wanted in (("undo", old), ("redo", text), ("undo", old)):
        equal(run_in_seconds(folder, words, "f"), (0, b"", b""), words)
        equal(folder.read("f") == wanted, True, words)


def check_a_journal_whose_name_is_too_long(folder):
    """It is reported, with what helps."""
    for place, user, before in each_user(folder):
        for length in (246, 255):
            name = "a" * length
            place.write(name, ONE)
            os.chown(place.name(name), user, user)
            for words in (["-i", ".n = 2"], ["undo"], ["redo"], ["squash", "1"], ["history"]):
                equal(place.run(*words, name, before=before), (1, b"", S2 + TOO_LONG), words)
            equal((place.read(name), place.names()), (ONE, [name]))
            os.remove(place.name(name))


def with_records(folder, count):
    record = {"after_len": 5, "before_len": 5, "count": 1, "expr": ".n = 1", "splices": []}
    journal = {"at": count, "pending": None, "records": [record] * count, "version": 2}
    folder.write("f.undo.json", json.dumps(journal).encode())


def told_on_a_terminal(folder, *words):
    ours, theirs = pty.openpty()
    run = subprocess.Popen([folder.yq, *words], cwd=folder.path, stdin=subprocess.DEVNULL, stdout=subprocess.DEVNULL, stderr=theirs)
    os.close(theirs)
    told = b""
    try:
        while True:
            told += os.read(ours, 4096)
            if not told:
                break
    except OSError:
        pass
    os.close(ours)
    return run.wait(SECONDS), told


def check_a_listing_says_how_near_the_journal_is_to_its_limit(folder):
    """On a terminal, from 4,000 records on."""
    folder.write("f", ONE)
    for count in (3_999, 4_000, 4_096):
        with_records(folder, count)
        line = b"yq: the journal has %d of 4096 records; `squash` joins some of them\r\n" % count if count >= 4_000 else b""
        equal(told_on_a_terminal(folder, "history", "f"), (0, line), count)
        equal(folder.accepts("history", "f").count(b"\n"), count)
    equal(told_on_a_terminal(folder, ".n", "f"), (0, b""))
    folder.refuses("J6 journal full", *EDIT)
    folder.accepts("squash", "4096", "f")
    folder.accepts(*EDIT)
    equal(folder.read("f"), TWO)
