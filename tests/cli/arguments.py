"""The command line: help, an output that takes nothing, long expressions, and texts that are cut."""

import os
import shutil
import subprocess

from harness import equal

CLOSED = 141
WEB = b"name: web # main\nport: 8080\n"


def check_help(folder):
    first = folder.run("-h")
    equal((first[0], first[2]), (0, b""))
    equal(first[1].startswith(b"Usage: yq [eval|e]"), True)
    for command in (b"eval", b"undo", b"redo", b"history", b"squash", b"--inplace", b"--journal"):
        equal(command in first[1], True, command)
    for words in (["--help"], ["eval", "-h"], ["undo", "--help"], ["-i", "--help"]):
        equal(folder.run(*words), first, words)


def run_to(output, folder, words):
    """Runs the program with this standard output."""
    done = subprocess.run([folder.yq, *words], cwd=folder.path, stdin=subprocess.DEVNULL, stdout=output, stderr=subprocess.PIPE)
    return done.returncode, done.stderr


def with_full_output(folder, *words):
    """Runs the program with a standard output that takes nothing."""
    with open("/dev/full", "wb") as full:
        return run_to(full, folder, words)


def prints_in_vain(folder, run, answer):
    """Whatever prints gets this answer by a run whose output takes nothing, and leaves each file."""
    folder.write("f", WEB)
    folder.accepts("-i", ".port = 9090", "f")
    before = {name: folder.read(name) for name in folder.names()}
    for words in ([".port = 1", "f"], [".port", "f"], ["-e", ".zzz", "f"], ["history", "f"], ["--help"]):
        equal(run(folder, *words), answer, words)
        equal({name: folder.read(name) for name in folder.names()}, before, words)


def check_an_output_that_takes_nothing(folder):
    prints_in_vain(folder, with_full_output, (1, b"Error: S4 out failed\n"))
    equal(with_full_output(folder, "undo", "f"), (0, b""))
    equal(folder.read("f"), WEB)


def with_closed_output(folder, *words):
    """Runs the program with a standard output that nobody reads any more."""
    reader, writer = os.pipe()
    os.close(reader)
    try:
        return run_to(writer, folder, words)
    finally:
        os.close(writer)


def check_an_output_that_nobody_reads(folder):
    """It ends without a line of its own, with the status of what a signal ended; what prints nothing is carried out."""
    prints_in_vain(folder, with_closed_output, (CLOSED, b""))
    equal(with_closed_output(folder, ".port.x", "f"), (1, b"Error: X1 not a map\n"))
    equal(with_closed_output(folder, "undo", "f"), (0, b""))
    equal(folder.read("f"), WEB)


def check_a_reader_that_stops_ends_a_run_as_it_ends_other_filters(folder):
    """More is printed than a pipe holds, and `head` reads the first line."""
    folder.write("f", b"".join(b"- item %06d of many\n" % i for i in range(50_000)))
    for shell in ("bash", "dash", "sh"):
        if shutil.which(shell) is not None:
            for words in ('"$0" . f', "cat f"):
                script = "{ %s; echo $? > status; } | head -n 1" % words
                done = subprocess.run([shell, "-c", script, folder.yq], cwd=folder.path, capture_output=True)
                seen = (done.returncode, done.stdout[-5:], done.stderr, folder.read("status"))
                equal(seen, (0, b"many\n", b"", b"%d\n" % CLOSED), (shell, words))


def check_an_output_that_is_closed(folder):
    """It is no pipe whose reader stopped."""
    folder.write("f", WEB)
    done = subprocess.run(["sh", "-c", '"$0" .port f >&-', folder.yq], cwd=folder.path, capture_output=True)
    equal((done.returncode, done.stderr), (1, b"Error: S4 out failed\n"))


def check_brackets_that_nest_in_long_expressions(folder):
    folder.refuses("E2 not in profile", "-i", ".a = " + "[" * 100_000, "f")
    folder.refuses("E1 syntax", "-i", ".a = " + "(" * 60_000 + ".b" + ")" * 60_000, "f")


def check_long_expressions(folder):
    """A word of the command line holds 131,071 bytes at most."""
    folder.write("f", b"a: 1\n")
    equal(folder.accepts(".key[-1]" * 16_000, "f"), b"null\n")
    equal(folder.accepts(".a = 0" + " + 1234567" * 13_000, "f"), b"a: %d\n" % (13_000 * 1_234_567))
    items = folder.accepts(".a = [0" + ', "text"' * 16_000 + "]", "f")
    equal((items.count(b"- text\n"), items.count(b"\n")), (16_000, 16_002))
    entries = folder.accepts(".a = {" + ", ".join(f'"{i}": {i}' for i in range(8_000)) + "}", "f")
    equal((entries.count(b'": '), entries.count(b"\n")), (8_000, 8_001))


def is_whole(text):
    try:
        text.decode()
    except UnicodeDecodeError:
        return False
    return True


def check_texts_that_are_cut(folder):
    """Each prefix is read or refused, and as not being UTF-8 where it ends inside a character."""
    folder.write("f.undo.json", b"{}")
    for text in (WEB, "k: \u00e9\n".encode(), "k: \"\u00e9\n  x\"\n".encode(), b"- |\n  a\n- &x [1, {b: *x}]\n"):
        for end in range(len(text) + 1):
            folder.write("f", text[:end])
            status, _out, err = folder.run(".name = 1", "f")
            equal(status == 0 or err.startswith((b"Error: Y", b"Error: X")), True, (text[:end], err))
            equal(err == b"Error: Y1 line 1: not utf8\n", not is_whole(text[:end]), (text[:end], err))


# A text, and how many bytes those of its prefixes have that are refused.
REFUSED_PREFIXES = [
    ("name: web # main\nport: 8080\n", [*range(18, 22)]),
    ("a: |+\n  text\n# head\nb: 1\n\nc: 2\n", [4, 5, *range(7, 13), 21, 27]),
    ("- a: 1\n  # about b\n  b: 2\n", [22]),
    ("p: [\n  a, # one\n  b\n]\n", [*range(4, 21)]),
    ("run: |\n    echo a\n", [6, *range(12, 18)]),
    ("a: 1\n---\na: 2\n", [6, 7]),
    ("a: {b: [1, \"x y\"], c: {}}\n", [*range(4, 25)]),
    ("k: \"\u00e9\n  x\"\n", [*range(4, 11)]),
]


def check_which_prefixes_of_texts_are_refused(folder):
    for text, wanted in REFUSED_PREFIXES:
        refused = []
        for end in range(len(text.encode()) + 1):
            folder.write("f", text.encode()[:end])
            if folder.run(".", "f")[0] != 0:
                refused.append(end)
        equal(refused, wanted, text)
