"""Reads of pipes, and of long texts."""

import os
import subprocess
import threading

from harness import SECONDS, equal

LIMIT = 16_777_216
TOO_LARGE = (1, b"", b"Error: Y18 line 1: too large\n")


def read_input(folder, data, *words):
    """Reads what comes from a pipe."""
    done = subprocess.run(
        [folder.yq, *words, "/dev/stdin"], cwd=folder.path, input=data, capture_output=True, timeout=SECONDS
    )
    return done.returncode, done.stdout, done.stderr


def check_a_pipe_is_read(folder):
    equal(read_input(folder, b"a: 1\n---\na: [2]\n", ".a"), (0, b"1\n---\n- 2\n", b""))
    equal(read_input(folder, b"", "."), (0, b"null\n", b""))
    equal(read_input(folder, b"a: 1\na: 2\n", ".a"), (1, b"", b"Error: Y13 line 2: duplicate key\n"))
    equal(folder.names(), [])


def check_a_pipe_with_a_name_is_read(folder):
    os.mkfifo(folder.name("p"))
    writer = threading.Thread(target=folder.write, args=("p", b"a: [1, x y]\n"))
    writer.start()
    equal(folder.accepts(".a", "p"), b"- 1\n- x y\n")
    writer.join()
    equal(folder.names(), ["p"])


def check_a_pipe_past_the_limit_is_refused(folder):
    """Also where the last character that is read is cut, and where what comes later is no text."""
    equal(read_input(folder, b"#" * LIMIT, "."), (0, b"null\n", b""))
    cut = (b"#" * n + "\u00e9".encode() for n in (LIMIT, LIMIT + 2, LIMIT + 3))
    for data in (b"#" * (LIMIT + 1), *cut, b"#" * (2 * LIMIT) + b"\xff"):
        equal(read_input(folder, data, "."), TOO_LARGE)
    for data in (b"\xff" + b"#" * LIMIT, b"#\n" * (LIMIT // 2) + b"\xff"):
        line = data.count(b"\n") + 1
        equal(read_input(folder, data, "."), (1, b"", b"Error: Y1 line %d: not utf8\n" % line))


def check_a_large_collection_is_printed_and_read_back(folder):
    items = b"".join(b"  - k%06d: value %06d\n    l: [%d, 'it''s']\n" % (i, i, i) for i in range(300_000))
    folder.write("f", b"a:\n" + items)
    printed = folder.accepts(".a", "f")
    equal(printed.startswith(b"- k000000: value 000000\n  l:\n    - 0\n    - it's\n"), True, printed[:80])
    folder.write("g", printed)
    equal(folder.accepts(".", "g") == printed, True)


def check_one_value_of_sixteen_megabytes(folder):
    value = b"x" * 16_000_000
    folder.write("f", b"a: " + value + b"\nb: |\n  y\n")
    equal(folder.accepts(".a", "f") == value + b"\n", True)
    equal(folder.accepts(".", "f") == b"a: " + value + b"\nb: \"y\\n\"\n", True)
