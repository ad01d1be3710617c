"""What a person reads about a refusal, on a terminal and with --explain; without either there is one line."""

import json
import os
import re
import subprocess

from docs_agree import man_page
from harness import ROOT, SECONDS, equal

COMMANDS = ("eval", "undo", "redo", "history", "squash")

# What a line advises as an expression: it begins with a path, a parenthesis before one, or a function.
ADVISED = re.compile(r": (\(?(?:\.|del\(|select\().*)$")


def table():
    with open(os.path.join(ROOT, "tests", "data", "mistakes.json"), encoding="utf-8") as text:
        return json.load(text)


def explained(words):
    """The words with the option, which comes after a command's name."""
    after = 1 if words[0] in COMMANDS else 0
    return [*words[:after], "--explain", *words[after:]]


def is_explained(row, words, err):
    """The first line is the fault's, and those after it have the place and what to do."""
    lines = err.decode().splitlines()
    equal(lines[0], f"Error: {row['refused']}", words)
    for part in row["says"]:
        equal(part in "\n".join(lines[1:]), True, (words, part, lines))
    if "before" in row:
        expr = next(word for word in words if row["before"] in word and word not in ("-i", "--explain"))
        equal(lines[1:3], [f"  {expr}", "  " + " " * len(row["before"]) + "^"], words)


def check_each_mistake_is_explained_on_a_terminal_and_with_the_option(folder):
    mistakes = table()
    for name, text in mistakes["files"].items():
        folder.write(name, text.encode())
    before = folder.files()
    for row in mistakes["rows"]:
        words = row["words"]
        prints = row.get("prints", "").encode()
        status, out, plain = folder.run(*words)
        equal((status, out), (1, prints), words)
        if row["refused"] != "U1 usage":
            equal(plain, b"Error: " + row["refused"].encode() + b"\n", words)
            status, out, err = folder.run(*explained(words))
            equal((status, out), (1, prints), words)
            is_explained(row, words, err)
            equal(folder.on_terminal("stderr", *words), (1, err, prints), words)
        else:
            is_explained(row, words, plain)
    equal(folder.files(), before)


def check_each_advised_expression_is_one(folder):
    """No expression that the lines about an expression advise is refused as one (E1, E2, E3)."""
    mistakes, count = table(), 0
    for name, text in {**mistakes["files"], "empty": ""}.items():
        folder.write(name, text.encode())
    for row in mistakes["rows"]:
        if not row["refused"].startswith("E"):
            continue
        for line in folder.run(*explained(row["words"]))[2].decode().splitlines()[3:]:
            if advised := ADVISED.search(line):
                answer = folder.run(advised[1], "empty")[2]
                equal(re.match(rb"Error: [EU]", answer), None, (row["words"], line))
                count += 1
    equal(count > 30, True, count)


def check_the_place_of_a_fault_of_a_text_is_reported(folder):
    """The file, the line, the column in characters, and the line with a caret; of a pipe the line's number alone."""
    long = "k" * 60 + ": [" + "x" * 60 + ": }"
    for text, line, place, caret in (
        (b'a: 1\nb: "x\n', "Y10 line 2: bad scalar", "line 2, column 4:", ['  b: "x', "     ^"]),
        ("ä: é\ný: *z\n".encode(), "Y14 line 2: unknown alias", "line 2, column 4:", ["  ý: *z", "     ^"]),
        (b"a:\n\tb: 1\n", "Y3 line 2: tab indent", "line 2, column 2:", ["  \\tb: 1", "    ^"]),
        (b"a:\n  b: 1\n  b: 2\n", "Y13 line 3: duplicate key", "line 3, column 3:", ["    b: 2", "    ^"]),
        (b"a: x\x1by\r\n", "Y2 line 1: control character", "line 1, column 5:", ["  a: x\\x1by", "      ^"]),
        (b"a: 1\nb: \xff\n", "Y1 line 2: not utf8", "line 2, column 4:", ["  b: ", "     ^"]),
        (long.encode() + b"\n", "Y11 line 1: bad flow", "line 1, column 124:", None),
    ):
        folder.write("f", text)
        for words in (["-i", "--explain", ".z = 1", "f"], ["--explain", ".", "f"]):
            status, out, err = folder.run(*words)
            lines = err.decode().splitlines()
            equal((status, out, lines[:2]), (1, b"", [f"Error: {line}", f"f, {place}"]), (words, text))
            equal(lines[2:4] if caret else max(map(len, lines[2:4])) <= 78, caret or True, lines)
            equal(lines[4].startswith("Cause: "), True, lines)
        folder.refuses(line, ".", "f")
    status, out, err = piped(folder, b"a: 1\nb: *x\n", "--explain", ".", "/dev/stdin")
    equal((status, out, err.decode().splitlines()[:2]), (1, b"", ["Error: Y14 line 2: unknown alias", "/dev/stdin, line 2"]))


def piped(folder, text, *words):
    done = subprocess.run([folder.yq, *words], cwd=folder.path, input=text, capture_output=True, timeout=SECONDS)
    return done.returncode, done.stdout, done.stderr


def check_the_row_of_each_code_is_printed(folder):
    """Each code of the man page, by its words there, with a cause."""
    codes = re.findall(r"^\.It ([A-Z]\d+) ([a-z0-9 ]+)$", man_page(), re.MULTILINE)
    equal(len(codes) > 50, True, codes)
    for code, words in codes:
        lines = folder.accepts("--explain", code).decode().splitlines()
        equal((lines[0], lines[1].startswith("Cause: ")), (f"{code} {words}", True), code)
    for words in (["--explain", "Z9"], ["--explain", "E"], ["--explain"], ["E2", "--explain"]):
        folder.refuses("U1 usage", *words)


def check_what_is_taken_prints_the_same_with_the_option(folder):
    folder.write("f", b"a: 1\n")
    equal(folder.accepts("--explain", ".a", "f"), b"1\n")
    equal(folder.accepts("-i", ".a = 2", "--explain", "f"), b"")
    equal(folder.accepts("history", "--explain", "f"), folder.accepts("history", "f"))
    equal(folder.accepts("undo", "f", "--explain"), b"")
    equal(folder.read("f"), b"a: 1\n")
    folder.refuses("S1 not there", ".a", "--", "--explain")
