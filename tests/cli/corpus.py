"""Edits a copy of each YAML file of a folder, and undoes the edits.

usage: corpus.py PATH_OF_YQ FOLDER

In each file of the folder and those below it (`.yaml`, `.yml`) it looks for the first line in column 0 of a word, `: ` and
a plain word, that is once in the file, and sets that key's value. The file is to be refused and to stay as it
was, or to change in that value's bytes alone and to be the first bytes again when the edit is undone. A file without such a
line is only read.

Where PyYAML is there and reads the file too, four random edits are done in it as well: values set, added and taken out,
and comments set, at places of the file. Each is to read as it is meant, next to a second implementation, and all are
undone to the byte. The last lines count what came of the files; its status is 1 if a byte changed that was not to, or if
no file was found.
"""

import collections
import os
import random
import re
import subprocess
import sys
import tempfile

sys.path.insert(0, os.path.dirname(os.path.abspath(__file__)))

from harness import Folder, equal
from random_edits import FILE, Program, is_right
from oracle import documents_of

LARGEST = 200_000
LINE = re.compile(rb"^([A-Za-z_][A-Za-z0-9_-]*): ([A-Za-z0-9_./-]+)\r?$", re.MULTILINE)
NEW = b"another-value"


def found(text):
    """The first such line: its key, and where its value begins and ends in bytes."""
    lines = text.split(b"\n")
    keys = collections.Counter(line.split(b":")[0].strip() for line in lines)
    for match in LINE.finditer(text):
        if keys[match[1]] == 1 and lines.count(match[0]) == 1:
            return match[1].decode(), match.start(2), match.end(2)
    return None


def run(yq, folder, *words):
    done = subprocess.run([yq, *words], cwd=folder, stdin=subprocess.DEVNULL, capture_output=True, timeout=120)
    return done.returncode, done.stderr.split(b"\n")[0].decode("utf-8", "replace")


def read(path):
    with open(path, "rb") as text:
        return text.read()


def cause(line):
    """The number and name of a refusal, without its line."""
    return re.sub(r" line \d+:", "", line.removeprefix("Error: "))


def tried(yq, folder, text):
    """What came of a file, and whether each byte is as it is to be."""
    path = os.path.join(folder, "f.yaml")
    with open(path, "wb") as out:
        out.write(text)
    line = found(text)
    if line is None:
        status, error = run(yq, folder, '."not there"', "f.yaml")
        kept = read(path) == text
        return (cause(error) if error.startswith("Error: Y") else "read, and no such line"), kept
    key, start, end = line
    status, error = run(yq, folder, "-i", f'."{key}" = "{NEW.decode()}"', "f.yaml")
    if status != 0:
        return cause(error), read(path) == text
    well = read(path) == text[:start] + NEW + text[end:]
    status, error = run(yq, folder, "undo", "f.yaml")
    return "edited and undone", well and status == 0 and read(path) == text


def library():
    """PyYAML, where it is there."""
    try:
        import yaml
    except ImportError:
        return None
    return yaml


def roots_of(yaml, folder, text):
    """The documents of a file that both read, else nothing."""
    if yaml is None or len(text) > LARGEST or folder.run(".", FILE)[0]:
        return None
    try:
        return documents_of(yaml, text.decode())
    except (yaml.YAMLError, UnicodeDecodeError):
        return None


def random_edits(yaml, yq, room, text, seed):
    """Four random edits of a file: what came of each, and whether all are right and undone."""
    folder = Folder(yq, room)
    folder.write(FILE, text)
    roots = roots_of(yaml, folder, text)
    if roots is None:
        return [], True
    source, came, texts = random.Random(seed), [], [text]
    try:
        for _ in range(4):
            what, roots = is_right(yaml, folder, roots, Program(source, roots))
            came.append(what)
            if folder.read(FILE) != texts[-1]:
                texts.append(folder.read(FILE))
        for before in texts[-2::-1]:
            folder.accepts("undo", FILE)
            equal(folder.read(FILE), before, "undone")
    except AssertionError as why:
        print(why)
        return came, False
    return came, True


def main():
    yq, top, yaml = os.path.realpath(sys.argv[1]), sys.argv[2], library()
    counts, edits, bad, number = collections.Counter(), collections.Counter(), [], 0
    for folder, folders, files in os.walk(top):
        folders.sort()
        for name in sorted(files):
            path = os.path.join(folder, name)
            if not name.endswith((".yaml", ".yml")) or not os.path.isfile(path):
                continue
            number += 1
            with tempfile.TemporaryDirectory(prefix="yq-corpus-") as room:
                came, well = tried(yq, room, read(path))
            with tempfile.TemporaryDirectory(prefix="yq-corpus-") as room:
                more, meant = random_edits(yaml, yq, room, read(path), name)
            counts[came] += 1
            edits.update(more)
            if not (well and meant):
                bad.append(path)
    for came, count in counts.most_common():
        print(f"{count:6} {came}")
    print("random edits: " + ", ".join(f"{count} {what}" for what, count in edits.most_common()))
    for path in bad:
        print(f"other bytes changed, or were not restored: {path}")
    print(f"{number} files, {len(bad)} with a wrong byte")
    return 0 if number and not bad else 1


if __name__ == "__main__":
    sys.exit(main())
