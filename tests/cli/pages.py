"""The examples of the pages for users, run on the program: in them the page is the data.

A fenced block that is marked `console` is one example, in an empty folder of its own:

- `$ WORDS` is run by sh, with the program as `yq`. The lines after it, up to the next `$ `, are what it prints on
  standard output and standard error. A command that is a `yq` alone ends with status 1 where one of them begins with
  `Error: `, and else with 0.
- `$ cat NAME`, where NAME isn't there yet, makes that file of the lines after it.

A table with the columns `f.yaml`, `Command` (or else `Here`) and `Result` has one example in each row that has a command:
the text of the file, the command, and what it prints, or, after a `-i` that is accepted, the text of the file then. A
refused command leaves the file. In a text `⏎` is LF, `␍` CR and `⇥` a tab.
"""

import os
import re
import shlex
import subprocess
from concurrent.futures import ThreadPoolExecutor

from harness import ROOT, SECONDS, Folder, equal

PAGES = ("README.md", "docs/MANUAL.md", "docs/FROM-YQ-V4.md", "docs/EXPRESSIONS.md")
FILE = "f.yaml"
CELL = re.compile(r"(?<!\\)\|")
GIVEN = re.compile(r"cat ([\w.-]+)")
MARKS = {"⏎": "\n", "␍": "\r", "⇥": "\t"}


class Example:
    """The name of an example, and its steps: what is run, and what that is to print."""

    def __init__(self, name, steps):
        self.name = name
        self.steps = steps


def sessions(page, lines):
    """The examples in fenced blocks."""
    found, steps = [], None
    for number, line in enumerate(lines, 1):
        if steps is None:
            if line == "```console":
                steps, name = [], f"{page} line {number}"
        elif line == "```":
            found.append(Example(name, steps))
            steps = None
        elif line.startswith("$ "):
            steps.append((line[2:], []))
        else:
            steps[-1][1].append(line + "\n")
    equal(steps, None, "a block that isn't closed")
    return found


def cells(line):
    return [cell.strip() for cell in CELL.split(line)[1:-1]]


def text_in(cell):
    """The text that a cell shows as code."""
    code = cell.replace("\\|", "|").strip("`")
    for mark, character in MARKS.items():
        code = code.replace(mark, character)
    return code


def rows(page, lines):
    """The examples in tables."""
    found, columns = [], None
    for number, line in enumerate(lines, 1):
        if not line.startswith("|"):
            columns = None
        elif columns is None:
            columns = [cell.strip("`") for cell in cells(line)]
        elif {FILE, "Result"} <= set(columns) and {"Command", "Here"} & set(columns):
            told = cells(line)
            equal(len(told), len(columns), f"{page} line {number}")
            row = dict(zip(columns, map(text_in, told)))
            command = row["Command" if "Command" in row else "Here"]
            if command.startswith("yq"):
                found.append(Example(f"{page} line {number}", [(command, row[FILE], row["Result"])]))
    return found


def lines_of(page):
    with open(os.path.join(ROOT, page), encoding="utf-8") as text:
        return text.read().splitlines()


def examples():
    return [example for page in PAGES for read in (sessions, rows) for example in read(page, lines_of(page))]


def shell(folder, words, status=0):
    """Runs words by sh, with `$?` as told. What they print on both outputs, and their status."""
    path = os.pathsep.join([os.path.dirname(folder.yq), os.environ.get("PATH", os.defpath)])
    done = subprocess.run(
        ["sh", "-c", f"(exit {status})\n{words}"],
        cwd=folder.path,
        env={"PATH": path, "LC_ALL": "C.UTF-8", "HOME": folder.path},
        stdin=subprocess.DEVNULL,
        stdout=subprocess.PIPE,
        stderr=subprocess.STDOUT,
        timeout=SECONDS,
    )
    return done.stdout.decode(errors="replace"), done.returncode


def is_refused(printed):
    return any(line.startswith("Error: ") for line in printed.splitlines())


def is_alone(words):
    """Whether the words are a `yq` whose status is theirs."""
    tokens = list(shlex.shlex(words, posix=True, punctuation_chars=True))
    return tokens[0] == "yq" and not {"|", "||", "&&", ";"} & set(tokens)


def runs(folder, words, wanted, status=0):
    """The words print what is wanted; the status of a `yq` alone says whether it was refused."""
    printed, status = shell(folder, words, status)
    equal(printed, wanted, words)
    if is_alone(words):
        equal(status, 1 if is_refused(printed) else 0, words)
    return status


def take_session(folder, steps):
    status = 0
    for words, printed in steps:
        given = GIVEN.fullmatch(words)
        if given and given[1] not in folder.names():
            folder.write(given[1], "".join(printed).encode())
        else:
            status = runs(folder, words, "".join(printed), status)


def take_row(folder, words, before, result):
    folder.write(FILE, before.encode())
    edits = " -i " in words and not is_refused(result)
    runs(folder, words, "" if edits else result + "\n" * is_refused(result))
    equal(folder.read(FILE).decode(), result if edits else before, words)


def run_example(yq, path, example):
    """Why an example isn't so, if it isn't."""
    os.mkdir(path)
    folder = Folder(yq, path)
    try:
        if len(example.steps[0]) == 3:
            take_row(folder, *example.steps[0])
        else:
            take_session(folder, example.steps)
    except Exception as why:
        return f"{type(why).__name__}: {why}"
    return None


def run_pages(yq, top, wanted):
    """Runs the examples whose names hold a word. Gives how many were so, and of the others name and cause."""
    chosen = [example for example in examples() if wanted in example.name]
    with ThreadPoolExecutor(os.cpu_count()) as pool:
        jobs = [(one.name, pool.submit(run_example, yq, os.path.join(top, f"page-{i}"), one)) for i, one in enumerate(chosen)]
        failed = [(name, job.result()) for name, job in jobs if job.result() is not None]
    return len(chosen) - len(failed), failed
