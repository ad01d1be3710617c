"""What help and the man page show: each of their examples is run, and no expression in them is refused."""

import os
import re
import subprocess

from docs_agree import man_page, section
from harness import SECONDS, equal
from pages import shell

CONFIG = b"""\
server:
  port: 8080
labels: {}
hosts:
  - a.example.com
users:
  - name: x
    admin: true
  - name: y
jobs:
  - name: ship
    when: push
"""
WIDTH = 72
VALUE = re.compile(r'"[^"]*"|\[[^]]*\]|\{[^}]*\}|\S+')
MARKS = (("\\(dq", '"'), ("\\(aq", "'"), ("\\-", "-"), ("\\e", "\\"), ("\\&", ""))


def with_files(folder):
    for name in ("f.yaml", "config.yaml", "image.yaml"):
        folder.write(name, b"image:\n  tag: old\n" if name == "image.yaml" else CONFIG)


def is_taken(folder, words, before=""):
    """What sh prints of the words, none of it a refusal; a pipe or a condition may end as it likes."""
    printed, status = shell(folder, before + words)
    equal([line for line in printed.splitlines() if line.startswith("Error: ")], [], words)
    if not re.search(r" [|&]|\bif\b", words):
        equal(status, 0, words)
    return printed


def help_lines(folder):
    return folder.accepts("--help").decode().splitlines()


def check_help_has_at_most_72_columns(folder):
    equal([line for line in help_lines(folder) if len(line) > WIDTH], [])


def check_the_examples_of_help_are_taken(folder):
    with_files(folder)
    told = [line.strip() for line in section(help_lines(folder), "Examples:")]
    equal(len(told) >= 8, True, told)
    for words in told:
        is_taken(folder, words)
    for part in ('."app.io/name"', "+=", "del(", "line_comment", ".name =="):
        equal(any(part in words for words in told), True, part)
    equal(folder.accepts(".jobs[0].when", "f.yaml"), b"push\n")
    folder.accepts("redo", "f.yaml")
    equal(folder.accepts(".jobs[0].when", "f.yaml"), b"tag\n")


def check_the_values_of_help_are_taken(folder):
    folder.write("f.yaml", b"other:\n  path: 7\n")
    line = next(line for line in help_lines(folder) if line.startswith("Values:"))
    values = VALUE.findall(line.partition(":")[2])
    equal(len(values) >= 8, True, values)
    for value in values:
        folder.accepts("-i", f".new = {value}", "f.yaml")


def check_help_says_that_it_is_no_other_program(folder):
    equal("mikefarah's yq" in "\n".join(help_lines(folder)), True)


def plain(line):
    """A line of the man page without its marks."""
    for mark, character in MARKS:
        line = line.replace(mark, character)
    return line


def check_the_examples_of_the_man_page_are_taken(folder):
    with_files(folder)
    lines = [plain(line) for line in man_page().splitlines()]
    told = [line.removeprefix(".Dl $ ") for line in lines if line.startswith(".Dl $ ")]
    equal(len(told) >= 8, True, told)
    for words in told:
        is_taken(folder, words)
    equal(folder.accepts(".hosts", "config.yaml"), b"- a.example.com\n- b.example.com\n")


def check_the_scripts_of_the_man_page_are_taken(folder):
    with_files(folder)
    scripts = re.findall(r"^\.Bd -literal.*?\n(.*?)\n\.Ed$", man_page(), re.MULTILINE | re.DOTALL)
    for text in ("1.27", "-n", 'a "b" \\ c'):
        for script in scripts:
            path = os.pathsep.join([os.path.dirname(folder.yq), os.environ.get("PATH", os.defpath)])
            words = ["sh", "-c", f"tag=$1\n{plain(script)}", "sh", text]
            done = subprocess.run(words, cwd=folder.path, env={"PATH": path}, capture_output=True, timeout=SECONDS)
            equal((done.returncode, done.stderr), (0, b""), script)
            equal(folder.accepts(".image.tag", "image.yaml"), text.encode() + b"\n", script)


def check_the_program_is_told_by_the_name_that_it_has(folder):
    """A link of another name, as a distribution may install it, is spoken of by that name."""
    os.symlink(folder.yq, folder.name("yqe"))
    for words in (["--help"], ["undoo"], ["-V"], ["show", "f", "g", "h"]):
        done = subprocess.run([folder.name("yqe"), *words], capture_output=True, timeout=SECONDS)
        _, out, err = folder.run(*words)
        own = (out + err).decode().replace("mikefarah's yq", "mikefarah's ..")
        told = (done.stdout + done.stderr).decode().replace("mikefarah's yq", "mikefarah's ..")
        equal(told, re.sub(r"\byq\b", "yqe", own), words)
