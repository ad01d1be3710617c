"""Random edits of random texts, next to PyYAML and a second implementation of what updates mean.

usage: random_edits.py PATH_OF_YQ COUNT [SEED [MOST]]

Each edit is one update, or with MOST a program of 2 to MOST updates, each of which is for the documents that those before
it leave. Each edited text reads as the meant tree, each refusal is the meant one, an edit that is undone gives the first
bytes back. Its last line says how many lists of commands were run, and what came of their edits.
"""

import collections
import os
import random
import re
import sys
import tempfile

sys.path.insert(0, os.path.dirname(os.path.abspath(__file__)))

from harness import Folder, Skip, equal
from random_texts import Texts
from oracle import EACH, Node, Refused, comes_to_a_place, documents_of, meaning

LISTS = 300
PROGRAMS, DRAWS = 100, 4
FILE = "f"
LITERALS = [("1", Node("int", "1")), ('"y"', Node("str", "y")), ('"true"', Node("str", "true")), ("true", Node("bool", "true")),
            ("null", Node("null", "null")), ("1.5", Node("float", "1.5")), ('"- z"', Node("str", "- z")),
            ('"it\'s"', Node("str", "it's")), ('"a\\nb"', Node("str", "a\nb")), ('"x # y"', Node("str", "x # y")),
            ('""', Node("str", "")), ('"a: b"', Node("str", "a: b")), ("[]", Node("list", children=[])),
            ("{}", Node("map", children=[])),
            ('[1, "b"]', Node("list", children=[Node("int", "1"), Node("str", "b")])),
            ('{"k": 2, "m": ["x"]}', Node("map", children=[("k", Node("int", "2")), ("m", Node("list", children=[Node("str", "x")]))])),
            ('[{"a": 1, "b": null}, []]', Node("list", children=[Node("map", children=[("a", Node("int", "1")), ("b", Node("null", "null"))]),
                                                               Node("list", children=[])]))]
OPERATORS = ["=", "=", "=", "=", "|=", "+=", "+=", "del", "del", "line_comment", "head_comment"]
COMMENTS = ["note", "", "two words", "# x"]


class Update:
    """An update, as its meaning wants it, and its text."""

    def __init__(self, source, roots):
        self.source = source
        self.operator = source.choice(OPERATORS)
        self.left, left = self.path(source.choice(roots))
        self.right, right = [], ""
        if self.operator in ("=", "|=", "+="):
            right = self.terms(roots)
        elif self.operator != "del":
            right = '"' + source.choice(COMMENTS) + '"'
        self.text = f"del({left})" if self.operator == "del" else f"{left} {self.operator.replace('_comment', '_comment =')} {right}"

    def path(self, node):
        """Steps that lead on in a document, and at times astray, and their text."""
        steps = []
        while node is not None and self.source.random() < 0.75:
            under = node.under()
            share = self.source.random()
            if not under or share < 0.08:
                steps.append(self.source.choice(["new", "a", 0, -1, EACH]))
                node = None
            elif share < 0.16:
                steps.append(EACH)
                node = self.source.choice(under)[1]
            else:
                step, other = self.source.choice(under)
                if isinstance(step, str) and re.search(r'[*?"\\]', step):
                    # A pattern is refused, and what is shown has no escapes.
                    break
                steps.append(step - len(under) if isinstance(step, int) and self.source.random() < 0.3 else step)
                node = other
        return steps, self.shown(steps)

    def shown(self, steps):
        out = ""
        for step in steps:
            if step is EACH:
                out += "[]"
            elif isinstance(step, int):
                out += f"[{step}]"
            else:
                plain = re.fullmatch(r"[a-z]+", step) and self.source.random() < 0.7
                out += "." + step if plain else '.["' + step + '"]'
        return out if out.startswith(".") else "." + out

    def terms(self, roots):
        texts = []
        for _ in range(self.source.choice([1, 1, 1, 2])):
            if self.source.random() < 0.85:
                text, node = self.source.choice(LITERALS)
                self.right.append(node)
            else:
                steps, text = self.path(self.source.choice(roots))
                self.right.append(steps)
            texts.append(text)
        return " + ".join(texts)


def shown(roots):
    return [root.shown() for root in roots]


class Program:
    """Updates one after another: their text, the documents after them or why they are refused."""

    def __init__(self, source, roots, most=1):
        self.new, self.refusal, self.lacks_room, texts = roots, "", False, []
        for _ in range(1 if most == 1 else source.randrange(2, most + 1)):
            update = self.drawn(source, 1 if most == 1 else DRAWS)
            texts.append(update.text)
            if not self.refusal:
                self.follow(update)
        self.text = " | ".join(texts)
        if self.refusal:
            self.new = roots

    def drawn(self, source, draws):
        """An update, one that is accepted if some draws give one."""
        for _ in range(draws):
            update = Update(source, self.new)
            if draws == 1 or not refusal_of(self.new, update):
                break
        return update

    def follow(self, update):
        if update.operator.endswith("_comment") and comes_to_a_place(self.new, update):
            self.lacks_room = True
        self.refusal = refusal_of(self.new, update)
        if not self.refusal:
            self.new = meaning(self.new, update)


def refusal_of(roots, update):
    """Why an update is refused, or an empty text."""
    try:
        meaning(roots, update)
    except Refused as why:
        return str(why)
    return ""


def is_right(yaml, folder, roots, program):
    """One edit of the file, whose documents are these; what came of it, and the documents then."""
    old = folder.read(FILE)
    status, out, err = folder.run("-i", program.text, FILE)
    code = err.split(b" ")[1].decode() if status else ""
    equal((status, out), (1 if code else 0, b""))
    if code == "X10" and program.lacks_room:
        return "no room for a comment", roots
    equal(code, program.refusal, f"refusal of {program.text}")
    if code:
        equal(folder.read(FILE), old)
        return code, roots
    equal(shown(documents_of(yaml, folder.read(FILE).decode())), shown(program.new), f"tree after {program.text}")
    return "edited", program.new


def one_list(yaml, folder, source, tally, most):
    """A random text with some edits, each of which is undone in the end."""
    text = Texts(source).text()
    try:
        roots = documents_of(yaml, text)
    except yaml.YAMLError:
        tally["texts that PyYAML refuses"] += 1
        return
    for name in folder.names():
        os.remove(folder.name(name))
    folder.write(FILE, text.encode())
    if folder.run(".", FILE)[2].startswith(b"Error: Y"):
        tally["texts outside the profile"] += 1
        return
    texts = [text.encode()]
    for _ in range(source.randrange(1, 4)):
        program = Program(source, roots, most)
        try:
            came, roots = is_right(yaml, folder, roots, program)
        except AssertionError as why:
            raise AssertionError(f"{texts[-1]!r}, {program.text}: {why}") from None
        tally[came] += 1
        if folder.read(FILE) != texts[-1]:
            texts.append(folder.read(FILE))
    for before in texts[-2::-1]:
        folder.accepts("undo", FILE)
        equal(folder.read(FILE), before, "undone")


def run_lists(folder, count, seed="1", most=1):
    try:
        import yaml
    except ImportError:
        raise Skip("needs PyYAML") from None
    tally = collections.Counter()
    for number in range(count):
        one_list(yaml, folder, random.Random(f"{seed} {number}"), tally, most)
    return tally


def check_random_edits_read_as_they_are_meant(folder):
    tally = run_lists(folder, LISTS, 1)
    equal(tally["edited"] > 0, True)


def check_random_programs_read_as_they_are_meant(folder):
    tally = run_lists(folder, PROGRAMS, 1, 6)
    equal(tally["edited"] > 0, True)


if __name__ == "__main__":
    with tempfile.TemporaryDirectory(prefix="yq-random-") as path:
        seen = run_lists(Folder(os.path.realpath(sys.argv[1]), path), int(sys.argv[2]), *sys.argv[3:4], *map(int, sys.argv[4:5]))
    print(f"{sys.argv[2]} lists: " + ", ".join(f"{number} {what}" for what, number in sorted(seen.items())))
