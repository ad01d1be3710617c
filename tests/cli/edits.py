"""Edits of real files: their modes, how large they may be, and how they are listed."""

import json
import os
import unicodedata

from harness import equal

WEB = b"name: web # main\nport: 8080\n"


def check_the_mode_stays_and_a_new_journal_has_it(folder):
    folder.write("f", WEB)
    os.chmod(folder.name("f"), 0o640)
    folder.accepts("-i", ".port = 9090", "f")
    equal((folder.mode("f"), folder.mode("f.undo.json")), (0o640, 0o640))
    folder.accepts("undo", "f")
    equal(folder.mode("f"), 0o640)
    os.chmod(folder.name("f.undo.json"), 0o644)
    folder.accepts("redo", "f")
    equal((folder.mode("f"), folder.mode("f.undo.json")), (0o640, 0o640))
    os.chmod(folder.name("f.undo.json"), 0o600)
    folder.accepts("undo", "f")
    equal((folder.mode("f"), folder.mode("f.undo.json")), (0o640, 0o600))


def check_sixteen_mebibytes(folder):
    line = b"".join(b"k%07d: value %07d # c\n" % (i, i) for i in range(500_000))
    text = line[: 16_777_216 - 32].rsplit(b"\n", 1)[0] + b"\n"
    at = text.index(b"k0400000: ") + len(b"k0400000: ")
    folder.write("f", text)
    folder.accepts("-i", ".k0400000 = 7", "f")
    equal(folder.read("f") == text[:at] + b"7" + text[at + len(b"value 0400000") :], True)
    folder.accepts("undo", "f")
    equal(folder.read("f") == text, True)


DIRECTIONS = ("LRE", "RLE", "LRO", "RLO", "PDF", "LRI", "RLI", "FSI", "PDI")
MARKS = ("LEFT-TO-RIGHT MARK", "RIGHT-TO-LEFT MARK", "ARABIC LETTER MARK")


def is_hidden(character):
    """A control, a separator of lines or paragraphs, or what sets the direction of a text."""
    sets = unicodedata.bidirectional(character) in DIRECTIONS or unicodedata.name(character, "") in MARKS
    return sets or unicodedata.category(character) in ("Cc", "Zl", "Zp")


def listed(folder, given):
    """The lines of a history, of edits with these expressions: each is as it was given, as a string of JSON that hides nothing."""
    lines = folder.accepts("history", "f").decode().split("\n")
    equal(lines.pop(), "")
    equal([line.split(" ", 2)[:2] for line in lines], [[f"{number}", "done"] for number in range(1, len(given) + 1)])
    equal([json.loads(line.split(" ", 2)[2]) for line in lines], given)
    equal([line for line in lines if any(map(is_hidden, line))], [])
    return lines


ODD = ["\\n\\t", "\x7f", "\x9b31m", "\u202e", "\u2066", "\u2028", '\\"\\\\', "\u00e9", "\U0001f600"]


def check_an_edit_is_listed_as_it_was_given(folder):
    folder.write("f", WEB)
    given = [f'.name = "{text}"' for text in ODD]
    for expression in given:
        folder.accepts("-i", expression, "f")
    listed(folder, given)


def check_a_history_hides_no_character(folder):
    """Whoever may write the journal may put any there: each that acts on a terminal is escaped, and each other one is as it is."""
    folder.write("f", WEB)
    every = [chr(code) for code in range(32, 0x11000) if not 0xD800 <= code < 0xE000]
    hidden = [character for character in every if is_hidden(character)]
    equal(len(hidden), 33 + len(DIRECTIONS) + len(MARKS) + 2)
    given = [*(f"a{character}b" for character in hidden), "".join(character for character in every if character not in hidden)]
    records = [{"after_len": len(WEB), "before_len": len(WEB), "count": 1, "expr": expr, "splices": []} for expr in given]
    journal = {"at": len(given), "pending": None, "records": records, "version": 2}
    folder.write("f.undo.json", json.dumps(journal, ensure_ascii=False).encode())
    lines = listed(folder, given)
    equal([line.split(" ", 2)[2] for line in lines[:-1]], [f'"a\\u{ord(character):04x}b"' for character in hidden])
    equal(lines[-1].split(" ", 2)[2], json.dumps(given[-1], ensure_ascii=False))
