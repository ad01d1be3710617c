"""Journals with wrong types, huge numbers, deep nesting, equal keys, bad base64, lengths that don't end, and bytes exchanged.

usage: journals.py PATH_OF_YQ COUNT [SEED]

A reader of its own (journal_reader.py), written after docs/JOURNAL.md, says of each journal what `history` prints or why it is refused, and what an
undo, a redo or a squash leaves; after an edit the journal has the records that were done as they were, and one more. What is written
is always the documented text. The seed is another one in each run and is printed; with the same seed (here, or as YQ_SEED in the
environment of run.py) the same journals come.
"""

import collections
import json
import os
import random
import sys

sys.path.insert(0, os.path.dirname(os.path.abspath(__file__)))

from harness import equal, run_alone, seed_of_run, side_by_side
from journal_reader import TOP, Number, Record, State, done, documented, expected, lines_of, moved, read_of, refusal, state_of, state_value

COUNT, FILE, JOURNAL = 300, "f", "f.undo.json"
EXPRESSIONS = [".n = 1", '.n = "x"', "del(.n)", '.["a\\\\b"] = "é"', ".n = 1 | .m = 2", "", "\x1f\x7f", "a\nb\tc\r\b\f", "\U0001f600", "/"]
ODD = [None, True, False, "", "x", [], {}, 0, 1, -1, 2, 5, 4095, 4096, 4097, TOP, TOP + 1, 10**40, 1.0, 1e3, [[]], {"a": 1}]
BAD_BASE64 = ["=", "A", "AA", "AAA", "AB==", "AAB=", "MQ", "MQ=", "MQ===", "M Q==", "MQ==\n", "_-8=", "MQ==MQ==", "é"]
TOKENS = [b'"', b"\\", b",", b":", b"{", b"}", b"[", b"]", b" ", b"\n", b"\t", b"0", b"00", b"-", b"+", b".5", b"e1", b"null", b"1e999", b"\xff", b"\xc3",
          b"\x00", b"\\u0041", b"\\ud800", b"\\/", b"\xef\xbb\xbf", b"\x0b", b'"at":1,', b'"version":2,', b"NaN", b"=", b"==", b"MQ=="]


def changed(source, text):
    """A text of the same kind with some bytes exchanged, and the splices that lead to it."""
    splices = []
    for _ in range(source.choice([0, 1, 1, 1, 2, 3])):
        start = source.randrange(3, len(text))
        end = min(len(text) - 1, start + source.choice([0, 0, 1, 2]))
        new = b"" if start == len(text) - 1 and start == 3 else bytes(source.choice(b"0123456789abcxyz") for _ in range(source.choice([1, 1, 2, 4])))
        start = min(start, end)
        splices.append((start, text[start:end], new))
        text = text[:start] + new + text[end:]
    return text, splices


def good_journal(source):
    """A journal, and a text next to it."""
    texts, records = [b"n: 10x\n"], []
    for _ in range(source.choice([0, 1, 1, 2, 3, 5])):
        text, splices = changed(source, texts[-1])
        records.append(Record(source.choice(EXPRESSIONS), splices, len(texts[-1]), len(text), source.choice([1, 1, 1, 2, TOP])))
        texts.append(text)
    at = source.randrange(len(texts))
    state, text, pending = State(records, at, None), texts[at], None
    if source.random() < 0.25:
        kind = source.choice(["edit", "undo", "redo"])
        new, splices = changed(source, text)
        pending = kind, Record(".n = 5", splices, len(text), len(new), 1) if kind == "edit" else None, text
        if refusal(state, kind) is None and source.random() < 0.5:
            text = moved(state, *pending)[0]
    return state_value(State(records, at, pending)), text


def places(value, path=()):
    """The path of each value in a value."""
    yield path
    inner = value.items() if isinstance(value, dict) else enumerate(value) if isinstance(value, list) else ()
    for key, each in inner:
        yield from places(each, (*path, key))


def held(value, path):
    for key in path:
        value = value[key]
    return value


def other_value(source, old):
    if isinstance(old, int) and not isinstance(old, bool) and source.random() < 0.6:
        return source.choice([old + 1, max(0, old - 1), -old, old + 0.5, TOP - old, 2**64 + old, 2**63, 10**30, float(old)])
    if isinstance(old, str) and source.random() < 0.6:
        return source.choice([*BAD_BASE64, old + "=", old[:-1], old[::-1], old + "AA", "\x00", "edit", "undo", "redo"])
    if isinstance(old, list) and source.random() < 0.6:
        return source.choice([old[1:], old[::-1], old + old, [old], old * 900])
    return source.choice(ODD)


def with_fault(source, value):
    """The value with one of its values exchanged, a key taken out or put in."""
    value = json.loads(json.dumps(value))
    path = source.choice([*places(value)][1:])
    place = held(value, path[:-1])
    kind = source.choice(["exchanged", "exchanged", "exchanged", "out", "in"])
    if kind == "out":
        del place[path[-1]]
    elif kind == "in" and isinstance(place, dict):
        place[source.choice(["", "x", "count", "at", "expr", "old"])] = source.choice(ODD)
    else:
        place[path[-1]] = other_value(source, place[path[-1]])
    return value


def text_of_value(source, value, odds):
    """A JSON text of a value: with these odds with white space, other escapes, keys in another order and twice."""

    def space():
        return source.choice(["", " ", "\n", "\t", "\r\n"]) if source.random() < odds else ""

    def string(text):
        return json.dumps(text, ensure_ascii=source.random() < odds)

    def write(it):
        if isinstance(it, dict):
            members = list(it.items())
            if source.random() < odds:
                source.shuffle(members)
            if members and source.random() < odds / 4:
                deep = source.choice([1, 100, 121, 122, 123, 124, 125, 126, 127, 128, 200])
                more = source.choice([Number("[" * deep + "]" * deep), Number('{"a":' * deep + "1" + "}" * deep), *ODD, Number("1e999"), Number("01")])
                members.insert(source.randrange(len(members) + 1), (source.choice(members)[0], more))
            return "{" + space() + ",".join(space() + string(key) + space() + ":" + space() + write(each) + space() for key, each in members) + "}"
        if isinstance(it, list):
            return "[" + space() + ",".join(space() + write(each) + space() for each in it) + "]"
        if isinstance(it, Number):
            return str(it)
        return string(it) if isinstance(it, str) else json.dumps(it)

    return (write(value) + source.choice(["\n", "\n", "\n", "", " ", "\n\n"])).encode("utf-8", "surrogatepass")


def with_bytes(source, data):
    """The text with some bytes cut, doubled, exchanged or put in."""
    start = source.randrange(len(data) + 1)
    end = min(len(data), start + source.choice([1, 1, 2, 8]))
    kind = source.choice(["cut", "doubled", "exchanged", "put", "put", "end"])
    if kind == "cut":
        return data[:start] + data[end:]
    if kind == "doubled":
        return data[:end] + data[start:end] + data[end:]
    if kind == "exchanged":
        return data[:start] + bytes([source.choice(b'09"\\,:{}[]aA =')]) + data[end:]
    return data[:start] if kind == "end" else data[:start] + source.choice(TOKENS) + data[start:]


def mutated(source):
    """A journal's text, mostly with a fault or written otherwise, and the text next to it."""
    value, text = good_journal(source)
    kind = source.choice(["good", "value", "value", "value", "form", "bytes", "bytes", "both"])
    if kind in ("value", "both"):
        value = with_fault(source, value)
    if isinstance(value, dict) and source.random() < 0.1:
        value["version"] = 1
        for it in value.get("records") if isinstance(value.get("records"), list) else ():
            if isinstance(it, dict):
                it.pop("count", None)
    data = text_of_value(source, value, 0.3 if kind == "form" else 0)
    for _ in range(source.choice([1, 1, 2]) if kind in ("bytes", "both") else 0):
        data = with_bytes(source, data)
    return data, text if source.random() < 0.9 else text + b"#\n"


# ---- the program next to the reader


def is_edited(folder, text, data, state):
    """An edit keeps the records that are done, and adds one, in the documented form."""
    status, out, err = folder.run("-i", ".n = 77", FILE)
    if status or folder.read(FILE) == text:
        equal((out, folder.read(FILE), folder.read(JOURNAL)), (b"", text, data), err)
        return
    new = state_of(folder.read(JOURNAL))
    equal((new.records[:-1], new.at, new.pending, folder.read(JOURNAL)), (state.records[: state.at], state.at + 1, None, documented(new)), "edited")
    equal(done(new.records[-1], text), folder.read(FILE), "the new record")


def one_journal(folder, seed):
    """One journal: `history`, and then an undo, a redo, a squash or an edit."""
    source = random.Random(seed)
    data, text = mutated(source)
    try:
        folder.write(FILE, text)
        folder.write(JOURNAL, data)
        why, state = read_of(data, text)
        words = source.choice([["undo"], ["redo"], ["squash", str(source.choice([0, 1, 2, 2, 3]))], ["edit"]])
        if why is None:
            equal(folder.accepts("history", FILE), lines_of(state), "history")
        else:
            folder.refuses(why, "history", FILE)
        if why is None and words == ["edit"]:
            is_edited(folder, text, data, state)
            return "read"
        left, new = text, None
        if why is None:
            why, left, new = expected(words, text, state)
        line = ["-i", ".n = 77", FILE] if words == ["edit"] else [*words, FILE]
        if why is None:
            equal(folder.accepts(*line), b"", words)
        else:
            folder.refuses(why, *line)
        equal((folder.read(FILE), folder.read(JOURNAL)), (left, data if new is None else documented(new)), words)
        return why or "read"
    except AssertionError as reason:
        raise AssertionError(f"seed {seed}: {data!r} beside {text!r}: {reason}") from None


def run_journals(folder, count, seed):
    """What came of so many journals."""
    tally = collections.Counter(side_by_side(folder, count, seed, one_journal))
    print(f"journals: seed {seed}, {count} journals: " + ", ".join(f"{number} {what}" for what, number in sorted(tally.items())), flush=True)
    return tally


def check_mutated_journals_are_answered_as_their_reader_says(folder):
    tally = run_journals(folder, COUNT, seed_of_run())
    equal((tally["read"] > 0, tally["J4 bad journal"] > 0), (True, True))


if __name__ == "__main__":
    run_alone(run_journals, *sys.argv[1:])
