"""A reader of journals of its own, written after docs/JOURNAL.md: which bytes are a journal, what a move makes of it, what is written."""

import base64
import collections
import json
import re

TOP, MOST, DEEPEST = 2**64 - 1, 4096, 127


class Number(str):
    """A number, as it is written."""


class NoJournal(Exception):
    """The bytes are no journal."""


Record = collections.namedtuple("Record", "expr splices before after count")
State = collections.namedtuple("State", "records at pending")


def check(holds):
    if not holds:
        raise NoJournal


def depth_of(text):
    """How many arrays and objects are nested in a JSON text."""
    bare = re.sub(r'"(?:[^"\\]|\\.)*"', "", text, flags=re.DOTALL)
    deepest = depth = 0
    for letter in bare:
        depth += (letter in "[{") - (letter in "]}")
        deepest = max(deepest, depth)
    return deepest


def number(text):
    check(abs(float(text)) != float("inf"))
    return Number(text)


def value_of(data):
    """The value of a JSON text; of equal keys the last one counts."""
    try:
        text = data.decode("utf-8")
        check(depth_of(text) <= DEEPEST)

        def refuse(_):
            raise NoJournal

        value = json.loads(text, parse_int=number, parse_float=number, parse_constant=refuse)
        json.dumps(value, ensure_ascii=False).encode("utf-8")
        return value
    except (UnicodeError, ValueError, RecursionError):
        raise NoJournal from None


def fields(value, *names):
    check(isinstance(value, dict) and set(value) == set(names))
    return [value[it] for it in names]


def number_of(value):
    check(isinstance(value, Number) and re.fullmatch("[0-9]+", value) is not None and int(value) <= TOP)
    return int(value)


def string_of(value):
    check(isinstance(value, str) and not isinstance(value, Number))
    return value


def bytes_of(value):
    text = string_of(value)
    check(text.isascii())
    try:
        data = base64.b64decode(text, validate=True)
    except ValueError:
        raise NoJournal from None
    check(base64.b64encode(data).decode() == text)
    return data


def splice_of(value):
    at, new, old = fields(value, "at", "new", "old")
    return number_of(at), bytes_of(old), bytes_of(new)


def record_of(value, version):
    names = ["after_len", "before_len", "expr", "splices", *(["count"] if version == 2 else [])]
    after, before, expr, splices, *count = fields(value, *names)
    check(isinstance(splices, list))
    found = Record(string_of(expr), [splice_of(it) for it in splices], number_of(before), number_of(after), number_of(count[0]) if count else 1)
    length = found.before
    for at, old, new in found.splices:
        check(at + len(old) <= length)
        length += len(new) - len(old)
        check(length <= TOP)
    check(length == found.after and found.count >= 1)
    return found


def done(record, text, back=False):
    """The text after a record, or before it; None where it doesn't apply."""
    before, after = (record.after, record.before) if back else (record.before, record.after)
    if len(text) != before:
        return None
    splices = [(at, new, old) for at, old, new in record.splices[::-1]] if back else record.splices
    for at, old, new in splices:
        if text[at : at + len(old)] != old:
            return None
        text = text[:at] + new + text[at + len(old) :]
    return text if len(text) == after else None


def refusal(state, kind):
    """Why there is no way for a move."""
    if kind == "edit":
        return "J6 journal full" if state.at >= MOST else None
    if kind == "undo":
        return "J1 nothing to undo" if state.at == 0 else None
    return "J2 nothing to redo" if state.at >= len(state.records) else None


def moved(state, kind, record, text):
    """The text to which a move leads, and the journal after it."""
    if kind == "edit":
        return done(record, text), State([*state.records[: state.at], record], state.at + 1, None)
    if kind == "undo":
        return done(state.records[state.at - 1], text, back=True), State(state.records, state.at - 1, None)
    return done(state.records[state.at], text), State(state.records, state.at + 1, None)


def state_of(data):
    """The journal that bytes are."""
    at, pending, records, version = fields(value_of(data), "at", "pending", "records", "version")
    version = number_of(version)
    check(version in (1, 2) and isinstance(records, list))
    found = State([record_of(it, version) for it in records], number_of(at), None)
    opened = None
    if pending is not None:
        start, kind, held = fields(pending, "from", "kind", "record")
        kind = string_of(kind)
        check(kind in ("edit", "undo", "redo") and (kind == "edit" or held is None))
        opened = kind, record_of(held, version) if kind == "edit" else None, bytes_of(start)
    check(len(found.records) <= MOST and found.at <= len(found.records))
    if opened is not None:
        check(refusal(found, opened[0]) is None)
        check(moved(found, *opened)[0] not in (None, opened[2]))
    return State(found.records, found.at, opened)


def settled(state, text):
    """The journal next to a text, with no open move; None where its move neither starts from the text nor leads to it."""
    if state.pending is None:
        return state
    if state.pending[2] == text:
        return State(state.records, state.at, None)
    led, after = moved(state, *state.pending)
    return after if led == text else None


# ---- what is written


def coded(data):
    return base64.b64encode(data).decode()


def record_value(record):
    splices = [{"at": at, "new": coded(new), "old": coded(old)} for at, old, new in record.splices]
    return {"after_len": record.after, "before_len": record.before, "count": record.count, "expr": record.expr, "splices": splices}


def state_value(state):
    pending = state.pending
    if pending is not None:
        kind, record, start = pending
        pending = {"from": coded(start), "kind": kind, "record": record_value(record) if record else None}
    return {"at": state.at, "pending": pending, "records": [record_value(it) for it in state.records], "version": 2}


def documented(state):
    return json.dumps(state_value(state), separators=(",", ":"), ensure_ascii=False).encode() + b"\n"


def joined(state, count):
    """The journal with its last edits squashed, or the refusal."""
    run = state.records[state.at - count : state.at] if 1 <= count <= state.at else []
    if not run or any(one.after != two.before for one, two in zip(run, run[1:])):
        return "J7 bad count", None
    whole = Record(" | ".join(it.expr for it in run), [s for it in run for s in it.splices], run[0].before, run[-1].after, min(TOP, sum(it.count for it in run)))
    return None, State([*state.records[: state.at - count], whole, *state.records[state.at :]], state.at - count + 1, None)


# ---- what a command answers


def read_of(data, text):
    """The settled journal, or the refusal."""
    try:
        state = state_of(data)
    except NoJournal:
        return "J4 bad journal", None
    state = settled(state, text)
    return ("J5 unsettled", None) if state is None else (None, state)


def expected(words, text, state):
    """The refusal of a command, or the text and the journal that it leaves, None for one that isn't written."""
    if words[0] == "squash":
        why, new = joined(state, int(words[1]))
        return why, text, None if words[1] == "1" else new
    why = refusal(state, words[0])
    if why is not None:
        return why, text, None
    led, new = moved(state, words[0], None, text)
    return (None, led, new) if led is not None else ("J3 does not stand", text, None)


HIDDEN = re.compile("[\x7f-\x9f\u061c\u200e\u200f\u2028-\u202e\u2066-\u2069]")


def shown(expr):
    """A JSON string on which no terminal acts."""
    return HIDDEN.sub(lambda found: f"\\u{ord(found[0]):04x}", json.dumps(expr, ensure_ascii=False))


def lines_of(state):
    parts = (f"{n + 1} {'done' if n < state.at else 'undone'} {shown(it.expr)}\n" for n, it in enumerate(state.records))
    return "".join(parts).encode()
