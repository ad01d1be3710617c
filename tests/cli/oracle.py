"""Documents as trees, read by PyYAML's events, and what updates make of them: a second implementation of the meaning.

A node is `Node(kind, anchor, text, children)`: an alias (the text is its name), a scalar (null, bool, int, float or
str), a list (of nodes) or a map (of pairs of a key and a node).
"""

import re

INT = re.compile(r"[-+]?[0-9]+|0o[0-7]+|0x[0-9a-fA-F]+")
FLOAT = re.compile(r"[-+]?(\.[0-9]+|[0-9]+(\.[0-9]*)?)([eE][-+]?[0-9]+)?|[-+]?\.(inf|Inf|INF)|\.(nan|NaN|NAN)")
EACH = object()


class Refused(Exception):
    """An update is refused, by this code."""


class Node:
    def __init__(self, kind, text=None, children=None, anchor=None):
        self.kind, self.text, self.children, self.anchor = kind, text, children, anchor

    def shown(self):
        if self.kind == "list":
            inner = [child.shown() for child in self.children]
        elif self.kind == "map":
            inner = [(key, child.shown()) for key, child in self.children]
        else:
            inner = self.text
        return self.kind, self.anchor, inner

    def under(self):
        """The nodes of items or entries, with the steps to them."""
        if self.kind == "list":
            return list(enumerate(self.children))
        return self.children if self.kind == "map" else []

    def names(self):
        """The anchors and the aliases in it, its own among them."""
        found = ([] if self.anchor is None else [("anchor", self.anchor)]) + ([("alias", self.text)] if self.kind == "alias" else [])
        return found + [name for _, child in self.under() for name in child.names()]


NULL = Node("null", "null")


def resolved(text):
    """The kind of a plain scalar, and its text."""
    if text in ("", "null", "Null", "NULL", "~"):
        return "null", "null"
    if text in ("true", "True", "TRUE", "false", "False", "FALSE"):
        return "bool", text
    if INT.fullmatch(text):
        return "int", text
    return ("float", text) if FLOAT.fullmatch(text) else ("str", text)


def documents_of(yaml, text):
    """The roots of the documents of a text; a text without documents is one null."""
    roots, stack, keys = [], [], []

    def put(node):
        if not stack:
            roots.append(node)
        elif stack[-1].kind == "list":
            stack[-1].children.append(node)
        elif keys[-1] is None:
            keys[-1] = node.text
        else:
            stack[-1].children.append((keys[-1], node))
            keys[-1] = None

    for event in yaml.parse(text):
        if isinstance(event, yaml.AliasEvent):
            put(Node("alias", event.anchor))
        elif isinstance(event, yaml.ScalarEvent):
            kind, value = resolved(event.value) if event.style is None else ("str", event.value)
            if stack and stack[-1].kind == "map" and keys[-1] is None:
                kind, value = "str", event.value
            put(Node(kind, value, anchor=event.anchor))
        elif isinstance(event, (yaml.SequenceStartEvent, yaml.MappingStartEvent)):
            node = Node("list" if isinstance(event, yaml.SequenceStartEvent) else "map", children=[], anchor=event.anchor)
            put(node)
            stack.append(node)
            keys.append(None)
        elif isinstance(event, (yaml.SequenceEndEvent, yaml.MappingEndEvent)):
            stack.pop()
            keys.pop()
    return roots or [Node("null", "null")]


def child(node, step):
    for at, other in node.under():
        if at == step:
            return other
    return None


def step_from(place, step):
    """The places to which a step leads from one: a path, its node, and the steps that are missing from there."""
    path, node, missing = place
    if missing:
        return [] if step is EACH else [(path, node, missing + [step])]
    if node.kind == "alias":
        raise Refused("X4")
    if step is EACH:
        if node.kind not in ("list", "map", "null"):
            raise Refused("X2")
        return [(path + [at], other, []) for at, other in node.under()]
    if node.kind == "null":
        return [(path, node, [step])]
    if isinstance(step, str):
        if node.kind != "map":
            raise Refused("X1")
    else:
        if node.kind != "list":
            raise Refused("X2")
        if step < -len(node.children):
            raise Refused("X3")
        step += len(node.children) if step < 0 else 0
    found = child(node, step)
    return [(path, node, [step])] if found is None else [(path + [step], found, [])]


def places(root, steps):
    found = [([], root, [])]
    for step in steps:
        found = [place for one in found for place in step_from(one, step)]
    return found


def copied(node):
    if node.kind == "alias":
        raise Refused("X4")
    if node.kind == "list":
        return Node("list", children=[copied(other) for other in node.children])
    if node.kind == "map":
        return Node("map", children=[(key, copied(other)) for key, other in node.children])
    return Node(node.kind, node.text)


def number(text):
    value = int(text, 0 if text[:2] in ("0x", "0o") else 10)
    if not -2**63 <= value < 2**63:
        raise Refused("X8")
    return value


def added(left, right):
    """The sum of two values."""
    if left.kind == "null":
        return right
    if right.kind == "null":
        return left
    if left.kind == "list":
        return Node("list", children=left.children + (right.children if right.kind == "list" else [right]))
    if left.kind == "map" and right.kind == "map":
        entries = dict(left.children)
        entries.update(right.children)
        return Node("map", children=list(entries.items()))
    if {left.kind, right.kind} <= {"int", "float"}:
        if "float" in (left.kind, right.kind):
            raise Refused("X9")
        total = number(left.text) + number(right.text)
        number(str(total))
        return Node("int", str(total))
    if left.kind == right.kind == "str":
        return Node("str", left.text + right.text)
    raise Refused("X7")


def value_of(terms, root, place):
    """The value of a right side: literals, and paths from a place."""
    total = None
    for term in terms:
        if isinstance(term, Node):
            one = term
        else:
            found = places(place[1] if not place[2] else NULL, term)
            if len(found) != 1:
                raise Refused("X6")
            one = copied(NULL if found[0][2] else found[0][1])
        total = one if total is None else added(total, one)
    return total


def is_used(names, node, own):
    """Whether an anchor in a node, its own one too or not, is named by an alias."""
    inside = node.names() if own else [name for _, other in node.under() for name in other.names()]
    return any(kind == "anchor" and ("alias", name) in names for kind, name in inside)


def put(place, value, names):
    """The changes that put a value at a place."""
    path, node, missing = place
    if any(isinstance(step, int) for step in missing):
        raise Refused("X3")
    if not missing:
        if is_used(names, node, False):
            raise Refused("X5")
        return [("put", path, value)]
    for step in reversed(missing[1:]):
        value = Node("map", children=[(step, value)])
    if node.kind == "map":
        return [("add", path, missing[0], value)]
    return [("put", path, Node("map", children=[(missing[0], value)]))]


def add(place, value, names):
    path, node, missing = place
    if value.kind == "null":
        return []
    if missing:
        return put(place, value, names)
    if node.kind == "alias":
        raise Refused("X4")
    if node.kind == "list":
        return [("add", path, None, one) for one in (value.children if value.kind == "list" else [value])]
    if node.kind == "map":
        if value.kind != "map":
            raise Refused("X7")
        changes = []
        for key, one in value.children:
            old = child(node, key)
            if old is not None and is_used(names, old, False):
                raise Refused("X5")
            changes.append(("add", path, key, one) if old is None else ("put", path + [key], one))
        return changes
    return put(place, added(node, value), names)


def remove(place, names):
    path, node, missing = place
    if missing:
        return []
    if not path:
        raise Refused("X12")
    if is_used(names, node, True):
        raise Refused("X5")
    return [("go", path)]


def changes_in(root, update):
    """What an update changes in one document."""
    found = places(root, update.left)
    names = root.names()
    if update.operator == "del":
        return [change for place in found for change in remove(place, names)][::-1]
    if update.operator in ("line_comment", "head_comment"):
        if any(place[2] or not place[0] for place in found):
            raise Refused("X10")
        return []
    if not found:
        return []
    act = add if update.operator == "+=" else put
    if update.operator == "|=":
        return [change for place in found for change in act(place, value_of(update.right, root, place), names)]
    value = value_of(update.right, root, ([], root, []))
    return [change for place in found for change in act(place, value, names)]


def changed(node, path, act):
    """A node with what is at a path changed."""
    if not path:
        return act(node)
    if node.kind == "list":
        inner = [changed(other, path[1:], act) if at == path[0] else other for at, other in enumerate(node.children)]
    else:
        inner = [(at, changed(other, path[1:], act) if at == path[0] else other) for at, other in node.children]
    return Node(node.kind, children=inner, anchor=node.anchor)


def done(root, change):
    kind, path, rest = change[0], change[1], change[2:]
    if kind == "put":
        return changed(root, path, lambda old: Node(rest[0].kind, rest[0].text, rest[0].children, old.anchor))
    if kind == "add":
        one = rest[1] if rest[0] is None else (rest[0], rest[1])
        return changed(root, path, lambda old: Node(old.kind, children=old.children + [one], anchor=old.anchor))
    gone = path[-1]
    return changed(root, path[:-1], lambda old: Node(old.kind, anchor=old.anchor, children=(
        [other for at, other in enumerate(old.children) if at != gone] if old.kind == "list"
        else [(at, other) for at, other in old.children if at != gone])))


def comes_to_a_place(roots, update):
    """Whether the left side of an update leads to a place before it is refused."""
    for root in roots:
        try:
            if places(root, update.left):
                return True
        except Refused:
            return False
    return False


def meaning(roots, update):
    """What an update makes of documents, or its refusal."""
    all_changes = [changes_in(root, update) for root in roots]
    new = []
    for root, changes in zip(roots, all_changes):
        for change in changes:
            root = done(root, change)
        new.append(root)
    return new
