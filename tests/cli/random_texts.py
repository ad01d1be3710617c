"""Random block texts of the profile: mappings, sequences, scalars of every style, flow, anchors, comments, documents."""

SCALARS = ["web", "x y", "a-b", "8080", "1.5", "true", "null", "~", "'it''s'", '"q\\tz"', "'#no'", '"- x"', "-x", "a:b",
           "0x1F", "word # c", "'s' # c", "two # c # d", "v"]
FOLDED = ["one\n%stwo", "'one\n%stwo'", '"one\n\n%stwo"']
FLOW = ["[1, a, {b: c}]", "{a: 1, b: [x]}", "[]", "{}", "[ a, 'b' ,c]", "{a: , \"k\": 2}"]
KEYS = ["a", "b", "c", "d", "key", '"q k"', "'s'"]


class Texts:
    """Texts of one source of random numbers; each has its own anchors."""

    def __init__(self, source):
        self.source = source
        self.anchors = []

    def text(self):
        text = self.document()
        for _ in range(self.source.choice([0, 0, 0, 0, 0, 0, 1, 2])):
            text += "---\n" + self.document()
        if self.chance(0.1):
            text = "---\n" + text
        if self.chance(0.1):
            text = text.rstrip("\n")
        if self.chance(0.3):
            text = text.replace("\n", "\r\n")
        return text

    def document(self):
        self.anchors = []
        if self.chance(0.08):
            return self.source.choice(["", "# c\n", "x\n", "[a, b]\n", "{}\n", "&r 5 # c\n"])
        lead = "# lead\n" if self.chance(0.2) else ""
        return lead + self.source.choice([self.mapping, self.sequence])(0, 3)

    def chance(self, share):
        return self.source.random() < share

    def anchor(self):
        if not self.chance(0.12):
            return ""
        self.anchors.append(f"a{len(self.anchors)}")
        return f"&{self.anchors[-1]} "

    def gap(self, column):
        if self.chance(0.1):
            return " " * self.source.choice([0, column, column + 1]) + "# c\n"
        return "\n" if self.chance(0.05) else ""

    def scalar(self, column):
        share = self.source.random()
        if share < 0.75:
            return self.source.choice(SCALARS)
        if share < 0.85:
            return self.source.choice(FOLDED).replace("%s", " " * (column + 2))
        if share < 0.93:
            return self.source.choice(FLOW)
        indent = " " * (column + 2)
        return self.source.choice(["|", ">"]) + self.source.choice(["", "-", "+"]) + f"\n{indent}text\n{indent} more"

    def line_end(self):
        return self.source.choice(["", " # c", "  "]) + "\n"

    def value(self, column, depth, has_key):
        """What is after the key or dash of a line of that column, with its break."""
        share = self.source.random()
        if share < 0.12:
            return (" " + self.anchor()).rstrip() + self.line_end()
        if share < 0.3:
            anchor = self.anchor().rstrip()
            under = column + self.source.choice([1, 2, 4])
            own = "" if anchor else self.anchor()
            return (" " + anchor).rstrip() + self.line_end() + self.gap(under) + " " * under + own + self.scalar(under) + "\n"
        if share < 0.38 and self.anchors:
            return " *" + self.source.choice(self.anchors) + "\n"
        if depth > 0 and share < 0.72:
            return (" " + self.anchor()).rstrip() + self.source.choice(["", " # c"]) + "\n" + self.lines(column, depth - 1, has_key)
        if not has_key and depth > 0 and share < 0.8:
            return " " + self.source.choice([self.mapping, self.sequence])(column + 2, depth - 1).lstrip(" ")
        return " " + self.anchor() + self.scalar(column) + "\n"

    def lines(self, column, depth, has_key):
        if self.chance(0.5):
            return self.mapping(column + self.source.choice([1, 2, 3]), depth)
        same = has_key and self.chance(0.5)
        return self.sequence(column if same else column + self.source.choice([1, 2]), depth)

    def mapping(self, column, depth):
        keys = self.source.sample(KEYS, self.source.randrange(1, 5))
        return self.children(column, [(key + ":", True) for key in keys], depth)

    def sequence(self, column, depth):
        return self.children(column, [("-", False)] * self.source.randrange(1, 4), depth)

    def children(self, column, marks, depth):
        out = ""
        for mark, has_key in marks:
            out += (self.gap(column) if out else "") + " " * column + mark + self.value(column, depth, has_key)
        return out
