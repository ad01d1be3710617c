"""What a run of `rt ci` says of why it failed, taken from its lines."""

import re

# Of each crate, so many lines are reported again.
MOST = 24
ERROR = re.compile(r"(note: )?\S+:\d+:\d+: |error\b|rt: |thread |.*\bFAILED\b")
FAILURE = re.compile(r"rt: (\S+.* NOT PROVED|.*: (NOT REFUSED|BAD EDIT)\b|.*\bFAILED\b|.*: the program )")
BEGIN = re.compile(r"== |rt: \w+(: its tests are)? proved$")
HARMLESS = re.compile(r"rt: (note: |chose |warning: )|note: proofs/.*unused")


class Reasons:
    """Hears the lines of a run one by one, and says at its end those that say why it failed."""

    def __init__(self):
        # The lines since a crate's heading, the last lines of all, and what is to be told.
        self.block, self.last, self.found = [], [], []

    def hear(self, line):
        self.last = [*self.last, line][-MOST:]
        if BEGIN.match(line):
            self.block = []
        elif FAILURE.match(line):
            self.found += [line, *self.of_block()]
            self.block = []
        else:
            self.block.append(line)

    def of_block(self):
        """The errors of a crate's lines, or the last of these where none looks like one."""
        errors = [it for it in self.block if ERROR.match(it) and not HARMLESS.match(it)]
        told = errors[:MOST] or self.block[-MOST:]
        more = len(errors) - MOST
        return [f"    {it[:400]}" for it in told] + [f"    and {more} more"] * (more > 0)

    def told(self):
        return ["", "It failed, since:", *(self.found or self.last)]
