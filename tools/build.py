"""Proves and builds the program and the libraries below it, with a line as each begins and ends.

usage: build.py

`rt ci` does it in a copy of these crates without their wrong bodies, many side by side. Where the kit keeps what it proves on this machine, only
what has changed, and what is above that, is proved again, here and in the gate.
"""

import os
import shutil
import signal
import sys
import tempfile

from copies import copy_to
from crates import carry_out, folder, libraries
from gate import prove, say

PROGRAM = "yq"


def main(words):
    if words:
        print(__doc__.strip(), file=sys.stderr)
        return 2
    sys.stdout.reconfigure(errors="replace")
    signal.signal(signal.SIGTERM, lambda *_: sys.exit(143))
    with tempfile.TemporaryDirectory(prefix="yq-build-") as room:
        copy = os.path.join(room, "copy")
        copy_to(copy, [*libraries()[PROGRAM], PROGRAM])
        status, _, reasons = prove(copy, [])
        if status == 0:
            out = os.path.join(folder(PROGRAM), "out")
            os.makedirs(out, exist_ok=True)
            shutil.copy2(os.path.join(copy, "crates", PROGRAM, "out", PROGRAM), out)
    for line in reasons.told() if status else ():
        say(line)
    return status if status >= 0 else 128 - status


if __name__ == "__main__":
    carry_out(main)
