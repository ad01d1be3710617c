"""Carries a command out and gives the processor's time and the peak of the resident memory that it took.

usage: measured.py COMMAND..

A process keeps the peak of the one that started it, so a small one is between a script that holds texts and the
command: `used_by` runs this file for it. It prints seconds and bytes; what the command prints is left out, its errors
are not. The instructions of a command, which don't vary, are counted by valgrind's callgrind.
"""

import os
import subprocess
import sys


def used_by(command, folder):
    """The processor's time in seconds, the peak of the resident memory in bytes, and the errors of a command."""
    done = subprocess.run([sys.executable, "-SE", __file__, *command], cwd=folder, capture_output=True, check=True)
    seconds, peak = done.stdout.split()
    return float(seconds), int(peak), done.stderr


def by_callgrind(command, folder, printed=subprocess.DEVNULL, check=False):
    """A command that was carried out, with what it printed where that is asked for, and how many instructions it took."""
    out = os.path.join(folder, "callgrind")
    line = ["valgrind", "--tool=callgrind", f"--callgrind-out-file={out}", *command]
    done = subprocess.run(line, cwd=folder, stdout=printed, stderr=subprocess.DEVNULL, check=check)
    with open(out, encoding="utf-8") as counts:
        return done, next(int(row.split()[1]) for row in counts if row.startswith(("summary:", "totals:")))


def instructions(command, folder, check=True):
    """How many instructions a command takes, which may fail only where that is not checked."""
    return by_callgrind(command, folder, check=check)[1]


def main():
    child = subprocess.Popen(sys.argv[1:], stdout=subprocess.DEVNULL)
    used = os.wait4(child.pid, 0)[2]
    print(used.ru_utime + used.ru_stime, used.ru_maxrss * 1024)


if __name__ == "__main__":
    main()
