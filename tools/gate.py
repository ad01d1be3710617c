"""The whole gate: `rt ci`, with a line as each crate's proof, tests and wrong bodies begin and end, and then the program on real files.

usage: gate.py PATH_OF_YQ [--anew]      with --anew, `rt ci` takes nothing that an earlier run passed

Where `rt ci` passes, a table says what each crate took, or has taken where it was kept, and the longest chain of proofs; the page
docs/GATE.md gets both. Where it doesn't pass, the reasons are reported once more at the end: what the prover says of each crate that is
not proved, and each wrong body that is not refused. Else the last two lines are the processor seconds (user and system) that all of
it took, and what tests/cli says last, or that it said nothing.
The status is that of `rt ci`, or of tests/cli where `rt ci` passed.
"""

import os
import queue
import re
import signal
import subprocess
import sys
import threading
import time

from crates import ROOT, RT, carry_out, kept_by_host, took
from gate_page import chain_line, rows_of_page, table, with_tasks, write
from reasons import Reasons
from watch import PROOF, TESTS, Watch

VERDICT = re.compile(r"rt: (\w+)(: its tests are)? (NOT PROVED|proved)")
BEGAN, KEPT = time.monotonic(), kept_by_host()


def say(text):
    print(text, flush=True)


def tell(text):
    say(f"{time.monotonic() - BEGAN:5.0f} s  {text}")


def begins(crate, kind, task):
    tell(f"{crate}: {kind} begin{'s' if kind == PROOF else ''}")


def ends(crate, kind, task):
    tell(f"{crate}: {kind} ended, {task.seen - task.began:.0f} s by the clock, {task.seconds():.0f} of processors")


def each_line(stream):
    """The lines of a stream as they come, and None where a second passed without one."""
    lines = queue.Queue()

    def read():
        for line in stream:
            lines.put(line.rstrip("\n"))
        lines.put(stream)

    threading.Thread(target=read, daemon=True).start()
    while True:
        try:
            line = lines.get(timeout=1)
        except queue.Empty:
            yield None
            continue
        if line is stream:
            return
        yield line


def tell_times(tasks):
    """Prints what each crate took, and the longest chain, and writes the page of these where something was done."""
    rows, done = with_tasks(rows_of_page(), tasks)
    for line in [*table(rows, done), chain_line(rows)]:
        say(line)
    if done:
        try:
            write(rows, took(BEGAN, KEPT))
        except OSError as why:
            say(f"the page of the gate isn't written: {why}")


def prove(top, words, hear=lambda line: None):
    """Runs `rt ci` in a folder, passes its lines on, and gives its status, what was seen of its checks, and why it failed."""
    how = {"cwd": top, "stdout": subprocess.PIPE, "stderr": subprocess.STDOUT, "encoding": "utf-8", "errors": "replace"}
    rt = subprocess.Popen([*RT, "ci", *words], **how)
    watch, reasons = Watch(rt.pid, begins, ends), Reasons()
    try:
        for line in each_line(rt.stdout):
            watch.look()
            if line is None:
                continue
            told = VERDICT.match(line)
            if told:
                watch.end(told[1], TESTS if told[2] else PROOF)
            reasons.hear(line)
            hear(line)
            say(line)
        rt.wait()
    except KeyboardInterrupt:
        # The terminal has interrupted it too: it puts back what it set aside.
        rt.wait()
        raise
    finally:
        if rt.poll() is None:
            rt.terminate()
            rt.wait()
    watch.close()
    return rt.returncode, watch.tasks, reasons


def run_program(yq):
    """Runs tests/cli, passes its lines on but the last, and gives its status and that line."""
    line = [sys.executable, os.path.join(ROOT, "tests", "cli", "run.py"), yq]
    tests = subprocess.Popen(line, cwd=ROOT, stdout=subprocess.PIPE, encoding="utf-8", errors="replace")
    last = None
    try:
        for line in tests.stdout:
            if last is not None:
                say(last)
            last = line.rstrip("\n")
    finally:
        if tests.poll() is None:
            tests.terminate()
        tests.wait()
    return tests.returncode, last


def main(words):
    if not words or words[1:] not in ([], ["--anew"]):
        print(__doc__.strip(), file=sys.stderr)
        return 2
    sys.stdout.reconfigure(errors="replace")
    signal.signal(signal.SIGTERM, lambda *_: sys.exit(143))
    status, tasks, reasons = prove(ROOT, words[1:])
    end = reasons.told()
    if status == 0:
        tell_times(tasks)
        status, last = run_program(words[0])
        end = [last or f"tests/cli said nothing, and ended with status {status}"]
    say(took(BEGAN, KEPT))
    for line in end:
        say(line)
    return status if status >= 0 else 128 - status


if __name__ == "__main__":
    carry_out(main)
