"""Each growth of memory in a command is refused in turn: alone, or with all that come after it.

The C library is set to ask the system for each growth by a call of its own, and strace refuses these calls. The command
is then refused as out of memory. The file holds the text before it or the one after it, and what comes next goes on.
"""

import os
from concurrent.futures import ThreadPoolExecutor

from fault_injection import EDIT, WORKERS, Scenario, goes_on, leftovers, of_each_command, outcome, prepared, walk_through
from harness import Skip, equal
from tracing import calls_in, traced

EACH_GROWTH = {**os.environ, "MALLOC_MMAP_THRESHOLD_": "0"}
NO_OTHER_WAY = ("brk:error=ENOMEM:when=2+", "mremap:error=ENOMEM")
REFUSED, DONE = (1, b"Error: M1 out of memory\n"), (0, b"")


def grown(folder, words, *refused):
    return traced(folder, words, *NO_OTHER_WAY, *refused, env=EACH_GROWTH)


def growths(folder, words):
    """The numbers of the calls by which a command grows, after those that load it and the C library's own first one."""
    status, err, trace = grown(folder, words)
    calls = calls_in(trace)
    equal((status, err), (0, b""))
    loaded = next(i for i, call in enumerate(calls) if call.name == "munmap")
    numbers = [call.number for call in calls[loaded:] if call.name == "mmap"][1:]
    if not numbers:
        raise Skip("the C library asks for memory in another way")
    return numbers


def lacks_memory(first, path, scenario, refused, answers):
    """The command with growths refused."""
    folder = first.copy(path)
    try:
        status, err, trace = grown(folder, scenario.words, f"mmap:error=ENOMEM:when={refused}")
        equal((status, err) in answers, True, (status, err))
        equal(status != 0 and any(line.startswith("write(1,") for line in trace), False, "prints")
        history = outcome(first, folder, scenario)
        equal(status != 0 or history is scenario.after, True)
        equal(leftovers(folder), [])
        goes_on(folder, history, walk_through)
    except Exception as why:
        raise AssertionError(f"growth {refused}: {why}") from why


def each_growth(folder, name, scenario):
    """A growth that is refused alone may be asked for again, by less. The C library asks in two ways for each."""
    first = prepared(folder, scenario)
    numbers = growths(first.copy(folder.name("whole")), scenario.words)
    with ThreadPoolExecutor(WORKERS) as pool:
        jobs = []
        for number in numbers:
            for refused, answers in ((f"{number}..{number + 1}", [REFUSED, DONE]), (f"{number}+", [REFUSED])):
                path = folder.name(f"growth-{refused}")
                jobs.append(pool.submit(lacks_memory, first, path, scenario, refused, answers))
        for job in jobs:
            job.result()
    print(f"{name}: {len(numbers)} growths; each was refused, alone and with all after it")


globals().update(of_each_command("growth", each_growth))


def check_each_growth_of_what_prints(folder):
    for words in (["history", "f"], [".n = 7", "f"], [".n", "f"], ["--help"]):
        later = type(folder)(folder.yq, folder.name(words[0]))
        os.mkdir(later.path)
        each_growth(later, " ".join(words), Scenario(words, EDIT.prepare, EDIT.before, EDIT.before))
