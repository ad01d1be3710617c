"""What another program saves between the reading of a file and its renaming is not written over."""

import os
from concurrent.futures import ThreadPoolExecutor

from harness import NOBODY, Skip, each_user, equal
from tracing import Call, Held, calls_in, own_calls, traced

ONE = b"m: x\nn: 1 # one\n"
THEIRS = b"m: x\nn: 7 # one\n"
EDIT = ["-i", ".n = 2", "f"]
REFUSED = (1, b"", b"Error: S3 write failed\n")


def written_in_place(folder):
    with open(folder.name("f"), "r+b") as file:
        file.write(THEIRS)


def renamed_over(folder):
    folder.write("new", THEIRS)
    os.chmod(folder.name("new"), folder.mode("f"))
    os.rename(folder.name("new"), folder.name("f"))


def given_another_mode(folder):
    os.chmod(folder.name("f"), 0o640)


WAYS = [written_in_place, renamed_over, given_another_mode]


def calls_of_a_run(first, path, words, nobody):
    """Those that are the program's own."""
    folder = first.copy(path)
    os.chmod(folder.path, 0o777)
    status, err, trace = traced(folder, words, nobody=nobody)
    equal((status, err), (0, b""), words)
    return own_calls([call for call in calls_in(trace) if call.name != "exit_group"], "f")


def last_look(own, end):
    """Where, up to an index, the last look at the file is."""
    return max(i for i, call in enumerate(own) if call.name == "statx" and '"f"' in call.text and i < end)


def calls_before_the_first_write(first, path, words, nobody):
    """Those from the reading of the file on, up to the last look at it."""
    own = calls_of_a_run(first, path, words, nobody)
    read = next(i for i, call in enumerate(own) if call.name == "read")
    made = next(i for i, call in enumerate(own) if "O_EXCL" in call.text)
    return own[read : last_look(own, made)]


def calls_between_the_writes(first, path, words, nobody):
    """Those from the first temporary file on, up to the last look at the file before another is renamed over it."""
    own = calls_of_a_run(first, path, words, nobody)
    made = next(i for i, call in enumerate(own) if "O_EXCL" in call.text)
    renamed = next(i for i, call in enumerate(own) if call.name == "rename" and ', "f")' in call.text)
    return own[made : last_look(own, renamed)]


def is_put_back(first, path, call, words, way, nobody):
    """The file is theirs, the journal has the bytes that it had or is not there, and nothing is left next to them."""
    folder = first.copy(path)
    os.chmod(folder.path, 0o777)
    held = Held(folder, call, words, nobody)
    way(folder)
    theirs = {**{name: first.read(name) for name in first.names()}, "f": folder.read("f")}
    equal(held.sent(), REFUSED, (call, way.__name__))
    equal({name: folder.read(name) for name in folder.names()}, theirs, (call, way.__name__))


def is_seen(first, path, call, words, way, nobody):
    folder = first.copy(path)
    os.chmod(folder.path, 0o777)
    held = Held(folder, call, words, nobody)
    way(folder)
    theirs = folder.files()
    equal((held.sent(), folder.files()), (REFUSED, theirs), (call, way.__name__))


def each_save(folder, commands, calls_of, is_held):
    for place, user, _before in each_user(folder):
        for words in commands:
            first = type(folder)(folder.yq, place.name(words[0].strip("-")))
            os.mkdir(first.path)
            first.write("f", ONE)
            if words != EDIT:
                first.accepts("-i", ".n = 3", "f")
                first.accepts("-i", ".n = 4", "f")
            for name in first.names():
                os.chown(first.name(name), user, user)
            os.chmod(first.path, 0o777)
            calls = calls_of(first, first.path + "-whole", words, user == NOBODY)
            equal(len(calls) > 3, True, calls)
            with ThreadPoolExecutor(len(calls)) as pool:
                jobs = []
                for i, call in enumerate(calls):
                    path = f"{first.path}-{call.name}-{call.number}"
                    jobs.append(pool.submit(is_held, first, path, call, words, WAYS[i % len(WAYS)], user == NOBODY))
                for job in jobs:
                    job.result()


def check_a_save_before_the_first_write(folder):
    each_save(folder, (EDIT, ["undo", "f"], ["squash", "2", "f"]), calls_before_the_first_write, is_seen)


def check_a_save_between_the_writes(folder):
    each_save(folder, (EDIT, ["undo", "f"]), calls_between_the_writes, is_put_back)


def check_a_file_that_is_gone_between_the_writes(folder):
    """It isn't made anew."""
    folder.write("f", ONE)
    call = calls_between_the_writes(folder, folder.path + "-whole", EDIT, False)[-1]
    held = Held(folder, call, EDIT)
    os.remove(folder.name("f"))
    equal((held.sent(), folder.names()), (REFUSED, []))


def check_a_save_that_can_not_be_put_back(folder):
    """The journal, which someone else may write by now, isn't touched, and the next command says that it is unsettled."""
    folder.write("f", ONE)
    folder.accepts("-i", ".n = 3", "f")
    call = calls_between_the_writes(folder, folder.path + "-whole", EDIT, False)[-1]
    held = Held(folder, call, EDIT)
    folder.write("f", THEIRS)
    os.chmod(folder.name("f.undo.json"), 0o666)
    equal((held.sent(), folder.read("f")), (REFUSED, THEIRS))
    os.chmod(folder.name("f.undo.json"), 0o644)
    folder.refuses("J5 unsettled", "history", "f")


def emptied_and_saved(folder, name):
    """Another program empties the file, and saves it while the run waits; nothing where the run began too late for that."""
    place = type(folder)(folder.yq, folder.name(name))
    os.mkdir(place.path)
    place.write("f", ONE)
    pause = Call("clock_nanosleep", 1, "")
    with open(place.name("f"), "wb") as saved:
        try:
            held = Held(place, pause, EDIT, rests=False)
        except AssertionError:
            return None
        saved.write(THEIRS)
    return held.sent(), place.read("f")


def check_a_save_by_truncation(folder):
    """A file that was emptied just now isn't taken for an empty text."""
    for number in range(40):
        done = emptied_and_saved(folder, f"{number}")
        if done is not None:
            equal(done, ((0, b"", b""), THEIRS.replace(b"7", b"2")))
            return
    raise Skip("no run began in time")
