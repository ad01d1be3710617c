"""A save by another program that leaves a file's size and times as they were is seen by its bytes.

So it is where two changes come within one tick of the clock, or a file system keeps whole seconds. The system is made to report
one time for all files, since no program may choose the time of a change.
"""

import os
import struct
import time

from external_writes import EDIT, ONE, REFUSED, THEIRS, calls_between_the_writes, written_in_place
from harness import NOBODY, each_user, equal
from tracing import Held

# What a call of statx fills in before the times of reading, making, changing and writing; and such a time.
FRONT, TIME = "<IIQIIIHHQQQQ", "<qIi"
ALL, IN_2100 = 0xFFF, 4_102_444_800


def reported(folder, seconds, nanoseconds):
    """What the system is to report of each file: that it is FILE, and when it was changed."""
    seen = os.stat(folder.name("f"))
    front = (ALL, 4096, 0, seen.st_nlink, seen.st_uid, seen.st_gid, seen.st_mode, 0, seen.st_ino, seen.st_size, 8, 0)
    data = struct.pack(FRONT, *front) + struct.pack(TIME, seconds, nanoseconds, 0) * 4
    return f"statx:poke_exit=@arg5={data.hex()}:when=1+"


def is_compared(folder, seconds_before, nanoseconds, at):
    """A save within the same tick, between the writes; the file was changed so many seconds before."""
    for place, user, _before in each_user(folder):
        first = type(folder)(folder.yq, place.name("first"))
        os.mkdir(first.path)
        first.write("f", ONE)
        os.chown(first.name("f"), user, user)
        os.chmod(first.path, 0o777)
        call = calls_between_the_writes(first, place.name("whole"), EDIT, user == NOBODY)[-1]
        for way, answer, left in ((written_in_place, REFUSED, THEIRS), (None, (0, b"", b""), ONE.replace(b"1 #", b"2 #"))):
            later = first.copy(place.name(f"saved-{way is not None}"))
            os.chmod(later.path, 0o777)
            if at is not None:
                time.sleep((at - time.time()) % 1)
            seconds = IN_2100 if seconds_before is None else int(time.time()) - seconds_before
            held = Held(later, call, EDIT, user == NOBODY, rests=False, also=reported(later, seconds, nanoseconds))
            if way is not None:
                way(later)
            equal((held.sent(), later.read("f")), (answer, left))
            equal(later.names(), ["f"] if way is not None else ["f", "f.undo.json"])


def check_a_save_within_one_tick_of_the_clock(folder):
    """A time that is later than the clock says is one of the last tick, too."""
    is_compared(folder, None, 1, None)


def check_a_save_within_one_second_where_files_have_whole_seconds(folder):
    is_compared(folder, 0, 0, 0.3)


def check_a_save_within_two_seconds_where_files_have_every_other_one(folder):
    is_compared(folder, 1, 0, 0.3)
