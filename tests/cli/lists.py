"""A folder with a default access list, which each file that is made there gets."""

import errno
import os
import struct
import subprocess

from harness import NOBODY, Skip, as_user, equal
from other_users import SOMEBODY

ONE, TWO = b"n: 1 # secret\n", b"n: 2 # secret\n"
ACCESS, DEFAULT = "system.posix_acl_access", "system.posix_acl_default"
# A list in the form of the kernel (linux/posix_acl_xattr.h): its version, and of each entry whom it is for, what they may, and their number.
OWNER, USER, GROUP, MASK, OTHERS, NO_ONE = 1, 2, 4, 16, 32, 0xFFFF_FFFF
ENTRIES = [(OWNER, 7, NO_ONE), (USER, 7, NOBODY), (GROUP, 5, NO_ONE), (MASK, 7, NO_ONE), (OTHERS, 5, NO_ONE)]
LIST = struct.pack("<I", 2) + b"".join(struct.pack("<HHI", *entry) for entry in ENTRIES)


def with_default_list(folder):
    """What runs a command as the user whom the list names, and as one whom it doesn't."""
    named, other = as_user(NOBODY, NOBODY), as_user(SOMEBODY, SOMEBODY)
    os.chmod(folder.path, 0o755)
    try:
        os.setxattr(folder.path, DEFAULT, LIST)
    except OSError as why:
        if why.errno != errno.ENOTSUP:
            raise
        raise Skip("the file system has no access lists") from None
    return named, other


def may(folder, before, test, name):
    return subprocess.run([*before, "test", test, folder.name(name)]).returncode == 0


def edited(folder, mode):
    """A file of this mode, without a list, that was edited twice."""
    folder.write("new", ONE)
    os.removexattr(folder.name("new"), ACCESS)
    os.chmod(folder.name("new"), mode)
    os.rename(folder.name("new"), folder.name("f"))
    folder.accepts("-i", ".n = 2", "f")
    folder.accepts("undo", "f")
    folder.accepts("redo", "f")
    equal((folder.read("f"), folder.mode("f"), folder.mode("f.undo.json")), (TWO, mode, mode))


def check_a_default_list_opens_nothing_beside_a_mode_without_group(folder):
    """The mask of the list is the group's bits, which are none."""
    named, other = with_default_list(folder)
    for mode in (0o600, 0o200):
        edited(folder, mode)
        for name in ("f", "f.undo.json"):
            equal((may(folder, named, "-r", name), may(folder, named, "-w", name)), (False, False), (name, oct(mode)))
            equal(may(folder, other, "-w", name), False, (name, oct(mode)))
        os.remove(folder.name("f.undo.json"))


def check_a_default_list_gives_what_the_group_may(folder):
    """And no more: SECURITY.md says it among what doesn't hold."""
    named, other = with_default_list(folder)
    for mode, reads, writes in ((0o640, True, False), (0o660, True, True), (0o620, False, True)):
        edited(folder, mode)
        for name in ("f", "f.undo.json"):
            equal((may(folder, named, "-r", name), may(folder, named, "-w", name)), (reads, writes), (name, oct(mode)))
            equal((may(folder, other, "-r", name), may(folder, other, "-w", name)), (False, False), (name, oct(mode)))
        os.remove(folder.name("f.undo.json"))
