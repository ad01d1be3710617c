"""Disks that are full or may not be written."""

import json
import os
import shutil
import subprocess

from harness import Skip, equal

WEB = b"name: web # main\nport: 8080\n"
BLOCK = 4096


class Disk:
    """A small disk in memory, on the folder `disk`."""

    def __init__(self, folder, blocks):
        self.path = folder.name("disk")
        self.folder = type(folder)(folder.yq, self.path)
        os.mkdir(self.path)
        if os.geteuid() != 0 or not self.mount("-t", "tmpfs", "-o", f"size={blocks * BLOCK}", "tmpfs"):
            raise Skip("may not mount a disk")

    def mount(self, *words):
        return subprocess.run(["mount", *words, self.path], capture_output=True).returncode == 0

    def again(self, *options):
        equal(self.mount("-o", ",".join(("remount", *options))), True, options)

    def __enter__(self):
        return self

    def __exit__(self, *_why):
        subprocess.run(["umount", self.path], check=True)


def long_text(value):
    return b"# " + b"x" * (20 * BLOCK) + b"\nn: " + value + b"\n"


def check_a_full_disk(folder):
    """The journal with the open move has no room: nothing is changed."""
    with Disk(folder, 40) as disk:
        disk.folder.write("f", long_text(b"1"))
        disk.folder.refuses("S3 write failed", "-i", ".n = 2", "f")
        equal((disk.folder.read("f"), disk.folder.names()), (long_text(b"1"), ["f"]))
        disk.again(f"size={400 * BLOCK}")
        disk.folder.accepts("-i", ".n = 2", "f")
        equal(disk.folder.read("f"), long_text(b"2"))


def check_a_disk_that_is_full_after_the_journal(folder):
    """The journal has room and the new file has none: the open move is settled when there is room."""
    with Disk(folder, 60) as disk:
        disk.folder.write("f", long_text(b"1"))
        disk.folder.refuses("S3 write failed", "-i", ".n = 2", "f")
        equal((disk.folder.read("f"), disk.folder.names()), (long_text(b"1"), ["f", "f.undo.json"]))
        equal(json.loads(disk.folder.read("f.undo.json"))["pending"] is None, False, "a move is open")
        disk.folder.refuses("J1 nothing to undo", "undo", "f")
        equal(disk.folder.read("f"), long_text(b"1"))
        disk.again(f"size={400 * BLOCK}")
        disk.folder.accepts("-i", ".n = 3", "f")
        disk.folder.accepts("undo", "f")
        equal(disk.folder.read("f"), long_text(b"1"))
        disk.folder.refuses("J1 nothing to undo", "undo", "f")


def check_a_disk_that_is_read_only(folder):
    with Disk(folder, 40) as disk:
        disk.folder.write("f", WEB)
        disk.again("ro")
        disk.folder.refuses("S3 write failed", "-i", ".port = 9090", "f")
        equal((disk.folder.read("f"), disk.folder.names()), (WEB, ["f"]))


def check_a_link_to_another_disk(folder):
    with Disk(folder, 40) as disk:
        disk.folder.write("f", WEB)
        os.symlink("disk/f", folder.name("l"))
        folder.accepts("-i", ".port = 9090", "l")
        equal(disk.folder.read("f"), b"name: web # main\nport: 9090\n")
        folder.accepts("undo", "l")
        equal((disk.folder.read("f"), disk.folder.names(), folder.names()), (WEB, ["f"], ["disk", "l", "l.undo.json"]))


def mounted(folder, own, file):
    """What runs a command where a file is mounted over another one: in a space of mounts of its own."""
    line = ["unshare", "--mount", "sh", "-c", f'mount --bind {own} {file} && exec "$0" "$@"']
    if shutil.which("unshare") is None or subprocess.run([*line, "true"], cwd=folder.path, capture_output=True).returncode != 0:
        raise Skip("may not mount a file")
    return line


def check_a_file_that_is_mounted_on_its_own(folder):
    """No file can be renamed over it: nothing is written."""
    folder.write("own", WEB)
    folder.write("f", b"")
    line = mounted(folder, "own", "f")
    for edit in (["-i", ".port = 9090", "f"], ["-i", ".port = 9090", "--journal", "j", "f"]):
        equal(folder.run(*edit, before=line), (1, b"", b"Error: S3 write failed\n"))
        equal((folder.read("own"), folder.read("f"), folder.names()), (WEB, b"", ["f", "own"]))
    equal(folder.run(".port = 9090", "f", before=line), (0, b"name: web # main\nport: 9090\n", b""))


def check_a_journal_that_is_mounted_on_its_own(folder):
    folder.write("f", WEB)
    folder.accepts("-i", ".port = 9090", "f")
    for name in ("own", "j"):
        folder.write(name, folder.read("f.undo.json"))
    before = {name: folder.read(name) for name in folder.names()}
    line = mounted(folder, "own", "j")
    for words in (["undo", "--journal", "j", "f"], ["-i", ".port = 1", "--journal", "j", "f"]):
        equal(folder.run(*words, before=line), (1, b"", b"Error: S3 write failed\n"))
        equal({name: folder.read(name) for name in folder.names()}, before)
