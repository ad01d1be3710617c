"""A file of a lower layer, as of a container's image, is edited, undone and squashed at the first try."""

import os
import subprocess

from harness import Skip, equal

TEXTS = {n: b"n: %d # note\n" % n for n in (1, 2, 3)}
EDIT_2, EDIT_3 = ["-i", ".n = 2", "f"], ["-i", ".n = 3", "f"]
ROWS = [
    ([], EDIT_2, 2),
    ([EDIT_2], ["undo", "f"], 1),
    ([EDIT_2, ["undo", "f"]], ["redo", "f"], 2),
    ([EDIT_2, EDIT_3], ["squash", "2", "f"], 3),
]
MOUNT = 'mount -t overlay overlay -o "lowerdir=l,upperdir=u,workdir=w$1" m && shift && cd m && exec "$@"'


class Layers:
    """A lower layer, and what runs a command over it, in a space of mounts of its own."""

    def __init__(self, folder, name, space, options):
        self.top = type(folder)(folder.yq, folder.name(name))
        self.over = ["unshare", *space, "sh", "-c", MOUNT, "sh", options]
        for path in ("", "l", "u", "w", "m"):
            os.mkdir(self.top.name(path))
        self.lower = type(folder)(folder.yq, self.top.name("l"))

    def may_mount(self):
        done = subprocess.run([*self.over, "true"], cwd=self.top.path, capture_output=True)
        return done.returncode == 0


def is_taken_at_once(folder, name, space, options, row, links):
    prepare, words, wanted = row
    layers = Layers(folder, name, space, options)
    if not layers.may_mount():
        return 0
    layers.lower.write("f", TEXTS[1])
    for before in prepare:
        layers.lower.accepts(*before)
    if links:
        os.link(layers.lower.name("f"), layers.lower.name("g"))
    old = layers.lower.files()
    equal(layers.top.run(*words, before=layers.over), (0, b"", b""), (name, words))
    seen = layers.top.run(".n", "f", before=layers.over)
    equal((seen, layers.lower.files()), ((0, b"%d\n" % wanted, b""), old), (name, words))
    equal(layers.top.read("u/f"), TEXTS[wanted], (name, words))
    return 1


def each_command(folder, space, choices):
    """How many of the commands were tried, with each of these options of the mount that the system takes."""
    tried = 0
    for number, options in enumerate(choices):
        for at, row in enumerate(ROWS):
            for links in (False, True):
                tried += is_taken_at_once(folder, f"{number}-{at}-{links}", space, options, row, links)
    if not tried:
        raise Skip("may not mount layers")


def check_a_file_of_a_lower_layer_as_a_user(folder):
    """Without rights of root: in a space of users of its own."""
    each_command(folder, ["--user", "--map-root-user", "--mount"], [",userxattr"])


def check_a_file_of_a_lower_layer_as_root(folder):
    if os.geteuid() != 0:
        raise Skip("needs root")
    each_command(folder, ["--mount"], ["", ",metacopy=on", ",index=on,xino=on"])


def check_a_lower_layer_of_another_file_system(folder):
    """There the number of a file may change once it is written."""
    if os.geteuid() != 0:
        raise Skip("needs root")
    layers = Layers(folder, "two", ["--mount"], ",xino=off")
    mount = "mount -t tmpfs tmpfs l && printf 'n: 1 # note\\n' > l/f && ln l/f l/g && " + MOUNT
    over = ["unshare", "--mount", "sh", "-c", mount, "sh", ",xino=off"]
    if subprocess.run([*over, "true"], cwd=layers.top.path, capture_output=True).returncode != 0:
        raise Skip("may not mount layers")
    equal(layers.top.run(*EDIT_2, before=over), (0, b"", b""))
    equal(layers.top.read("u/f"), TEXTS[2])
