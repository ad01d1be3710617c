"""Makes the archive for those who don't build: what `make install` puts below a prefix, a short README, the demo, the notices of the
toolchain's libraries and checksums.

usage: dist.py PATH_OF_YQ FOLDER      writes FOLDER/yq-VERSION-linux-x86_64.tar.gz

The same files give the same bytes.
"""

import gzip
import hashlib
import os
import shutil
import subprocess
import sys
import tarfile
import tempfile

from crates import ROOT
from notices import notices
from version import version

NAME = f"yq-{version()}-linux-x86_64"
ADDED = ("examples/demo.sh", "examples/server.yaml")
README = """\
# yq: edit YAML files in place, with undo

`yq` prints the values of a YAML file, changes what it is asked to and no other byte of it, and takes any edit back to the byte.

    yq EXPR FILE               print what EXPR reads, or FILE as the update EXPR would leave it
    yq -i EXPR FILE            edit FILE in place, and record the edit in FILE.undo.json
    yq undo FILE               take the last edit back; yq redo FILE makes it again
    yq history FILE            list the edits; yq squash N FILE joins the last N
    yq --help                  all commands and options

It runs on Linux with glibc on x86-64-v2. To install it, copy bin/ and share/ below a prefix: `cp -R bin share ~/.local`. To remove
it, remove these files there. `sha256sum --check SHA256SUMS` and `sh examples/demo.sh bin/yq examples/server.yaml`, in this folder,
show that it is whole and works.

Pages, in share/doc/yq: the [manual](share/doc/yq/MANUAL.md) has an example for each task;
[FROM-YQ-V4](share/doc/yq/FROM-YQ-V4.md) is for who knows yq version 4; [EXPRESSIONS](share/doc/yq/EXPRESSIONS.md),
[TEXT](share/doc/yq/TEXT.md), [STYLE-AND-EXTENTS](share/doc/yq/STYLE-AND-EXTENTS.md) and [JOURNAL](share/doc/yq/JOURNAL.md) have all
of the language, of the texts that are read, of what an edit writes, and of the journal. NOTICES has the terms of the libraries of
which the program contains code.
"""


def install(yq, top):
    """Puts below a folder what `make install` puts below PREFIX."""
    words = ["make", "--silent", "--directory", ROOT, f"YQ={yq}", f"PREFIX={top}", "DESTDIR=", "install"]
    environment = {name: value for name, value in os.environ.items() if name not in ("MAKEFLAGS", "MFLAGS", "MAKELEVEL")}
    subprocess.run(words, check=True, env=environment)


def files_below(top):
    """The files below a folder, by their paths in it, in order."""
    found = [os.path.join(folder, name) for folder, _, names in os.walk(top) for name in names]
    return sorted(os.path.relpath(file, top) for file in found)


def add_pages(top):
    """Adds the README, the notices and the demo."""
    for name in ADDED:
        os.makedirs(os.path.dirname(os.path.join(top, name)), exist_ok=True)
        shutil.copy(os.path.join(ROOT, name), os.path.join(top, name))
    with open(os.path.join(top, "README.md"), "w", encoding="utf-8") as page:
        page.write(README)
    with open(os.path.join(top, "NOTICES"), "w", encoding="utf-8") as page:
        page.write(notices())


def add_sums(top):
    """Adds the file of checksums, as sha256sum writes it."""
    lines = []
    for name in files_below(top):
        with open(os.path.join(top, name), "rb") as file:
            lines.append(f"{hashlib.sha256(file.read()).hexdigest()}  {name}\n")
    with open(os.path.join(top, "SHA256SUMS"), "w", encoding="utf-8") as sums:
        sums.writelines(lines)


def bare(member):
    """A member without owner and time."""
    member.uid = member.gid = member.mtime = 0
    member.uname = member.gname = ""
    member.mode = 0o755 if member.mode & 0o100 else 0o644
    return member


def pack(top, path):
    with open(path, "wb") as out, gzip.GzipFile("", "wb", 9, out, 0) as packed:
        with tarfile.open(fileobj=packed, mode="w", format=tarfile.USTAR_FORMAT) as archive:
            for name in files_below(top):
                archive.add(os.path.join(top, name), f"{NAME}/{name}", filter=bare)


def main(words):
    if len(words) != 2:
        print(__doc__.strip(), file=sys.stderr)
        return 2
    yq, folder = map(os.path.abspath, words)
    with tempfile.TemporaryDirectory(prefix="yq-dist-") as top:
        install(yq, top)
        add_pages(top)
        add_sums(top)
        os.makedirs(folder, exist_ok=True)
        pack(top, os.path.join(folder, f"{NAME}.tar.gz"))
    return 0


if __name__ == "__main__":
    sys.exit(main(sys.argv[1:]))
