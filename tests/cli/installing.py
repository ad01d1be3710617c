"""`make install`, `make uninstall`, and the archive for those who don't build."""

import hashlib
import os
import re
import shutil
import subprocess
import sys
import tarfile

from docs_agree import LINK, version_told
from harness import ROOT, SECONDS, Skip, equal

PAGES = ("MANUAL", "FROM-YQ-V4", "EXPRESSIONS", "TEXT", "STYLE-AND-EXTENTS", "JOURNAL")
INSTALLED = {
    "bin/yq": 0o755,
    "share/man/man1/yq.1": 0o644,
    "share/bash-completion/completions/yq": 0o644,
    "share/fish/vendor_completions.d/yq.fish": 0o644,
    "share/zsh/site-functions/_yq": 0o644,
    **{f"share/doc/yq/{page}.md": 0o644 for page in PAGES},
}
ADDED = {"README.md", "NOTICES", "SHA256SUMS", "examples/demo.sh", "examples/server.yaml"}


def run(folder, *words, cwd=ROOT, **environment):
    """Runs words with nothing in the environment but PATH and what is given."""
    if shutil.which(words[0]) is None:
        raise Skip(f"needs {words[0]}")
    done = subprocess.run(
        words,
        cwd=cwd,
        env={"PATH": os.environ.get("PATH", os.defpath), **environment},
        stdin=subprocess.DEVNULL,
        capture_output=True,
        timeout=SECONDS,
    )
    equal((done.returncode, done.stderr), (0, b""), words)
    return done.stdout


def make(folder, *words):
    """Runs make on the built program, without building it."""
    return run(folder, "make", "--silent", f"YQ={folder.yq}", *words)


def files_below(path):
    """The files below a folder, by their paths in it."""
    found = [os.path.join(top, name) for top, _, names in os.walk(path) for name in names]
    return {os.path.relpath(file, path) for file in found}


def check_install_and_uninstall(folder):
    prefix = folder.name("a prefix")
    make(folder, "install", f"PREFIX={prefix}")
    equal(files_below(prefix), set(INSTALLED))
    for name, mode in INSTALLED.items():
        equal(os.stat(os.path.join(prefix, name)).st_mode & 0o777, mode, name)
    with open(os.path.join(prefix, "share/mine"), "wb"):
        pass
    make(folder, "uninstall", f"PREFIX={prefix}")
    equal(files_below(prefix), {"share/mine"})
    make(folder, "uninstall", f"PREFIX={prefix}")


def check_install_below_another_root(folder):
    make(folder, "install", "PREFIX=/usr", f"DESTDIR={folder.name('root')}")
    equal(files_below(folder.name("root")), {f"usr/{name}" for name in INSTALLED})


def installed_as(name):
    """What is installed under a name of the program."""
    return {re.sub(r"\byq\b|(?<=/_)yq$", name, file) for file in INSTALLED}


def check_install_under_another_name(folder):
    """Program, man page, help and completions have it; the other program's name stays."""
    prefix = folder.name("prefix")
    make(folder, "install", f"PREFIX={prefix}", "NAME=yqe")
    equal(files_below(prefix), installed_as("yqe"))
    equal(run(folder, os.path.join(prefix, "bin/yqe"), "--help").startswith(b"Usage: yqe [eval|e] "), True)
    for name in sorted(files_below(prefix) - {"bin/yqe"}):
        if not name.startswith("share/doc/"):
            with open(os.path.join(prefix, name), encoding="utf-8") as text:
                left = [line for line in text.read().splitlines() if re.search(r"yq(?!e)", line)]
            equal([line for line in left if not re.search(r"yq version 4|mikefarah's yq|\.yq\\-", line)], [], name)
    make(folder, "uninstall", f"PREFIX={prefix}", "NAME=yqe")
    equal(files_below(prefix), set())


def told_by_make(folder, *words):
    """What make says on standard error, with its status."""
    if shutil.which("make") is None:
        raise Skip("needs make")
    environment = {"PATH": os.environ.get("PATH", os.defpath)}
    done = subprocess.run(["make", "--silent", *words], cwd=ROOT, env=environment, capture_output=True, timeout=SECONDS)
    return done.returncode, done.stdout.decode(), done.stderr.decode()


def check_make_without_the_toolchain(folder):
    """One line says what is missing, and what can be had without it."""
    for words in (["-W", "crates.txt"], ["test"], ["ready"], ["look"], ["wrong-bodies"], ["-W", "crates.txt", "install"]):
        status, out, err = told_by_make(folder, "RT=nice no-such-rt", *words)
        equal((status, out, err.count("\n")), (2, "", 1), words)
        equal("no command no-such-rt: the toolchain" in err and "Without it: make help" in err, True, err)


def check_make_help_lists_the_targets(folder):
    status, out, err = told_by_make(folder, "help")
    equal((status, err), (0, ""))
    with open(os.path.join(ROOT, "Makefile"), encoding="utf-8") as text:
        targets = re.search(r"^\.PHONY: (.*)$", text.read(), re.MULTILINE)[1].split()
    equal([name for name in targets if name != "no-folder" and f"make {name}" not in out], [])


def check_a_program_that_is_there_is_installed(folder):
    """No toolchain is asked for."""
    status, out, err = told_by_make(folder, "RT=no-such-rt", f"YQ={folder.yq}", f"PREFIX={folder.name('p')}", "install")
    equal((status, out, err), (0, "", ""))
    equal(files_below(folder.name("p")), set(INSTALLED))


def packed(folder, to):
    """The path of the archive, less its ending, made in a new folder."""
    if shutil.which("rt") is None:
        raise Skip("needs rt, next to which the notices are")
    os.mkdir(folder.name(to))
    run(folder, sys.executable, os.path.join("tools", "dist.py"), folder.yq, folder.name(to))
    return os.path.join(folder.name(to), f"yq-{version_told(folder)}-linux-x86_64")


def unpacked(folder):
    """The archive, unpacked in an empty folder."""
    archive = packed(folder, "packed")
    os.mkdir(folder.name("empty"))
    run(folder, "tar", "-xzf", f"{archive}.tar.gz", cwd=folder.name("empty"))
    return os.path.join(folder.name("empty"), os.path.basename(archive))


def check_the_archive_is_whole(folder):
    top = unpacked(folder)
    equal(files_below(top), {*INSTALLED, *ADDED})
    with open(os.path.join(top, "SHA256SUMS"), encoding="utf-8") as text:
        sums = dict(reversed(line.rstrip("\n").split("  ")) for line in text)
    for name in files_below(top) - {"SHA256SUMS"}:
        with open(os.path.join(top, name), "rb") as file:
            equal(sums.pop(name), hashlib.sha256(file.read()).hexdigest(), name)
    equal(sums, {})
    run(folder, "sha256sum", "--check", "--quiet", "SHA256SUMS", cwd=top)


def check_the_links_of_the_archive_lead_to_its_files(folder):
    top = unpacked(folder)
    for name in sorted(files_below(top)):
        if name.endswith(".md"):
            with open(os.path.join(top, name), encoding="utf-8") as page:
                links = [link.partition("#")[0] for link in LINK.findall(page.read()) if "://" not in link]
            for link in filter(None, links):
                equal(os.path.isfile(os.path.join(top, os.path.dirname(name), link)), True, (name, link))


def check_the_archive_has_the_terms_of_the_libraries(folder):
    with open(os.path.join(unpacked(folder), "NOTICES"), encoding="utf-8") as text:
        notices = text.read()
    for name in ("clap", "serde_json", "memchr", "thiserror"):
        equal(re.search(rf"^.*\b{name}\b.*\n={{80}}\n", notices, re.MULTILINE) is not None, True, name)


def check_the_archive_works_alone(folder):
    top = unpacked(folder)
    run(folder, "sh", "examples/demo.sh", "bin/yq", "examples/server.yaml", cwd=top)
    folder.write("f.yaml", b"port:  80 # http\n")
    yq = os.path.join(top, "bin", "yq")
    run(folder, yq, "-i", ".port = 8080", "f.yaml", cwd=folder.path)
    equal(run(folder, yq, ".port", "f.yaml", cwd=folder.path), b"8080\n")
    run(folder, yq, "undo", "f.yaml", cwd=folder.path)
    equal(folder.read("f.yaml"), b"port:  80 # http\n")


def check_the_archive_is_the_same_each_time(folder):
    names, archives = [f"{packed(folder, name)}.tar.gz" for name in ("one", "two")], []
    for name in names:
        with open(name, "rb") as file:
            archives.append(file.read())
    equal(archives[0] == archives[1], True)
    with tarfile.open(names[0]) as archive:
        equal({(member.uid, member.gid, member.mtime) for member in archive}, {(0, 0, 0)})
