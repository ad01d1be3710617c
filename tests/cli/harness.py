"""A folder of its own for each check, and the program run in it."""

import os
import pty
import random
import shutil
import stat
import subprocess
import sys
import tempfile
import traceback
from concurrent.futures import ThreadPoolExecutor

ROOT = os.path.dirname(os.path.dirname(os.path.dirname(os.path.abspath(__file__))))
NOBODY = 65534
SECONDS = 120


class Skip(Exception):
    """The machine lacks what a check needs."""


def all_of(terminal):
    """All that comes to a terminal until nobody writes there any more, which its system reports as an error.

    The report may come before the last bytes, where these and the end came between two looks of the system: so it is asked again.
    """
    seen = b""
    reports = 0
    while reports < 2:
        try:
            more = os.read(terminal, 4096)
        except OSError:
            more = b""
        seen += more
        if not more:
            reports += 1
    return seen


class Folder:
    """A temporary folder with the program, as the user who runs the tests or as nobody."""

    def __init__(self, yq, path):
        self.yq = yq
        self.path = path

    def name(self, file):
        return os.path.join(self.path, file)

    def copy(self, path):
        """The same files, of the same owners, in a new folder of this path."""
        files = self.files()
        copied = Folder(self.yq, shutil.copytree(self.path, path, symlinks=True))
        for name, (owner, group, _mode, _what) in files.items():
            os.chown(copied.name(name), owner, group, follow_symlinks=False)
        return copied

    def write(self, file, data):
        with open(self.name(file), "wb") as out:
            out.write(data)

    def read(self, file):
        with open(self.name(file), "rb") as text:
            return text.read()

    def names(self):
        return sorted(os.listdir(self.path))

    def mode(self, file):
        return os.stat(self.name(file)).st_mode & 0o7777

    def run(self, *words, nobody=False, before=()):
        line = [*before, self.yq, *words]
        if nobody:
            line = as_nobody() + line
        done = subprocess.run(line, cwd=self.path, stdin=subprocess.DEVNULL, capture_output=True, timeout=SECONDS)
        return done.returncode, done.stdout, done.stderr

    def on_terminal(self, stream, *words, env=None):
        """The status, what a terminal gets in the place of "stdout" or "stderr", and what the other of the two gets."""
        ours, theirs = pty.openpty()
        streams = {"stdout": subprocess.PIPE, "stderr": subprocess.PIPE, stream: theirs}
        with subprocess.Popen([self.yq, *words], cwd=self.path, stdin=subprocess.DEVNULL, env=env, **streams) as run:
            os.close(theirs)
            seen = all_of(ours)
            out, err = run.communicate(timeout=SECONDS)
        os.close(ours)
        return run.returncode, seen.replace(b"\r\n", b"\n"), err if stream == "stdout" else out

    def accepts(self, *words, nobody=False, before=()):
        """The command ends with status 0 and writes nothing to standard error."""
        status, out, err = self.run(*words, nobody=nobody, before=before)
        equal((status, err), (0, b""), words)
        return out

    def refuses(self, line, *words, nobody=False, before=()):
        """The command ends with status 1, prints nothing, and its first line on standard error is this."""
        status, out, err = self.run(*words, nobody=nobody, before=before)
        equal((status, out, err.split(b"\n")[0]), (1, b"", b"Error: " + line.encode()), words)

    def give_away(self):
        """Lets nobody into the folder."""
        os.chmod(self.path, 0o777)

    def files(self):
        """Each file below the folder: its owner, its group, its mode and its bytes, or where a link leads."""
        found = {}
        for top, folders, names in os.walk(self.path):
            for name in folders + names:
                path = os.path.join(top, name)
                seen = os.lstat(path)
                what = os.readlink(path) if stat.S_ISLNK(seen.st_mode) else None
                if stat.S_ISREG(seen.st_mode):
                    what = self.read(path)
                found[os.path.relpath(path, self.path)] = seen.st_uid, seen.st_gid, seen.st_mode, what
        return found


def as_user(user, group, *groups):
    """What runs a command as this user, with this group and these others."""
    if os.geteuid() != 0 or shutil.which("setpriv") is None:
        raise Skip("needs root and setpriv")
    others = f"--groups={','.join(map(str, groups))}" if groups else "--clear-groups"
    return ["setpriv", f"--reuid={user}", f"--regid={group}", others]


def as_nobody():
    return as_user(NOBODY, NOBODY)


def each_user(folder):
    """A folder of its own for root and one for nobody, with what runs a command as them."""
    for user, before in ((0, []), (NOBODY, as_nobody())):
        place = Folder(folder.yq, folder.name(f"of-{user}"))
        os.mkdir(place.path)
        os.chown(place.path, user, user)
        yield place, user, before


def equal(seen, wanted, what=""):
    if seen != wanted:
        raise AssertionError(f"{what}: {shown(seen)} is not {shown(wanted)}")


def shown(value):
    text = repr(value)
    return text if len(text) < 400 else text[:400] + ".."


def seed_of_run():
    """The seed of what is tried at random: YQ_SEED of the environment, else another one in each run."""
    return os.environ.get("YQ_SEED") or random.SystemRandom().randrange(10**9)


def side_by_side(folder, count, seed, one):
    """What `one` gives for each of so many numbers, with a folder and a seed of its own."""

    def run(number):
        path = folder.name(str(number))
        os.mkdir(path)
        return one(Folder(folder.yq, path), f"{seed} {number}")

    with ThreadPoolExecutor(os.cpu_count()) as pool:
        yield from pool.map(run, range(count))


def run_alone(run, yq, count, seed=None):
    """So many tries of a script, as the words after its name ask for them, in a folder that goes at the end."""
    with tempfile.TemporaryDirectory(prefix="yq-cli-") as top:
        return run(Folder(os.path.realpath(yq), top), int(count), seed or seed_of_run())


class Tally:
    """How many checks passed, failed and were skipped."""

    def __init__(self):
        self.passed = self.failed = self.skipped = 0

    def line(self):
        return f"{self.passed} passed, {self.failed} failed" + (f", {self.skipped} skipped" if self.skipped else "")

    def fails(self, name, why):
        self.failed += 1
        print(f"failed {name}\n{why}")

    def tries(self, name, check, folder):
        try:
            check(folder)
            self.passed += 1
        except Skip as why:
            self.skipped += 1
            print(f"skipped {name}: {why}")
        except Exception:
            self.fails(name, traceback.format_exc())


def memory_folder():
    """Where files cost no disk, if there is such a place."""
    return "/dev/shm" if os.access("/dev/shm", os.W_OK) else None


def run_all(modules, readers, argv):
    """Runs the modules' checks, each in a folder of its own, and what is read of tables and pages."""
    if len(argv) < 2 or not os.access(argv[1], os.X_OK):
        print("no program to run", file=sys.stderr)
        return 1
    os.environ.pop("YQ_JOURNALS", None)
    wanted = argv[2] if len(argv) > 2 else ""
    tally = Tally()
    with tempfile.TemporaryDirectory(prefix="yq-cli-") as top:
        os.chmod(top, 0o755)
        program = shutil.copy(os.path.realpath(argv[1]), os.path.join(top, "yq"))
        with tempfile.TemporaryDirectory(prefix="yq-cli-", dir=memory_folder()) as room:
            for read in readers:
                passed, failed = read(program, room, wanted)
                tally.passed += passed
                for name, why in failed:
                    tally.fails(name, why)
        for module in modules:
            for name in [n for n in vars(module) if n.startswith("check_") and wanted in n]:
                tally.tries(name, getattr(module, name), Folder(program, tempfile.mkdtemp(dir=top)))
    print(tally.line())
    return 0 if tally.passed and not tally.failed else 1
