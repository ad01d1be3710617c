"""Counts the instructions and the memory of reads, and times an edit, next to floors and other readers, in one run.

usage: cost.py PATH_OF_YQ [FOLDER]

Reads: four texts, which are services of 1 MB and of 16 MB (services.py), and 100,000 lines `- i` and `ki: i`. Each is
read by yq, which prints one value of its middle; by the floor (floor.c), which reads the file and counts its line feeds;
by libyaml (libyaml.c), its events and its documents as trees; by Debian's python3-yaml, whose loader is built on libyaml;
and by yaml.v3 of Go. What isn't there is reported as skipped. Instructions are counted by valgrind's callgrind, less those of
a read of one line; they don't vary from run to run. Those of Python aren't counted. The memory is the peak of the
resident memory, said by a small program (measured.c), and the time the processor's, the least of three turns.

Edits: one on 16 MB next to the floor of edit.py, which does the same reads, writes and syncs.

FOLDER: the YAML files below it of 1,000 bytes and more, read by yq as the texts are, with the instructions for a byte. A
read that is refused after the reading counts; a text that is none is left out.
"""

import os
import shutil
import subprocess
import sys
import tempfile

import edit
from measured import instructions, used_by
from services import services

HERE = os.path.dirname(os.path.abspath(__file__))
DEBIAN_PYTHON = "/usr/bin/python3"
DEBIAN_GO = "/usr/share/gocode"
PYTHON_READ = "import sys, yaml; yaml.load(open(sys.argv[1], 'rb'), Loader=yaml.CSafeLoader)"
TURNS = 3


def path_of(steps):
    return "".join(f"[{step}]" if isinstance(step, int) else f'.["{step}"]' for step in steps)


def texts():
    """The name of each text, the text, and what yq reads in it."""
    for name, size in (("services, 1 MB", 1_000_000), ("services, 16 MB", 15_900_000)):
        text, steps = services(size)
        yield name, text, path_of(steps)
    yield "- i", "".join(f"- {i}\n" for i in range(100_000)).encode(), ".[50000]"
    yield "ki: i", "".join(f"k{i}: {i}\n" for i in range(100_000)).encode(), ".k50000"


def compiled(folder, source, *flags):
    """A C program of this folder, compiled, or nothing and why."""
    out = os.path.join(folder, source.removesuffix(".c"))
    if shutil.which("cc") is None:
        return None, "no cc"
    done = subprocess.run(["cc", "-O2", "-o", out, os.path.join(HERE, source), *flags], capture_output=True, check=False)
    return (out, None) if done.returncode == 0 else (None, "libyaml-dev isn't there" if flags else "cc failed")


def by_python():
    if not os.path.exists(DEBIAN_PYTHON):
        return None, "no Python of Debian's"
    asked = subprocess.run([DEBIAN_PYTHON, "-c", "import yaml; yaml.CSafeLoader"], capture_output=True, check=False)
    return (DEBIAN_PYTHON, None) if asked.returncode == 0 else (None, "python3-yaml isn't there")


def by_go(folder):
    if shutil.which("go") is None or not os.path.isdir(f"{DEBIAN_GO}/src/gopkg.in/yaml.v3"):
        return None, "golang-go or golang-gopkg-yaml.v3-dev isn't there"
    out = os.path.join(folder, "yamlv3-read")
    settings = {**os.environ, "GO111MODULE": "off", "GOPATH": DEBIAN_GO, "GOCACHE": os.path.join(folder, "go")}
    line = ["go", "build", "-o", out, os.path.join(HERE, "yamlv3", "main.go")]
    done = subprocess.run(line, env=settings, capture_output=True, check=False)
    return (out, None) if done.returncode == 0 else (None, "go build failed")


def readers(yq, folder):
    """The name of each reader, the words of its command, where `@` means what yq reads, and whether callgrind counts."""
    if compiled(folder, "measured.c")[0] is None:
        print("no cc: a peak of the memory below that of Python isn't seen")
    floor, no_floor = compiled(folder, "floor.c")
    libyaml, no_libyaml = compiled(folder, "libyaml.c", "-lyaml")
    python, no_python = by_python()
    go, no_go = by_go(folder)
    found = [("yq", [yq, "@", "f"], True)]
    for name, words, counts, why in (
        ("floor", [floor, "f"], True, no_floor),
        ("libyaml, events", [libyaml, "f"], True, no_libyaml),
        ("libyaml, documents", [libyaml, "-d", "f"], True, no_libyaml),
        ("python3-yaml", [python, "-c", PYTHON_READ, "f"], False, no_python),
        ("yaml.v3", [go, "f"], True, no_go),
    ):
        if why is None:
            found.append((name, words, counts))
        else:
            print(f"skipped: {name}: {why}")
    return found


def used(folder, words):
    """The processor's time, the peak of the resident memory, and the errors of a command that is run in a folder."""
    small = os.path.join(folder, "measured")
    if not os.path.exists(small):
        return used_by(words, folder)
    done = subprocess.run([small, *words], cwd=folder, capture_output=True, check=True)
    seconds, peak = done.stdout.split()
    return float(seconds), int(peak), done.stderr


def put(folder, text):
    with open(os.path.join(folder, "f"), "wb") as out:
        out.write(text)


def asked(words, path):
    return [path if word == "@" else word for word in words]


def start(folder, words):
    put(folder, b"a: 1\n")
    return instructions(asked(words, ".a"), folder, check=False)


def read_row(folder, name, text, words, path, counted, begun):
    put(folder, text)
    line = asked(words, path)
    turns = [used(folder, line) for _ in range(TURNS)]
    assert all(said == b"" for _, _, said in turns), turns[0][2][:200]
    seconds, peak = min(spent for spent, _, _ in turns), max(peak for _, peak, _ in turns)
    per_byte = f"{(instructions(line, folder, check=False) - begun) / len(text):.1f}" if counted else ""
    print(f"{name:>20}{per_byte:>20}{seconds:>10.4f}{peak / 1e6:>12.1f}{peak / len(text):>14.1f}")


def reads(folder, found, counting):
    begun = {name: start(folder, words) for name, words, counted in found if counted and counting}
    for text_name, text, path in texts():
        lines = text.count(b"\n")
        print(f"\n{text_name}: {len(text):,} bytes, {lines:,} lines")
        print(f"{'':>20}{'instructions/byte':>20}{'seconds':>10}{'peak, MB':>12}{'peak / bytes':>14}")
        for name, words, _ in found:
            read_row(folder, name, text, words, path, name in begun, begun.get(name, 0))


def edits(folder, yq, counting):
    text, steps = services(15_900_000)
    put(folder, text)
    words = [yq, "-i", f"{path_of(steps)} = 1", "f"]
    floors, times, peaks = [], [], []
    for _ in range(TURNS):
        floors.append(edit.floor(folder, text))
        times.append(edit.timed(folder, *words))
        edit.timed(folder, yq, "undo", "f")
        peaks.append(used(folder, words)[1])
        edit.timed(folder, yq, "undo", "f")
    per_byte = instructions(words, folder, check=False) / len(text) if counting else 0
    print(f"\nan edit of services, 16 MB: {min(times):.3f} s, floor {min(floors):.3f} s, edit / floor {min(times) / min(floors):.1f}, ", end="")
    print(f"peak / bytes {max(peaks) / len(text):.1f}, instructions/byte {per_byte:.1f}")


def yaml_files(folder):
    for at, _, names in sorted(os.walk(folder)):
        for name in sorted(names):
            if name.endswith((".yaml", ".yml")) and os.path.getsize(os.path.join(at, name)) >= 1_000:
                yield os.path.join(at, name)


def real(folder, yq, given):
    begun = start(folder, [yq, "@", "f"])
    total, size, each, left_out = 0, 0, [], 0
    for file in yaml_files(given):
        shutil.copyfile(file, os.path.join(folder, "f"))
        said = subprocess.run([yq, ".none", "f"], cwd=folder, capture_output=True, check=False).stderr
        if said and not said.startswith(b"Error: X"):
            left_out += 1
            continue
        count, length = instructions([yq, ".none", "f"], folder, check=False) - begun, os.path.getsize(file)
        total, size = total + count, size + length
        each.append(count / length)
    if not each:
        print("\nno YAML files that are read")
        return
    print(f"\n{len(each)} files of {given}, {size:,} bytes, {left_out} left out: {total / size:.1f} instructions a byte, ", end="")
    print(f"the middle one {sorted(each)[len(each) // 2]:.1f}, from {min(each):.1f} to {max(each):.1f}")


def main():
    yq = os.path.realpath(sys.argv[1])
    counting = shutil.which("valgrind") is not None
    if not counting:
        print("no valgrind: instructions aren't counted")
    with tempfile.TemporaryDirectory(prefix="yq-bench-") as folder:
        reads(folder, readers(yq, folder), counting)
        edits(folder, yq, counting)
        if len(sys.argv) > 2 and counting:
            real(folder, yq, sys.argv[2])


main()
