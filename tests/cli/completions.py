"""What shells complete after `yq`: each script is driven in its shell, that of zsh by keys."""

import fcntl
import os
import pty
import select
import shlex
import shutil
import struct
import subprocess
import termios
import time

from docs_agree import helped
from harness import ROOT, SECONDS, Skip, equal

FILES = {"a.yaml": b"n: 2\n", "b c.yml": b"", "a.yaml.undo.json": b"{}"}
LINE = 'source "$0"; COMP_LINE=$1; shift; COMP_WORDS=("$@"); COMP_CWORD=$(($# - 1)); _yq; printf "%s\\n" "${COMPREPLY[@]}"'
DRIVE = 'source "$0"; COMP_WORDS=("$@"); COMP_CWORD=$(($# - 1)); _yq; printf "%s\\n" "${COMPREPLY[@]}"'


def script(name):
    return os.path.join(ROOT, "completions", name)


def run(folder, *words):
    """What a shell prints, if it is there."""
    if shutil.which(words[0]) is None:
        raise Skip(f"needs {words[0]}")
    environment = {"PATH": os.environ.get("PATH", os.defpath), "HOME": folder.path, "LC_ALL": "C.UTF-8"}
    done = subprocess.run(
        words, cwd=folder.path, env=environment, stdin=subprocess.DEVNULL, capture_output=True, timeout=SECONDS
    )
    equal((done.returncode, done.stderr), (0, b""), words)
    return done.stdout.decode().splitlines()


def with_files(folder):
    for name, data in FILES.items():
        folder.write(name, data)
    os.mkdir(folder.name("dir"))


def in_bash(folder, *words):
    """What bash offers for the last of the words."""
    printed = run(folder, "bash", "--norc", "--noprofile", "-c", DRIVE, script("yq.bash"), "yq", *words)
    return sorted(word for word in printed if word)


def check_bash_completes(folder):
    with_files(folder)
    commands, flags = helped(folder)
    registered = run(folder, "bash", "--norc", "--noprofile", "-c", 'source "$0"; complete -p yq', script("yq.bash"))
    equal(registered, ["complete -F _yq yq"])
    moving = sorted(flags - {"-i", "--inplace", "-e", "--exit-status", "-N", "--no-doc", "-d", "--diff", "--expect-change", "--text"})
    edited, files = ["a.yaml", "dir"], ["a.yaml", "b c.yml", "dir"]
    for words, offered in (
        ([""], sorted(commands)),
        (["h"], ["history"]),
        (["-"], sorted(flags)),
        (["--in"], ["--inplace"]),
        (["eval", "-"], sorted(flags)),
        (["undo", "-"], moving),
        (["squash", "-"], moving),
        (["history", "-"], sorted([*moving, "-d", "--diff"])),
        ([".a", ""], files),
        (["-i", ".a = 1", ""], files),
        (["e", ".a", ""], files),
        (["e", ""], []),
        ([".a", "b"], ["b c.yml"]),
        (["--journal", ""], ["a.yaml", "a.yaml.undo.json", "b c.yml", "dir"]),
        (["-i", "--journal", "=", "b"], ["b c.yml"]),
        (["-i", "--journal", "j", ".a", "a"], ["a.yaml"]),
        (["--text", ""], []),
        (["--text", "x", ".a", "b"], ["b c.yml"]),
        (["--text", "=", "x", ".a", "b"], ["b c.yml"]),
        (["undo", "--te"], []),
        (["undo", ""], edited),
        (["history", "--journal", "=", "j", ""], edited),
        (["undo", "b"], ["b c.yml"]),
        (["undo", "a.yaml", ""], []),
        (["squash", ""], []),
        (["squash", "2", ""], edited),
        (["--", ".a", ""], files),
    ):
        equal(in_bash(folder, *words), offered, words)


def check_bash_completes_behind_words_that_it_cuts(folder):
    """The words of a line as bash cuts them: at = and :, and not in quotes."""
    with_files(folder)
    files = ["a.yaml", "b c.yml", "dir"]
    for line, words, offered in (
        ("yq -i .a=1 a", ["-i", ".a", "=", "1", "a"], ["a.yaml"]),
        ("yq  -i .a=1 ", ["-i", ".a", "=", "1", ""], files),
        ("yq .a+=1 b", [".a+", "=", "1", "b"], ["b c.yml"]),
        ("yq e .a=.b:c a", ["e", ".a", "=", ".b", ":", "c", "a"], ["a.yaml"]),
        ("yq -i '.a = 1' a", ["-i", "'.a = 1'", "a"], ["a.yaml"]),
        ("yq --journal=j .a=1 a", ["--journal", "=", "j", ".a", "=", "1", "a"], ["a.yaml"]),
        ("yq --journal j .a=1 a", ["--journal", "j", ".a", "=", "1", "a"], ["a.yaml"]),
        ("yq -i .a=a", ["-i", ".a", "=", "a"], []),
        ("yq undo --journal=b", ["undo", "--journal", "=", "b"], ["b c.yml"]),
    ):
        printed = run(folder, "bash", "--norc", "--noprofile", "-c", LINE, script("yq.bash"), line, "yq", *words)
        equal(sorted(word for word in printed if word), offered, line)


def check_bash_keeps_to_its_own_names(folder):
    """Reading the script sets functions whose names begin with _yq, and nothing else."""
    listing = "declare -F; compgen -v"
    both = f'before=$({listing}); source "$0"; diff <(echo "$before") <({listing}) | grep "^[<>]" | grep -v "_yq\\|before"; true'
    equal(run(folder, "bash", "--norc", "--noprofile", "-c", both, script("yq.bash")), [])


def in_fish(folder, line):
    """What fish offers for a line, without what it says of each."""
    words = 'source $argv[1]; complete -C "$argv[2]"'
    return sorted(offer.split("\t")[0] for offer in run(folder, "fish", "--no-config", "-c", words, script("yq.fish"), line))


def check_bash_offers_files_of_yaml_first(folder):
    with_files(folder)
    folder.write("a.txt", b"")
    folder.write("z.yml", b"")
    for words in ([".a", ""], ["-i", ".a = 1", ""]):
        line = run(folder, "bash", "--norc", "--noprofile", "-c", DRIVE, script("yq.bash"), "yq", *words)
        equal(line, ["a.yaml", "b c.yml", "z.yml", *line[3:]], words)
        equal(sorted(line[3:]), ["a.txt", "dir"], words)


def check_fish_completes(folder):
    with_files(folder)
    commands, flags = helped(folder)
    equal(in_fish(folder, "yq "), sorted(commands))
    equal(in_fish(folder, "yq --"), sorted(flag for flag in flags if flag.startswith("--")))
    equal(in_fish(folder, "yq undo --"), ["--explain", "--help", "--journal"])
    equal(in_fish(folder, "yq .a "), ["a.yaml", "b c.yml", "dir/"])
    for words in ("undo", "redo", "history", "squash 2"):
        equal(in_fish(folder, f"yq {words} "), ["a.yaml", "dir/"], words)
    os.remove(folder.name("a.yaml.undo.json"))
    equal(in_fish(folder, "yq undo "), ["a.yaml", "b c.yml", "dir/"])


def check_fish_offers_files_of_yaml_first(folder):
    with_files(folder)
    folder.write("a.txt", b"")
    words = 'source $argv[1]; complete -C "yq .a "'
    offers = [offer.split("\t")[0] for offer in run(folder, "fish", "--no-config", "-c", words, script("yq.fish"))]
    equal((offers[:2], sorted(offers[2:])), (["a.yaml", "b c.yml"], ["a.txt", "dir/"]))


def in_zsh(folder, line):
    """What zsh lists for a line at two presses of Tab, its own prompt and colors being off."""
    master, slave = pty.openpty()
    fcntl.ioctl(slave, termios.TIOCSWINSZ, struct.pack("HHHH", 200, 120, 0, 0))
    environment = {"PATH": os.environ.get("PATH", os.defpath), "HOME": folder.path, "LC_ALL": "C.UTF-8", "TERM": "dumb"}
    words = ["zsh", "-f", "-i"]
    shell = subprocess.Popen(words, cwd=folder.path, env=environment, stdin=slave, stdout=slave, stderr=slave, start_new_session=True)
    os.close(slave)
    setting = f"PS1=; unsetopt zle_bracketed_paste; fpath=({shlex.quote(os.path.dirname(script('_yq')))} $fpath)"
    try:
        os.write(master, f"{setting}; autoload -Uz compinit && compinit -u -D; compdef _yq yq; echo re''ady\n".encode())
        read_until(master, b"ready\r\n")
        os.write(master, line.encode() + b"\t\t")
        time.sleep(1)
        os.write(master, b"\x15echo d''one\n")
        return read_until(master, b"done\r\n").decode(errors="replace")
    finally:
        shell.kill()
        shell.wait()
        os.close(master)


def read_until(master, end):
    seen, last = b"", time.monotonic() + SECONDS
    while end not in seen and time.monotonic() < last:
        if select.select([master], [], [], 1)[0]:
            seen += os.read(master, 65536)
    return seen


def check_zsh_completes(folder):
    if shutil.which("zsh") is None:
        raise Skip("needs zsh")
    with_files(folder)
    folder.write("other.yaml", b"")
    folder.write("a.txt", b"")
    commands, flags = helped(folder)
    for line, offered, not_offered in (
        ("yq ", commands, flags),
        ("yq -", flags, commands),
        ("yq -i ", [], commands),
        ("yq undo -", ["--journal", "--help"], ["--inplace"]),
        ("yq .a ", ["a.yaml", "other.yaml"], ["a.txt", "a.yaml.undo.json"]),
        ("yq undo ", ["a.yaml"], ["other.yaml", "a.txt", "a.yaml.undo.json"]),
        ("yq squash 2 ", ["a.yaml"], ["other.yaml", "a.txt", "a.yaml.undo.json"]),
    ):
        seen = in_zsh(folder, line)
        listed = {word for told in seen.splitlines() for word in told.partition(" -- ")[0].split()}
        equal(sorted(set(offered) - listed), [], (line, seen))
        equal(sorted(set(not_offered) & listed), [], (line, seen))


def check_the_script_of_zsh_is_parsed(folder):
    equal(run(folder, "zsh", "-f", "-n", script("_yq")), [])
