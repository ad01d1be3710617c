"""Values from the shell: the forms that the manual shows, run in shells with texts that hold what an expression or a shell reads."""

import os
import shutil
import subprocess

from harness import SECONDS, Skip, equal
from pages import lines_of

MANUAL = "docs/MANUAL.md"
TEXTS = (
    "plain", "", " two  spaces ", 'a "b" c', "back\\slash", "\\", '"', "\\\\\"\"\\", "it's", "$(echo x) `echo y` $HOME", "a & b \\1 &",
    "two\nlines", "ends in a line feed\n", "\n\n", "tab\tand\rreturn", 'x" | del(.b) | .a = "y', "\\(.a)", "ü\U0001f600", "-n", "%s %d",
)


def block(first):
    """The lines in a fenced block of the manual, from the one that is first up to the block's end or the next command."""
    lines = lines_of(MANUAL)
    start = lines.index(first)
    end = next(i for i in range(start, len(lines)) if lines[i] == "```" or lines[i].startswith("$ "))
    return "\n".join(lines[start:end])


def reads_back(folder, shell, script, text):
    """The script sets `.image.tag` in the file image.yaml to the text, and nothing else."""
    if shutil.which(shell) is None:
        raise Skip(f"needs {shell}")
    folder.write("image.yaml", b"image:\n  tag: old # c\nb: 1\n")
    path = {"PATH": f"{folder.yq.rpartition('/')[0]}:/usr/bin:/bin"}
    done = subprocess.run([shell, "-c", script, shell, text], cwd=folder.path, env=path, capture_output=True, timeout=SECONDS)
    equal((done.returncode, done.stdout, done.stderr), (0, b"", b""), (shell, text))
    equal(folder.accepts(".image.tag", "image.yaml"), text.encode() + b"\n", (shell, text))
    equal(folder.accepts(".b", "image.yaml"), b"1\n", (shell, text))


def check_an_option_takes_any_text(folder):
    for shell in ("dash", "bash", "sh"):
        for text in TEXTS:
            reads_back(folder, shell, 'yq -i --text="$1" .image.tag image.yaml', text)


def check_an_option_takes_a_text_in_two_words(folder):
    for text in TEXTS:
        if not text.startswith("-"):
            reads_back(folder, "sh", 'yq -i --text "$1" .image.tag image.yaml', text)


def check_the_text_of_an_option_stays_one(folder):
    """Whatever EXPR is, the text is no part of the expression."""
    for expr in (".a", ".b[0]", ".b[]", ". | .a", "select(.a == 1) | .a", '."a"'):
        for text in TEXTS:
            folder.write("f", b"a: 1\nb: [2, 3]\n")
            folder.accepts("-i", f"--text={text}", expr, "f")
            written = '"' + text.replace("\\", "\\\\").replace('"', '\\"') + '"'
            folder.write("g", b"a: 1\nb: [2, 3]\n")
            folder.accepts("-i", f"({expr}) = {written}", "g")
            equal(folder.read("f"), folder.read("g"), (expr, text))
            equal(folder.read("f.undo.json"), folder.read("g.undo.json"), (expr, text))
            folder.accepts("undo", "f")
            equal(folder.read("f"), b"a: 1\nb: [2, 3]\n")
            for name in ("f.undo.json", "g.undo.json"):
                os.remove(folder.name(name))
    folder.write("f", b"a: 1\n")
    for expr in ("", ".a = 2", '.a == "x', ".a)", "(.a", ".a, .b"):
        for text in TEXTS:
            folder.refuses("E1 syntax", "-i", f"--text={text}", expr, "f")
    equal(folder.read("f"), b"a: 1\n")


def check_two_substitutions_make_a_key_of_a_value(folder):
    script = "name=$1\n" + block("key=${name//\\\\/\\\\\\\\}") + '\nyq ".users[\\"$key\\"]" users.yaml'
    if shutil.which("bash") is None:
        raise Skip("needs bash")
    for text in TEXTS:
        folder.write("users.yaml", b"users: {}\n")
        path = {"PATH": f"{folder.yq.rpartition('/')[0]}:/usr/bin:/bin"}
        done = subprocess.run(["bash", "-c", script, "bash", text], cwd=folder.path, env=path, capture_output=True, timeout=SECONDS)
        equal((done.returncode, done.stdout, done.stderr), (0, b"1\n", b""), text)
