"""One edit of examples/compose.yaml, by this program and by yaml.v3, which is what yq version 4 reads and writes with."""

import difflib
import os
import shutil
import subprocess
import tempfile

from harness import ROOT, SECONDS, Skip, equal
from pages import lines_of

EXAMPLES = os.path.join(ROOT, "examples")
GO = {"GO111MODULE": "off", "GOPATH": "/usr/share/gocode"}
NAME = "compose.yaml"


def text(name):
    with open(os.path.join(EXAMPLES, name), encoding="utf-8") as file:
        return file.read()


def diff_to(edited):
    """The unified diff from the example to another text."""
    lines = difflib.unified_diff(text(NAME).splitlines(), edited.splitlines(), NAME, NAME, lineterm="")
    return "".join(line + "\n" for line in lines)


def check_the_edit_of_the_example_is_the_one_shown(folder):
    folder.write(NAME, text(NAME).encode())
    folder.accepts("-i", '.services.web.ports[0] = "9090:80"', NAME)
    equal(diff_to(folder.read(NAME).decode()), text("compose-by-yq.diff"))
    folder.accepts("undo", NAME)
    equal(folder.read(NAME).decode(), text(NAME))


def check_the_edit_by_yaml_v3_is_the_one_shown(_folder):
    if shutil.which("go") is None or not os.path.isdir("/usr/share/gocode/src/gopkg.in/yaml.v3"):
        raise Skip("needs go and gopkg.in/yaml.v3")
    with tempfile.TemporaryDirectory() as room:
        line = ["go", "run", ".", os.path.join(EXAMPLES, NAME), "9090:80", "services", "web", "ports", "0"]
        where = os.path.join(ROOT, "bench", "yamlv3", "edit")
        env = {**os.environ, **GO, "GOCACHE": room}
        done = subprocess.run(line, cwd=where, env=env, capture_output=True, timeout=SECONDS, check=True)
    equal(diff_to(done.stdout.decode()), text("compose-by-yaml.v3.diff"))


def check_the_readme_shows_both(_folder):
    page = "\n".join(lines_of("README.md"))
    shown = ["```diff\n" + "\n".join(text(f"compose-by-{name}.diff").splitlines()[2:]) + "\n```" in page for name in ("yaml.v3", "yq")]
    equal(shown, [True, True])
