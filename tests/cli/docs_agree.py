"""The pages and the man page agree with help, with the answers that the program has, and with what is in the repository."""

import os
import re
import shutil
import subprocess

from harness import ROOT, SECONDS, Skip, equal
from pages import examples, lines_of

MAN = os.path.join("man", "yq.1")
LINK = re.compile(r"\]\(([^)\s]+)\)")
CODE = re.compile(r'"([A-Z]\d+)\b')
FAULT = re.compile(r'(?:\b(?:Fault|Refusal)::\w+(?:\(.*\))? => |#\[error\()"([A-Z]\d+ [a-z ]+)"')
NUMBERED = re.compile(r'FaultKind::\w+ => \("(Y\d+)", "([\w ]+)"\)')


def section(lines, head):
    """The lines of help below a head."""
    start = lines.index(head) + 1
    return lines[start : start + lines[start:].index("")]


def helped(folder):
    """The commands and options that help names."""
    lines = folder.accepts("--help").decode().splitlines()
    commands = {line.split()[0] for line in section(lines, "Commands:") if line[2] != " "}
    options = {word for line in section(lines, "Options:") for word in re.findall(r"(?<!\S)--?[A-Za-z-]+", line[:22])}
    return commands, options


def version_told(folder):
    """The version that help names."""
    return re.search(r"^Version: +(\S+)$", folder.accepts("--help").decode(), re.MULTILINE)[1]


def check_the_version_is_that_of_the_man_page_and_the_changes(folder):
    version = version_told(folder)
    equal(re.findall(r"^\.Os yq (\S+)$", man_page(), re.MULTILINE), [version])
    heads = [line.split()[1] for line in lines_of("CHANGELOG.md") if line.startswith("## ")]
    equal(heads[0], version)


def man_page():
    return "\n".join(lines_of(MAN))


def check_the_man_page_tells_of_what_help_tells(folder):
    commands, options = helped(folder)
    items = re.findall(r"^\.It (Cm|Fl) (.*)$", man_page(), re.MULTILINE)
    named = {word for kind, line in items if kind == "Cm" for word in re.findall(r"\w+", line.replace("Cm", ""))}
    flags = {"-" + word.replace("\\", "") for kind, line in items if kind == "Fl" for word in re.findall(r"(?:^|Fl )(\S+)", line)}
    equal((named, flags), (commands | {"e"}, options))


def check_the_man_page_is_clean(folder):
    page = os.path.join(ROOT, MAN)
    for words in (["mandoc", "-T", "lint", "-W", "warning", page], ["groff", "-ww", "-mdoc", "-Tutf8", "-z", page]):
        if shutil.which(words[0]) is not None:
            done = subprocess.run(words, capture_output=True, timeout=SECONDS)
            equal((done.returncode, done.stdout, done.stderr), (0, b"", b""), words)
            return
    raise Skip("needs mandoc or groff")


def faults():
    """The sources of the faults' texts."""
    return "".join("\n".join(lines_of(f"crates/{crate}/src/fault.rt")) for crate in ("yq_fault", "yq_journal"))


def check_the_man_page_tells_of_each_answer_by_its_name(_folder):
    names = {*FAULT.findall(faults()), *map(" ".join, NUMBERED.findall(faults())), "N1 no matches found"}
    told = re.findall(r"^\.It ([A-Z]\d+ .*)$", man_page(), re.MULTILINE)
    equal((set(told), len(told)), (names, len(names)))


def check_the_manual_tells_of_each_answer(_folder):
    codes = set(CODE.findall(faults())) | {"N1"}
    told = set(re.findall(r"Error: ([A-Z]\d+) ", "\n".join(lines_of("docs/MANUAL.md"))))
    equal(told, codes)


def check_the_pages_have_enough_examples(_folder):
    of = [example.name.split(" ")[0] for example in examples()]
    first, same = "\n".join(lines_of("docs/FROM-YQ-V4.md")).split("\n## ")[1:3]
    equal((first.startswith("There and here"), same.startswith("The same here")), (True, True))
    equal((of.count("docs/MANUAL.md") >= 40, first.count("\n| `") >= 50, same.count("| `yq ") >= 30), (True,) * 3)


def anchors(page):
    """The names by which the sections of a page are linked."""
    heads = [line.lstrip("#").strip().lower() for line in lines_of(page) if line.startswith("#")]
    return {re.sub(r"[^\w -]", "", head).replace(" ", "-") for head in heads}


def pages():
    """The pages of the repository."""
    of_docs = [f"docs/{name}" for name in sorted(os.listdir(os.path.join(ROOT, "docs")))]
    of_crates = [f"crates/{name}/README.md" for name in sorted(os.listdir(os.path.join(ROOT, "crates")))]
    return ["README.md", "CONTRIBUTING.md", "CHANGELOG.md", "SECURITY.md", *of_docs, *of_crates]


def broken_links():
    """The links of pages that lead to no file or section of the repository, each after its page."""
    for page in pages():
        for link in LINK.findall("\n".join(lines_of(page))):
            path, _, anchor = link.partition("#")
            target = os.path.normpath(os.path.join(os.path.dirname(page), path)) if path else page
            if "://" not in link and not (os.path.exists(os.path.join(ROOT, target)) and (not anchor or anchor in anchors(target))):
                yield page, link


def check_links_lead_somewhere(_folder):
    equal(list(broken_links()), [])
