"""Help, man page and completions name commands and options as completions/options.json has them; this script writes it there."""

import json
import re
from pathlib import Path
from textwrap import fill
from types import SimpleNamespace

from crates import ROOT

SIGN = re.compile(r"(FILE|EXPR|TEXT)(\.[\w.]*\w)?([.,;]?)")
BEGIN, END = "# The table of options: begin.\n", "# The table of options: end."


def columns(rows):
    room = max(len(left) for left, _ in rows) + 2
    return "".join(fill(right, 72, initial_indent=left.ljust(room), subsequent_indent=" " * room) + "\n" for left, right in rows)


def in_help(commands, options):
    named = [(f"  {it.name}", it.about + it.more) for it in commands]
    told = [(f"  {', '.join(it.ways):>{len(it.ways[-1]) + 4}} {it.value}".rstrip(), it.about) for it in options]
    return f"{columns(named)}\nOptions:\n{columns(told)}"


def in_man(_commands, options):
    lines = []
    for it in options:
        flags = " , ".join("Fl " + way[1:].replace("-", r"\-") for way in it.ways)
        lines += [f".It {flags}" + f" Ar {it.value.lower()}" * bool(it.value), ""]
        for word in f"{it.about[0].upper()}{it.about[1:]}.".split():
            sign = SIGN.fullmatch(word)
            if sign:
                lines += [f".Ar {sign[1].lower()}" + f" Ns {sign[2]}" * bool(sign[2]) + f" {sign[3]}" * bool(sign[3]), ""]
            else:
                lines[-1] = f"{lines[-1]} {word}".strip()
    return "".join(f"{line}\n" for line in lines if line)


def in_bash(commands, options):
    of = {key: " ".join(way for it in options if key in (it.of or [""]) for way in it.ways) for key in ("", "eval", "history")}
    lines = [("_commands", " ".join(it.name for it in commands))] + [(f"{'_' * bool(key)}{key}_options", of[key]) for key in of]
    return "".join(f"_yq{name}='{words}'\n" for name, words in lines)


def in_fish(commands, options):
    told = [f"-n __fish_is_first_token -a {it.name} -d '{it.about}'" for it in commands]
    for it in options:
        value = {"PATH": "-r -F ", "": ""}.get(it.value, "-x ")
        ways = " ".join(way.replace("--", "-l ").replace("-", "-s ", len(way) == 2) for way in it.ways)
        told.append(("", "-n __yq_evaluates ", "-n __yq_has_diffs ")[len(it.of)] + f"{ways} {value}-d '{it.about}'")
    return "".join(f"complete -c yq {line}\n" for line in told)


def in_zsh(commands, options):
    lists = {"commands": [f"'{it.name}:{it.about}'" for it in commands], "common": [], "evaluating": [], "listing": []}
    for it in options:
        value = {"PATH": ":journal:_files", "": ""}.get(it.value, f":{it.value}:")
        way = f"{{{','.join(it.ways)}}}" if it.ways[1:] else it.ways[0] + "=" * bool(it.value)
        line = f"'({'- *' if '--help' in it.ways else ' '.join(it.ways)})'{way}'[{it.about}]{value}'"
        for of in it.of or [""]:
            lists[{"": "common", "eval": "evaluating", "history": "listing"}[of]].append(line)
    return "".join(f"    {name}=(\n" + "".join(f"        {it}\n" for it in told) + "    )\n" for name, told in lists.items()) + "    "


def retold():
    """The files that say something else than the table, each with the text that it is to have."""
    table = json.loads(Path(ROOT, "completions/options.json").read_text("utf-8"), object_hook=lambda it: SimpleNamespace(**it))
    places = [(f"completions/{name}", BEGIN, END, told) for name, told in (("yq.bash", in_bash), ("yq.fish", in_fish), ("_yq", in_zsh))]
    places.append(("crates/yq_commands/src/help.rt", "\nCommands:\n", "\nExamples:\n", in_help))
    for path, begin, end, told in (*places, ("man/yq.1", "options are as follows:\n.Bl -tag -width Ds\n", ".El\n", in_man)):
        text = Path(ROOT, path).read_text("utf-8")
        head, rest = text.split(begin, 1)
        new = head + begin + told(table.commands, table.options) + end + rest.split(end, 1)[1]
        if new != text:
            yield path, new


if __name__ == "__main__":
    for path, new in retold():
        Path(ROOT, path).write_text(new, "utf-8")
