"""No depth of an expression, a text or a journal takes more than a small stack."""

import resource
import subprocess

from harness import SECONDS, equal

STACK = 256 << 10
LONGEST = 114_000
DEEP = LONGEST // 2


def run_on_a_small_stack(folder, *words):
    def limit():
        resource.setrlimit(resource.RLIMIT_STACK, (STACK, STACK))

    line = [folder.yq, *words]
    done = subprocess.run(
        line, cwd=folder.path, stdin=subprocess.DEVNULL, capture_output=True, timeout=SECONDS, env={}, preexec_fn=limit
    )
    return done.returncode, done.stdout, done.stderr.split(b"\n")[0]


def refused(line):
    return 1, b"", b"Error: " + line


TEXTS = {"block": b"a: 1\n", "flow": b"{a: 1}\n", "null": b"", "list": b"- a: 1\n"}


def check_more_missing_steps_than_collections_may_be_nested(folder):
    """What is put under them is refused before it is made, whatever it is."""
    for name, text in TEXTS.items():
        folder.write("f", text)
        start = ".[0]" if name == "list" else ""
        for count in (65, 7_013, DEEP - 10):
            steps = start + ".z" * count
            for way in (" = 1", " |= 1", " += 1", " += []"):
                for before in ([], ["-i"]):
                    equal(run_on_a_small_stack(folder, *before, steps + way, "f"), refused(b"X13 too deep"), (name, count, way))
            equal(run_on_a_small_stack(folder, f"del({steps})", "f")[0], 0, (name, count))
            equal(run_on_a_small_stack(folder, steps + " += null", "f")[0], 0, (name, count))
        equal(folder.read("f"), text)


def check_what_refuses_such_steps_first(folder):
    """The right side, an index and too long a key come before the depth."""
    folder.write("f", b"a: 1\n")
    deep, key = ".z" * 7_013, "k" * 1_025
    rows = [
        (deep + " |= .a.b", b"X13 too deep"),
        (deep + " |= (.a", b"E1 syntax"),
        (deep + " = .a.b", b"X1 not a map"),
        (deep + "[0] = 1", b"X3 index out of range"),
        (deep + "[0]" + deep + " = 1", b"X3 index out of range"),
        (f".{key}" + deep + " = 1", b"X16 key too long"),
        (deep + f".{key} = 1", b"X16 key too long"),
        (deep + ' = {"' + key + '": 1}', b"X16 key too long"),
        (deep + ' = {"a": 1}', b"X13 too deep"),
    ]
    for expression, line in rows:
        seen = run_on_a_small_stack(folder, expression, "f")
        if line == b"E1 syntax":
            equal(seen[0], 1, expression[-20:])
        else:
            equal(seen, refused(line), expression[-20:])


EXPRESSIONS = [
    ".a = " + "[" * DEEP, ".a = " + "[" * DEEP + "]" * DEEP, ".a = " + "{a: " * (LONGEST // 5), ".a = " + "{\"a\":[" * (LONGEST // 7),
    "(" * LONGEST, "(" * DEEP + ".a" + ")" * DEEP, "select(" * (LONGEST // 8), "del(" * (LONGEST // 5), "." * LONGEST, ".[" * DEEP,
    ".a" * DEEP, ".[0]" * (LONGEST // 5), "." + "[]" * DEEP, ".a|" * (LONGEST // 4) + ".a", "|" * LONGEST, ".a = " + "1+" * DEEP + "1",
    ".a = " + "\"" * LONGEST, "-" * LONGEST, "!" * LONGEST, ".a = \"" + "\\" * LONGEST,
]


def check_deep_expressions(folder):
    """Each is carried out, or refused by one line."""
    for text in TEXTS.values():
        folder.write("f", text)
        for expression in EXPRESSIONS:
            status, _out, line = run_on_a_small_stack(folder, expression, "f")
            equal((status in (0, 1), line.startswith(b"Error: ") or status == 0), (True, True), (expression[:20], status, line))


DEEP_TEXTS = [
    b"[" * 1_000_000, b"{" * 1_000_000, b"[" * 500_000 + b"]" * 500_000 + b"\n", b"{a: " * 250_000, b"- " * 500_000 + b"a\n",
    b"- a: " * 200_000 + b"1\n", b"".join(b" " * n + b"a:\n" for n in range(1_400)), b"".join(b" " * n + b"-\n" for n in range(1_400)),
    b"a: " + b"&x " * 300_000 + b"1\n", b"[a, " * 250_000, b"\"" * 1_000_001, b"'" * 1_000_001, b"a: |\n" + b" \n" * 500_000,
    b"? " * 500_000, b"!" * 1_000_000, b"*" * 1_000_000, b"---\n" * 20_000, b"#" * 1_000_000, b"a: [" + b"*b, " * 250_000 + b"]\n",
]


def check_deep_texts(folder):
    for text in DEEP_TEXTS:
        folder.write("f", text)
        for expression in (".", ".a.b", ".a = 1", "del(.a)", ".[] = 1"):
            status, _out, line = run_on_a_small_stack(folder, expression, "f")
            equal((status in (0, 1), line.startswith(b"Error: ") or status == 0), (True, True), (text[:20], expression, status, line))


def check_deep_journals(folder):
    folder.write("f", b"a: 1\n")
    nested = [b"[" * 1_000_000, b'{"records":' * 100_000, b'{"at":0,"pending":null,"records":' + b"[" * 1_000_000, b'"' + b"\\" * 1_000_000]
    for text in nested:
        folder.write("f.undo.json", text)
        for words in (["history", "f"], ["undo", "f"], ["-i", ".a = 2", "f"], ["squash", "1", "f"]):
            equal(run_on_a_small_stack(folder, *words), refused(b"J4 bad journal"), (text[:20], words))
    equal(folder.read("f"), b"a: 1\n")
