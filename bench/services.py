"""Texts of services, as they are in files of deployments: nested mappings, sequences, quoted scalars, comments, flow
mappings, block scalars. One size gives the same text each time.

usage: services.py SIZE > FILE
"""

import random
import sys

WORDS = "alpha beta gamma delta service worker queue cache index shard mirror relay proxy store batch".split()


def service(pick, number):
    """One service, as lines of a mapping that is indented by two spaces."""
    word = lambda: pick.choice(WORDS)
    lines = []
    if pick.random() < 0.5:
        lines.append(f"  # {word()} {word()}, {number}")
    lines.append(f"  svc-{number:06}:")
    lines.append(f"    description: {word()} the {word()} of {word()} and {word()}")
    image = f"registry.invalid/{word()}/{word()}:{pick.randrange(9)}.{pick.randrange(30)}"
    lines.append(f"    image: \"{image}\"{'   # pinned' if pick.random() < 0.3 else ''}")
    lines.append(f"    enabled: {pick.choice(['true', 'false'])}")
    lines.append(f"    limits:\n      memory: {pick.randrange(64, 4096)}Mi\n      cpu: {pick.random() * 8:.1f}  # cores")
    lines.append("    env:")
    for i in range(pick.randrange(1, 4)):
        lines.append(f"      - name: {word().upper()}_{i}\n        value: '{word()}'")
    first, second = pick.randrange(1024, 65535), pick.randrange(1024, 65535)
    lines.append(f"    ports:\n      - port: {first}\n        protocol: TCP\n      # second\n      - port: {second}")
    lines.append(f"    labels: {{tier: {word()}, zone: z{pick.randrange(9)}}}")
    if pick.random() < 0.25:
        lines.append(f"    script: |\n      set -e\n      {word()} --{word()}={pick.randrange(99)}\n\n      echo done")
    if pick.random() < 0.5:
        lines.append("")
    return "\n".join(lines) + "\n"


def services(size):
    """A text of about so many bytes, and the path of a port in its middle, as steps."""
    pick = random.Random(20251 + size)
    parts, length, count = [f"# generated, seed {size}\nversion: 1\n\nservices:\n"], 0, 0
    while length < size:
        parts.append(service(pick, count))
        length += len(parts[-1])
        count += 1
    return "".join(parts).encode(), ["services", f"svc-{count // 2:06}", "ports", 1, "port"]


if __name__ == "__main__":
    sys.stdout.buffer.write(services(int(sys.argv[1]))[0])
