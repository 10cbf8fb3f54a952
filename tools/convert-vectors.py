#!/usr/bin/env python3
"""Makes crates/vectors/stdin and crates/vectors/stdout from the files of tests/vectors, and from nothing else.

With --check it writes nothing, and fails if one of the two is not what the files give."""
import json
import pathlib
import sys

ROOT = pathlib.Path(__file__).resolve().parent.parent
SOURCE = ROOT / "tests" / "vectors"
CRATE = ROOT / "crates" / "vectors"


def words(numbers):
    return " ".join(str(n) for n in numbers)


def checks():
    for line in (SOURCE / "rfc3720-crc32c.txt").read_text().splitlines():
        if not line.startswith("#"):
            content, check = line.split()
            yield f"c {content}", f"check {check}"


def moments():
    for line in (SOURCE / "postgres-addresses.jsonl").read_text().splitlines():
        m = json.loads(line)
        buckets = [bucket for bucket, _, _ in m["buckets"]]
        bits = [bit for bit, _, _ in m["bits"]]
        asked = f"a {m['maxbucket']};{words(m['spares'])};{words(buckets)};{words(bits)}"
        masks = f"masks {m['highmask']} {m['lowmask']} point {m['ovflpoint']} made {m['nblocks']}"
        of_buckets = "".join(f" {block}/{previous}" for _, block, previous in m["buckets"])
        of_bits = "".join(f" {block}" for _, block, _ in m["bits"])
        yield asked, f"{masks} buckets{of_buckets} bits{of_bits}"


def main():
    examples = list(checks()) + list(moments())
    made = {
        "stdin": "".join(asked + "\n" for asked, _ in examples),
        "stdout": "".join(answer + "\n" for _, answer in examples),
    }
    if sys.argv[1:] == ["--check"]:
        stale = [name for name, text in made.items() if (CRATE / name).read_text() != text]
        if stale:
            sys.exit(f"not what tests/vectors gives: {', '.join(stale)}")
        return
    for name, text in made.items():
        (CRATE / name).write_text(text)


main()
