#!/usr/bin/env python3
"""Makes crates/verdicts/stdin and crates/verdicts/stdout from the two stores.txt of tests/vectors, and from nothing
else: every store of document 01, under store number 0, and the small ones of document 02.

With --check it writes nothing, and fails if one of the two is not what the files give."""
import pathlib
import sys

ROOT = pathlib.Path(__file__).resolve().parent.parent
SOURCE = ROOT / "tests" / "vectors"
CRATE = ROOT / "crates" / "verdicts"

BLOCK = 512
COVERED = 508
# The stores of document 02 that are taken have at most so many blocks: the program reads no more than MOST_BYTES.
MOST_BLOCKS = 6
MOST_BYTES = 524288


def crc32c(content):
    state = 0xFFFFFFFF
    for byte in content:
        state ^= byte
        for _ in range(8):
            state = state >> 1 ^ (0x82F63B78 if state & 1 else 0)
    return state ^ 0xFFFFFFFF


def check(number, k, block):
    """The check of block k in the store with this number."""
    return crc32c(number.to_bytes(4, "little") + k.to_bytes(4, "little") + block[:COVERED])


def under_number_0(store):
    """A store of document 01, whose checks are over bytes 0..507 alone, with checks over the two numbers too. Right
    ones stay right, and wrong ones wrong. Number 0 stands in the meta block already."""
    made = bytearray(store)
    for k in range(len(store) // BLOCK):
        block = store[BLOCK * k : BLOCK * (k + 1)]
        bits = crc32c(block[:COVERED]) ^ check(0, k, block)
        for i, byte in enumerate(bits.to_bytes(4, "little")):
            made[BLOCK * k + COVERED + i] ^= byte
    return bytes(made)


def examples_01():
    """Each store with the code of its verdict and what goes with it."""
    store = None
    for line in (SOURCE / "stores.txt").read_text().splitlines():
        kind, _, rest = line.partition(" ")
        if kind == "S":
            store = under_number_0(bytes.fromhex(rest))
        elif kind == "V":
            yield store, rest


def unused(number, k):
    empty = bytes(COVERED)
    return empty + check(number, k, empty).to_bytes(4, "little")


def block_of(runs):
    """A block that is zero but for runs of bytes."""
    block = bytearray(BLOCK)
    for run in runs:
        offset, content = run.split(":")
        content = bytes.fromhex(content)
        block[int(offset) : int(offset) + len(content)] = content
    return bytes(block)


def examples_02():
    """The same of the stores of document 02."""
    blocks = []
    for line in (SOURCE / "02" / "stores.txt").read_text().splitlines():
        kind, *words = line.split()
        if kind == "S":
            small = int(words[0]) <= MOST_BLOCKS
            blocks = [unused(int(words[1]), k) for k in range(int(words[0]))] if small else None
        elif blocks is None:
            continue
        elif kind == "B":
            blocks[int(words[0])] = block_of(words[1:])
        elif kind == "V":
            yield b"".join(blocks), " ".join(words)


def main():
    found = [*examples_01(), *examples_02()]
    made = {
        "stdin": "".join(store.hex() + "\n" for store, _ in found),
        "stdout": "".join(verdict + "\n" for _, verdict in found),
    }
    if len(made["stdin"]) > MOST_BYTES:
        sys.exit(f"more than the {MOST_BYTES} bytes that the program reads")
    if sys.argv[1:] == ["--check"]:
        stale = [name for name, text in made.items() if (CRATE / name).read_text() != text]
        if stale:
            sys.exit(f"not what tests/vectors gives: {', '.join(stale)}")
        return
    for name, text in made.items():
        (CRATE / name).write_text(text)


main()
