#!/usr/bin/env python3
"""Writes what docs/PORT.md tells of the files that tools/move_laws.py moved: each theorem's name and whole statement.

usage: python3 tools/moved_theorems.py > FILE        at the top

A statement is told as it stands. A record, a data type or a definition of such a file is told whole.
"""
import os
import re
import subprocess
import sys

sys.dont_write_bytecode = True
import move_laws  # noqa: E402

SIGNATURE = re.compile(r"( *)((?:abbrev |unfoldable )?(?:pub )?)([^\s()]+) : ")
BLOCK = re.compile(r"( *)(?:pub )?(?:record|data) ")
MODULE = re.compile(r"module _ ")


def indent(line):
    return len(line) - len(line.lstrip(" "))


def rest_of(lines, i, base):
    """The number of the first line after i that is not a further line of what stands at this indent."""
    while i < len(lines) and (lines[i].strip() and indent(lines[i]) > base):
        i += 1
    return i


def whole(lines, i, base):
    """The same of a block, in which lines may be empty."""
    end = i
    while i < len(lines) and (not lines[i].strip() or indent(lines[i]) > base):
        i += 1
        if lines[i - 1].strip():
            end = i
    return end


def statements(text):
    lines, said, base, i = text.split("\n"), [], 0, 0
    theorems = 0
    while i < len(lines):
        line = lines[i]
        if not line.strip() or line.lstrip().startswith("--"):
            i += 1
            continue
        if indent(line) == 0:
            base = 0
        end = i + 1
        if MODULE.match(line):
            while not lines[end - 1].rstrip().endswith("where"):
                end += 1
            said.append("\n".join(lines[i:end]))
            base = 2
        elif indent(line) == base and BLOCK.match(line):
            end = whole(lines, i + 1, base)
            said.append("\n".join(lines[i:end]))
        elif indent(line) == base and (it := SIGNATURE.match(line)):
            end = rest_of(lines, i + 1, base)
            if it[2].startswith(("abbrev", "unfoldable")):
                # its equations too: they begin with its name
                while end < len(lines) and lines[end].lstrip().startswith((it[3] + " ", "unfolding ")):
                    end = whole(lines, end + 1, base)
            else:
                theorems += 1
            said.append("\n".join(lines[i:end]))
        i = end
    return said, theorems


def main():
    files = total = 0
    for crate, modules in move_laws.MOVES.items():
        for module in modules:
            path = f"crates/{crate}/proofs/{module}.antt"
            if not os.path.exists(path):
                continue
            said, theorems = statements(move_laws.read(path))
            files, total = files + 1, total + theorems
            print(f"### `{path}`, before `crates/{crate}/specs/{module}.antt`\n\n```\n" + "\n".join(said) + "\n```\n")
    print(f"{files} files, {total} theorems and lemmas.")


if __name__ == "__main__":
    os.chdir(subprocess.run(["git", "rev-parse", "--show-toplevel"], check=True, capture_output=True, text=True).stdout.strip())
    main()
