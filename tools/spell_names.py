#!/usr/bin/env python3
"""Brings this repository's own definitions and lemmas to the spelling of today's Rattle: words in snake case.

usage: python3 tools/spell_names.py [FOLDER]      once, right after the kit's port.py, at the top (or in FOLDER)

A name is spelled part by part, where dashes join its parts: each part that begins with a small letter goes from
`camelCase` to `camel_case`. Names that begin with a capital (types, facts, modules) stay. A lemma that would then have
the name of its definition gets `_lem`. Only .antt files, the ghost lines and clauses of .rt files, the comments of both,
the edits, and the words in the pages of README and docs/ are read; no name of a function, a string or an input changes.
"""
import os
import re
import sys

# Lemmas that port.py spelled as their definitions will be spelled: (lemma's word now, folder in which it is the lemma).
LEMMAS = {
    "run_length": ["crates/page/", "crates/chain/"],
    "map_at": ["crates/removal/proofs/ending/end_cut/"],
    "look_at": ["crates/journal/"],
    "run_store": ["crates/journal/"],
    "no_room": ["crates/image/specs/BeforeLaws.antt"],
    "in_order": ["crates/cuts/"],
    "key_below": ["crates/merge/"],
    "pair_ok": ["crates/model/specs/InsertLaws.antt"],
    "length_before": ["crates/image/specs/BeforeLaws.antt"],
    "size_ok": ["crates/outcomes/specs/OutcomeIndexLaws.antt"],
    "find_at": ["crates/store/", "crates/journal/specs/LinkLaws.antt"],
}
# Library words that some own lemmas have in their names.
WORDS = {"getD": "get_or"}
NAME = re.compile(r"(?<![\w'·«-])[A-Za-z_][\w'-]*")
HUMP = re.compile(r"(?<=[a-z0-9'])([A-Z]+)(?=[a-z0-9'_]|$)")


def spelled(name):
    def part(p):
        if p in WORDS:
            return WORDS[p]
        return HUMP.sub(lambda m: "_" + m.group(1).lower(), p) if re.match(r"[a-z]", p) else p

    return "-".join(part(p) for p in name.split("-"))


def humped(name):
    return any(re.match(r"[a-z]", p) and HUMP.search(p) for p in name.split("-"))


def declared(files):
    """Each name with a hump that an .antt file, a clause or an edit of the repository speaks of."""
    found = set()
    for path in files:
        if path.endswith((".antt", ".rt", ".edit")):
            with open(path, encoding="utf-8") as f:
                text = f.read()
            text = re.sub(r"(?m)(--|//).*$", "", text)
            found.update(m.group() for m in NAME.finditer(text) if humped(m.group()))
    return found


def turned(path, text, own):
    def name(m):
        w = m.group()
        if w in LEMMAS and any(path.startswith(at) for at in LEMMAS[w]) and path.endswith((".antt", ".edit")):
            before = text[: m.start()]
            stands = re.search(r"(\.|proofs[\w.+]*\.)$", before)
            return w if stands else w + "_lem"
        return spelled(w) if w in own else w

    return NAME.sub(name, text)


def paths(root):
    for folder, dirs, files in os.walk(root):
        dirs[:] = sorted(d for d in dirs if d not in ("out", "target", ".git"))
        for f in sorted(files):
            p = os.path.relpath(os.path.join(folder, f), root)
            if p.startswith("crates/") and f.endswith((".antt", ".rt", ".edit", ".md")):
                yield p
            elif f.endswith(".md") and (p.startswith("docs/") or "/" not in p or p.startswith("rust/")):
                yield p


def main(argv):
    os.chdir(argv[0] if argv else ".")
    files = list(paths("."))
    own = declared(files)
    for path in files:
        with open(path, encoding="utf-8") as f:
            text = f.read()
        new = turned(path, text, own)
        if new != text:
            with open(path, "w", encoding="utf-8") as f:
                f.write(new)


if __name__ == "__main__":
    main(sys.argv[1:])
