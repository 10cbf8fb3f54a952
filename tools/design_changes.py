#!/usr/bin/env python3
"""Prints, as the end of docs/DESIGN-PASS.md, each public signature, clause, type, definition and law that differs from
what it was at a commit: design_changes.py COMMIT. Laws by what they state, definitions whole; by the text alone."""
import re, subprocess, sys, textwrap

OLD = sys.argv[1]


def files(commit):
    names = subprocess.run(["git", "ls-tree", "-r", "--name-only", commit, "crates"], capture_output=True, text=True, check=True).stdout.split("\n")
    for name in names:
        if re.search(r"/src/.*\.rt$|/(specs|proofs)/[^/]*\.antt$", name):
            text = subprocess.run(["git", "show", f"{commit}:{name}"], capture_output=True, text=True, check=True).stdout
            yield name, text


def flat(text):
    return re.sub(r"\s+", " ", text).strip()


def rust_items(text):
    """Public functions by name, with signature and clauses; public types with their fields, ghost items and impls."""
    text = re.sub(r"^\s*//.*\n", "", text, flags=re.M)
    text = re.sub(r"\s*//.*", "", text)
    for m in re.finditer(r"^( *)pub (?:extern \"C\" )?fn (\w+)", text, re.M):
        end = text.find("\n" + m.group(1) + "{", m.end())
        line = text.find("{\n", m.end())
        stop = end if end >= 0 and not re.search(r"\n" + m.group(1) + r"}", text[m.end():end]) else line
        yield "fn " + m.group(2), flat(text[m.start():stop])
    for m in re.finditer(r"^pub (struct|enum|trait|const|type) (\w+)", text, re.M):
        if m.group(1) in ("const", "type"):
            stop = text.find(";", m.end()) + 1
        else:
            stop = text.find("\n}", m.end()) + 2
        body = text[m.start():stop]
        if m.group(1) == "const" and len(body) > 400:
            continue
        yield m.group(1) + " " + m.group(2), flat(body)


DECL = re.compile(r"^(\s*)((?:abbrev |unfoldable )?(?:pub )?(?:data |record )?)(\S+)((?: [({].*)? :.*)$")


def antt_items(text):
    """Public definitions, whole, and public laws, what they state; each with the module that it stands in."""
    lines = text.split("\n")
    modules = []
    i = 0
    while i < len(lines):
        line = lines[i]
        deep = len(line) - len(line.lstrip())
        if line.strip() and not line.lstrip().startswith("--"):
            while modules and deep <= modules[-1][0]:
                modules.pop()
        if re.match(r"\s*module _", line):
            head, j = [line], i + 1
            while not head[-1].rstrip().endswith("where"):
                head.append(lines[j])
                j += 1
            modules.append((deep, flat(" ".join(head))))
            i = j
            continue
        m = DECL.match(line)
        if m and "pub" in m.group(2) and not re.match(r"\s*(pub use|pub mod|use )", line):
            sig, j = [line], i + 1
            while j < len(lines) and lines[j].strip() and len(lines[j]) - len(lines[j].lstrip()) > deep:
                sig.append(lines[j])
                j += 1
            whole = list(sig)
            while j < len(lines) and lines[j].strip() and len(lines[j]) - len(lines[j].lstrip()) >= deep and not DECL.match(lines[j]):
                whole.append(lines[j])
                j += 1
            law = not re.search(r"abbrev|unfoldable|data|record", m.group(2))
            where = " ".join(h for _, h in modules)
            yield m.group(3), ("law" if law else "definition"), (where + " " if where else "") + flat(" ".join(sig if law else whole))
            i = j
            continue
        i += 1


def collect(commit):
    found = {}
    for name, text in files(commit):
        crate = name.split("/")[1]
        items = [(k, "source", v) for k, v in rust_items(text)] if name.endswith(".rt") else list(antt_items(text))
        for key, kind, value in items:
            found.setdefault((crate, kind, key), []).append((name.split("/", 2)[2], value))
    return found


def show(sign, text):
    for n, part in enumerate(textwrap.wrap(text, 112, break_long_words=False, break_on_hyphens=False)):
        print(sign + ("  " if n else " ") + part)


old, new = collect(OLD), collect("HEAD")
crates = [l.split(":")[0].split()[0] for l in open("crates.txt") if l.strip() and not l.startswith("#")]
for crate in crates:
    begun = False
    for kind, title in (("source", "signatures, clauses and types"), ("definition", "definitions"), ("law", "laws, what they state")):
        keys = sorted({k for k in list(old) + list(new) if k[0] == crate and k[1] == kind}, key=lambda k: k[2])
        changed = [k for k in keys if sorted(v for _, v in old.get(k, [])) != sorted(v for _, v in new.get(k, []))]
        changed = [k for k in changed if k in old or kind == "source"]
        if not changed:
            continue
        if not begun:
            print(f"\n## {crate}")
            begun = True
        print(f"\n{title.capitalize()}:\n\n```diff")
        for k in changed:
            before = [v for _, v in old.get(k, []) if v not in [w for _, w in new.get(k, [])]]
            after = [v for _, v in new.get(k, []) if v not in [w for _, w in old.get(k, [])]]
            for v in before:
                show("-", v)
            for v in after:
                show("+", v)
            if not after and k not in new:
                print("  (gone: " + k[2] + ")")
        print("```")
