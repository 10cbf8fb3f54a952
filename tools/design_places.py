#!/usr/bin/env python3
"""Lists the places in src/ that docs/DESIGN-PASS.md counts, a point at a time: design_places.py [POINT..].
It knows a place by its text alone, so that the page says of each what it is."""
import glob, re, sys

FILES = sorted(glob.glob("crates/*/src/**/*.rt", recursive=True))
LINES = {f: open(f).read().split("\n") for f in FILES}


def code(f):
    return [re.sub(r"//.*", "", line) for line in LINES[f]]


def matching(pattern):
    for f in FILES:
        for n, line in enumerate(code(f), 1):
            if re.search(pattern, line):
                yield f"{f}:{n}: {line.strip()}"


def functions(f):
    """Name, line and tokens from the parameters on, without clauses, of each function."""
    text = "\n".join(code(f))
    for m in re.finditer(r"^\s*(?:pub )?(?:extern \"C\" )?fn (\w+)", text, re.M):
        start = text.find("\n{", m.end())
        inner = re.search(r"\{\s*$", text[m.end():].split("\n", 1)[0])
        head = text[m.end():start] if start > 0 else ""
        head = re.split(r"\n\s+(?:requires|ensures)", head)[0]
        end = text.find("\n}", start)
        if start < 0 or end < 0 or inner:
            continue
        yield m.group(1), text.count("\n", 0, m.start(1)) + 1, head + text[start:end]


def shape(body):
    """The body with its names, numbers and strings numbered by first use."""
    seen, out = {}, []
    for t in re.findall(r"[A-Za-z_]\w*|\d[\w_]*|b?\"[^\"]*\"|b?'[^']+'|\S", body):
        if re.match(r"[A-Za-z_\d\"']", t) and t not in KEEP:
            t = seen.setdefault(t, f"#{len(seen)}")
        out.append(t)
    return " ".join(out)


KEEP = set("fn let mut if else while for in loop match return break true false as usize u8 u16 u32 u64 i64 bool self".split())


def twins():
    found = {}
    for f in FILES:
        for name, line, body in functions(f):
            s = shape(body)
            if len(s.split()) >= 30:
                found.setdefault(s, []).append(f"{f}:{line}: {name}")
    for places in found.values():
        if len(places) > 1:
            yield " | ".join(places)


def clauses():
    """Facts on parameters that stand in three or more `requires`, with how many."""
    count = {}
    for f in FILES:
        for line in code(f):
            if "requires" in line or re.match(r"\s+×", line):
                for fact in re.findall(r"\(([A-Z]\w+) ([^()]*)\)|\{ ([A-Z]\w+) ([^(){}×]*?) (?:×|\})|\((length \S+ ≡ \d+)\)", line):
                    key = fact[0] or fact[2] or re.sub(r"length \S+", "length _", fact[4])
                    count[key] = count.get(key, 0) + 1
    for key, n in sorted(count.items(), key=lambda kn: -kn[1]):
        if n >= 3:
            yield f"{n}: {key}"


def together():
    """Runs of three or more parameters, by name and type, that three or more functions share."""
    count = {}
    for f in FILES:
        for name, line, body in functions(f):
            params = re.findall(r"(\w+): ([^,()]+(?:\([^)]*\))?)", body.split("{", 1)[0].split("->")[0])
            names = [p for p, _ in params]
            for i in range(len(names)):
                for j in range(i + 3, len(names) + 1):
                    count.setdefault(tuple(names[i:j]), set()).add(f"{f}:{name}")
    big = {k: v for k, v in count.items() if len(v) >= 3}
    for k, v in sorted(big.items(), key=lambda kv: -len(kv[1]) * len(kv[0])):
        if not any(set(k) < set(o) and big[o] == v for o in big):
            yield f"{len(v)}: {', '.join(k)}"


POINTS = {
    "1": ("enums, fields that are flags, numbers that stand for none", [
        lambda: matching(r"^\s*(pub )?enum \w+"),
        lambda: matching(r"^\s*(pub )?\w+: bool,$"),
        lambda: matching(r"\b(TOO_MANY|NO_KEY|NO_LINK|RESULT_SHORT)\b.*=|^\s*(return )?(14|16|256);?$|=> 16,")]),
    "2": ("functions of one shape", [twins]),
    "3": ("loops that are no `for`", [lambda: matching(r"^\s*while |\bloop \{")]),
    "4": ("equality, order, conversion and printing by hand", [
        lambda: matching(r"fn (is_same|is_before|same_bytes|wide|\w+_number|\w+_word|\w+_no|phase_\w+|slack_bits|put_number)\b"),
        lambda: matching(r"fn (copy_over|copy_image|copy_walk|copy_images)\b")]),
    "5": ("facts in three or more contracts; parameters that travel together", [clauses, together]),
    "6": ("lengths beside buffers, parallel arrays, searches by hand", [
        lambda: matching(r"^\s*(pub )?fn .*(count: usize|n: usize|walked: usize)|^\s+(count|n|k|walked): usize,"),
        lambda: matching(r"keys: &(mut )?\[u64"),
        lambda: matching(r"fn (find_image|bisect_codes|place_in_run|find_place)\b")]),
    "7": ("flags that say which step to run", [lambda: matching(r"copying: bool|fresh: bool,?$|kind: u32")]),
}

for point in sys.argv[1:] or POINTS:
    title, ways = POINTS[point]
    places = [p for way in ways for p in way()]
    print(f"== point {point}: {title}: {len(places)}")
    for place in places:
        print("  " + place)
