#!/usr/bin/env python3
"""Counts, in crates/*/src, the places that docs/DESIGN-PASS.md speaks of: usage: places.py [FOLDER] [--all].
FOLDER is a checkout (this one). It goes by text alone: a count is where to look, and a reader judges. --all prints each place."""
import collections, os, re, sys

args = [a for a in sys.argv[1:] if not a.startswith("--")]
top = args[0] if args else os.path.join(os.path.dirname(os.path.abspath(__file__)), "..")
everything = "--all" in sys.argv


def sources():
    for folder, _, names in sorted(os.walk(os.path.join(top, "crates"))):
        if "/src" in folder and "/out" not in folder:
            for name in sorted(names):
                if name.endswith(".rt"):
                    path = os.path.join(folder, name)
                    text = open(path).read()
                    # comments go, the lines stay
                    yield os.path.relpath(path, os.path.join(top, "crates")), re.sub(r"//[^\n]*", "", text)


FILES = list(sources())


def find(pattern, keep=lambda m: True):
    out = []
    for path, text in FILES:
        for m in re.finditer(pattern, text):
            if keep(m):
                line = text.count("\n", 0, m.start()) + 1
                out.append("%s:%d: %s" % (path, line, " ".join(m.group(0).split())[:110]))
    return out


def functions():
    for path, text in FILES:
        for m in re.finditer(r"\bfn (\w+)(<[^(]*>)?\(([^)]*)\)", text):
            line = text.count("\n", 0, m.start()) + 1
            params = [" ".join(p.split()) for p in re.split(r",(?![^<\[(]*[>\])])", m.group(3)) if ":" in p]
            tail = text[m.end():]
            contract = tail[: tail.find("\n{") if "\n{" in tail else 400]
            yield path, line, m.group(1), params


def together():
    """Pairs of parameters, by name and type, that three or more functions of a crate take."""
    pairs = collections.defaultdict(list)
    for path, line, name, params in functions():
        crate = path.split("/")[0]
        clean = sorted(set(re.sub(r"^mut ", "", p) for p in params))
        for i, a in enumerate(clean):
            for b in clean[i + 1:]:
                pairs[(crate, a, b)].append("%s:%d %s" % (path, line, name))
    return ["%s: %s | %s, in %d" % (c, a, b, len(w)) for (c, a, b), w in sorted(pairs.items()) if len(w) >= 3]


def facts():
    """Facts of a requires that three or more contracts of a crate have, parts of a product counted apart."""
    seen = collections.Counter()
    for path, text in FILES:
        crate = path.split("/")[0]
        for m in re.finditer(r"requires (\w+ )?\{(.*)\}", text):
            fact = re.sub(r"\.(old|now)\b", "", m.group(2).strip())
            for part in re.split(r" × ", fact):
                part = part.strip()
                while part.startswith("(") and part.endswith(")") and part[1:-1].count("(") == part[1:-1].count(")"):
                    part = part[1:-1].strip()
                seen[(crate, part.strip("()"))] += 1
    return ["%s: %s, in %d" % (c, f, n) for (c, f), n in sorted(seen.items()) if n >= 3]


def two_cases():
    out = []
    for path, text in FILES:
        for m in re.finditer(r"enum (\w+)[^{]*\{(.*?)\n\}", text, re.S):
            body = re.sub(r"\{[^}]*\}", "", m.group(2))
            cases = [c for c in re.findall(r"^\s{4}(\w+)", body, re.M)]
            if len(cases) == 2:
                out.append("%s:%d: %s %s" % (path, text.count("\n", 0, m.start()) + 1, m.group(1), cases))
    return out


REBUILT = r"(None|Err\(\w*\)) => (return )?(None|Err\([^,]*\)),|(let Some\([^=]*= [^;{]*|let Ok\([^=]*= [^;{]*) else \{\s*return (None|Err\([^;]*\)|Ok\([^;]*\));\s*\}|if \w[^{]* \{\s*(Some|Ok)\([^}]*\)\s*\} else \{\s*(None|Err\([^}]*\))\s*\}"
COUNTS = [
    ("1 enums of two cases, to be read for the shape of Option or Result", two_cases()),
    ("1 an Option or a Result taken apart to make one again", find(REBUILT)),
    ("1 numbers in place of kinds (fields and parameters)", find(r"\b(number|reason|kind|code): u(8|16|32)\b")),
    ("3 loops over a range, and while and loop", find(r"\bfor \w+ in [^{;]*?\.\.[^{]*\{|\bwhile [^{]*\{|\bloop \{")),
    ("4 From, TryFrom and Display written by hand", find(r"impl(<[^>]*>)? (From<[^{]*>|TryFrom<[^{]*>|fmt::Display) for [^{]*")),
    ("4 equality, order and words by hand", find(r"fn (same_\w+|not_after|\w*layer_word|reason|complain\w*|wrong|advice|path_text|spells)\b")),
    ("5 facts of a requires in three or more contracts of a crate", facts()),
    ("5 pairs of parameters in three or more functions of a crate", together()),
    ("6 fixed buffers and parents by number", find(r"\b\w+: \[u8; \d+\]|\bparent: usize|\bstarts: Vec<")),
    ("7 matches on a plain enum's case that only choose what to call", find(r"\b(\w+)::\w+(\([a-z_]+\))? => \w+(\.\w+)?\([^\n]*\),\n\s+\1::")),
]
for title, places in COUNTS:
    print("%3d  %s" % (len(places), title))
    if everything:
        for p in places:
            print("        " + p)
