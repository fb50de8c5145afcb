"""Respells the repository's own definitions, fields, constructors and lemmas from kebab-case to snake_case, in every
crate's specs/, proofs/, src/ (clauses) and must-fail/. Run once at the top, after the toolchain's port.py, with
everything committed. `--list` only prints what it would rename. Names that the check generates (goals, steps) stay."""
import collections
import glob
import re
import sys

STOP = r"\s(){}\[\];,.«»\"⟦⟧"
TOKEN = re.compile(rf"[^{STOP}]+")
SIGN = re.compile(rf"^(\s*)((?:abbrev|unfoldable|pub|data|record|module)\s+)*([^{STOP}]+)((?:\s+\{{[^}}]*\}}|\s+\([^)]*\))*)\s+:\s*(.*)$")
KEBAB = re.compile(r"^[A-Za-z][A-Za-z0-9_']*(?:-[A-Za-z0-9_']+)+$")


def files():
    for pattern in ("specs/**/*.antt", "proofs/**/*.antt", "src/**/*.rt", "must-fail/*.edit"):
        yield from sorted(glob.glob("crates/*/" + pattern, recursive=True))


def generated(path):
    return path.endswith(("/Answers.antt", "/Invariants.antt", "/Proof.antt"))


def collect():
    defs, fields, foreign = collections.defaultdict(set), collections.defaultdict(set), collections.defaultdict(set)
    for path in files():
        if not path.endswith((".antt", ".rt")):
            continue
        text = open(path).read()
        for m in re.finditer(r"use\s+(Rattle\.std|borrow|Prim|lib|mathlib|native|denote)[^{;\n]*\{([^}]*)\}", text):
            for n in re.split(r",\s*", m[2]):
                foreign[n.split(" as ")[0].strip()].add(path)
        if path.endswith(".rt"):
            continue
        for line in text.split("\n"):
            m = SIGN.match(line)
            if not m or not KEBAB.match(m[3]):
                continue
            if generated(path) and re.match(r"goal\.", m[5]):
                continue
            (fields if m[1] and not generated(path) else defs)[m[3]].add(path)
    return defs, fields, foreign


def main():
    defs, fields, foreign = collect()
    own = set(defs) | set(fields)
    clash = sorted(n for n in own if n in foreign)
    new = {n: n.replace("-", "_") for n in own}
    every = collections.defaultdict(set)
    for path in files():
        for t in TOKEN.findall(open(path).read()):
            every[t].add(path)
    fall = sorted(n for n in own if every.get(new[n]))
    if "--list" in sys.argv:
        print(len(own), "names;", len(fields), "fields")
        for n in clash:
            print("also a name of the library:", n, sorted(foreign[n]), sorted(defs[n] | fields[n]))
        for n in fall:
            print("falls together:", n, sorted(defs[n] | fields[n])[:3], "with", new[n], sorted(every[new[n]])[:6])
        return
    for path in files():
        text = open(path).read()
        out, at = [], 0
        for m in TOKEN.finditer(text):
            t = m[0]
            if t not in own or path in foreign.get(t, ()):
                continue
            if m.start() and text[m.start() - 1] == ".":
                before = re.search(rf"([^{STOP}]*)\.$", text[: m.start()])
                module = bool(before and before[1][:1].isupper())
                if not (module or t in fields):
                    continue
            out.append(text[at : m.start()] + new[t])
            at = m.end()
        out.append(text[at:])
        done = "".join(out)
        if done != text:
            open(path, "w").write(done)


main()
