"""Respells in proofs/ what the check generates from names of the code: clause names, and the names of steps and goals,
in which a name of the code keeps its underscores. Run at the top after tools/respell.py."""
import glob
import re

STOP = r"\s(){}\[\];,.«»\"⟦⟧"
TOKEN = re.compile(rf"[^{STOP}]+")

rust, clauses = {"from_residual", "push_reserved", "in_ok", "in_err", "invariant_of", "overflow_add", "overflow_sub", "overflow_mul"}, set()
for path in glob.glob("crates/*/src/**/*.rt", recursive=True):
    text = open(path).read()
    for m in re.finditer(r"\b(?:requires|ensures)\*?\s+([a-z0-9_]+)\s*\{", text):
        clauses.add(m[1])
    rust |= set(re.findall(r"\b[a-z][a-z0-9]*(?:_[a-z0-9]+)+\b", re.sub(r"//[^\n]*", "", text)))
clause = {c.replace("_", "-"): c for c in clauses if "_" in c}
parts = sorted({r.replace("_", "-"): r for r in rust}.items(), key=lambda p: -len(p[0]))

foreign = set()
for path in glob.glob("crates/*/proofs/**/*.antt", recursive=True):
    for m in re.finditer(r"use\s+Rattle\.std\.proofs[^{;\n]*\{([^}]*)\}", open(path).read()):
        foreign |= {n.split(" as ")[0].strip() for n in m[1].split(",")}


def turned(t):
    if "-" not in t or t in foreign:
        return t
    if t in clause:
        return clause[t]
    s = t
    for kebab, snake in parts:
        s = re.sub(rf"(?<![^-·]){re.escape(kebab)}(?![^-·])", snake, s)
    return s


for path in sorted(glob.glob("crates/*/proofs/**/*.antt", recursive=True)):
    text = open(path).read()
    own = path.endswith(("/Answers.antt", "/Invariants.antt", "/Proof.antt"))
    done = TOKEN.sub(lambda m: turned(m[0]) if own else clause.get(m[0], m[0]), text)
    if done != text:
        open(path, "w").write(done)
