#!/usr/bin/env python3
"""Brings this repository's own names of specs/ and proofs/ to one spelling: words in snake case, types in camel case.

usage: python3 tools/respell.py [--dry]      at the top of the repository, once, after the toolchain's own scripts

A name is this repository's if a signature, a record's field, a constructor or an `as` of an import gives it. A name that
begins with a capital becomes camel case (`Point-laws`, `PointLaws`), any other snake case (`kind-of`, `kind_of`;
`addV`, `add_v`). Names of goals, of the library and of the sources keep their spelling, so a definition may have the name
of a function. Two names of specs/ and proofs/ that would fall together in one file are printed, and nothing is written.
"""
import os, re, sys

IDENT = r"[^\s(){}\[\];,.\"⌜⌝`|]+"
SIG = re.compile(r"^\s*((?:(?:abbrev|unfoldable|pub|data|record)\s+)*)(" + IDENT + r")((?:\s*[({].*?[)}])*)\s*:(?:\s|$)")
GOAL = re.compile(r":\s*(?:goal|given|need)\.")
ALIAS = re.compile(r"\bas\s+(" + IDENT + ")")
OWNUSE = re.compile(r"use\s+(Rattle\.(\w+)[^\s{]*)\.?\{([^}]*)\}")
WORDS = {"use", "let", "in", "module", "where", "unfolding", "elim", "infixl", "infixr", "infix", "mod"}


def respelled(name):
    if re.search(r"[^\x00-\x7fα-ω]", name) and "-" not in name:
        return name
    if name[:1].isupper():
        return "".join(p[:1].upper() + p[1:] for p in re.split(r"[-_]", name)) if "-" in name else name
    if not re.match(r"[a-z_]", name):
        return name
    return re.sub(r"(?<=[a-z0-9])([A-Z])", lambda m: "_" + m[1].lower(), name.replace("-", "_"))


def files(top):
    for d, dirs, fs in os.walk(os.path.join(top, "crates")):
        dirs[:] = sorted(x for x in dirs if x not in ("out", "data"))
        for f in sorted(fs):
            if f.endswith((".antt", ".rt")):
                yield os.path.join(d, f)


def declared(text):
    """The names that a file of specs/ or proofs/ gives."""
    found = set()
    lines = text.split("\n")
    for n, line in enumerate(lines):
        if line.lstrip().startswith("--"):
            continue
        m = SIG.match(line)
        if m and m[2] not in WORDS and not GOAL.search(line) and not (n + 1 < len(lines) and re.match(r"\s*goal\.", lines[n + 1])):
            found.add(m[2])
        # several names before one colon: `plus times : A → A → A`
        m = re.match(r"^\s+(?:pub\s+)?((?:" + IDENT + r"\s+)+)(" + IDENT + r")\s*:\s", line)
        if m and not WORDS & set(m[1].split()) and "λ" not in line.split(":")[0] and "=" not in line.split(":")[0]:
            found |= {w for w in m[1].split() + [m[2]] if w not in ("pub", "abbrev", "unfoldable", "data", "record")}
    return found


def word(m, line, theirs, mine):
    # What stands behind a dot is a field, also where the library has a name like it.
    behind = m.start() > 0 and line[m.start() - 1] == "."
    kept = m[0].startswith('"') or (m[0] in theirs and not behind)
    return m[0] if kept else mine.get(m[0], m[0])


def main():
    dry = "--dry" in sys.argv
    top = os.getcwd()
    texts = {p: open(p, encoding="utf-8").read() for p in files(top)}
    own = set()
    for p, t in texts.items():
        if p.endswith(".antt"):
            own |= declared(t)
        for m in OWNUSE.finditer(t):
            own |= set(ALIAS.findall(m[3]))
    table = {n: respelled(n) for n in own if respelled(n) != n}
    token = re.compile(IDENT)
    bad = 0
    for p, t in texts.items():
        theirs = set()
        for m in OWNUSE.finditer(t):
            if m[2] in ("std", "core", "logic") or ".specs.declared." in m[1] + "." or re.search(r"\.(Goals|Given)\.?$", m[1]):
                theirs |= {x.split(" as ")[0].strip() for x in m[3].split(",") if " as " not in x}
        here = set(token.findall(t))
        mine = {n: table[n] for n in here if n in table}
        for n, to in mine.items():
            if n not in theirs and (to in theirs or to in own & here):
                print(f"{os.path.relpath(p, top)}: {n} and {to} fall together")
                bad += 1
        out = []
        for line in t.split("\n"):
            if p.endswith(".rt") and not re.search(r"^\s*(//|ghost |requires|ensures|pub ghost)|[{≡→λ]", line):
                out.append(line)
            else:
                out.append(re.sub('"[^"]*"|' + IDENT, lambda m: word(m, line, theirs, mine), line))
        new = "\n".join(out)
        if new != t and not dry:
            texts[p] = new
    if dry or bad:
        for n in sorted(table):
            print(n, "->", table[n])
        print(f"{len(table)} names, {bad} that fall together")
        return 1 if bad else 0
    for p, t in texts.items():
        with open(p, "w", encoding="utf-8") as f:
            f.write(t)
    print(f"{len(table)} names respelled")
    return 0


if __name__ == "__main__":
    raise SystemExit(main())
