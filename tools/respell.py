#!/usr/bin/env python3
"""Brings this repository's own definitions and lemmas to the spelling of today's Rattle: words in snake case.

usage: python3 tools/respell.py [FOLDER]     run once, behind the kit's port.py; FOLDER is the top of the checkout

A name in camel case, `ownId`, becomes `own_id` wherever it stands: nothing but this repository's own names is spelled so.
A name with dashes, `first-there`, becomes `first_there` where this repository declares it; a dash stays where both of its sides are
the library's words, as in `leb-max`. A lemma that would get a definition's name ends in `_lem`. Names that Rattle makes (goals, steps) keep theirs. Names that
now stand twice in a file are listed: a definition and the function that it speaks of may have one name.
"""
import os
import re
import sys

TOKEN = re.compile(r"(?<![0-9])[A-Za-z_#][A-Za-z0-9_'#₀-₉·-]*")
HUMP = re.compile(r"^[a-z][A-Za-z0-9]*[a-z0-9][A-Z]")
DECLARED = re.compile(r"^(\s*)((?:(?:abbrev|unfoldable|pub|record|data|infix[lr]?|\d+)\s+)*)([A-Za-z_][^\s:(){}\[\].,;]*)((?:\s*[({][^=]*)?\s*:\s|\s*$)")
USE = re.compile(r"^(\s*)(?:pub )?(?:ghost )?use ([^\s{;*]+?)\.(?:\{([^}]*)\}|\*)", re.M)

SINGLE = {"one_up": "one_up_lem", "fitsPart": "FitsPart", "fitsWindow": "FitsWindow", "endsIn": "EndsIn"}


def files(root):
    for folder, dirs, names in os.walk(os.path.join(root, "crates")):
        dirs[:] = sorted(d for d in dirs if d not in ("out", "target"))
        for name in sorted(names):
            if name.endswith((".rt", ".antt")):
                yield os.path.join(folder, name)


def snake(name):
    return re.sub(r"([a-z0-9])([A-Z])", r"\1_\2", name).lower()


def camel(token):
    """The name in snake case, dash by dash."""
    if token in SINGLE:
        return SINGLE[token]
    return "-".join(snake(p) if HUMP.match(p) else p for p in token.split("-"))


def own_file(path):
    """specs/ and the lemma files of proofs/, not a function's folder."""
    parts = path.split(os.sep)
    if not path.endswith(".antt"):
        return False
    if "specs" in parts:
        return True
    return os.path.basename(path) not in ("Proof.antt", "Answers.antt", "Invariants.antt")


def declarations(path, text):
    """The names that a file declares: (name, whether it is a field or a constructor)."""
    block = None
    for line in text.split("\n"):
        if not line.strip() or line.lstrip().startswith("--"):
            continue
        indent = len(line) - len(line.lstrip())
        if block is not None and indent <= block:
            block = None
        m = DECLARED.match(line)
        if m and not re.match(r"\s*(use|module|mod|pub mod|pub use|pub module|unfolding|let|in|elim|where)\b", line):
            yield m.group(3), block is not None
        if re.match(r"\s*(pub )?(record|data)\b", line):
            block = indent


def undash(name, words, field):
    """Dashes become underscores, but between two definitions."""
    parts = name.split("-")
    made = parts[0]
    for i in range(1, len(parts)):
        left, right = parts[:i], parts[i:]
        two = any("_".join(left[k:]) in words for k in range(i)) and any("_".join(right[:k]) in words for k in range(1, len(right) + 1))
        made += ("-" if two and not field else "_") + parts[i]
    return made


def main(root):
    texts = {p: open(p, encoding="utf-8").read() for p in files(root)}
    crates = {d for d in os.listdir(os.path.join(root, "crates"))}
    words, dashed, fields = set(), {}, {}
    for p, t in texts.items():
        for m in USE.finditer(t):
            own = re.match(r"Rattle\.(\w+)", m.group(2))
            if not (own and own.group(1) in crates):
                words |= {n.strip().split(" as ")[0] for n in (m.group(3) or "").split(",") if "-" not in n}
    taken = {camel(n) for p, t in texts.items() if own_file(p) for n, _ in declarations(p, t) if "-" not in n}
    taken |= words
    words -= {"only"}
    for p, t in texts.items():
        if own_file(p):
            for n, field in declarations(p, t):
                if "-" in n and n[0].islower():
                    to = undash(camel(n), words, field)
                    to += "_lem" if to in taken and not field else ""
                    dashed[n] = to if n not in dashed or field else dashed[n]
                    if field:
                        fields[n] = to
    said = set()
    for p, t in texts.items():
        here = {n for n, _ in declarations(p, t)} if own_file(p) else set()
        foreign = set()
        for m in USE.finditer(t):
            own = re.match(r"Rattle\.(\w+)|^[A-Z]\w*$", m.group(2))
            names = [w.strip() for n in (m.group(3) or "").split(",") for w in n.split(" as ")]
            if own and (own.group(1) is None or own.group(1) in crates) and ".contracts." not in m.group(2):
                here |= set(names)
            else:
                foreign |= set(names)
        tokens = set(TOKEN.findall(t))
        goes = {}
        for n in tokens:
            to = n
            if n in dashed and n in here and n not in foreign:
                to = dashed[n]
            elif n in fields:
                to = n
            else:
                to = camel(n)
            if to != n:
                goes[n] = to
        for n, to in sorted(goes.items()):
            if to in tokens or list(goes.values()).count(to) > 1:
                said.add((os.path.relpath(p, root), n, to))

        def put(m):
            n, before = m.group(0), t[m.start() - 1:m.start()]
            if n in fields and (before == "." or n in here):
                return fields[n]
            if before == "." and n in dashed and HUMP.match(n) is None and "." + n not in modules:
                return n
            return goes.get(n, n)

        modules = set(re.findall(r"[A-Z]\w*(\.[a-z][A-Za-z0-9_'-]*)", t))
        new = TOKEN.sub(put, t)
        if new != t:
            with open(p, "w", encoding="utf-8") as f:
                f.write(new)
    for p, n, to in sorted(said):
        print(f"together: {p}: {n} as {to}")
    print(f"respell: {len(dashed)} dashed names, {len(fields)} of them fields or constructors")
    print("kept dashes:", ", ".join(sorted(v for v in dashed.values() if "-" in v)))
    print("with _lem:", ", ".join(sorted(v for v in dashed.values() if v.endswith("_lem"))))


if __name__ == "__main__":
    main(sys.argv[1] if len(sys.argv) > 1 else ".")
