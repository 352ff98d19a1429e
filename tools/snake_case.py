#!/usr/bin/env python3
"""Brings the repository's own definitions, lemmas, fields and parameters to snake case, as Rattle spells them: `takenOf` and `first-given` become
`taken_of` and `first_given`. Names of types, modules, Rust items and libraries stay. In pages, names in backticks follow.

usage: tools/snake_case.py [--dry]        at the top of the repository, once, after the kit's port.py
"""
import collections
import os
import re
import sys

CHAR = r"[\w'ℕℤ₀-₉∷≤<+¬⊎◌]"
TOKEN = re.compile(rf"{CHAR}(?:{CHAR}|-(?={CHAR}))*")
DECLARED = re.compile(rf"^\s*(?:(?:abbrev|unfoldable|pub|record|data|module)\s+)*({CHAR}(?:{CHAR}|-(?={CHAR}))*)(?=\s[^=]*:|\s*:)")
BINDER = re.compile(r"[({]((?:[^\s(){}:]+ )+): ")
IMPORT = re.compile(r"^\s*(?:pub )?(?:ghost )?use ([^\s{]+?)\.?\{([^}]*)\}")
HANDMADE = ("Proof.antt", "Invariants.antt", "Answers.antt")


def snake(name):
    """The name with an underscore for each dash and before each capital that follows a small letter or a digit."""
    if not re.search(r"[a-zℤ]", name):
        return name.replace("-", "_")
    out = re.sub(r"(?<=[a-z0-9])([A-Z])", r"_\1", name)
    return out.replace("-", "_").lower() if name[0].islower() or not name[0].isalpha() else name.replace("-", "_")


def bent(name):
    return name[0] not in "-_" and ("-" in name or (name[0].islower() and re.search(r"[a-z0-9][A-Z]", name)))


def files(ends, top="crates"):
    for folder, dirs, names in os.walk(top):
        dirs[:] = sorted(d for d in dirs if d not in ("out", ".git", "target"))
        for n in sorted(names):
            if n.endswith(ends):
                yield os.path.join(folder, n)


def read(path):
    with open(path, encoding="utf-8") as f:
        return f.read()


def main():
    dry = "--dry" in sys.argv
    own = {l.split(":")[0] for l in read("crates.txt").splitlines() if l and not l.startswith("#")}
    declared, every = set(), collections.Counter()
    for p in files(".antt"):
        text = re.sub(r"--.*", "", read(p))
        every.update(TOKEN.findall(text))
        if os.path.basename(p) in HANDMADE:
            continue
        for line in text.splitlines():
            m = DECLARED.match(line)
            if m and not line.lstrip().startswith(("let ", "use ", "λ", "|", "(", "in ")):
                declared.add(m.group(1))
            for b in BINDER.findall(line):
                declared.update(b.split())
            for b in re.findall(r"λ ([^.:]*)\.", line):
                declared.update(b.split())
            for b in re.findall(r"let (\S+) ", line):
                declared.add(b)
    for p in files(".rt"):
        every.update(TOKEN.findall(read(p)))
    renamed, ghost = turned(declared)
    for old, new in sorted(renamed.items()):
        if every[new] and new not in ghost:
            print("stands already:", new, "for", old)
    if dry:
        for old, new in sorted(renamed.items()):
            print(old, "->", new)
        return
    for p in list(files(".antt")) + list(files(".rt")):
        text = read(p)
        names = {**renamed, **ghost} if p.endswith(".antt") else renamed
        foreign = set()
        for line in text.splitlines():
            m = IMPORT.match(line)
            if m and not (m.group(1).startswith("Rattle.") and m.group(1).split(".")[1] in own):
                foreign.update(x.strip() for x in m.group(2).split(","))
        hit = foreign & set(renamed)
        if hit:
            print("a library's name, left in", p, ":", *sorted(hit))
        turn(p, text, lambda t: names.get(t, t) if t not in foreign else t)
    known = set(renamed.values()) | {t for t in every}
    for p in [q for q in files(".md", ".") if "/docs/changes/" not in q]:
        text = read(p)
        new = re.sub(r"`[^`\n]+`", lambda m: TOKEN.sub(lambda t: snake(t.group()) if bent(t.group()) and snake(t.group()) in known else t.group(), m.group()), text)
        if new != text:
            write(p, new)


def turned(declared):
    """Old names to new. A lemma that would have its definition's name gets `_lem`: also one that was in snake case before (the second of the pair)."""
    plain = {n for n in declared if not bent(n)}
    renamed = {n: snake(n) for n in declared if bent(n) and "-" not in n}
    definitions = set(renamed.values())
    ghost = {n: n + "_lem" for n in plain & definitions}
    taken = plain | definitions
    for n in sorted(declared):
        if bent(n) and "-" in n:
            renamed[n] = snake(n) + "_lem" if snake(n) in taken else snake(n)
    return renamed, ghost


def turn(path, text, f):
    new = TOKEN.sub(lambda m: f(m.group()), text)
    if new != text:
        write(path, new)


def write(path, text):
    with open(path, "w", encoding="utf-8") as f:
        f.write(text)


if __name__ == "__main__":
    main()
