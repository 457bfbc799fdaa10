#!/usr/bin/env python3
"""Respells this repository's own definitions and lemmas: words in snake case, types in camel case.

usage: python3 tools/respell.py [--list]        at the top of the repository, once, right after the toolchain's port.py

A name is this repository's own where a file of specs/ or proofs/ defines it, as a definition, a lemma, a record, a field or a constructor, or
where an import brings a name in under it. Goals, which the check names, and names of Rust functions keep their spelling. Two names that
would fall together get the spellings of FALLEN. --list prints the renamings and writes nothing.
"""

import glob
import re
import sys

# Names whose plain respelling is taken by another name of this repository, with what they are called instead.
FALLEN = {
    "set-at": "set_at_slot",
    "number-at": "number_at_slot",
    "bit-and": "bit_of_and",
    "bit-or": "bit_of_or",
}

WORD = r"[^\s(){}\[\];,.\"«»`⌜⌝|]+"
HEAD = re.compile(r"\s*(?:(?:pub|abbrev|unfoldable|unfolding|mutual|infixl|infixr|infix)\s+)*(" + WORD + r")\s*(?:[({][^)}]*[)}]\s*)*:\s(?!\s*goal\.)")
TYPE = re.compile(r"\s*(?:(?:pub|abbrev|unfoldable)\s+)*(?:record|data|ruleset)\s+(?:pub\s+)?(" + WORD + ")")
ALIAS = re.compile(r"\bas\s+(" + WORD + ")")
FOREIGN = re.compile(r"use\s+((?:Rattle\.(?:std|core)|borrow|mathlib|lib|logic|iris|Prim)\b[\w.]*)\.\{([^}]*)\}")
OWN_GOAL = re.compile(r"(?:pub|abbrev|unfoldable|\s)*(" + WORD + r")\s*:\s*goal\.")


def files(*kinds):
    for kind in kinds:
        yield from sorted(glob.glob(f"crates/*/{kind}", recursive=True))


def respelt(name):
    if name in FALLEN:
        return FALLEN[name]
    if name[0].isupper():
        return "".join(w[:1].upper() + w[1:] for w in name.split("-"))
    return re.sub(r"(?<=[a-z0-9])[A-Z]", lambda m: "_" + m.group().lower(), name).replace("-", "_").replace("′", "'")


def odd(name):
    return ("-" in name and name.strip("-") == name and len(name) > 1) or (name[0].islower() and re.search(r"[a-z0-9][A-Z]", name)) or "′" in name


def names():
    own, goals = set(), set()
    for path in files("specs/**/*.antt", "proofs/**/*.antt"):
        with open(path, encoding="utf-8") as f:
            text = f.read()
        for line in text.splitlines():
            if line.lstrip().startswith("--"):
                continue
            m = OWN_GOAL.match(line)
            if m:
                goals.add(m.group(1))
                continue
            for pattern in (TYPE, HEAD):
                m = pattern.match(line)
                if m:
                    own.add(m.group(1))
                    break
    for path in files("specs/**/*.antt", "proofs/**/*.antt", "src/**/*.rt"):
        with open(path, encoding="utf-8") as f:
            for line in f:
                if re.match(r"\s*(?:pub\s+|ghost\s+)*use\b", line):
                    own.update(ALIAS.findall(line))
    return {n: respelt(n) for n in own - goals if odd(n)}, own


def respell(text, new):
    return re.sub(WORD, lambda m: new.get(m.group(), m.group()), text)


# The words that a specification lists at its top, with what they say in one column.
def aligned(text):
    lines = text.split("\n")
    rows = []
    for i, line in enumerate(lines):
        if not line.startswith("--"):
            break
        m = re.match(r"--     (\S.*?\S|\S)(   ?) *(\S.*)$", line)
        if m and len(m.group(2)) == 3:
            rows.append((i, m.group(1), m.group(3)))
    wide = max((len(word) for _, word, _ in rows), default=0)
    for i, word, says in rows:
        lines[i] = f"--     {word.ljust(wide)}   {says}"
    return "\n".join(lines)


def main():
    new, own = names()
    for old in sorted(new):
        if "--list" in sys.argv:
            print(old, new[old])
    by = {}
    for old, to in new.items():
        by.setdefault(to, []).append(old)
    for to, olds in sorted(by.items()):
        if len(olds) > 1:
            print("falls together:", to, *olds)
    taken = {}
    for path in files("specs/**/*.antt", "proofs/**/*.antt", "src/**/*.rt"):
        with open(path, encoding="utf-8") as f:
            text = f.read()
        for m in FOREIGN.finditer(text):
            for n in re.findall(WORD, m.group(2)):
                if n in new:
                    print("a library's name too:", n, path)
        for n in re.findall(WORD, text):
            if n in by:
                taken.setdefault(n, set()).add(path)
    for n, where in sorted(taken.items()):
        print("stood already:", n, "for", *by[n], "in", *sorted(where))
    if "--list" in sys.argv:
        return
    for path in [*files("specs/**/*.antt", "proofs/**/*.antt", "src/**/*.rt")]:
        with open(path, encoding="utf-8") as f:
            text = f.read()
        to = respell(text, new)
        if "/specs/" in path:
            to = aligned(to)
        if to != text:
            with open(path, "w", encoding="utf-8") as f:
                f.write(to)
    for path in ["README.md", *sorted(glob.glob("docs/*.md"))]:
        with open(path, encoding="utf-8") as f:
            text = f.read()
        # port.py respelt some names in the crates and none in the pages
        for span in re.findall(r"`[^`\n]+`", text):
            new.update({n: respelt(n) for n in re.findall(WORD, span) if odd(n) and n not in new and respelt(n) in own | set(new.values())})
        to = re.sub(r"`[^`\n]+`", lambda m: respell(m.group(), new), text)
        if to != text:
            with open(path, "w", encoding="utf-8") as f:
                f.write(to)


if __name__ == "__main__":
    main()
