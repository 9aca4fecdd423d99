#!/usr/bin/env python3
"""Spells the repository's own definitions, lemmas, fields and constructors as today's Rattle does: words in snake case.

usage: python3 tools/respell.py [--list] [FOLDER]     once, after port.py, at the top of the repository (or of FOLDER)

A name is renamed wherever it stands in crates/: in .antt and in .rt files, in comments only where it has a capital inside. A dash or a capital
inside a name that begins with a small letter becomes an underscore. Where two names would meet in one file, the lemma or field gets `_lem`
behind it, and the definition keeps the name. Names of the library and names that Rattle makes of the code (goals, invariants) stay.
"""
import collections
import os
import re
import sys

WORD = r"[^\s()\[\]{}.,;:@\"«»⟨⟩]+"
TOKEN = re.compile(WORD)
NAME = r"[A-Za-zΑ-ω_][^\s()\[\]{}.,;:@\"«»⟨⟩]*"
ARGUMENTS = r"\s*(?:\([^)]*\)\s*|\{[^}]*\}\s*)*:\s"
TOP = re.compile(r"^(?:\s*(?:abbrev|unfoldable) )?(?:(?:abbrev|unfoldable|pub|record|data) )*(" + NAME + r"(?: " + NAME + r")*)" + ARGUMENTS)
MEMBER = re.compile(r"^\s+(?:pub )?(?!let |in |as )(" + NAME + r"(?: " + NAME + r")*)" + ARGUMENTS)
# what Rattle makes of the code in the files of a function's proof
MADE = re.compile(r"^(invariant|decreases)-")


def snake(name):
    return re.sub(r"(?<=[a-z0-9])([A-Z])", lambda m: "_" + m.group(1).lower(), name).replace("-", "_")


def files(root, ends):
    for folder, dirs, names in os.walk(os.path.join(root, "crates")):
        dirs[:] = sorted(d for d in dirs if d != "out")
        for n in sorted(names):
            if n.endswith(ends):
                yield os.path.join(folder, n)


def read(path):
    with open(path, encoding="utf-8") as f:
        return f.read()


def uses(text):
    """Each `use M.{a, b}` of a text, as (M, [a, b])."""
    for m in re.finditer(r"^\s*(?:ghost )?use ([^\s{;]+?)(?:\.\{([^}]*)\})?;?$", text, re.M):
        yield m.group(1), [x.split(" as ")[0].strip() for x in (m.group(2) or "").split(",") if x.strip()]


def plan(root):
    crates = set(os.listdir(os.path.join(root, "crates")))
    declared = collections.defaultdict(set)
    bare = collections.defaultdict(set)
    foreign = set()
    for path in files(root, ".antt"):
        text = read(path)
        for line in text.splitlines():
            kind = "top" if TOP.match(line) else "member"
            m = TOP.match(line) or MEMBER.match(line)
            if m:
                for name in m.group(1).split():
                    declared[name].add("word" if kind == "top" and "/specs/" in path else kind)
        # names that stand alone: not a module's, and not a projection's
        plain = re.sub(r"--.*", "", text)
        for m in re.finditer(r"(?<![\w.'-])" + WORD, plain):
            bare[m.group(0)].add(path)
        for module, items in uses(text):
            parts = module.split(".")
            own = parts[0] == "Rattle" and parts[1] in crates
            if not own or parts[-1] in ("Statement", "Tie", "Lts", "Goals", "Given"):
                foreign.update(items)
    for path in files(root, ".rt"):
        for module, items in uses(read(path)):
            if module.split(".")[0] != "Rattle" or module.split(".")[1] not in crates:
                foreign.update(items)
    turned, clashes = {}, []
    for name in sorted(declared):
        new = snake(name)
        if new == name or not re.match(r"[a-z]", name) or MADE.match(name):
            continue
        if name in foreign:
            clashes.append((name, new, "the library has this name too"))
            continue
        turned[name] = new
    rank = {"word": 0, "top": 1, "member": 2}
    taken = collections.defaultdict(list)
    for name, new in turned.items():
        taken[new].append(name)
    for new, names in taken.items():
        if new in foreign:
            clashes.append((names[0], new, "falls together with a name of the library"))
        if new in bare:
            names = names + [new]
        # a definition of specs/ keeps the plain spelling, then what had it, then a lemma, then a field
        names = sorted(names, key=lambda n: (min([rank[k] for k in declared.get(n, ())] or [3]), n != new, "-" in n, n))
        for n in names[1:]:
            both = set.union(*[bare[n] & bare[o] for o in names if o != n])
            if not both:
                continue
            if n not in declared:
                clashes.append((n, "?", "a local name beside " + str(names[0])))
                continue
            turned[n] = new + "_lem"
            clashes.append((n, turned[n], "beside " + names[0] + " in " + " ".join(sorted(os.path.relpath(f, root) for f in both))))
            assert turned[n] not in bare, turned[n]
    return turned, clashes


def respell(text, turned, comment):
    """The text with its names turned; in a comment only names with a capital inside, since a dash joins English words too."""
    def turn(m):
        name = m.group(0)
        # a name in snake case that moves aside is a lemma's; behind a point it is a function of the code
        if name == snake(name) and m.start() and m.string[m.start() - 1] == ".":
            return name
        return turned.get(name, name)

    out = []
    for line in text.split("\n"):
        code, mark, rest = line.partition(comment)
        code = TOKEN.sub(turn, code)
        rest = TOKEN.sub(lambda m: turn(m) if re.search("[a-z][A-Z]", m.group(0)) else m.group(0), rest)
        out.append(code + mark + rest)
    return "\n".join(out)


def main(argv):
    listing = "--list" in argv
    rest = [a for a in argv if a != "--list"]
    root = rest[0] if rest else "."
    turned, clashes = plan(root)
    for name, new, why in clashes:
        print(f"{name} -> {new}: {why}")
    print(f"{len(turned)} names")
    if listing:
        for name, new in sorted(turned.items()):
            print(name, new)
        return 0
    for path in files(root, (".antt", ".rt")):
        old = read(path)
        # what Rust code names is in snake case already
        names = turned if path.endswith(".antt") else {n: t for n, t in turned.items() if n != snake(n)}
        new = respell(old, names, "--" if path.endswith(".antt") else "//")
        if new != old:
            with open(path, "w", encoding="utf-8") as f:
                f.write(new)
    return 0


if __name__ == "__main__":
    raise SystemExit(main(sys.argv[1:]))
