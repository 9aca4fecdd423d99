#!/usr/bin/env python3
"""Lists imports, and top-level names of proofs and specs, that nothing uses. Quiet, and 0, where there is none."""
import pathlib
import re
import sys

NAME = r"[^\s(){}.,;⌜⌝λ→]+"
DECLARED = re.compile(rf"^(?:  )*(?:pub |abbrev |unfoldable )*({NAME}(?: {NAME})*?) :(?: |$)")
IMPORT = re.compile(r"^(?:pub |unfoldable )*use [^{\s]+\.\{(.*)\}$")
# what the checker itself looks for: a goal's answer, a loop's invariant and a measure by the goal's name, and the proof of a function
ANSWER = re.compile(rf"^(?:abbrev |pub )*({NAME}) : goal\.\1$")
# and theorems that nothing is derived from, in the last two lines those of `sorting`, which no crate uses yet, and one of `pool`
THEOREMS = (
    "driver|witnesses|own_tables|conversions|tidying|every_starred|two_in_tree_lem|cut_claim_lem|tidy_room|tidy_order|high_node"
    "|layout_laws|order_laws|walk_laws|recovery_laws|clear_grows_nothing"
    "|stretch_laws|floor_laws|front_listed"
    "|search_starts"
)
KEPT = re.compile(rf".*_spec$|^({THEOREMS})$")
WORDS = re.compile(NAME)
# where code names a spec or a proof: words of functions and of clauses may only be spelled alike
CITES = re.compile(r"^\s*ghost use .*?;|#!?\[tactic\(.*?\)\]", re.MULTILINE | re.DOTALL)


def words(text):
    return WORDS.findall(text)


def lines(path):
    return [line for line in path.read_text().split("\n") if not line.lstrip().startswith("--")]


def count(texts):
    counts = {}
    for text in texts:
        for word in words(text):
            counts[word] = counts.get(word, 0) + 1
    return counts


def imports(path, body):
    """Names that a file brings in and does not use. What it passes on (`pub use`) counts as used."""
    counts = count(line for line in body if not re.match(r"^(unfoldable )?use ", line))
    for line in body:
        found = IMPORT.match(line)
        if found and not line.startswith(("pub", "unfoldable pub")):
            for item in found.group(1).split(", "):
                name = item.split(" as ")[-1]
                parts = [part for part in name.split("◌") if part]
                used = counts.get(name) or "◌" in name and all(map(counts.get, parts))
                if not used:
                    yield f"{path}: {name} is brought in and not used"


def defines(line, name, declaration):
    """A line that declares the name, or begins one of its clauses."""
    depth = len(declaration) - len(declaration.lstrip())
    start = rf"^ {{{depth}}}(?:pub |abbrev |unfoldable )*{re.escape(name)}( .*)? (:|=)( |$)"
    return re.match(start, line) is not None


def main():
    files = sorted(pathlib.Path("crates").glob("*/specs/**/*.antt")) + sorted(pathlib.Path("crates").glob("*/proofs/**/*.antt"))
    bodies = {path: lines(path) for path in files}
    code = [text for path in pathlib.Path("crates").glob("*/src/**/*.rt") for text in CITES.findall(path.read_text())]
    everywhere = count([line for body in bodies.values() for line in body] + code)
    found = []
    for path, body in bodies.items():
        found += imports(path, body)
        for line in body:
            declared = DECLARED.match(line)
            if not declared or "=" in declared.group(1) or line.startswith("   ") or ANSWER.match(line):
                continue
            for name in declared.group(1).split():
                own = sum(words(other).count(name) for other in body if defines(other, name, line))
                if everywhere.get(name, 0) <= own and not KEPT.match(name) and "◌" not in name:
                    found.append(f"{path}: {name} is used by nothing")
    print("\n".join(found), end="\n" if found else "")
    sys.exit(1 if found else 0)


main()
