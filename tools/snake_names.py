#!/usr/bin/env python3
"""Turns the repository's own definitions and lemmas to snake case, once, after the kit's port.py.

usage: python3 tools/snake_names.py      at the top of the repository

`minOf` becomes `min_of`, `ceil-none` becomes `ceil_none`. Types keep their camel case. Where a lemma would get its definition's name, it ends in `_lem`.
A name is turned where it stands as a word: in code and clauses, in the texts of must-fail edits, and between backticks in comments and pages.
Names that the kit makes for proofs (goals, steps) are left to the proofs.
"""

import collections
import glob
import os
import re
import sys

W = r"[^\s(){}.;,@\"«»\[\]\\:`]+"
DECLARED = re.compile(r"^(\s*)(?:abbrev |unfoldable )?(?:pub )?(" + W + r"(?: " + W + r")*) : ")
TOKEN = re.compile(r"--[^\n]*|//[^\n]*|b?\"(?:[^\"\\\n]|\\.)*\"|«[^»]*»|" + W)
# The words of a step that the kit makes from a function's name; in a walk a field of this name is a step's.
FUNCTION = re.compile(r"\bfn (\w+)")
# `or` is what stands for an absent value in the source's own word; std has a `get_or` of lists.
BY_HAND = {
    "getOr": "value_or",
    "distSq": "dist_sq_of",
    "in-range": "within_range",
    "phi-min": "same_phi_min",
    "phi-max": "same_phi_max",
    "theta-min": "same_theta_min",
    "theta-max": "same_theta_max",
    "radius-min": "same_radius_min",
    "radius-max": "same_radius_max",
}


def read(path):
    with open(path, encoding="utf-8", newline="") as it:
        return it.read()


def is_walk(path):
    return path.endswith("/Proof.antt")


def snake(name):
    if name in BY_HAND:
        return BY_HAND[name]
    name = name.replace("getD", "get_or")
    name = re.sub(r"([a-z0-9])([A-Z])", lambda m: m.group(1) + "_" + m.group(2).lower(), name)
    return name.replace("-", "_")


def declared(files):
    names = set()
    for path in files:
        if not path.endswith(".antt") or is_walk(path):
            continue
        for line in read(path).split("\n"):
            m = DECLARED.match(line)
            if m and not line.lstrip().startswith("--"):
                names.update(m.group(2).split(" "))
    return {n for n in names if re.match(r"[a-zα-ω]", n)}


def words(path):
    return {m.group() for m in TOKEN.finditer(read(path))} | set(re.findall(W, read(path)))


def table(files):
    """What each name becomes everywhere, and what a lemma becomes in its crate alone, where a definition takes its name."""
    own = declared(files)
    to = {}
    within = collections.defaultdict(dict)
    by_new = collections.defaultdict(list)
    found = {p: words(p) for p in files if p.endswith(".antt")}
    for name in sorted(own):
        by_new[snake(name)].append(name)
    for new, olds in by_new.items():
        camel = [n for n in olds if re.search(r"[a-z0-9][A-Z]", n)]
        for old in olds:
            meet = [p for p in found if old in found[p] and new in found[p]]
            if old == new:
                for other in camel:
                    for p in found:
                        if other in found[p] and new in found[p] and any(new in declared([q]) for q in found if crate(q) == crate(p)):
                            within[crate(p)][new] = new + "_lem"
            elif camel and old not in camel:
                to[old] = new + "_lem"
            else:
                to[old] = new + "_lem" if meet and old not in camel else new
    return to, within


def crate(path):
    return path.split("/")[1]


def turned(text, to, left):
    def quoted(t):
        return re.sub("`[^`\n]*`", lambda q: re.sub(W, lambda m: to.get(m.group(), m.group()), q.group()), t)

    def one(m):
        t = m.group()
        if t.startswith(("--", "//")):
            return quoted(t)
        if t.startswith(('"', 'b"', "«")):
            return t
        if t in left and text[m.start() - 1 : m.start()] == ".":
            return t
        return to.get(t, t)

    return TOKEN.sub(one, text)


def of_the_kit(text, crates):
    """The names that a file takes from the kit's modules: they keep their spelling there."""
    kit = set()
    for m in re.finditer(r"^(?:ghost |pub )*use ([^\s{;]+)\.\{([^}]*)\}", text, re.M):
        module = m.group(1).split(".")
        if module[0] != "Rattle" or module[1] not in crates:
            kit.update(n.strip().split(" as ")[0] for n in m.group(2).split(","))
    return kit


def main():
    files = sorted(p for p in glob.glob("crates/**/*", recursive=True) if p.endswith((".rt", ".antt", ".edit")) and "/out/" not in p)
    to, within = table(files)
    functions = {f for p in files if p.endswith(".rt") for f in FUNCTION.findall(read(p))}
    steps = functions | {f.replace("_", "-") for f in functions}
    for path in files + sorted(glob.glob("docs/*.md")) + ["README.md"]:
        text = read(path)
        if path.endswith(".edit"):
            lines = [turned(l, to, set()) if re.match(r"(old|new):", l) else l for l in text.split("\n")]
            new = "\n".join(lines)
        elif path.endswith(".md"):
            if os.path.basename(path) in ("PORT.md", "CHANGES.md"):
                continue
            new = re.sub("`[^`\n]*`", lambda q: re.sub(W, lambda m: to.get(m.group(), m.group()), q.group()), text)
        else:
            here = to | within[crate(path)] if path.endswith(".antt") else to
            kit = of_the_kit(text, {crate(p) for p in files})
            here = {a: b for a, b in here.items() if a not in kit}
            new = turned(text, here, steps if is_walk(path) else set())
        if new != text:
            with open(path, "w", encoding="utf-8", newline="") as it:
                it.write(new)
    for a, b in sorted(to.items()):
        print(f"{a}\t{b}")
    for it, names in sorted(within.items()):
        for a, b in sorted(names.items()):
            print(f"{a}\t{b}\t{it}")


if __name__ == "__main__":
    main()
