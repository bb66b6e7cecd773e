#!/usr/bin/env python3
"""Brings the names of this repository's own definitions and lemmas to the spelling of today's Rattle.

Run once at the top of the repository, behind the toolchain's own port.py. Words get snake case, types, relations
and modules upper camel case. A dash stays only behind the name of a function of std that a lemma speaks of
(`length-table`, `get_or-table`). Names of src/ keep their spelling, and so do the names that Rattle makes for goals.
"""

import glob
import os
import re
import subprocess
import sys

# Definitions whose plain spelling would be another name.
OWN = {
    "bit-or": "bit-bit_or",  # std has a function bit_or
    "getD-table": "get_or-table",
    "getD-written": "get_or-written",
}
# Variables that no signature introduces by itself.
VARIABLES = "cleared-column cleared-grid low-grid scaled-grid same-branches same-weights all-ok calls-ok light-ok name-ok room-ok seconds-ok turn-ok".split()
KEPT_DASH = ("length-",)
NAME = r"[A-Za-z_][A-Za-z0-9_'₀-₉]*(?:-[A-Za-z0-9_'₀-₉]+)*"


def spelled(name):
    if name in OWN:
        return OWN[name]
    if name[0].isupper():
        return "".join(w[:1].upper() + w[1:] for w in name.split("-"))
    for kept in KEPT_DASH:
        if name.startswith(kept):
            return kept + name[len(kept) :].replace("-", "_")
    return name.replace("-", "_")


def logic():
    return sorted(glob.glob("crates/*/specs/**/*.antt", recursive=True) + glob.glob("crates/*/proofs/**/*.antt", recursive=True))


def defined(files):
    """The names that a file of specs/ or proofs/ defines, but for the goals that Rattle names."""
    names, goals = set(), set()
    for file in files:
        text = open(file).read()
        goals |= set(re.findall(r"\bgoal\.(" + NAME + ")", text))
        for line in text.splitlines():
            if line.lstrip().startswith("--"):
                continue
            m = re.match(r"\s*(?:(?:abbrev|unfoldable|data|record|pub)\s+)*(" + NAME + r")\s*(?:[({].*)?\s:(?:\s|$)", line)
            if m:
                names.add(m.group(1))
    return {n for n in names if "-" in n} - goals


def taken(files):
    """The names that files import from other libraries, and the definitions that need no new spelling."""
    names = set()
    for file in files:
        text = open(file).read()
        for m in re.finditer(r"use\s+(?:Rattle\.std|mathlib|Prim|lib|native|borrow)[\w.+-]*\.\{([^}]*)\}", text):
            names |= {n.strip() for n in m.group(1).split(",")}
    return names


def main():
    files = logic()
    names = {n: spelled(n) for n in defined(files)}
    imported = taken(files)
    names = {n: s for n, s in names.items() if n not in imported}
    clash = sorted(s for s in set(names.values()) if s in imported or list(names.values()).count(s) > 1)
    if clash:
        sys.exit("names fall together: " + " ".join(clash))
    names.update({v: spelled(v) for v in VARIABLES})
    token = re.compile(r"(?<![A-Za-z0-9_'◌-])" + NAME + r"(?![A-Za-z0-9_'-])")
    local = set(VARIABLES)

    def turn(text, skip=()):
        return token.sub(lambda m: names[m.group(0)] if m.group(0) in names and m.group(0) not in skip else m.group(0), text)

    for file in files:
        own = os.path.basename(file) in ("Answers.antt", "Invariants.antt")
        text = open(file).read()
        new = turn(text, local if own else ()).replace(".specs.laws.", ".specs.Laws.")
        if file.endswith("specs/Lib.antt"):
            new = new.replace("pub mod laws\n", "pub mod Laws\n")
        if new != text:
            open(file, "w").write(new)
    for file in sorted(glob.glob("crates/*/src/**/*.rt", recursive=True)):
        text = open(file).read()
        lines = text.split("\n")
        new = "\n".join(l if l.lstrip().startswith("//") or '"' in l else turn(l, local).replace(".specs.laws.", ".specs.Laws.") for l in lines)
        if new != text:
            open(file, "w").write(new)
    for page in sorted(glob.glob("docs/*.md")) + ["README.md"]:
        text = open(page).read()
        new = re.sub(r"`[^`\n]+`", lambda m: turn(m.group(0), local), text)
        if new != text:
            open(page, "w").write(new)
    if os.path.isdir("crates/kinds/specs/laws"):
        subprocess.run(["git", "mv", "crates/kinds/specs/laws", "crates/kinds/specs/Laws"], check=True)
        subprocess.run(["git", "mv", "crates/kinds/specs/laws.antt", "crates/kinds/specs/Laws.antt"], check=True)
    print(f"spell: {len(names)} names")


main()
