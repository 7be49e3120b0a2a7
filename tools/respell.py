#!/usr/bin/env python3
"""Respells this repository's own definitions and lemmas: snake case for functions and lemmas, camel case for facts and types.

usage: python3 tools/respell.py [--list]     at the top of a checkout, once, after port.py

A name is respelled if it has a dash and is declared in a file of specs/ or proofs/ of some crate: All-hold becomes AllHold, give-back becomes
give_back. Names that Rattle or its library makes keep their dashes. --list prints the names with their new spelling and writes nothing.
"""

import glob
import re
import sys

NAME = r"[A-Za-z][\w']*(?:-[\w']+)+"
SIGNATURE = re.compile(
    r"^\s*(?:(?:abbrev|unfoldable|pub)\s+)*(" + NAME + r"(?:\s+" + NAME + r")*)\s*(?:\{[^}]*\}|\([^)]*\))*\s*:\s*(.*)"
)
TYPE = re.compile(r"^\s*(?:pub\s+)?(?:data|record|ruleset)\s+(?:pub\s+)?(" + NAME + ")")
IMPORT = re.compile(r"^(?:ghost )?use (?:Rattle\.std|mathlib|Prim|lib|borrow|denote)[\w.]*\.\{(.*)\}")


def respelled(name):
    parts = name.split("-")
    if name[0].isupper():
        return "".join(part[0].upper() + part[1:] for part in parts)
    return "_".join(parts)


def declared(files):
    own, others = set(), set()
    for path in files:
        with open(path, encoding="utf-8") as f:
            lines = f.read().split("\n")
        for line in lines:
            if line.strip().startswith(("--", "let ")):
                continue
            signature = SIGNATURE.match(line)
            if signature:
                names = signature.group(1).split()
                (others if signature.group(2).startswith("goal") else own).update(names)
            typed = TYPE.match(line)
            if typed:
                own.add(typed.group(1))
            imported = IMPORT.match(line)
            if imported:
                for name in imported.group(1).split(","):
                    others.add(name.split(" as ")[-1].strip())
    return sorted(own - others)


def main():
    antt = [p for p in glob.glob("crates/*/**/*.antt", recursive=True) if "/out/" not in p]
    names = declared(antt)
    new = {name: respelled(name) for name in names}
    if "--list" in sys.argv[1:]:
        for name in names:
            print(name, new[name])
        return
    token = re.compile(r"(?<![\w'-])(" + "|".join(map(re.escape, sorted(names, key=len, reverse=True))) + r")(?![\w'-])")
    put = lambda m: new[m.group(1)]
    code = antt + [p for p in glob.glob("crates/*/**/*.rt", recursive=True) if "/out/" not in p] + glob.glob("crates/*/must-fail/*.edit")
    pages = ["README.md"] + glob.glob("docs/*.md")
    for path in code + pages:
        with open(path, encoding="utf-8") as f:
            text = f.read()
        if path in pages:
            turned = re.sub(r"`[^`\n]*`", lambda m: token.sub(put, m.group(0)), text)
        else:
            turned = token.sub(put, text)
        if turned != text:
            with open(path, "w", encoding="utf-8") as f:
                f.write(turned)


if __name__ == "__main__":
    main()
