#!/usr/bin/env python3
"""Prints the functions of crates/*/src whose bodies are the same but for names, types and constants.

usage: tools/twins.py [COMMIT]      (without one: the files as they stand)

A body counts from 12 words and signs on; tests are left out.
"""
import collections
import re
import subprocess
import sys
from pathlib import Path

KEYWORDS = set("as break const else false fn for if impl in let loop match move mut pub ref return self Self struct true while unreachable None Some Ok Err".split())
TOKEN = re.compile(r"b?'(?:\\.|[^'])'|b?\"(?:\\.|[^\"])*\"|[A-Za-z_]\w*|\d[\w]*|[^\s\w]")


def files(commit):
    if commit:
        names = subprocess.run(["git", "ls-tree", "-r", "--name-only", commit], capture_output=True, text=True, check=True).stdout.split("\n")
        for name in names:
            if re.match(r"crates/\w+/src/.*\.rt$", name):
                yield name, subprocess.run(["git", "show", f"{commit}:{name}"], capture_output=True, text=True, check=True).stdout
    else:
        for path in sorted(Path("crates").glob("*/src/**/*.rt")):
            yield str(path), path.read_text()


def functions(text):
    """The name and the body of each function that is no test."""
    text = re.sub(r"//[^\n]*", "", text)
    for found in re.finditer(r"(#\[test\]\s*)?(?:pub(?:\(crate\))? )?(?:const )?fn (\w+)", text):
        if found.group(1):
            continue
        # The body opens at the first brace that no clause has.
        at = found.end()
        while at < len(text):
            clause = re.compile(r"\b(?:requires|ensures)\*?(?: \w+)? \{").search(text, at)
            brace = text.find("{", at)
            semicolon = text.find(";", at)
            if brace < 0 or (0 <= semicolon < brace and not (clause and clause.start() < semicolon)):
                break
            if clause and clause.end() - 1 == brace:
                at = matching(text, brace)
                continue
            yield found.group(2), text[brace:matching(text, brace)]
            break


def matching(text, brace):
    depth = 0
    for at in range(brace, len(text)):
        depth += {"{": 1, "}": -1}.get(text[at], 0)
        if depth == 0:
            return at + 1
    return len(text)


def shape(body):
    tokens = TOKEN.findall(body)
    return len(tokens), " ".join(t if t in KEYWORDS or not re.match(r"\w|b?['\"]", t) else "_" for t in tokens)


def main():
    shapes = collections.defaultdict(list)
    for name, text in files(sys.argv[1] if len(sys.argv) > 1 else None):
        for function, body in functions(text):
            size, form = shape(body)
            if size >= 12:
                shapes[form].append(f"{name}: {function}")
    count = 0
    for group in shapes.values():
        if len(group) > 1:
            count += 1
            print(" = ".join(group))
    print(f"{count} groups")


if __name__ == "__main__":
    main()
