#!/usr/bin/env python3
"""Gives the crates log and slab other names, since the installed Rattle has libraries of these names.

usage: python3 tools/rename_crates.py     at the top of a checkout, once, after tools/respell.py
"""

import glob
import os
import re

NAMES = {"log": "slab_log", "slab": "disk_slab"}


def main():
    for path in glob.glob("crates/*/**/*", recursive=True):
        if "/out/" in path or not path.endswith((".rt", ".antt", ".edit")):
            continue
        with open(path, encoding="utf-8") as f:
            text = f.read()
        turned = text
        for old, new in NAMES.items():
            turned = re.sub(r"\bRattle\." + old + r"\.", "Rattle." + new + ".", turned)
            turned = re.sub(r"(?<![\w:.])" + old + r"::", new + "::", turned)
        if turned != text:
            with open(path, "w", encoding="utf-8") as f:
                f.write(turned)
    with open("crates.txt", encoding="utf-8") as f:
        lines = f.read().split("\n")
    word = re.compile(r"\b(" + "|".join(NAMES) + r")\b")
    with open("crates.txt", "w", encoding="utf-8") as f:
        f.write("\n".join(word.sub(lambda m: NAMES[m.group(1)], line) for line in lines))
    for old, new in NAMES.items():
        if os.path.isdir("crates/" + old):
            os.rename("crates/" + old, "crates/" + new)


if __name__ == "__main__":
    main()
