#!/usr/bin/env python3
"""Renames the crates that have the name of a library of the kit.

usage: python3 tools/rename_crates.py    at the top of the checkout

The folder, the line of crates.txt, the paths of the code and of specs/ and proofs/, and the must-fail edits go along.
"""

import os
import re

RENAMED = {"bytes": "octets", "hex": "hex_text"}


def files(top):
    for folder, folders, names in os.walk(top):
        folders[:] = sorted(name for name in folders if name != "out")
        for name in sorted(names):
            if name.endswith((".rt", ".antt", ".edit")):
                yield os.path.join(folder, name)


def main():
    either = "|".join(RENAMED)
    with open("crates.txt", encoding="utf-8") as file:
        listed = file.read()
    lines = [
        line if line.startswith("#") else re.sub(rf"\b({either})\b", lambda m: RENAMED[m.group(1)], line)
        for line in listed.split("\n")
    ]
    with open("crates.txt", "w", encoding="utf-8") as file:
        file.write("\n".join(lines))
    for old, new in RENAMED.items():
        if os.path.isdir(f"crates/{old}"):
            os.rename(f"crates/{old}", f"crates/{new}")
    for path in files("crates"):
        with open(path, encoding="utf-8") as file:
            text = file.read()
        turned = re.sub(rf"(Rattle\.)({either})\b", lambda m: m.group(1) + RENAMED[m.group(2)], text)
        turned = re.sub(rf"\b({either})::", lambda m: RENAMED[m.group(1)] + "::", turned)
        if turned != text:
            with open(path, "w", encoding="utf-8") as file:
                file.write(turned)


if __name__ == "__main__":
    main()
