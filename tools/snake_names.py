#!/usr/bin/env python3
"""Spells the repository's own words as the kit does: words in snake case, and the proof of a function F as F_spec.

usage: python3 tools/snake_names.py [FOLDER]   rewrites .antt, .rt and .edit files of FOLDER/crates (FOLDER: here) in place

A word that begins with a small letter and has a capital behind a letter or a digit, as littleOf, becomes little_of.
Types, modules, constants and the functions of src/ keep their names.
"""
import os
import re
import sys

WORD = re.compile(r"(?<![\w'])[a-z][a-z0-9]*(?:_[a-z0-9]+)*[A-Z][A-Za-z0-9]*(?:_\w+)*")
HUMP = re.compile(r"(?<=[a-z0-9])[A-Z]")
KEPT = re.compile(r"^x[0-9A-F_]+$")


def snake(match):
    word = match.group(0)
    if KEPT.match(word) or not HUMP.search(word):
        return word
    return HUMP.sub(lambda m: "_" + m.group(0).lower(), word)


def turned(path, text):
    text = WORD.sub(snake, text)
    folder = os.path.basename(os.path.dirname(path))
    if os.path.basename(path) == "Proof.antt":
        dashed = folder.replace("_", "-")
        text = re.sub(r"(?<![\w'-])%s-spec(?![\w'-])" % re.escape(dashed), folder + "_spec", text)
    return text


def main(top):
    for folder, dirs, files in os.walk(os.path.join(top, "crates")):
        dirs[:] = [d for d in dirs if d != "out"]
        for name in files:
            if not name.endswith((".antt", ".rt", ".edit")):
                continue
            path = os.path.join(folder, name)
            with open(path, encoding="utf-8") as f:
                old = f.read()
            new = turned(path, old)
            if new != old:
                with open(path, "w", encoding="utf-8") as f:
                    f.write(new)


if __name__ == "__main__":
    main(sys.argv[1] if len(sys.argv) > 1 else ".")
