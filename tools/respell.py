#!/usr/bin/env python3
"""Brings the repository's own definitions from camel case (letterByte) to snake case (letter_byte), in contracts, specs, proofs and edits.

usage: python3 tools/respell.py            at the top of the repository, once, after the toolchain's own porting script

It renames the words that begin with a small letter and have a capital inside, in every .rt and .antt file and every edit below crates/ and tools/bugs.
Functions, types and fields of the code have no such names, nor have the library's words here, so no code changes.
It stops, and writes nothing, where two names fall together, and tells where a new name is a word that some proof file has already.
"""

import os
import re
import sys

WORD = re.compile(r"(?<![\w'\u00b7-])[a-z][a-z0-9]*(?:[A-Z][a-z0-9]*)+'?(?![\w'-])")


def snake(name):
    return re.sub(r"[A-Z]", lambda m: "_" + m.group(0).lower(), name)


def files(top):
    for base in ("crates", os.path.join("tools", "bugs")):
        for folder, dirs, names in os.walk(os.path.join(top, base)):
            dirs[:] = sorted(d for d in dirs if d != "out")
            for f in sorted(names):
                if f.endswith((".rt", ".antt", ".edit")):
                    yield os.path.join(folder, f)


def together(texts, top):
    """The names that fall together; tells of those that stand already."""
    new = {}
    for text in texts.values():
        for m in WORD.finditer(text):
            new.setdefault(snake(m.group(0)), set()).add(m.group(0))
    for name, olds in sorted(new.items()):
        have = re.compile(r"(?<![\w'\u00b7-])" + re.escape(name) + r"(?![\w'-])")
        where = [os.path.relpath(p, top) for p, t in texts.items() if p.endswith(".antt") and have.search(t)]
        if where:
            print(f"look: {', '.join(sorted(olds))} becomes {name}, which stands in {', '.join(where[:4])}")
    print(f"respell: {len(new)} names")
    return {name: olds for name, olds in new.items() if len(olds) > 1}


def main():
    top = os.getcwd()
    texts = {p: open(p, encoding="utf-8").read() for p in files(top)}
    clash = together(texts, top)
    for name, olds in clash.items():
        print(f"fall together: {', '.join(sorted(olds))} would all be {name}")
    if clash:
        return 1
    for p, text in texts.items():
        turned = WORD.sub(lambda m: snake(m.group(0)), text)
        if turned != text:
            with open(p, "w", encoding="utf-8") as f:
                f.write(turned)
    return 0


sys.exit(main())
