#!/usr/bin/env python3
"""Brings the names of definitions and lemmas in the pages (README.md, docs/) to today's spelling: what stands in backticks, where today's spelling of it is a name
that an .antt file declares and the old one isn't. docs/PORT.md, which has both, and
docs/CHANGES.md, which says what was done, are left out, and so are commands and paths.

usage: python3 tools/respell_pages.py      at the top of the repository
"""
import glob
import os
import re
import sys

sys.dont_write_bytecode = True
sys.path.insert(0, os.path.dirname(os.path.realpath(__file__)))
from respell import TOGETHER, TOKEN, files, snake


def main():
    words = set()
    for p in files(".", (".antt",)):
        for line in open(p, encoding="utf-8"):
            if not line.lstrip().startswith("--"):
                words.update(TOKEN.findall(line))

    def word(m):
        w = m.group(0)
        if w in words or not re.match(r"[a-z]", w) or not re.search("[A-Z]|-", w):
            return w
        for new in (TOGETHER.get(w), snake(w)):
            if new in words:
                return new
        return w

    for p in ["README.md"] + sorted(glob.glob("docs/*.md")) + sorted(glob.glob("samples/*.md")):
        if p.endswith(("PORT.md", "CHANGES.md")):
            continue
        text = open(p, encoding="utf-8").read()
        parts = re.split(r"(```[\s\S]*?```)", text)
        new = "".join(q if q.startswith("```") else re.sub(r"`[^`\n]+`", lambda m: m.group(0) if "/" in m.group(0) else TOKEN.sub(word, m.group(0)), q) for q in parts)
        if new != text:
            with open(p, "w", encoding="utf-8") as f:
                f.write(new)


main()
