#!/usr/bin/env python3
"""Brings this repository's own definitions and lemmas to snake case, after the kit's port script: run once, at the top, by

    python3 tools/respell.py

It reads tools/respell.txt, a line for each name: the old one and the new one. In .antt, .rt and .edit files each whole name is
turned; in Markdown only what stands between backticks. Where two old names would have
fallen together, or a lemma would have had its function's name, the list gives the lemma `_lem` or the field a name of its own.
"""
import os
import re

here = os.path.dirname(os.path.realpath(__file__))
root = os.path.dirname(here)
with open(os.path.join(here, "respell.txt"), encoding="utf-8") as f:
    names = dict(line.split() for line in f if line.strip())
whole = re.compile(r"(?<![\w'′-])(" + "|".join(re.escape(n) for n in sorted(names, key=len, reverse=True)) + r")(?![\w'′-])")


def turned(text):
    return whole.sub(lambda m: names[m[1]], text)


for folder, dirs, files in os.walk(root):
    dirs[:] = [d for d in dirs if d not in ("out", ".git", "target", "tools")]
    for name in files:
        path = os.path.join(folder, name)
        if name.endswith((".antt", ".rt", ".edit")):
            turn = turned
        elif name.endswith(".md"):
            def turn(text):
                return re.sub(r"`[^`\n]+`", lambda m: turned(m[0]), text)
        else:
            continue
        with open(path, encoding="utf-8") as f:
            old = f.read()
        new = turn(old)
        if new != old:
            with open(path, "w", encoding="utf-8") as f:
                f.write(new)
