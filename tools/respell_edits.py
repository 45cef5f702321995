#!/usr/bin/env python3
"""Brings the texts of must-fail/*.edit to today's spelling, where they no longer stand in the file that they edit.

Run it at the top of a tree, after tools/respell.py. It turns the names of tools/respell.tsv, writes projections tight and takes the
library's new names; a text that still does not stand is left as it was and told, for a person.
"""
import glob
import os
import re

TABLE = {}
with open("tools/respell.tsv", encoding="utf-8") as rows:
    for row in rows:
        cut = row.rstrip("\n").split("\t")
        if len(cut) == 2:
            TABLE[cut[0]] = cut[1]
TABLE["getD"] = "get_or"
TOKEN = re.compile(r"[^\s(){}.;,@\"«»]+")


def turned(text):
    text = re.sub(r"\((\w+) \.(\w+)\)", r"\1.\2", text)
    text = re.sub(r" \.(?=[a-z0-9])", ".", text)
    return TOKEN.sub(lambda m: TABLE.get(m[0], m[0]), text)


def main():
    for path in sorted(glob.glob("crates/*/must-fail/*.edit")):
        with open(path, encoding="utf-8") as f:
            lines = f.read().split("\n")
        folder = os.path.dirname(os.path.dirname(path))
        texts, name, stands, left = {}, None, True, False
        for at, line in enumerate(lines):
            if line.startswith("file: "):
                name = line[6:].strip()
                with open(f"{folder}/{name}", encoding="utf-8") as f:
                    texts.setdefault(name, f.read())
            elif line.startswith("old: "):
                old = line[5:]
                stands = texts[name].count(old) == 1
                if not stands and texts[name].count(turned(old)) == 1:
                    old = turned(old)
                    lines[at] = "old: " + old
                elif not stands:
                    left = True
            elif line.startswith("new: "):
                if not stands or name.startswith("specs/"):
                    lines[at] = "new: " + turned(line[5:])
                texts[name] = texts[name].replace(old, lines[at][5:], 1)
        if left:
            print(f"{path}: a text does not stand")
        with open(path, "w", encoding="utf-8") as f:
            f.write("\n".join(lines))


main()
