#!/usr/bin/env python3
"""Brings the names of goals and steps in proof files to the spelling of today's Rattle: a word of Rattle's own is snake case, and a
name of the source keeps its underscores. Run once, at the top, after tools/snake_names.py: python3 tools/goal_names.py"""
import os
import re
import sys

TOP = os.path.dirname(os.path.dirname(os.path.abspath(__file__)))
KINDS = re.compile(r"(?<![\w'])(overflow|nonzero|slice|invariant|offset)-(add|sub|mul|div|rem|neg|cast|step|shl|shr|bounds|of)-")
TOKEN = re.compile(r"(?<![\w'\-])[^\W\d][\w'\-]*-[\w'\-]+")
SOURCE = re.compile(r"(?<!\w)[a-z][a-z0-9]*(?:_[a-z0-9]+)+(?!\w)")


def read(path):
    with open(path, encoding="utf-8") as f:
        return f.read()


def source_names(crate):
    found = set()
    for c in [crate] + [d for d in os.listdir(os.path.join(TOP, "crates")) if d != crate]:
        for folder, _, names in os.walk(os.path.join(TOP, "crates", c, "src")):
            for name in names:
                found |= set(SOURCE.findall(re.sub(r"//.*", "", read(os.path.join(folder, name)))))
    return sorted(found, key=len, reverse=True)


def turned(token, names):
    token = KINDS.sub(r"\1_\2-", token)
    token = re.sub(r"(?<![\w])([Ii]n)-(ok|err)(?![\w])", r"\1_\2", token)
    for name in names:
        dashed = name.replace("_", "-")
        token = re.sub(rf"(?<![\w]){re.escape(dashed)}(?![\w])", name, token)
    return token


def main():
    for crate in sorted(os.listdir(os.path.join(TOP, "crates"))):
        names = source_names(crate)
        for folder, _, files in os.walk(os.path.join(TOP, "crates", crate, "proofs")):
            for file in files:
                if file not in ("Answers.antt", "Invariants.antt"):
                    continue
                path = os.path.join(folder, file)
                text = read(path)
                body = "\n".join(
                    line if line.lstrip().startswith("--") or (line.startswith("use ") and ".Goals" not in line)
                    else TOKEN.sub(lambda m: turned(m.group(0), names), line)
                    for line in text.split("\n")
                )
                if body != text:
                    with open(path, "w", encoding="utf-8") as f:
                        f.write(body)
                    print(os.path.relpath(path, TOP))


if __name__ == "__main__":
    sys.exit(main())
