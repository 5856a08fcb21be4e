#!/usr/bin/env python3
"""Brings this repository's own definitions and lemmas to the spelling of today's Rattle: words in snake case, types and facts in camel case.

Run once, at the top, after the toolchain's port.py: python3 tools/snake_names.py [--list]
It respells a name only where a file of specs/ or proofs/ declares it, and only in specs/, proofs/, must-fail/ and in the clauses and ghost
items of src/. Names that Rattle generates for goals and steps keep their dashes. It says which files would have two names fall together.
"""
import os
import re
import sys

TOP = os.path.dirname(os.path.dirname(os.path.abspath(__file__)))
NAME = re.compile(r"(?<![\w'\-])[^\W\d][\w'\-]*")
DECLARES = re.compile(r"^\s*(?:(?:abbrev|pub|unfoldable|data|record|ruleset)\s+)*([^\W\d][\w']*(?:-[\w']+)+)\s*(?=[:({=])")
SIGNED = re.compile(r"^\s*(?:(?:abbrev|pub|unfoldable|data|record|ruleset)\s+)*([^\W\d][\w']*(?:-[\w']+)+)\s*(?:\{[^}]*\}|\([^)]*\))*\s*:\s*(.*)")
FIELD = re.compile(r"(?<![\w'\-])([^\W\d][\w']*(?:-[\w']+)+)\s*(?::|=(?![>=]))")
LET = re.compile(r"\blet\s+([^\W\d][\w']*(?:-[\w']+)+)\s*[:=]")


def files(top):
    for folder, dirs, names in os.walk(os.path.join(top, "crates")):
        dirs[:] = sorted(d for d in dirs if d not in ("out", "target"))
        for name in sorted(names):
            if name.endswith((".rt", ".antt", ".edit")):
                yield os.path.join(folder, name)


def read(path):
    with open(path, encoding="utf-8") as f:
        return f.read()


def camel(name):
    return "".join(part[:1].upper() + part[1:] for part in name.split("-"))


def respelled(name):
    return camel(name) if name[0].isupper() else name.replace("-", "_")


def declared(path, text):
    """The names with a dash that a file declares: definitions, lemmas, fields and local names, and no goal of Rattle's."""
    found = set()
    generated = os.path.basename(path) in ("Answers.antt", "Invariants.antt", "Proof.antt")
    for line in text.split("\n"):
        m = SIGNED.match(line)
        if m and not m.group(2).lstrip().startswith("goal."):
            found.add(m.group(1))
        if not generated:
            m = DECLARES.match(line)
            if m:
                found.add(m.group(1))
        for m in LET.finditer(line):
            found.add(m.group(1))
    if generated:
        goals = {m.group(1) for m in re.finditer(r"([\w'\-]+)\s*:\s*goal\.", text)}
        found -= goals
    return found


def clause_spans(text):
    """Where a source file speaks to the prover: ghost items, clauses, and names in attributes."""
    spans = []
    for m in re.finditer(r"^[ \t]*(?:pub )?ghost\b|^[ \t]*(?:requires|ensures)\b|^[ \t]*#!?\[tactic", text, re.M):
        i, depth, opened = m.end(), 0, False
        while i < len(text):
            c = text[i]
            if c in "{[(":
                depth += 1
                opened = True
            elif c in "}])":
                depth -= 1
            if opened and depth <= 0 and (i + 1 == len(text) or text[i + 1] in "\n;,]"):
                break
            if not opened and c in ";\n":
                break
            i += 1
        spans.append((m.start(), min(i + 1, len(text))))
    return spans


def main():
    texts = {p: read(p) for p in files(TOP)}
    own = set()
    for path, text in texts.items():
        if path.endswith(".antt"):
            own |= declared(path, text)
    if "--list" in sys.argv:
        print("\n".join(f"{n} -> {respelled(n)}" for n in sorted(own)))
        return 0

    def turn(piece):
        return NAME.sub(lambda m: respelled(m.group(0)) if m.group(0) in own else m.group(0), piece)

    changed = 0
    for path, text in texts.items():
        if path.endswith(".rt"):
            out, at = [], 0
            for start, end in clause_spans(text):
                if start < at:
                    continue
                out += [text[at:start], turn(text[start:end])]
                at = end
            new = "".join(out) + text[at:]
        else:
            new = turn(text)
        if new != text:
            changed += 1
            before = set(NAME.findall(text))
            for name in sorted(n for n in own & before if respelled(n) in before and respelled(n) != n):
                print(f"look: {os.path.relpath(path, TOP)}: {name} and {respelled(name)} fall together")
            with open(path, "w", encoding="utf-8") as f:
                f.write(new)
    print(f"{len(own)} names, {changed} files")
    return 0


if __name__ == "__main__":
    sys.exit(main())
