#!/usr/bin/env python3
"""Counts the places that docs/DESIGN-PASS.md speaks of, in the src/ of every crate.

    python3 tools/design_counts.py [--root DIR] [POINT]...      without a point: the counts alone; with points: each place

The patterns find candidates by form; the page counts places as read."""
import glob, itertools, os, re, sys
from collections import defaultdict

args = sys.argv[1:]
root = args.pop(args.index("--root") + 1) if "--root" in args else "."
points = [a for a in args if a.isdigit()]

FILES = []
for path in sorted(glob.glob(os.path.join(root, "crates/*/src/**/*.rt"), recursive=True)):
    with open(path, encoding="utf-8") as f:
        FILES.append((os.path.relpath(path, os.path.join(root, "crates")), f.read()))

def lines(pattern, skip=r"^\s*//"):
    return ["%s:%d %s" % (p, n, l.strip()) for p, t in FILES for n, l in enumerate(t.split("\n"), 1)
            if re.search(pattern, l) and not re.search(skip, l)]

# 1: a Result or an Option taken apart by hand; a number that stands for a kind or a refusal; a kind with a value that only some have
HANDS = r"let (Ok|Some)\(.*\) = .* else \{|if let Err\(|=> return (Err|number)|Err\((_|refusal|e|number|back|refused|\(.*\))\) =>|None => None"
NUMBERS = r"\bkind: u(8|32|64)\b|struct Refused \{|hour: Option<usize>|self\.number = 0"

def point_1():
    return lines(HANDS), lines(NUMBERS)

# 2: functions and types that differ only in names, types and numbers
KEYWORDS = set("fn pub struct enum impl for in if else match let mut return self Self as const use mod where loop while ref move crate true false Ok Err Some None Result Option".split())

def items(text):
    ls, i = text.split("\n"), 0
    while i < len(ls):
        m = re.match(r"(\s*)(?:pub(?:\(crate\))? )?(fn|struct|enum) (\w+)", ls[i])
        if not m:
            i += 1
            continue
        j = i
        while j < len(ls) and not re.match(re.escape(m[1]) + r"\}|.*;$", ls[j]):
            j += 1
        test = any("#[test]" in l for l in ls[max(0, i - 2):i])
        body = [l for l in ls[i:j + 1] if not re.match(r"\s*(//|ghost|requires|ensures|#\[)", l)]
        if not test:
            yield m[2], m[3], i + 1, "\n".join(body)
        i = j + 1

def shape(text):
    text = text[text.index("{"):] if "{" in text else text
    seen, out = {}, []
    for t in re.findall(r'"[^"]*"|[A-Za-z_]\w*|\d[\d_]*|[^\s\w]', text):
        out.append(t if t in KEYWORDS or not re.match(r'["\w]', t) else "#%d" % seen.setdefault(t, len(seen)))
    return " ".join(out)

def point_2():
    groups = defaultdict(list)
    for path, text in FILES:
        for kind, name, line, body in items(text):
            s = shape(body)
            if len(s.split()) >= 12:
                groups[kind + s].append("%s:%d %s %s" % (path, line, kind, name))
    return ([" | ".join(g) for g in groups.values() if len(g) > 1],)

# 3: counted loops; searches, counts and sums by a loop of one's own
def point_3():
    return lines(r"\bwhile\b|for \w+ in [\w.]+\.\.|for _ in "), lines(r"^\s*return (true|false);|(total|differing|weights|weighted|refused|sum) (\+=|= \w+\.saturating_add)")

# 4: conversions, comparisons and printing written out
def point_4():
    return lines(r"^\s*impl.* (From|TryFrom|fmt::Display|Clone|Copy|PartialEq|Eq|Ord|PartialOrd|Hash|Error|Drop)\b.* for "), lines(r"fn new\(\w+: [iu]\d+\)|^\s*self as u8$")

# 5: a word of the definitions that the clauses of three functions or more say of a value; parameters that travel together
def heads(text):
    ls = text.split("\n")
    for i, l in enumerate(ls):
        m = re.match(r"\s*(?:pub(?:\(crate\))? )?fn (\w+)", l)
        if m:
            j = i
            while j < len(ls) and ls[j].strip() != "{" and not re.search(r"[;{]$", ls[j]):
                j += 1
            yield m[1], "\n".join(ls[i:j + 1])

def point_5():
    facts, travels = defaultdict(set), defaultdict(lambda: defaultdict(set))
    for path, text in FILES:
        crate = path.split("/")[0]
        for name, head in heads(text):
            for c in re.findall(r"(?:requires|ensures)(?: \w+)? \{ (.*) \}", head):
                word = re.match(r"\(?(\w+)", c)
                if word and word[1] not in ("result", "MatchResult", "IfOk", "IfSome", "OnErr"):
                    facts[crate + ": " + word[1]].add(path + " " + name)
            params = re.search(r"\((.*?)\)\s*(?:->|where|requires|ensures|\{|;|$)", head, re.S)
            ps = re.split(r",(?![^<(\[]*[>)\]])", params[1]) if params else []
            ps = sorted(re.sub(r"\s+", " ", p.strip()) for p in ps if ":" in p)
            for n in range(2, min(len(ps), 5) + 1):
                for g in itertools.combinations(ps, n):
                    travels[crate][g].add(path + " " + name)
    a = ["%s  in %d: %s" % (f, len(w), ", ".join(sorted(w))) for f, w in sorted(facts.items()) if len(w) >= 3]
    b = []
    for crate, groups in travels.items():
        big = {g: f for g, f in groups.items() if len(f) >= 3}
        b += ["%s: %s  in %d: %s" % (crate, ", ".join(g), len(f), ", ".join(sorted(f))) for g, f in big.items()
              if not any(set(g) < set(h) and f == big[h] for h in big)]
    return a, b

# 6: arrays of a fixed length in types, and what is indexed by hand
def point_6():
    return lines(r"^\s*(pub )?\w+: .*\[\w+; \w+\]"), lines(r"\w+\[(?!\.\.)[a-z]\w*(\.\w+\(\))?( as usize.*)?\]", skip=r"^\s*(//|#|ghost|requires|ensures)")

# 7: switches over one's own variants, function pointers, trait objects
def point_7():
    return lines(r"^\s*match self \{"), lines(r"\bfn\(|dyn ")

# 8: what is written of proofs
def point_8():
    proofs = [p for p in glob.glob(os.path.join(root, "crates/*/proofs/**/*.antt"), recursive=True)]
    answers = [p for p in proofs if os.path.basename(p) in ("Answers.antt", "Invariants.antt", "Proof.antt")]
    n = sum(len(re.findall(r"^pub \S+ : goal\.", open(p, encoding="utf-8").read(), re.M)) for p in answers)
    total = sum(len(open(p, encoding="utf-8").read().split("\n")) - 1 for p in proofs)
    return (["%d files of answers and invariants, %d answers" % (len(answers), n), "%d files of lemmas" % (len(proofs) - len(answers)), "%d lines" % total],)

for k, f in enumerate([point_1, point_2, point_3, point_4, point_5, point_6, point_7, point_8], 1):
    parts = f()
    print("point %d: %s" % (k, " + ".join(str(len(p)) for p in parts) if k != 8 else "; ".join(parts[0])))
    if str(k) in points:
        for p in parts:
            print("".join("  %s\n" % x for x in p))
