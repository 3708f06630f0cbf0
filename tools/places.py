#!/usr/bin/env python3
"""Counts the places that docs/DESIGN-PASS.md speaks of, point by point, in the crates of a tree: tools/places.py [ROOT] [-v]."""
import collections
import os
import re
import sys

ROOT = next((a for a in sys.argv[1:] if a != "-v"), os.path.join(os.path.dirname(__file__), ".."))
VERBOSE = "-v" in sys.argv
CRATES = os.path.join(ROOT, "crates")


def files(kind, end):
    for crate in sorted(os.listdir(CRATES)):
        for folder, _, names in sorted(os.walk(os.path.join(CRATES, crate, kind))):
            for name in sorted(names):
                if name.endswith(end):
                    path = os.path.join(folder, name)
                    yield crate, os.path.relpath(path, CRATES), open(path).read()


SOURCES = list(files("src", ".rt"))
PROOFS = list(files("proofs", ".antt"))


def line_of(text, at):
    return text.count("\n", 0, at) + 1


def bare(text):
    return re.sub(r"//[^\n]*", lambda m: " " * len(m.group(0)), text)


def items(word):
    """Each enum or struct with a body: crate, place, name, body."""
    for crate, path, text in SOURCES:
        clean = bare(text)
        for m in re.finditer(r"(?m)^(?:pub )?%s (\w+)(?:<[^{;(]*>)? \{\n(.*?)^\}" % word, clean, re.S):
            yield crate, "%s:%d" % (path, line_of(text, m.start(1))), m.group(1), m.group(2)


def functions():
    """Each function: crate, place, name, parameters, what stands between them and the body."""
    for crate, path, text in SOURCES:
        clean = bare(text)
        for m in re.finditer(r"\bfn (\w+)(?:<[^({]*>)?\s*\(", clean):
            depth, i = 1, m.end()
            while depth:
                depth += {"(": 1, ")": -1}.get(clean[i], 0)
                i += 1
            params = re.sub(r"\s+", " ", clean[m.end() : i - 1]).strip(" ,")
            rest = clean[i : re.compile(r"^\s*\{\s*$|\{\n", re.M).search(clean, i).start()] if re.compile(r"^\s*\{\s*$|\{\n", re.M).search(clean, i) else ""
            yield crate, "%s:%d" % (path, line_of(text, m.start(1))), m.group(1), params, rest


EMPTY = r"(?m)^\s*(Refused\(|Err\(|None(?: = \d+)?,|Never,|Nothing,|Nowhere,|Past,|WellFormed,|UnknownOpcode,|End,|Wrong)"


def shapes():
    """1: own enums with a case that says no, or that there is nothing."""
    return [(c, p + " " + n) for c, p, n, body in items("enum") if re.search(EMPTY, body) and n != "Refusal"]


def flags():
    """1: structs with a flag, or such an enum, beside a value."""
    names = {p.split()[-1] for _, p in shapes()} | {"Answer", "Turn"}
    found = []
    for c, p, n, body in items("struct"):
        for m in re.finditer(r"(?m)^\s*(?:pub )?(\w+): ([\w:]+),", body):
            if m.group(2).split("::")[-1] in names or (m.group(2) == "bool" and m.group(1) in ("found", "failed", "more")):
                found.append((c, p + " " + n + "." + m.group(1)))
    return found


def numbers():
    """1: functions that take a number for a kind, a side, an outcome, a rule or a refusal."""
    return [(c, p + " " + n) for c, p, n, params, _ in functions() if re.search(r"\b(kind|side|caller|outcome|rule|refusal): (u8|u32|u64|usize)", params)]


def casts():
    """2: functions that only cast."""
    found = []
    for crate, path, text in SOURCES:
        for m in re.finditer(r"fn (\w+)\((\w+): (u\d+|usize)\) -> (u\d+|usize)[^{]*(?:ensures \{[^{]*\}\s*)?\{\s*\2 as \4\s*\}", bare(text)):
            found.append((crate, "%s:%d %s" % (path, line_of(text, m.start(1)), m.group(1))))
    return found


def twins():
    """2: functions of one name and of bodies of one shape, in one crate or several (names, numbers and types blotted out)."""
    bodies = collections.defaultdict(list)
    for crate, path, text in SOURCES:
        for m in re.finditer(r"(?m)^( *)(?:pub )?(?:pub\(crate\) )?(?:extern \"C\" )?fn (\w+)[^\n]*(?:\n(?!\1\{|\1\}).*)*?(?:\n\1)?\{\n((?:(?!\1\}).*\n)*)\1\}", bare(text)):
            body = m.group(3)
            if body.count("\n") < 3:
                continue
            shape = re.sub(r"\b\d[\w_]*\b", "0", re.sub(r"\b[A-Za-z_]\w*\b", lambda w: w.group(0) if w.group(0) in KEEP else "x", body))
            bodies[re.sub(r"\s+", " ", shape)].append((crate, "%s:%d %s" % (path, line_of(text, m.start(2)), m.group(2))))
    return [place for group in bodies.values() if len(group) > 1 for place in group]


KEEP = {"if", "else", "while", "for", "match", "return", "let", "mut", "in", "as", "self"}


def loops():
    """3: loops that are no `for`."""
    return [(c, "%s:%d" % (p, line_of(t, m.start()))) for c, p, t in SOURCES for m in re.finditer(r"(?m)^\s*(while|loop)\b(?! let)", bare(t))]


def by_hand():
    """4: conversions, orders, equalities and texts as plain functions."""
    return [(c, p + " " + n) for c, p, n, params, _ in functions() if re.fullmatch(r"from|from_byte|cmp|eq|same_bytes|code|text|number|magnitude|yes_no|check_of", n)]


def undressed():
    """4: enums and structs that derive no equality."""
    found = []
    for crate, path, text in SOURCES:
        for m in re.finditer(r"(?m)^((?:\s*#\[[^\n]*\]\n)*)\s*(?:pub )?(?:enum|struct) (\w+)", text):
            if "PartialEq" not in m.group(1):
                found.append((crate, "%s:%d %s" % (path, line_of(text, m.start(2)), m.group(2))))
    return found


def facts():
    """5: facts that three or more functions of a crate require."""
    seen = collections.defaultdict(list)
    for c, p, n, _, rest in functions():
        for clause in re.findall(r"requires(?: \w+)? \{(.*?)\}\s*$", rest, re.M | re.S):
            for fact in re.split(r"\s×\s", re.sub(r"\s+", " ", clause).strip()):
                seen[c, re.sub(r"\.(old|now)", "", fact.strip("() "))].append(c)
    return [(c, "%s (%d functions)" % (fact, len(group))) for (c, fact), group in seen.items() if len(group) > 2]


def together():
    """5: pairs of parameters that three or more functions of a crate take together."""
    seen = collections.Counter()
    for c, p, n, params, _ in functions():
        names = sorted(set(re.findall(r"(?:^|, )(?:mut )?(\w+: [^,]+)", params)))
        for i, a in enumerate(names):
            for b in names[i + 1 :]:
                seen[c, a, b] += 1
    return [(c, "%s, %s (%d functions)" % (a, b, k)) for (c, a, b), k in seen.items() if k > 2]


def lengths():
    """6: structs with an array and a length, a count or a kind of filling beside it."""
    return [(c, p + " " + n) for c, p, n, body in items("struct") if re.search(r": \[\w+; \w+\]", body) and re.search(r"\b(len|count|verdict|answer|turn|found|written): ", body)]


def switches():
    """7: enums of bare cases that a private function takes to choose what is done."""
    return [(c, p + " " + n) for c, p, n, body in items("enum") if n in ("Way", "Class")]


def wide():
    """8: lines of proofs over 200 characters."""
    return [(c, "%s:%d" % (p, i + 1)) for c, p, t in PROOFS for i, line in enumerate(t.split("\n")) if len(line) > 200]


def repeated():
    """8: lets that stand three times or more in the answers of a function."""
    found = []
    for c, p, t in PROOFS:
        if p.endswith("Answers.antt"):
            for line, k in collections.Counter(re.findall(r"(?m)^\s*(let \w+ : .*)$", t)).items():
                if k > 2:
                    found.append((c, "%s %s (%d times)" % (p, line[:60], k)))
    return found


def odd_names():
    """8: answers that cite a fact by a name that the check made up."""
    return [(c, "%s:%d" % (p, line_of(t, m.start()))) for c, p, t in PROOFS for m in re.finditer(r"\b(shared_)?slice_known\b", t)]


def answers():
    """8: answers of goals in all."""
    return [(c, p) for c, p, t in PROOFS if p.endswith("Answers.antt") and os.sep in p for _ in re.finditer(r"(?m)^pub [\w'-]+ : goal\.", t)]


def main():
    for count in (shapes, flags, numbers, casts, twins, loops, by_hand, undressed, facts, together, lengths, switches, wide, repeated, odd_names, answers):
        places = count()
        print("%4d  %s" % (len(places), count.__doc__))
        if VERBOSE and count is not answers:
            for _, place in places:
                print("        " + place)


main()
