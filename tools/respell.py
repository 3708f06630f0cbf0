#!/usr/bin/env python3
"""Respells this repository's own definitions and lemmas as today's Rattle wants words: in snake case.

usage: python3 tools/respell.py          once, at the top, right behind port.py
       python3 tools/respell.py --list   prints each name and its new spelling, and changes nothing

A name that begins small and has capitals gets underscores, as readTo read_to, and so where it is part of a lemma's name, as
readTo-digits read_to-digits. Names of types, constructors and modules begin with a capital and stay, as do functions of src/.
It reads .antt files, clauses and imports of .rt files, and edits. A spelling that is a word already is a function of src/, a field or a module (--list marks
them; each was looked at), or one of four lemmas, which get _lem.
"""

import os
import re
import sys

ROOT = os.path.dirname(os.path.dirname(os.path.abspath(__file__)))
NAME = r"[^\s(){}\[\].;,@\"«»`'|]+"
DECLARED = re.compile(r"(?m)^ *(?:(?:pattern|unfoldable|abbrev|pub|axiom) )*(" + NAME + r")(?: \{[^{}\n]*\})* : ")
WORD = re.compile(r"(?<![\w'′])[a-z]\w*(?![\w])")
# Lemmas that port.py left with the very name that a definition of theirs gets: `_lem`, as CONTRACT_STYLE.md has it.
LEMMAS = {"all_short": "dump_text/proofs/Longest.antt", "has_room": "filling/proofs/Filling.antt", "most_bytes": "forms/proofs/Most.antt", "all_first": "owners/proofs/Laws.antt"}
STRING = re.compile(r'b?"(?:[^"\\]|\\.)*"|b?\'(?:[^\'\\]|\\.)\'')


def files(*endings):
    for top in ("crates",):
        for folder, folders, names in os.walk(os.path.join(ROOT, top)):
            folders[:] = sorted(f for f in folders if f != "out")
            for name in sorted(names):
                if name.endswith(endings):
                    yield os.path.join(folder, name)


def read(path):
    with open(path, encoding="utf-8") as f:
        return f.read()


def snake(word):
    return re.sub(r"(?<=[a-z0-9])([A-Z])", lambda m: "_" + m[1].lower(), word)


def declared():
    """The words with a capital inside that some definition or lemma has for its name or as a part of it, and all other words."""
    names, others = set(), set()
    for path in files(".antt"):
        for name in DECLARED.findall(read(path)):
            for word in name.split("-"):
                if re.fullmatch(r"[a-z][a-z0-9_]*[A-Z]\w*", word):
                    names.add(word)
    for path in files(".antt", ".rt"):
        others.update(WORD.findall(read(path)))
    return names, others - names


def turned(text, table):
    return WORD.sub(lambda m: table.get(m[0], m[0]), text)


def with_lemmas(path, text):
    """The four lemmas in the file that has them, and where it is imported from."""
    for name, home in LEMMAS.items():
        crate, module = home.split("/")[0], os.path.basename(home)[:-5]
        if path.endswith(home) or re.search(r"use Rattle\.%s\.proofs\.%s\.\{[^}]*(?<![\w-])%s(?![\w-])" % (crate, module, name), text):
            text = re.sub(r"(?<![\w.'-])%s(?![\w'-])" % name, name + "_lem", text)
    return text


def turned_source(text, table):
    """Outside strings: the words of this table stand in clauses and imports alone, as Rust's names have no capital inside."""
    parts, at = [], 0
    for string in STRING.finditer(text):
        parts += [turned(text[at:string.start()], table), string[0]]
        at = string.end()
    return "".join(parts) + turned(text[at:], table)


def main():
    names, others = declared()
    table = {name: snake(name) for name in names}
    if sys.argv[1:] == ["--list"]:
        for name in sorted(table):
            print(name, table[name], "  <- already a word here" if table[name] in others else "")
        return 0
    count = 0
    for path in files(".antt", ".rt", ".edit"):
        old = read(path)
        text = with_lemmas(path, old) if path.endswith(".antt") else old
        new = turned_source(text, table) if path.endswith(".rt") else turned(text, table)
        if new != old:
            count += 1
            with open(path, "w", encoding="utf-8") as f:
                f.write(new)
    print(f"{len(table)} names, {count} files")
    return 0


if __name__ == "__main__":
    raise SystemExit(main())
