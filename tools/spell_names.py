#!/usr/bin/env python3
"""Spells the repository's own definitions and lemmas as today's Rattle does: words in snake case, types and modules in camel case.

usage: python3 tools/spell_names.py [--see]       at the top of the repository, once, after the toolchain's own script

Each part of a name that begins with a small letter and has capitals is written in snake case, wherever it stands in src/, specs/, proofs/ and must-fail/
(`lowestBit` is `lowest_bit`, `putWords-mid` is `put_words-mid`). Names of types, facts and modules begin with a capital and stay; so do the names of
src/, which were in snake case already. Strings stay. It stops before it writes anything where two of the names would become one. With --see it writes
nothing and lists each name, what it becomes, and files in which that stood already: functions of src/ mostly, and the lemmas of LEMMAS.
"""

import os
import re
import sys

# a maximal word of letters, digits and _ that begins with a small letter and has a capital further on
CAMEL = re.compile(r"(?<![A-Za-z0-9_'])[a-z][a-z0-9_]*[A-Z][A-Za-z0-9_]*")
STRING = re.compile(r'b?"(?:[^"\\]|\\.)*"')

# words whose capitals are not one letter each, and words of the library that stood in comments and edits under older names
ODD = {
    "isCR": "is_cr",
    "isLF": "is_lf",
    "bitOr": "bit_or",
    "bitAnd": "bit_and",
    "getD": "get_or",
    "trailingZeros": "count_trailing_zeros",
}

# lemmas that would have their definition's name, by the file that states them: such a lemma ends in `_lem`
LEMMAS = {
    "crates/rules/proofs/Kept.antt": "not_sound",
    "crates/changes/proofs/Same.antt": "same_parts",
}


def snake(word):
    if word in ODD:
        return ODD[word]
    return re.sub(r"(?<=[a-z0-9])([A-Z])", lambda m: "_" + m.group(1).lower(), word)


def files():
    for folder, dirs, names in os.walk("crates"):
        dirs[:] = sorted(d for d in dirs if d != "out")
        for name in sorted(names):
            if name.endswith((".rt", ".antt", ".edit")):
                yield os.path.join(folder, name)


def plain_pieces(text):
    """The text outside strings, and the strings, in turn."""
    at = 0
    for m in STRING.finditer(text):
        yield text[at : m.start()], False
        yield m.group(0), True
        at = m.end()
    yield text[at:], False


def spelled(path, text):
    lemma = LEMMAS.get(path)
    if lemma:
        text = re.sub(rf"(?<![\w'-]){lemma}(?![\w'-])", lemma + "_lem", text)
    return "".join(p if kept else CAMEL.sub(lambda m: snake(m.group(0)), p) for p, kept in plain_pieces(text))


def words(text):
    return set(re.findall(r"(?<![A-Za-z0-9_'])[A-Za-z_][A-Za-z0-9_]*", text))


def main():
    texts = {}
    for path in files():
        with open(path, encoding="utf-8") as f:
            texts[path] = f.read()
    every, camel = {}, {}
    for path, text in texts.items():
        for piece, kept in plain_pieces(text):
            if kept:
                continue
            for w in words(piece):
                (camel if CAMEL.fullmatch(w) else every).setdefault(w, set()).add(path)
    new = {}
    for w in sorted(camel):
        if snake(w) in new:
            sys.exit(f"spell_names: {w} and {new[snake(w)]} fall together")
        new[snake(w)] = w
    if "--see" in sys.argv[1:]:
        for s, w in sorted(new.items()):
            print(w, s, *(sorted(every[s])[:4] if s in every else ()))
        return
    for path, text in texts.items():
        out = spelled(path, text)
        if out != text:
            with open(path, "w", encoding="utf-8") as f:
                f.write(out)


main()
