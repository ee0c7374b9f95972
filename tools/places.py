#!/usr/bin/env python3
"""Counts the places of crates/*/src and crates/*/proofs that older forms leave: python3 tools/places.py [COMMIT] [-v]

Without COMMIT the work tree is read. A count is of places that a pattern finds; docs/DESIGN-PASS.md says of each what became of it.
"""
import collections
import re
import subprocess
import sys

args = [a for a in sys.argv[1:] if a != "-v"]
verbose = "-v" in sys.argv
commit = args[0] if args else None


def run(*command):
    return subprocess.run(command, capture_output=True, text=True, check=True).stdout


def files(suffix):
    """Path and text of each file of the crates with this ending."""
    listed = run("git", "ls-tree", "-r", "--name-only", commit, "crates") if commit else run("git", "ls-files", "-co", "--exclude-standard", "crates")
    for path in sorted(listed.split()):
        if re.search(suffix, path):
            try:
                yield path, run("git", "show", f"{commit}:{path}") if commit else open(path).read()
            except FileNotFoundError:
                pass


def functions(text):
    """Name, parameters, clauses and body of each function that starts a line."""
    for m in re.finditer(r"^( *)(?:pub )?fn (\w+)(?:<[^>{]*>)?\((.*?)\)([^{;]*(?:\{ .*? \}\n[^{;]*)*)\{\n(.*?)^\1\}", text, re.M | re.S):
        yield m[2], m[3], m[4], m[5], text[: m.start()].count("\n") + 1


def parameters(text):
    return [p.strip() for p in re.split(r",(?![^\[(<]*[\])>])", text) if p.strip()]


def shape(body):
    """The body with names, numbers and strings struck out; words of the language and brackets stay."""
    body = re.sub(r"//.*", "", body)
    body = re.sub(r'b?"[^"]*"|b?\'[^\']*\'', "S", body)
    body = re.sub(r"\b\d[\d_]*\w*\b", "N", body)
    words = "if else for while in let mut return match true false as Some None Ok Err self".split()
    return re.sub(r"\b[A-Za-z_]\w*\b", lambda m: m[0] if m[0] in words else "I", re.sub(r"\s+", " ", body)).strip()


source = list(files(r"/src/.*\.rt$"))
found = collections.defaultdict(list)

for path, text in source:
    crate = path.split("/")[1]
    lines = text.split("\n")
    for i, line in enumerate(lines, 1):
        at = f"{path[7:]}:{i}: {line.strip()}"
        if re.match(r"\s*(pub )?enum \w+", line):
            found["1 enums (each is looked at)"].append(at)
        if re.match(r"\s*(pub )?\w+: bool,", line):
            found["1 flags in structs and variants"].append(at)
        if re.match(r"\s*(pub )?(mode|kind|front|answer): u(8|32),", line) or re.search(r"\bkind: u8\b", line) and "fn " in line:
            found["1 numbers for kinds"].append(at)
        if re.match(r"\s*while ", line):
            found["3 while loops"].append(at)
        m = re.match(r"\s*for (\w+) in \S+\.\.", line)
        if m and re.search(r"\[[^\]]*\b%s\b|\b%s as usize" % (m[1], m[1]), "\n".join(lines[i : i + 9])):
            found["3 for loops over an index"].append(at)
        if re.search(r"\.0 [=!]= \w+(\.\w+)*\.0\b", line):
            found["4 equality of a number inside"].append(at)
        if re.search(r"if \w+(\.\w+)* \{ 1 \} else \{ 0 \}|^\s*(if \w+ <= \w+ \{ \w+ \} else \{ \w+ \})", line):
            found["4 conversion, min and max by hand"].append(at)
    for name, params, clauses, body, i in functions(text):
        at = f"{path[7:]}:{i}: {name}"
        ps = parameters(params)
        arms = re.findall(r"=> (\S+?),?\n", body)
        if len(arms) > 1 and all(a in ("true", "false") for a in arms):
            found["4 tables of true and false"].append(at)
        elif len(arms) > 2 and all(re.fullmatch(r"\d+", a) for a in arms):
            found["4 tables of numbers"].append(at)
        if re.match(r"(same|smaller|larger|wide|limit_of|length_of|clear)", name):
            found["4 equality, conversion and filling by hand, by name"].append(at)
        if len(ps) > 6:
            found["5 functions with more than six parameters"].append(f"{at} ({len(ps)})")
        if any(re.match(r"out: &mut \[u8\]", p) for p in ps) and any(re.match(r"(at|put): usize", p) for p in ps):
            found["6 a buffer and the place in it"].append(at)
        elif any("&" in p and "[" in p for p in ps) and any(re.match(r"(had|has|len): usize", p) for p in ps):
            found["6 a buffer and its length"].append(at)
        if re.search(r"match kind|if kind ==", body):
            found["7 switches on which step to run"].append(at)

twins = collections.defaultdict(list)
for path, text in source:
    for name, params, clauses, body, i in functions(text):
        if len(body.strip().split("\n")) > 2:
            twins[re.sub(r"\b[a-z]\w*:", "", shape(params)), shape(body)].append(f"{path[7:]}:{i}: {name}")
for group in twins.values():
    if len(group) > 1:
        found["2 twins: functions of one shape"].append(" | ".join(group))
kept = collections.defaultdict(set)
for path, text in source:
    crate = path.split("/")[1]
    for name, params, clauses, body, i in functions(text):
        for fact in re.findall(r"requires (?:\w+ )?\{(.*)\}", clauses):
            for part in re.split(r" × ", fact.strip(" ()")):
                kept[crate, re.sub(r"\s+", " ", part.strip(" ()"))].add(f"{path[7:]}:{i}: {name}")
for (crate, fact), who in sorted(kept.items()):
    if len(who) > 2:
        found["5 facts that three or more functions of a crate require"].append(f"{crate}: {fact} ({len(who)})")

for path, text in files(r"/proofs/.*\.antt$"):
    if re.search(r"/(Answers|Invariants)\.antt$", path):
        found["8 files of function proofs"].append(path[7:])
    for line in text.split("\n"):
        if re.match(r"use (mathlib|native|Prim|lib|borrow)\.", line):
            found["8 imports from the logic's own modules"].append(f"{path[7:]}: {line}")

for key in sorted(found):
    print(f"{len(found[key]):4d}  {key}")
    if verbose:
        for place in found[key]:
            print("        " + place)
