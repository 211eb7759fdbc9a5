#!/usr/bin/env python3
"""Counts the places of docs/DESIGN-PASS.md in the sources of a commit.

    tools/places.py [COMMIT] [--list]

 1. own enums, and comments or names by which a number stands for "none"
 2. functions whose bodies are the same but for names, numbers and literals (twins)
 3. loops by `while` and `loop`
 4. functions that do by hand what a derive, an operator or a method of the library does
 5. facts that stand in the contracts of three or more functions of a crate, and runs of three or more parameters that do
 6. arrays that are lent with a length beside them, and tables side by side
 7. parameters of type bool, and matches on words, that choose which step runs
"""
import re
import subprocess
import sys
from collections import defaultdict

args = [a for a in sys.argv[1:] if not a.startswith("--")]
commit = args[0] if args else "HEAD"
listing = "--list" in sys.argv


def git(*words):
    return subprocess.run(["git", *words], capture_output=True, text=True, check=True).stdout


files = [f for f in git("ls-tree", "-r", "--name-only", commit, "crates").split() if "/src/" in f and f.endswith(".rt")]
texts = {f: git("show", f"{commit}:{f}") for f in files}
FN = re.compile(r"^( *)(?:#\[[^\n]*\]\n *)?(pub(?:\(crate\))? )?(?:extern \"C\" )?fn (\w+)", re.M)


def functions(text):
    """Name, parameters, contract and body of each function, and whether it is a test's."""
    tests = text.find("#[cfg(test)]\nmod tests {")
    for m in FN.finditer(text):
        if 0 <= tests < m.start():
            continue
        open_ = text.find("(", m.end())
        depth, i = 0, open_
        while True:
            depth += {"(": 1, ")": -1}.get(text[i], 0)
            i += 1
            if depth == 0:
                break
        params = text[open_ + 1:i - 1]
        end = re.compile(r"^%s\}|\{[^\n{}]*\}$|;$" % m.group(1), re.M)
        body = re.compile(r"^%s\{\n|\) (?:-> [^\n]*)?\{\n" % m.group(1), re.M).search(text, i - 1)
        stop = re.compile(r"^%s\}" % m.group(1), re.M).search(text, i)
        if not stop:
            continue
        start = body.end() if body and body.end() < stop.start() else stop.start()
        yield m.group(3), params, text[i:start], text[start:stop.start()]


found = defaultdict(list)
for f, text in texts.items():
    code = "\n".join(l for l in text.split("\n") if not l.lstrip().startswith("//"))
    for m in re.finditer(r"^ *(?:pub(?:\(crate\))? )?enum (\w+)", code, re.M):
        found[1].append(f"{f}: enum {m.group(1)}")
    for i, l in enumerate(text.split("\n"), 1):
        if re.match(r" *//", l) and re.search(r"\b(?:0|32|10,000,000,000) (?:for (?:no|any other|each that)|where|behind the last)|, 0 for none|that it is, 0", l):
            found[1].append(f"{f}:{i}: {l.strip()}")
    for i, l in enumerate(text.split("\n"), 1):
        if re.match(r" *(?:while |loop \{)", l):
            found[3].append(f"{f}:{i}: {l.strip()}")
        if re.search(r"\b(?:russian|sheet|colons|blank|marked|payer|tax|first|new|latin|must): bool\b", l) and "pub " not in l.split("fn")[0] or re.search(r"fn \w+\(.*\b(?:twelve|marked|payer|tax): bool", l):
            found[7].append(f"{f}:{i}: {l.strip()[:90]}")

HAND = r"is_same|smaller|less|one_less|either|are_both|has_characters|is_silent|is_either|wide|is_note|is_no_party|is_two|is_mark|is_digit|is_capital|front|past|put_digits|tell_number|tell|add_number|form_of|tag_number|as_verdict|number_of|type_of|shown|hex_digit|starts|starts_with|is_on|none_yet|nothing|is_nothing|has_end|lent|lent_list|within|copy|worth_of|long_worth"
twins = defaultdict(list)
for f, text in texts.items():
    for name, params, contract, body in functions(text):
        if re.fullmatch(HAND, name):
            found[4].append(f"{f}: {name}")
        shape = re.sub(r"//[^\n]*", "", body)
        shape = re.sub(r"b?\"(?:[^\"\\]|\\.)*\"|b?'(?:[^'\\]|\\.)'|\b[A-Z][A-Z0-9_]*\b|\b\d\w*\b", "L", shape)
        shape = re.sub(r"\b(?!if\b|else\b|while\b|loop\b|let\b|mut\b|return\b|match\b|for\b|in\b|as\b|true\b|false\b)[a-z_]\w*\b", "n", shape)
        shape = re.sub(r"\s+", " ", shape).strip()
        if len(shape) > 60:
            twins[shape].append(f"{f.split('/')[1]}::{name}")
for shape, names in twins.items():
    if len(names) > 1:
        found[2].append(" = ".join(names))

facts, runs = defaultdict(set), defaultdict(set)
for f, text in texts.items():
    crate = f.split("/")[1]
    for name, params, contract, body in functions(text):
        for clause in re.findall(r"(?:requires|ensures)[^{\n]*\{ (.*) \}", contract):
            for fact in re.split(r" × (?![^(]*\))", clause):
                fact = re.sub(r"\b\w+\.(now|old|new)\b", r"_.\1", fact.strip("() "))
                if "result" not in fact and len(fact) > 8:
                    facts[crate, fact].add(name)
        names = [p.strip() for p in re.split(r",(?![^<\[(]*[>\])])", params) if p.strip() and "self" not in p]
        for i in range(len(names) - 2):
            runs[crate, ", ".join(re.sub(r"^mut ", "", n) for n in names[i:i + 3])].add(name)
        for n in names:
            if re.search(r"(?:tags|musts|spots): &\[", n):
                found[6].append(f"{f}: {name}({n})")
for (crate, fact), names in facts.items():
    if len(names) >= 3:
        found[5].append(f"{crate}: {fact}: {len(names)}: {', '.join(sorted(names))}")
for (crate, run), names in runs.items():
    if len(names) >= 3:
        found[5].append(f"{crate}: ({run}): {len(names)}: {', '.join(sorted(names))}")

for point in range(1, 8):
    print(f"{point}: {len(found[point])}")
    if listing:
        for place in found[point]:
            print("   ", place)
