#!/usr/bin/env python3
"""Brings the names of this repository's definitions and lemmas to snake case, as docs/PORT.md says: run once, right after the kit's port.py.

usage: tools/spelling.py [--dry]      at the top of the repository

A name is turned where a file of specs/ or proofs/ declares it (a definition, a lemma, a field, a constructor) and it has a dash or a capital
inside; names of types, names that the library has and names that Rattle makes of the code stay. Strings stay, and of comments only what stands
between backticks is turned. Names that would fall together are listed, and nothing is written.
"""
import collections
import glob
import re
import sys

# a lemma of these files that would have a definition's name
FIRST = {"crates/frame/proofs/PassLaws.antt": {"by_lines"}, "crates/written/proofs/HolderTheorems.antt": {"cut_by"}}
DRY = "--dry" in sys.argv
TOKEN = re.compile(r"(?<![\w'′\-≤≡∷+*⊎×◌])[A-Za-z_][\w'′]*(?:-[\w'′]+)*(?![\w'′]|-[^\s)])")
HEAD = re.compile(r"^\s*(?:(?:pub|abbrev|unfoldable|private|opaque)\s+)*((?:[A-Za-z_][^\s:(){}.,;]*\s+)+)(?:\{[^}]*\}\s*)*:(?:\s|$)")
MODULE = re.compile(r"^\s*(?:pub\s+)?module\s+([^\s.({]+)")
BLOCK = re.compile(r"^(?:pub\s+|abbrev\s+|unfoldable\s+)*(record|data)\s+([^\s:(]+)")
USE = re.compile(r"\b(?:ghost\s+)?(?:pub\s+)?use\s+([\w.'′\-]+)\.\{([^}]*)\}", re.S)


def text(path):
    with open(path, encoding="utf-8") as f:
        return f.read()


def snake(name):
    name = name.replace("-", "_").replace("′", "'")
    name = re.sub(r"(?<=[a-z0-9])(?=[A-Z][a-z])", "_", name)
    name = re.sub(r"(?<=[a-z])(?=[A-Z])", "_", name)
    name = re.sub(r"(?<=[a-z]{3})(?=\d)|(?<=[a-z])(?=\d\d)", "_", name)
    return lower(name)


def lower(name):
    # a word's capital goes, but a tag keeps its letter: 26T, 77B
    return "_".join(w if re.fullmatch(r"\d+[A-Z]", w) else w[:1].lower() + w[1:] for w in name.split("_"))


def declared():
    own = collections.defaultdict(set)
    fields = set()
    for path in sorted(glob.glob("crates/*/specs/**/*.antt", recursive=True) + glob.glob("crates/*/proofs/**/*.antt", recursive=True)):
        if path.endswith("/Proof.antt"):
            continue
        for line in text(path).splitlines():
            if m := MODULE.match(line):
                own[m[1]].add(path)
                fields.add(m[1])
            elif m := BLOCK.match(line):
                own[m[2]].add(path)
            elif (m := HEAD.match(line)) and m[1].split()[0] not in ("let", "in", "use", "where"):
                for name in m[1].split():
                    own[name].add(path)
                    if line[0].isspace():
                        fields.add(name)
    return own, fields


def library(path, t):
    out = set()
    for m in USE.finditer(t):
        mine = re.match(r"Rattle\.(\w+)\.", m[1] + ".")
        if mine and mine[1] in CRATES:
            continue
        out |= {w.strip().split(" as ")[-1] for w in m[2].split(",")}
    return out


def main():
    global CRATES
    CRATES = {p.split("/")[1] for p in glob.glob("crates/*/src")}
    own, fields = declared()
    turned = {n: snake(n) for n in own if n[0].islower() and snake(n) != n}
    taken = set()
    files = sorted(glob.glob("crates/*/specs/**/*.antt", recursive=True) + glob.glob("crates/*/proofs/**/*.antt", recursive=True) + glob.glob("crates/*/src/**/*.rt", recursive=True))
    for path in files:
        taken |= library(path, text(path))
    groups = collections.defaultdict(set)
    for n in own:
        groups[turned.get(n, n)].add(n)
    bad = 0
    words = {path: set(TOKEN.findall(text(path))) for path in files}
    for new, olds in sorted(groups.items()):
        if len(olds) > 1 and any(o in turned for o in olds):
            # a lemma that would have a definition's name gets _lem
            for o in [o for o in olds if "-" in o]:
                turned[o] = new + "_lem"
                print("a lemma:", o, "->", turned[o])
            left = [o for o in olds if "-" not in o]
            both = [path for path in files if path.endswith(".antt") and not path.endswith("/Proof.antt") and path not in FIRST and len(words[path] & set(left)) > 1]
            if len(left) > 1:
                print("together:" if both else "apart:", new, {o: sorted(p.replace("crates/", "") for p in own[o])[:3] for o in left}, both[:3])
                bad += bool(both)
        elif new in taken and new not in own:
            print("the library has:", new, olds)
            bad += 1
    after = collections.defaultdict(set)
    for n in own:
        after[turned.get(n, n)].add(n)
    for new, olds in after.items():
        if new.endswith("_lem") and len(olds) > 1:
            print("together:", new, olds)
            bad += 1
    if bad or DRY:
        print(len(turned), "names;", bad, "fall together")
        return 1 if bad else 0
    olds = set(turned)

    def turn(t, skip, aliases=(), proof=False):
        def one(m):
            if m[0] in skip or m[0][0].isupper() or (m[0] not in olds and (proof or not re.search(r"[a-z0-9][A-Z]|-", m[0]) or t[m.start() - 1 : m.start()] == ".")):
                return m[0]
            if m.start() and t[m.start() - 1] == ".":
                before = re.search(r"([A-Za-z_][\w\-]*)\.$", t[: m.start()])
                if not (before and before[1] in aliases) and m[0] not in fields:
                    return m[0]
            return turned.get(m[0]) or snake(m[0])

        return TOKEN.sub(one, t)

    def ticks(t, skip):
        return re.sub(r"`[^`\n]*`", lambda m: turn(m[0], skip), t)

    def antt(path):
        t = text(path)
        for name in FIRST.get(path, ()):
            t = re.sub(rf"(?<![\w-]){name}(?![\w-])", name + "_lem", t)
        skip = library(path, t)
        aliases = set(re.findall(r"^(?:pub )?use [\w.]+ as ([\w\-]+)$", t, re.M)) - {"tie"}
        if path.endswith("/Proof.antt"):
            named = {m[1].split()[0] for m in map(HEAD.match, t.split("\n")) if m and "tie.Need" not in m.string and "tie.invariant" not in m.string and "tie.decreases" not in m.string}
            for m in USE.finditer(t):
                if "." + "Tie" not in m[1]:
                    named |= {w.strip().split(" as ")[0] for w in m[2].split(",")}
            skip = skip | (olds - named - fields)
        out = []
        for line in t.split("\n"):
            code, dash, note = cut(line)
            out.append("".join(p if i % 2 else turn(p, skip, aliases, path.endswith("/Proof.antt")) for i, p in enumerate(re.split(r'("(?:[^"\\]|\\.)*")', code))) + dash + ticks(note, skip - library(path, t)))
        return "\n".join(out)

    def cut(line):
        m = re.match(r'^((?:[^"]|"(?:[^"\\]|\\.)*")*?)(--(?=\s|$))(.*)$', line)
        return (m[1], m[2], m[3]) if m else (line, "", "")

    def rt(path):
        t = text(path)
        skip = library(path, t)
        out, depth, ghost = [], 0, False
        for line in t.split("\n"):
            m = re.match(r'^((?:[^"]|"(?:[^"\\]|\\.)*")*?)(//)(.*)$', line)
            code, slashes, note = (m[1], m[2], m[3]) if m else (line, "", "")
            start = re.match(r"^\s*(?:pub\s+)?(?:ghost|requires|ensures)\b", code)
            if start or ghost:
                code = turn(code, skip)
                depth += code.count("{") - code.count("}")
                ghost = depth > 0 or (start and code.rstrip().endswith(("requires", "ensures")))
                if not ghost:
                    depth = 0
            out.append(code + slashes + ticks(note, skip))
        return "\n".join(out)

    n = 0
    for path in files:
        new = antt(path) if path.endswith(".antt") else rt(path)
        if new != text(path):
            n += 1
            with open(path, "w", encoding="utf-8") as f:
                f.write(new)
    # pages: what stands between backticks; the names that port.py itself turned are turned there too
    pages = {o: turned[o] for o in turned}
    for name in own:
        if "_" in name:
            pages.setdefault(name.replace("_", "-"), name)
    for path in sorted(glob.glob("*.md") + glob.glob("docs/*.md") + glob.glob("docs/landings/*.md") + glob.glob("bench/*.md")):
        t = text(path)
        new = re.sub(r"`[^`\n]*`", lambda m: TOKEN.sub(lambda k: pages.get(k[0], k[0]), m[0]), t)
        if new != t:
            n += 1
            with open(path, "w", encoding="utf-8") as f:
                f.write(new)
    print(len(turned), "names;", n, "files written")


if __name__ == "__main__":
    raise SystemExit(main())
