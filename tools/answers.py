#!/usr/bin/env python3
"""Turns a function's old proof file, Proof.antt over `tie`, into Invariants.antt and Answers.antt, as docs/PORT.md says.

usage: tools/answers.py NAMES CRATE [WORD]     at the top of the repository

NAMES is the names.json that `rt check --generated DIR --old-names` writes for the crate; of the proofs whose path holds WORD, or of all. What was only
`search rules` goes: the check finds it. A helper over a place of the code becomes a `let` where it is cited. What is left to do by hand is printed.
"""
import glob
import json
import os
import re
import sys

SEG = r"[A-Za-z0-9_'₀-₉·]+(?:-[A-Za-z0-9_'₀-₉·]+)*"
PATH = re.compile(r"(?<![\w.'\-])([A-Za-z_][\w'₀-₉]*)((?:\." + SEG + r")*)")


def norm(s):
    return s.replace("-", "_").replace("·", "_")


def blocks(t):
    """Top-level declarations: (name, signature, unfolding line or '', clauses)."""
    out, cur = [], []
    for line in t.split("\n"):
        if line.startswith("--") or not line.strip():
            if cur and not line.strip():
                out.append(cur)
                cur = []
            continue
        if line.startswith("use ") or line.startswith("ruleset"):
            if cur:
                out.append(cur)
                cur = []
            out.append([line])
            continue
        cur.append(line)
    if cur:
        out.append(cur)
    return out


class Fn:
    def __init__(self, d):
        self.d = d
        self.needs = {norm(o): (o, n, at) for (o, n), at in zip(d["needs"], d["asked_at"])}
        self.places = {p[0]: i for i, p in enumerate(d["places"])}
        self.byname = {norm(p[0]): p[0] for p in d["places"]}
        self.newplace = {p[0]: n for p, n in zip(d["places"], d["places_by_name"])}

    def chain(self, place):
        out = []
        while place is not None and place in self.places:
            i = self.places[place]
            out.append(i)
            place = self.d["places"][i][1]
        return out

    def fields(self, place):
        """old field -> (new field, renamed subfields), nearest first; arms: (old field) -> list of (old sub path, new path)"""
        plain, arms = {}, {}
        done = set()
        for i in self.chain(place):
            p = self.d["places"][i]
            old, new = p[2]
            if not old:
                continue
            arm = self.d["arms"][i]
            if arm:
                if arm[0] in done:
                    continue
                done.add(arm[0])
                for sub, step, path in arm[2]:
                    arms.setdefault(norm(step), []).append((path, arm[0], sub))
            plain.setdefault(norm(old), []).append((new, dict(map(tuple, p[4])), i))
        return plain, arms


def convert(path, fn, said):
    t = open(path, encoding="utf-8").read()
    head = []
    for line in t.split("\n"):
        if line.startswith("--"):
            head.append(line)
        else:
            break
    uses, decls = [], []
    for b in blocks(t):
        if b[0].startswith("use ") or b[0].startswith("ruleset"):
            uses.append(b[0])
        else:
            decls.append(b)
    module = re.search(r"^use (Rattle\.\S+)\.Tie as tie$", t, re.M)[1]
    uses = [u for u in uses if not re.search(r"\.(Tie as tie|Statement\.\{statement\})$", u)]
    invs, answers, helpers, alias = [], [], {}, {}
    order = []
    for b in decls:
        sig, rest = b[0], b[1:]
        while rest and rest[0].startswith((" ", "\t")) and not re.match(r"^\S", rest[0]):
            # a signature over several lines
            sig += "\n" + rest[0]
            rest = rest[1:]
        m = re.match(r"^(?:pub |abbrev |unfoldable |private )*([^\s:]+)\s*(?:\{[^}]*\}\s*)?:\s*(.*)$", sig, re.S)
        if not m:
            said.append(f"{path}: not read: {sig[:80]}")
            continue
        name, ty = m[1], m[2]
        if "tie.close" in "\n".join(rest):
            continue
        unf = ""
        while rest and rest[0].startswith("unfolding"):
            unf += rest[0] + "\n"
            rest = rest[1:]
        order.append((name, ty, unf, rest))

    def body_of(name, rest):
        text = "\n".join(rest)
        m = re.match(rf"^{re.escape(name)}((?:\s+[^\s=]+)*)\s*=\s?(.*)$", text, re.S)
        if not m:
            return None, None
        return m[1].split(), m[2]

    # kinds
    goals, hs, free = [], {}, []
    for name, ty, unf, rest in order:
        args, body = body_of(name, rest)
        one = len([l for l in rest if re.match(rf"^{re.escape(name)}(\s|$)", l)]) == 1
        if re.match(r"^tie\.(invariant|decreases)-", ty):
            invs.append((name, ty, unf, args, body))
        elif (m := re.match(r"^tie\.Need-(\S+)", ty)):
            goals.append((name, m[1], unf, args, body))
        elif "tie." in ty:
            m = re.match(r"^(?:\((\w+) : tie\.(\S+?)(?: [\w\- ]+?)?\)|tie\.(\S+?)(?: [\w\- ]+?)?) → (.*)$", ty, re.S)
            if m and one and args and m[4].strip().startswith("tie.") and re.match(r"^tie\.\S+( [\w\-]+)*\s*$", m[4].strip()):
                alias[name] = 1
            elif m and one and args:
                hs[name] = (m[1] or args[0], m[2] or m[3], m[4], unf, args, body)
            else:
                said.append(f"{path}: a helper by hand: {name} : {ty[:70]}")
                free.append((name, ty, unf, rest))
        else:
            free.append((name, ty, unf, rest))

    loops = fn.d["loops"]

    def turn(body, place, roots=("c",)):
        """the paths of a body, by the places above `place`"""
        plain, arms = fn.fields(place)
        ctx = set(roots)
        # aliases applied to a context are that context
        for _ in range(6):
            for a in alias:
                body = re.sub(rf"\({re.escape(a)} (?:{'|'.join(map(re.escape, sorted(ctx)))})(?:\.before)*\)", "c", body)
                body = re.sub(rf"(?<![\w.\-']){re.escape(a)} (?:{'|'.join(map(re.escape, sorted(ctx)))})(?:\.before)*(?![\w.\-'])", "c", body)
            m = re.search(rf"\blet ([\w'₀-₉]+) = (?:{'|'.join(map(re.escape, sorted(ctx)))})(?:\.before)* in\s?", body)
            while m:
                ctx.add(m[1])
                body = body[: m.start()] + body[m.end() :]
                m = re.search(rf"\blet ([\w'₀-₉]+) = (?:{'|'.join(map(re.escape, sorted(ctx)))})(?:\.before)* in\s?", body)
        used = []

        def step(m):
            root, rest = m[1], [s for s in m[2].split(".") if s]
            if root not in ctx:
                return m[0]
            k = 0
            while rest and rest[0] == "before":
                rest.pop(0)
                k += 1
            if not rest:
                return "c" if (k or root != "c") else m[0]
            f = norm(rest[0])
            sub = rest[1:]
            for g in (f, re.sub(r"_lem$", "", f), f.lower(), re.sub(r"^is", "", f.lower()), re.sub(r"\d$", "", f), re.sub(r"_lem$", "", f.lower()) ):
                if g in plain or g in arms:
                    f = g
                    break
            if f in ("args", "requires", "ranges", "well_formed", "pre"):
                return ".".join(["c", "requires" if f == "pre" else rest[0]] + sub)
            best = None
            for path_, arm, new in arms.get(f, ()):
                if sub[: len(path_)] == list(path_) and (best is None or len(path_) > len(best[0])):
                    best = (path_, arm, new)
            if best and not (f not in ("match",) and best[0] == [] and f in plain and not arms):
                if best[2].endswith("-own"):
                    return ".".join(["c", best[1], best[2]] + sub[len(best[0]) :])
                return ".".join(["c", best[1], best[2]] + sub[len(best[0]) :])
            if f not in plain:
                used.append(rest[0])
                return ".".join(["c"] + rest)
            new, ren, i = plain[f][0]
            if len(plain[f]) > 1 and len({n for n, _, _ in plain[f]}) > 1:
                used.append(rest[0] + "?")
            sub = [{"inv": "invariant", "pre": "requires"}.get(x, x) for x in sub]
            if sub and sub[0] in ren:
                sub[0] = ren[sub[0]]
            return ".".join(["c", new] + sub)

        body = "".join(p if i % 2 else PATH.sub(step, p) for i, p in enumerate(re.split(r'("(?:[^"\\]|\\.)*")', body)))
        # the test of a `!x` is a fact on x now
        body = re.sub(r"\(not-(true|false) _ (c\.[\w\-.']+\.)\1-raw\)", r"\2\1", body)
        body = re.sub(r"not-(true|false) _ (c\.[\w\-.']+\.)\1-raw", r"\2\1", body)
        return body, used

    def with_helpers(body, place, seen=()):
        """lets for the helpers that a body cites, innermost first"""
        lets = []
        for h, (var, hp, hty, hunf, hargs, hbody) in hs.items():
            if re.search(rf"(?<![\w.\-']){re.escape(h)}(?![\w\-'])", body) and h not in seen:
                pl = fn.byname.get(norm(hp), place)
                b, u1 = turn(hbody, pl, (hargs[0],))
                ty, u2 = turn(hty, pl, (var,))
                more = " ".join(hargs[1:])
                if more:
                    b = f"λ {more}. {b}"
                inner = with_helpers(b, pl, seen + (h,))
                b = strip(b)
                lets += inner + [(h, strip(ty), b, hunf)]
                for u in u1 + u2:
                    said.append(f"{path}: {h}: field {u}")
        out, names = [], set()
        for l in lets:
            if l[0] not in names:
                names.add(l[0])
                out.append(l)
        return out

    def strip(body):
        for h in hs:
            body = re.sub(rf"\({re.escape(h)} c\)", h, body)
            body = re.sub(rf"(?<![\w.\-']){re.escape(h)} c(?![\w.\-'])", h, body)
        return body

    inv_names = {}
    inv_out = []
    for name, ty, unf, args, body in invs:
        kind, loop = re.match(r"^tie\.(invariant|decreases)(?:-(\S+))?", ty).groups()
        which = next((k for k, l in enumerate(loops) if norm(l[0][0]) == norm(loop or "loop")), None)
        if which is None:
            said.append(f"{path}: no loop for {name}")
            continue
        (old, new), vars_ = loops[which]
        changed = fn.d["changed"][which]
        first = args[: len(vars_)]
        now = args[len(vars_) :]
        sub = {}
        j = 0
        for v, ch, a in zip(vars_, changed, first):
            if ch:
                sub[a] = f"l.initial.{v}"
                if j < len(now):
                    sub[now[j]] = f"l.{v}"
                j += 1
            else:
                sub[a] = f"l.{v}"
        if j != len(now) or len(first) != len(vars_):
            said.append(f"{path}: the variables of {name} are not {vars_}: {args}")

        def put(m):
            return sub[m[1]] + m[2] if m[1] in sub else m[0]

        nb = PATH.sub(put, body)
        inv_out.append(f"abbrev pub {kind}-{new} : goal.{kind}-{new}\n{unf}{kind}-{new} l = {nb}")
        inv_names[name] = f"{kind}-{new}"

    out, told = [], set()
    for name, need, unf, args, body in goals:
        key = None
        for k in (norm(name), norm(need)):
            for cand in (k, re.sub(r"^(overflow|nonzero)_", "", k), re.sub(r"^slice_bounds_", "part_", k), re.sub(r"_holds$", "_init", k), re.sub(r"_again$", "_preserved", k), re.sub(r"_less$", "_smaller", k)):
                if cand in fn.needs and cand not in told:
                    key = cand
                    break
            if key:
                break
        if body is None:
            said.append(f"{path}: not read: {name}")
            continue
        if key is None:
            if body.strip() not in ("search rules", "omega arith"):
                said.append(f"{path}: no goal for {name} ({need})")
            continue
        told.add(key)
        if body.strip() == "search rules" and not unf:
            continue
        old, new, at = fn.needs[key]
        b, used = turn(body, at[0])
        lets = with_helpers(b, at[0])
        b = strip(b)
        for u in used:
            said.append(f"{path}: {new}: field {u}")
        for h, ty, hb, hunf in lets:
            for w in hunf.split():
                if w != "unfolding" and w not in unf.split():
                    unf = (unf.rstrip("\n") + " " + w + "\n") if unf else "unfolding " + w + "\n"
        pre = "".join(f"\n    let {h} : {ty} = {hb} in" for h, ty, hb, hunf in lets)
        if pre:
            b = pre + ("" if b.startswith("\n") else "\n    ") + b
            out.append(f"pub {new} : goal.{new}\n{unf}{new} c ={b}")
        else:
            out.append(f"pub {new} : goal.{new}\n{unf}{new} c ={'' if b.startswith(chr(10)) else ' '}{b}")
    missing = [n for k, (o, n, a) in fn.needs.items() if k not in told]
    for name, ty, unf, rest in free:
        out.insert(0, f"{name} : {ty}\n{unf}" + "\n".join(rest))
    folder = os.path.dirname(path)
    top = "\n".join(head) + ("\n" if head else "")
    if inv_out:
        with open(os.path.join(folder, "Invariants.antt"), "w", encoding="utf-8") as f:
            f.write(top + "\n".join(uses + [f"use {module}.Given as goal"]) + "\n\n" + "\n\n".join(inv_out) + "\n")
    if out:
        with open(os.path.join(folder, "Answers.antt"), "w", encoding="utf-8") as f:
            f.write(top + "\n".join(uses + [f"use {module}.Goals as goal"]) + "\n\n" + "\n\n".join(out) + "\n")
    os.remove(path)
    return missing


def main():
    names = json.load(open(sys.argv[1]))
    crate = sys.argv[2]
    word = sys.argv[3] if len(sys.argv) > 3 else ""
    said = []
    for path in sorted(glob.glob(f"crates/{crate}/proofs/**/Proof.antt", recursive=True)):
        if word not in path:
            continue
        rel = path.split("/proofs/")[1][: -len("/Proof.antt")].replace("/", ".")
        key = f"Rattle-{crate}-proofs.{rel}.Lts"
        t = open(path, encoding="utf-8").read()
        if key not in names or "Tie as tie" not in t:
            said.append(f"{path}: by hand")
            continue
        try:
            convert(path, Fn(names[key]), said)
        except Exception as e:  # noqa: BLE001
            said.append(f"{path}: {type(e).__name__} {e}")
            if os.environ.get("TRACE"):
                raise
    print("\n".join(said))


if __name__ == "__main__":
    main()
