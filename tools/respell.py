#!/usr/bin/env python3
"""Spells the repository's own definitions and lemmas in snake case, after /opt/rattle/port/port.py.

usage: python3 tools/respell.py table    writes tools/respell.tsv: each old name and its new one
       python3 tools/respell.py [ROOT]   renames by that table in ROOT's crates: .rt, .antt and must-fail/*.edit (default: this repository)

A definition `totalHits` becomes `total_hits`, a lemma `rounds-down` becomes `rounds_down`. A dash between two names of definitions stays, as in
`put-put`, and so does every name that would meet another one. Steps behind a dot, such as `c.chart-over`, are Rattle's and stay as they are.
"""

import collections
import os
import re
import sys

HERE = os.path.dirname(os.path.realpath(__file__))
TABLE = os.path.join(HERE, "respell.tsv")
NAME = re.compile(r"""[^\s(){}.;,:@"«»\[\]`|&!<>=+*/~→×]+""")
DECLARED = re.compile(r"(?m)^( *)(?:unfoldable |abbrev )*(?:pub )?(?:data |record )?([^\s:(){}.,;]+)(?=(?: [({][^\n]*)?(?: :|\n\s+:))")
CAMEL = re.compile(r"^[a-z][a-z0-9']*[A-Z]")
# Words of the library that a dash joins to another name.
LIBRARY = set("length append drop take put set map sum min max add mul sub div mod le lt gcd gap nat mem".split())
# Names of closest.rs that three definitions share: the Rust's own text in f64 keeps them, the plain search in whole numbers and the lists of steps
# are told apart by a word in front.
STEPS = ("closest_f64/specs/Sizes.antt", "closest_f64/proofs/Sizes.antt", "closest_f64/proofs/Lines.antt")
OF_STEPS = "atN200 atNew300 atNew320 atX matchGiven n300Values n320Values optimizeHitresults optimizeLastThree optimizeThreePlusMissing optimizeTwoMissing solveTwoVars".split()
PLAIN = "resultAt optimizeLastThree optimizeThreePlusMissing optimizeTwoMissing".split()
SKIP_FILES = ("Proof.antt", "Answers.antt", "Invariants.antt")


def texts(root, ends):
    for folder, dirs, files in os.walk(os.path.join(root, "crates")):
        dirs[:] = sorted(d for d in dirs if d != "out")
        for f in sorted(files):
            if f.endswith(ends):
                yield os.path.join(folder, f)


def read(p):
    with open(p, encoding="utf-8") as f:
        return f.read()


def snake(name):
    words = re.sub(r"(?<=[a-z0-9])([A-Z])", lambda m: "_" + m[1], name)
    return words.lower()


def table(root):
    in_specs, declared, where = set(), collections.Counter(), collections.defaultdict(set)
    for p in texts(root, (".antt", ".rt")):
        t = re.sub(r"--[^\n]*", "", read(p)) if p.endswith(".antt") else re.sub(r"//[^\n]*", "", read(p))
        for n in set(re.findall(r"(?<!\.)(?<![^\s(){};,@«»\[\]:])" + NAME.pattern, t)):
            where[n].add(p)
    own = set(os.listdir(os.path.join(root, "crates")))
    lent_to = collections.defaultdict(set)
    for p in texts(root, (".antt", ".rt")):
        for m in re.finditer(r"(?m)^\s*(?:pub )?(?:ghost )?use ([^\s{;]+?)\.\{([^}]*)\}", read(p)):
            steps = m[1].split(".")
            if not (steps[0] == "Rattle" and steps[1] in own or steps[0] in ("goal", "tie")):
                lent_to[p] |= {it.strip().split(" as ")[-1] for it in m[2].split(",")}
    lent_by_any = set().union(*lent_to.values())
    for p in texts(root, (".antt",)):
        t = re.sub(r"--[^\n]*", "", read(p))
        if os.path.basename(p) in SKIP_FILES:
            # a goal's name there is Rattle's
            t = re.sub(r"(?m)^\S[^\n]*: (?:tie|goal)\.[^\n]*$|^pub \S+[-_]spec[^\n]*$", "", t)
        for m in DECLARED.finditer(t):
            n = m[2]
            if n in ("use", "pub", "where", "mod", "let", "in"):
                continue
            declared[n] += 1
            if "/specs/" in p:
                in_specs.add(n)
    functions, others = set(), set()
    for p in texts(root, (".rt",)):
        t = re.sub(r"//[^\n]*", "", read(p))
        code = re.sub(r"(?m)^\s*ghost use [^;]*;", "", t)
        code = re.sub(r"(?m)^\s*(?:ensures|requires)[^\n]*$", "", code)
        functions |= set(re.findall(r"\bfn (\w+)", code))
        others |= set(re.findall(r"\b[a-z_][a-z0-9_]*\b", code))
    others -= functions
    out = {}

    def take(old, new):
        if new == old:
            return
        met = {p for p in where[old] & where[new] if p.endswith(".antt")} if new in declared or new in out.values() else set()
        if met:
            print(f"stays: {old}, as {new} stands in {sorted(met)[0]}")
            return
        lent = [p for p in where[old] if new in lent_to[p]] or old in lent_by_any and [""]
        if lent:
            print(f"stays: {old}, as a library lends {new} or {old} to {lent[0]}")
            return
        out[old] = new
        where[new] |= where[old]

    camel = sorted(n for n in declared if any(CAMEL.match(part) for part in n.split("-")) and not re.search(r"(^|[-_])[A-Z]", n))
    for n in camel:
        if n in OF_STEPS or n in PLAIN:
            continue
        new = "-".join(snake(part) for part in n.split("-"))
        if new in others:
            print(f"look: {n} -> {new}, a name of the code")
        take(n, new)
    known = {out.get(n, n) for n in in_specs} | LIBRARY
    for n in sorted(declared):
        m = out.get(n, n)
        if "-" not in m or not re.match(r"^[a-z0-9'_-]+$", m):
            continue
        parts = m.split("-")
        new = parts[0]
        for part in parts[1:]:
            new += ("-" if new.split("-")[-1] in known and part in known else "_") + part
        take(n, new)
    out |= {n: "plain_" + snake(n) for n in PLAIN}
    out |= {n: snake(n) for n in ("holdsGiven", "providedSum", "remainHits", "sixHits")}
    out |= {"length-chartsOf": "charts_of-length", "roundedUp-over": "rounded_up-past"}
    with open(TABLE, "w", encoding="utf-8") as f:
        for k in sorted(out):
            f.write(f"{k}\t{out[k]}\n")
    print(len(out), "names")


def rename(root):
    names = dict(l.rstrip("\n").split("\t") for l in open(TABLE, encoding="utf-8"))
    changed = 0
    for p in texts(root, (".rt", ".antt", ".edit")):
        old = read(p)
        of_code = os.path.basename(p) in SKIP_FILES
        steps = p.endswith(STEPS) or "/closest_f64/must-fail/" in p and "specs/Sizes.antt" in old

        def turn(m):
            n = m[0]
            if steps and n in OF_STEPS:
                return "steps_" + snake(n)
            if n not in names:
                return n
            if of_code and "-" in n and m.start() and old[m.start() - 1] == ".":
                return n
            return names[n]

        if p.endswith(".antt") and os.path.basename(p) in SKIP_FILES:
            # there a dashed name that the file itself declares is a goal's
            own = set(m[2] for m in DECLARED.finditer(old))
            new = NAME.sub(lambda m: m[0] if "-" in m[0] and m[0] in own else turn(m), old)
        else:
            new = NAME.sub(turn, old)
        if new != old:
            changed += 1
            with open(p, "w", encoding="utf-8") as f:
                f.write(new)
    print(changed, "files")


if __name__ == "__main__":
    if sys.argv[1:2] == ["table"]:
        table(sys.argv[2] if len(sys.argv) > 2 else os.path.dirname(HERE))
    else:
        rename(sys.argv[1] if len(sys.argv) > 1 else os.path.dirname(HERE))
