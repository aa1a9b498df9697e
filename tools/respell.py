#!/usr/bin/env python3
"""Brings the repository's own definitions and lemmas to snake case. Run once, at the top, after port.py.

usage: python3 tools/respell.py [--check]

Turned are the names that specs/ and proofs/ declare (camel case and dashes become snake case), wherever they stand in
.antt files and in clauses and ghost items of .rt files, and the folder specs/laws of the crate codec, which becomes specs/Laws.
Types, modules and the functions of src/ keep their names. In the files that answer goals, a label that Rattle makes is
turned by its own rule: a name of the source keeps its underscores, and Rattle's own words have them.
Names that would fall together are printed, and nothing is written then.
"""
import os
import re
import subprocess
import sys

TOKEN = re.compile(r"[^\s(){}.;,@\"«»\[\]\\λ]+")
DECLARED = re.compile(r"(?m)^\s*(?:(?:pub|abbrev|unfoldable|ruleset) )*([A-Za-z0-9_'-]+) :(?=\s)(?!=)(?! goal\.)")
LOCAL = re.compile(r"(?:\blet |λ \(?|[({])([a-z][A-Za-z0-9_']*(?:-[A-Za-z0-9_']+)*)(?= [:=.])")
GHOST = re.compile(r"\bghost ([a-z]\w*)\s*[:=]")
RUST = re.compile(r"\b[A-Za-z]\w*_\w+\b")
OWN_WORDS = ("in-err", "in-ok", "in-default", "overflow-add", "overflow-sub", "overflow-mul", "overflow-shl", "overflow-shr",
             "overflow-cast", "overflow-step", "nonzero-div", "nonzero-rem", "offset-bounds", "slice-bounds", "invariant-of", "type-inv")
LABEL = re.compile(r"^(returns|loop|invariant|decreases|overflow|nonzero|offset|slice|bounds|zero-size|flush|from-utf8|at-place|value-bits)\b")
CLAUSE = re.compile(r"\b(?:requires|ensures|ghost)\*?(?:\s+\w+)?\s*(?::\s*|=\s*)?\{|\bghost use [^;]*;")


# the one pair that would fall together: a lemma and the definition that it is about
APART = {"groups-by": "groups_by_turns"}


def snake(name):
    if name in APART:
        return APART[name]
    name = re.sub(r"(?<=[a-z0-9])([A-Z])", lambda m: "_" + m[1].lower(), name)
    return name.replace("-", "_").lower() if name[0].islower() else name.replace("-", "_")


def files(kind):
    listed = subprocess.run(["git", "ls-files", "-co", "--exclude-standard", "crates"], capture_output=True, text=True, check=True).stdout.split("\n")
    return [p for p in listed if p.endswith(kind) and os.path.exists(p)]


def answers(path):
    return "/proofs/" in path and os.path.basename(path) in ("Answers.antt", "Invariants.antt", "Proof.antt")


def code(text):
    """The lines of a text without their comments."""
    return re.sub(r"(?m)(^|\s)--.*$", r"\1", text)


def main():
    check = "--check" in sys.argv
    texts = {p: open(p, encoding="utf-8").read() for p in files(".antt") + files(".rt")}
    names, labels, rust = set(), set(), set()
    for p, t in texts.items():
        if p.endswith(".antt"):
            found = DECLARED.findall(code(t)) + LOCAL.findall(code(t))
            if answers(p):
                labels |= set(re.findall(r"(?m)^(?:pub |abbrev )*(\S+) : goal\.", t))
            names |= set(found)
        else:
            names |= set(GHOST.findall(t))
            rust |= set(RUST.findall(re.sub(r"//.*", "", t)))
    table = {n: snake(n) for n in names if n[0].islower() and snake(n) != n and n not in labels and not (LABEL.match(n) and n in labels)}
    # names that fall together, with one another or with one that stands already
    standing = {w for p, t in texts.items() if p.endswith(".antt") for w in TOKEN.findall(code(t))}
    by_new, bad = {}, []
    for old, new in sorted(table.items()):
        if new in by_new:
            bad.append(f"{by_new[new]} and {old} both become {new}")
        by_new[new] = old
        if new in standing:
            bad.append(f"{old} becomes {new}, which stands already")
    for line in bad:
        print("falls together:", line)
    for old, new in sorted(table.items()):
        if check:
            print(old, "->", new)
    parts = sorted({(r.replace("_", "-"), r) for r in rust}, key=lambda x: -len(x[0]))
    parts = [(re.compile(rf"(?<![A-Za-z0-9_]){re.escape(a)}(?![A-Za-z0-9_])"), a, b) for a, b in parts]

    def label(word):
        for w in OWN_WORDS:
            word = re.sub(rf"(?<![A-Za-z0-9_]){w}(?![A-Za-z0-9_])", w.replace("-", "_"), word)
        for pattern, a, b in parts:
            if a in word:
                word = pattern.sub(b, word)
        return word

    def turn(text, made):
        def one(m):
            w = m[0]
            if w in table:
                before = text[m.start() - 1:m.start()]
                behind = text[max(0, m.start() - 5):m.start()]
                if not (made and (behind.endswith("goal.") or behind.endswith(" c.") or behind.endswith("(c."))):
                    return table[w]
            if made and "-" in w:
                return label(w)
            return w
        return TOKEN.sub(one, text)

    changed = 0
    for p, t in texts.items():
        if p.endswith(".antt"):
            new = "\n".join(line if line.lstrip().startswith("--") and not any(w in table for w in TOKEN.findall(line)) else turn(line, answers(p)) for line in t.split("\n"))
        else:
            new, at = "", 0
            for m in CLAUSE.finditer(t):
                if m.start() < at:
                    continue
                end = m.end()
                if t[end - 1] == "{":
                    depth = 1
                    while depth:
                        depth += {"{": 1, "}": -1}.get(t[end], 0)
                        end += 1
                new += t[at:m.start()] + turn(t[m.start():end], False)
                at = end
            new += t[at:]
        new = new.replace("Rattle.codec.specs.laws", "Rattle.codec.specs.Laws")
        if p == "crates/codec/specs/Lib.antt":
            new = new.replace("pub mod laws", "pub mod Laws")
        if new != t:
            changed += 1
            if not check and not bad:
                open(p, "w", encoding="utf-8").write(new)
    if not check and not bad and os.path.isdir("crates/codec/specs/laws"):
        os.rename("crates/codec/specs/laws", "crates/codec/specs/Laws")
        os.rename("crates/codec/specs/laws.antt", "crates/codec/specs/Laws.antt")
    print(f"{len(table)} names, {changed} files")
    return 1 if bad else 0


sys.exit(main())
