#!/usr/bin/env python3
"""Brings the repository's own definitions and lemmas to the spelling of today's Rattle: words in snake case.

usage: respell.py [--check] [ROOT]

A name that a file of specs/ or proofs/ declares, with a capital inside (`weightOf`) or a dash (`first-here`), is spelled in snake case (`weight_of`, `first_here`):
in .antt files, in the clauses and ghost lines of .rt files, in must-fail edits, and between backticks in README.md and docs/. Types, facts and modules keep their capital. A name that a file imports from
Rattle's own libraries keeps its spelling in that file. Functions of src/, exported names, strings and numbers are not touched. Where two names would fall
together in the repository, the lemma (the one with a dash) ends in `_lem`. --check writes nothing and says what would fall together.
"""
import os
import re
import sys

WORD = re.compile(r'[^\s(){}\[\];,.@"«»λ]+|λ')
DECL = re.compile(r"^\s*(?:(?:abbrev|unfoldable|pub|axiom)\s+)*([^\s(){}\[\];,.@\"«»:]+)(?:\s+\{[^{}]*\})*\s+:(?=\s|$)")
USE = re.compile(r"\buse\s+([^\s;{]+?)\.\{([^}]*)\}", re.S)


def antt_files(root):
    for top, dirs, files in os.walk(os.path.join(root, "crates")):
        dirs[:] = sorted(d for d in dirs if d != "out")
        for f in sorted(files):
            if f.endswith(".antt"):
                yield os.path.join(top, f)


def others(root):
    for top, dirs, files in os.walk(os.path.join(root, "crates")):
        dirs[:] = sorted(d for d in dirs if d != "out")
        for f in sorted(files):
            if f.endswith(".rt") or f.endswith(".edit"):
                yield os.path.join(top, f)
    for top, dirs, files in os.walk(os.path.join(root, "docs")):
        for f in sorted(files):
            if f.endswith(".md"):
                yield os.path.join(top, f)
    if os.path.exists(os.path.join(root, "README.md")):
        yield os.path.join(root, "README.md")


def read(p):
    with open(p, encoding="utf-8", newline="") as f:
        return f.read()


def snake(n):
    n = re.sub(r"(?<=[a-z0-9₀-₉])([A-Z])", lambda m: "_" + m[1].lower(), n)
    return n.replace("-", "_")


def is_proof(p):
    return re.search(r"/proofs/.+/(Proof|Answers|Invariants)\.antt$", p) is not None


def declared(text):
    out = set()
    for line in text.splitlines():
        if line.lstrip().startswith("--"):
            continue
        m = DECL.match(line)
        if m:
            out.add(m[1])
    return out


def imports(text, crates):
    """Names that come from outside: (foreign)."""
    foreign = set()
    for path, names in USE.findall(text):
        parts = path.replace("·", ".").split(".")
        own = parts[0] == "Rattle" and len(parts) > 1 and parts[1] in crates
        if own and "declared" not in parts and "contracts" not in parts:
            continue
        for n in names.split(","):
            n = n.strip()
            if not n:
                continue
            foreign.add(n.split(" as ")[-1].strip())
    return foreign


def main(argv):
    check = "--check" in argv
    argv = [a for a in argv if a != "--check"]
    root = argv[0] if argv else "."
    crates = set(os.listdir(os.path.join(root, "crates")))
    names = {}
    for p in antt_files(root):
        text = read(p)
        goals = set()
        if is_proof(p):
            for line in text.splitlines():
                m = re.match(r"^(?:abbrev |pub )*(\S+) : (?:tie|goal)\.", line)
                if m:
                    goals.add(m[1])
        for n in declared(text) - goals:
            if not n[0].isalpha() or n[0].isupper():
                continue
            if is_proof(p) and re.fullmatch(r"\S+[-_]spec", n):
                continue
            if re.search(r"[a-z0-9₀-₉][A-Z]", n) or "-" in n:
                names.setdefault(n, set()).add(p)
    new = {}
    taken = {}
    for n in sorted(names, key=lambda n: ("-" in n, n)):
        s = snake(n)
        if s in taken and taken[s] != n:
            print(f"falls together: {n} and {taken[s]} -> {s}")
            s = s + "_lem"
            while s in taken:
                s += "_lem"
        taken[s] = n
        new[n] = s
    plain = set()
    for p in antt_files(root):
        plain |= {d for d in declared(read(p)) if d not in new}
    for n, s in sorted(new.items()):
        if s in plain:
            lemma = n if "-" in n else s
            print(f"falls together: {n} -> {s}; the lemma is {s}_lem")
            new[lemma] = s + "_lem"
    print(f"{len(new)} names")

    def turned(text, keep):
        return WORD.sub(lambda m: new.get(m[0], m[0]) if m[0] not in keep else m[0], text)

    changed = 0
    for p in antt_files(root):
        text = read(p)
        keep = imports(text, crates)
        # lines of use of foreign modules stay
        goals = set()
        if is_proof(p):
            for line in text.splitlines():
                m = re.match(r"^(?:abbrev |pub )*(\S+) : (?:tie|goal)\.", line)
                if m:
                    goals.add(m[1])
        out = turned(text, keep | goals)
        words = {}
        for w in set(WORD.findall(text)):
            t = new.get(w, w) if w not in keep | goals else w
            if t in words and words[t] != w:
                print(f"look: {p}: {w} and {words[t]} are both {t}")
            words[t] = w
        if out != text:
            changed += 1
            if not check:
                with open(p, "w", encoding="utf-8", newline="") as f:
                    f.write(out)
    CLAUSE = re.compile(r"(?:requires|ensures)\*?\s*(?:\w+\s*)?\{|ghost\s+use\b|ghost\s+\w+\s*(?::|=)\s*\{")
    for p in others(root):
        text = read(p)
        if p.endswith(".edit"):
            out = turned(text, set())
        elif p.endswith(".md"):
            out = re.sub(r"`[^`\n]+`", lambda m: "`" + turned(m[0][1:-1], set()) + "`", text)
        else:
            keep = imports(text, crates)
            out, at = [], 0
            while True:
                m = CLAUSE.search(text, at)
                if not m:
                    out.append(text[at:])
                    break
                out.append(text[at:m.start()])
                if m[0].startswith("ghost") and m[0].rstrip().endswith("use"):
                    end = text.index(";", m.end()) + 1
                else:
                    depth, end = 1, m.end()
                    while depth:
                        depth += {"{": 1, "}": -1}.get(text[end], 0)
                        end += 1
                seg = text[m.start():end]
                out.append(turned(seg, keep))
                at = end
            out = "".join(out)
        if out != text:
            changed += 1
            if not check:
                with open(p, "w", encoding="utf-8", newline="") as f:
                    f.write(out)
    print(f"{changed} files")


main(sys.argv[1:])
