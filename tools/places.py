#!/usr/bin/env python3
"""places.py [POINT ..]: the places in crates/*/src that read like an older language, by point; `places.py count` prints the numbers alone.

1  enums of the shape of Option or Result; structs with an answer or a flag beside values; numbers for kinds
2  groups of functions that are the same but for names, types, sizes and constants
3  loops that count an index by hand
4  tests, copies, conversions and comparisons written out
5  conjuncts of requires that stand in three or more functions; parameters that travel together through three or more
6  structs with a room and a length beside it; parameters with a length beside a slice
7  a parameter that says which step to run
"""
import collections, glob, os, re, sys

TOP = os.path.join(os.path.dirname(os.path.abspath(__file__)), "..")
KEEP = set("fn pub let mut if else while for in match return break continue true false as usize loop".split())


def files():
    for f in sorted(glob.glob(os.path.join(TOP, "crates/*/src/*.rt"))):
        with open(f, encoding="utf-8") as it:
            yield os.path.relpath(f, TOP), it.read()


def line(text, at):
    return text.count("\n", 0, at) + 1


def functions(text):
    """name, place, signature, clauses, body of each function"""
    for m in re.finditer(r"^( *)(?:#\[[^\n]*\]\n *)?(?:pub )?(?:extern \"C\" )?fn (\w+)", text, re.M):
        ind = m.group(1)
        body = re.search(r"^" + ind + r"\{\n(.*?)^" + ind + r"\}|\{\n(.*?)^" + ind + r"\}", text[m.start():], re.M | re.S)
        if not body:
            continue
        end = m.start() + body.end()
        head = text[m.start(): m.start() + body.start()]
        cut = re.search(r"\n\s+(requires|ensures)", head)
        yield m.group(2), m.start(), head[: cut.start()] if cut else head, head[cut.start():] if cut else "", body.group(1) or body.group(2) or "", end


def enums(text):
    for m in re.finditer(r"^(?:pub )?enum (\w+) \{\n(.*?)^\}", text, re.M | re.S):
        yield m.group(1), m.start(), [v.strip(", ") for v in m.group(2).split("\n") if v.strip() and not v.strip().startswith("//")]


def structs(text):
    for m in re.finditer(r"^(?:pub )?struct (\w+)[^\n]*\{\n(.*?)^\}", text, re.M | re.S):
        yield m.group(1), m.start(), re.findall(r"^\s+(?:pub )?(\w+): ([^\n]+),", m.group(2), re.M)


def point1():
    whole = "\n".join(t for _, t in files())
    errors = set(re.findall(r"Result<[^;{}()]*?, (\w+)>", whole)) | set(re.findall(r"Result<\(\), (\w+)>", whole))
    for f, t in files():
        for name, at, vs in enums(t):
            with_value, empty = [v for v in vs if "(" in v], [v for v in vs if "(" not in v]
            if name not in errors and with_value and (empty or any("Refusal" in v for v in vs)):
                yield f, line(t, at), "enum " + name
        for name, at, fields in structs(t):
            flags = [n for n, k in fields if n == "answer" or re.match(r"is_(whole|failed|here|read|cut)$", n)]
            if flags and len(fields) > 1:
                yield f, line(t, at), f"struct {name}: {flags[0]} beside values"
        for m in re.finditer(r"\b(kind|letter|field): u(8|16|32)\b|\b(is_small|is_merge): bool\b", t):
            yield f, line(t, m.start()), "number or flag for a kind: " + m.group(0)


def shape(body):
    toks = re.findall(r'b?"[^"]*"|b\'[^\']*\'|[A-Za-z_]\w*|\d[\w.]*|[^\s\w]', re.sub(r"//[^\n]*", "", body))
    seen, out = {}, []
    for x in toks:
        if x in KEEP or not re.match(r'[\w"]|b[\'"]', x):
            out.append(x)
        else:
            out.append(str(seen.setdefault(x, len(seen))))
    return " ".join(out), len(toks)


def point2():
    groups = collections.defaultdict(list)
    for f, t in files():
        for name, at, sig, clauses, body, _ in functions(t):
            s, n = shape(body)
            if n >= 12 and 'extern "C"' not in sig:
                groups[s].append((f, line(t, at), name))
    for g in groups.values():
        if len(g) > 1:
            yield g[0][0], g[0][1], ", ".join(f"{x[0].split('/')[1]}::{x[2]}" for x in g)


def point3():
    for f, t in files():
        for m in re.finditer(r"while ([^{\n]*)\{", t):
            depth, i = 1, m.end()
            while depth:
                depth += {"{": 1, "}": -1}.get(t[i], 0)
                i += 1
            body = t[m.end(): i]
            if any(re.search(r"\b" + v + r" [+-]= \d+;|\b" + v + r" = e;", body) for v in re.findall(r"[a-z]\w*", m.group(1))):
                yield f, line(t, m.start()), "while " + m.group(1).strip()


def point4():
    for f, t in files():
        for m in re.finditer(r"\} else \{\s*(false|true)\s*\}|else \{ (false|true) \}|=> (true|false),\n[^\n]*=> (true|false),", t):
            yield f, line(t, m.start()), "a test written out"
        for name, at, sig, clauses, body, _ in functions(t):
            b = " ".join(body.split())
            if re.fullmatch(r"\w+ as \w+|if (\w+) <=? (\w+) \{ \1 \} else \{ \2 \}|if (\w+) <=? ([\w.()]+) \{ \3 \} else \{ \4 \}|\w+ [=!]= [\w.]+|\w+ < \w+", b):
                yield f, line(t, at), name + ": a comparison or a conversion"
        for m in re.finditer(r"(\w+)\[(?:\w+ \+ )?(\w+)\] = (\w+)\[\2\];", t):
            yield f, line(t, m.start()), "a copy by elements: " + m.group(0)


def point5():
    seen = collections.defaultdict(list)
    pairs = collections.Counter()
    where = {}
    for f, t in files():
        for name, at, sig, clauses, body, _ in functions(t):
            for c in re.findall(r"requires[^{]*\{ (.*?) \}\n", clauses):
                for one in re.split(r" × ", c):
                    one = one.strip()
                    if one.count("(") == one.count(")"):
                        one = one.strip("()")
                    seen[one].append((f, line(t, at), name))
            ps = [p for p in re.findall(r"(\w+): [^,)]+", sig) if p not in ("rt", "stdout")]
            for i in range(len(ps) - 2):
                k = tuple(ps[i: i + 3])
                pairs[k] += 1
                where.setdefault(k, (f, line(t, at)))
    for c, w in seen.items():
        if len(w) >= 3 and len(c) > 12:
            yield w[0][0], w[0][1], f"{len(w)} functions require {c}"
    for k, n in pairs.items():
        if n >= 3:
            yield where[k][0], where[k][1], f"{n} functions take {', '.join(k)}"


def point6():
    for f, t in files():
        for name, at, fields in structs(t):
            if any(k.startswith("[") for _, k in fields) and any(n in ("length", "parameters", "stations", "count") for n, k in fields):
                yield f, line(t, at), "struct " + name
        for name, at, sig, clauses, body, _ in functions(t):
            slices = re.findall(r"(\w+): &(?:mut )?\[", sig)
            if any(re.search(r"\b(n|count|len|k) ≤ length " + s + r"\.", clauses) for s in slices):
                yield f, line(t, at), name + ": a length beside a slice"


def point7():
    for f, t in files():
        for name, at, sig, clauses, body, _ in functions(t):
            m = re.search(r"\b(asked|wanted|is_merge|is_small)\b: \w+", sig)
            if m and re.search(r"(if|match) (\*)?" + m.group(1) + r"\b", body):
                yield f, line(t, at), f"{name}: {m.group(0)}"


POINTS = {"1": point1, "2": point2, "3": point3, "4": point4, "5": point5, "6": point6, "7": point7}

if __name__ == "__main__":
    words = sys.argv[1:]
    alone = "count" in words
    for k in [w for w in words if w in POINTS] or POINTS:
        found = list(POINTS[k]())
        print(f"point {k}: {len(found)}")
        if not alone:
            for f, n, what in found:
                print(f"  {f}:{n}: {what}")
