#!/usr/bin/env python3
"""Counts, in crates/*/src, the places that docs/DESIGN-PASS.md speaks of. Run at the top of a checkout; `-l` lists them too."""
import glob
import re
import sys

LISTED = "-l" in sys.argv[1:]
FILES = sorted(glob.glob("crates/*/src/**/*.rt", recursive=True))


def bare(text):
    """The text without comments and without contracts: code alone, line numbers kept."""
    out = []
    for line in text.split("\n"):
        line = re.sub(r"//.*", "", line)
        if re.match(r"\s*(ensures|requires|ghost)\b", line):
            line = ""
        out.append(line)
    return "\n".join(out)


TEXTS = {f: bare(open(f, encoding="utf-8").read()) for f in FILES}


def found(pattern, flags=re.M):
    for f, t in TEXTS.items():
        for m in re.finditer(pattern, t, flags):
            yield f, t.count("\n", 0, m.start()) + 1, " ".join(m.group(0).split())[:100]


def functions():
    """Each function: its file, line, name, parameters, and its body."""
    for f, t in TEXTS.items():
        for m in re.finditer(r"\bfn (\w+)(<[^>(]*>)?\(", t):
            depth, i = 1, m.end()
            while depth:
                depth += {"(": 1, ")": -1}.get(t[i], 0)
                i += 1
            params = t[m.end() : i - 1]
            b = t.find("{", i)
            semi = t.find(";", i)
            if b < 0 or (0 <= semi < b and "[" not in t[i:semi]):
                continue
            depth, j = 1, b + 1
            while depth and j < len(t):
                depth += {"{": 1, "}": -1}.get(t[j], 0)
                j += 1
            yield f, t.count("\n", 0, m.start()) + 1, m.group(1), params, t[b:j]


def parameters(text):
    """Parameters at the top level of a list."""
    depth, n, some = 0, 0, False
    for c in text:
        if c in "(<[":
            depth += 1
        elif c in ")>]":
            depth -= 1
        elif c == "," and depth == 0:
            n, some = n + (1 if some else 0), False
            continue
        some = some or not c.isspace()
    return n + (1 if some else 0)


WORDS = {"let", "mut", "if", "else", "while", "for", "in", "return", "match", "as", "true", "false", "fn", "pub", "self", "Self"}


def shape(text):
    """The text with each name, type and number replaced by when it first came."""
    seen, out = {}, []
    for token in re.findall(r"\w+|[^\s\w]", text):
        if re.match(r"\w", token) and token not in WORDS:
            token = "#%d" % seen.setdefault(token, len(seen))
        out.append(token)
    return " ".join(x for x in out if x != ",")


def twins():
    groups = {}
    for f, line, name, params, body in functions():
        s = shape("(" + params + ")" + body)
        if s.count(" ") >= 24:
            groups.setdefault(s, []).append((f, line, name))
    for g in groups.values():
        if len(g) > 1:
            yield g[0][0], g[0][1], " ~ ".join("%s::%s" % (f.split("/")[1], name) for f, _, name in g)


def wide(least):
    for f, line, name, params, _ in functions():
        n = parameters(params)
        if n >= least:
            yield f, line, "%s: %d parameters" % (name, n)


def flags():
    """Flags that are fields of a struct."""
    for f, t in TEXTS.items():
        for m in re.finditer(r"\bstruct \w+[^{;]*\{([^}]*)\}", t):
            for x in re.finditer(r"(pub )?\w+: bool,", m.group(1)):
                yield f, t.count("\n", 0, m.start(1) + x.start()) + 1, x.group(0)


def choosing():
    for f, line, name, params, _ in functions():
        for m in re.finditer(r"\b(as_b|blanks|row): bool\b|\b\w+: (Far|Thing|Fault)\b", params):
            yield f, line, "%s: %s" % (name, m.group(0))


POINTS = [
    ("1a enums of this repository", lambda: found(r"^ *(pub )?enum \w+")),
    ("1b fields that are flags", lambda: flags()),
    ("1c refusals, people and codes as numbers", lambda: found(r"Answer::(UNEVEN|TOO_MANY|UNKNOWN_CODE|TOO_SHORT|NO_LAYOUT)\b|\bon_(nobody|solid|point)\((\d|bad_number)|solids::SOLID_[AB]|^pub const [A-Z_]+: u32|\bcode: u32|fn (code_of|bad_number)\b")),
    ("2 functions of one text but for names, types and numbers", twins),
    ("3 loops that count by hand", lambda: found(r"^ +while .*")),
    ("4a tests joined by if", lambda: found(r"^ +(true|false)$|\{ (true|false) \}")),
    ("4b comparisons, signs and conversions in functions of their own", lambda: found(r"\bfn (least|lesser|wide|magnitude|letter|digit|code_of|refused|alike|fresh_after|bad_number|told_of|answer|of_code)\b")),
    ("5 functions of six parameters and more", lambda: wide(6)),
    ("6 lists with a place or a length beside them", lambda: found(r"^ +(pub )?(used|at|end|length|many): usize,$")),
    ("7 parameters that choose a step", choosing),
]

for title, places in POINTS:
    all_of = list(places())
    print("%s: %d" % (title, len(all_of)))
    if LISTED:
        for f, line, what in all_of:
            print("    %s:%d %s" % (f, line, what))
