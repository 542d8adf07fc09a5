#!/usr/bin/env python3
"""Brings this repository's own definitions and lemmas to snake case, after port.py and once.

usage: python3 tools/respell.py [--list]      at the top of the repository; --list prints old and new name and changes nothing

A name of specs/ or proofs/ that this repository declares (definition, lemma, field, module parameter aside) loses its dashes: `pair-at` becomes `pair_at`.
A dash before a sign stays (`all-++`). `flatMap`, `upTo` and `getD` inside a name follow the library: `flat_map`, `up_to`, `get_or`. The documents' own
letters stay: vA, eAfB, fAfB and the like. Names of goals, of functions of src/, of the library, strings, inputs and outputs stay.
It goes over specs/, proofs/, the clauses and `ghost use` lines of src/, must-fail edits and, in backquotes, README and docs/.
"""

import glob
import os
import re
import sys

# A name of antt: what stands between spaces, brackets and dots.
NAME = re.compile(r"[^\s(){}\[\];,.`\"λ→≡]+")
DECLARED = re.compile(r"^\s*(?:abbrev |unfoldable |pub )*([^\s(){}\[\];,.]+) : (.*)$")
# Names that would fall together with another one: where the shorter one stands, this one is told apart by a word.
FACTS = {"All-present", "All-proper"}
OURS = set()
APART = {"flat_map": "flat_map_map", "of_z": "of_z_list"}


def texts(pattern):
    return sorted(p for p in glob.glob(pattern, recursive=True) if "/out/" not in p)


def declared():
    """Own names with where they stand, and the answers of goals, which keep their names."""
    own, goals = set(), set()
    for path in texts("crates/*/specs/**/*.antt") + texts("crates/*/proofs/**/*.antt"):
        with open(path, encoding="utf-8") as f:
            for line in f:
                m = DECLARED.match(line)
                if m:
                    is_goal = re.match(r"(tie|goal)\.", m.group(2)) or (path.endswith("/Proof.antt") and m.group(1).endswith("-spec"))
                    (goals if is_goal else own).add(m.group(1))
    return own, goals


def named(goals):
    """Other names with dashes in specs/, in lemma files and in clauses: parameters, types, names bound in a term."""
    found = set()
    for path in texts("crates/*/specs/**/*.antt") + texts("crates/*/proofs/*.antt") + texts("crates/*/src/**/*.rt"):
        with open(path, encoding="utf-8") as f:
            for line in f:
                if path.endswith(".rt") and not re.match(r"\s*(ghost|requires|ensures)\b", line):
                    continue
                found |= {n for n in NAME.findall(re.sub(r"--.*", "", line)) if re.search(r"\w-\w", n)}
    # `Memᴰ.not-nil` is the library's, cited by its path.
    return found - goals - {"not-nil"}


def library():
    """Names that some file imports from the library."""
    found = set()
    for path in texts("crates/*/specs/**/*.antt") + texts("crates/*/proofs/**/*.antt") + texts("crates/*/src/**/*.rt"):
        with open(path, encoding="utf-8") as f:
            for m in re.finditer(r"use ([\w.+'-]+)\.\{([^}]*)\}", f.read()):
                if not m.group(1).startswith("Rattle.") or m.group(1).startswith("Rattle.std."):
                    found |= {n.strip().split(" as ")[0] for n in m.group(2).split(",")}
    return found


def turned(name):
    if re.match(r"[A-Z][a-z]+-[a-z]", name):
        # A type: `Is-edge` becomes `IsEdge`. A fact about one, as `All-proper`, has the declared one's name in front.
        if name not in FACTS:
            return "".join(part[0].upper() + part[1:] for part in name.split("-"))
    new = re.sub(r"-(?=\w)", "_", name)
    new = new.replace("flatMap", "flat_map").replace("upTo", "up_to").replace("getD", "get_or").replace("′", "'")
    return APART.get(new, new)


def renamings():
    own, goals = declared()
    kit = library()
    names = {}
    for name in sorted(own | named(goals)):
        new = turned(name)
        if new != name and name not in kit:
            names[name] = new
    return names, own, goals, kit


def in_antt(text, names):
    out = []
    for line in text.split("\n"):
        # A `use` line of the library names no name of ours.
        m = re.match(r"\s*(?:ghost )?use ([\w.+'-]+)\.\{", line)
        if m and (not m.group(1).startswith("Rattle.") or m.group(1).startswith("Rattle.std.")):
            out.append(line)
            continue
        code, dashes, comment = line.partition("-- ") if not line.strip() == "--" else (line, "", "")
        out.append(NAME.sub(lambda m: names.get(m.group(0), m.group(0)), code) + dashes + in_page(comment, names))
    return "\n".join(out)


def in_source(text, names):
    """Only `ghost use` lines and the clauses of a function, and names in backquotes in comments."""
    out, inside = [], False
    for line in text.split("\n"):
        bare = line.strip()
        if re.match(r"(requires|ensures|ghost)\b", bare):
            inside = True
        if bare == "{":
            inside = False
        if bare.startswith("//"):
            out.append(in_page(line, names))
        elif inside or bare.startswith("ghost use"):
            out.append(in_antt(line, names))
        else:
            out.append(line)
        if bare.endswith(";") and bare.startswith("ghost use"):
            inside = False
    return "\n".join(out)


def of_page(name, names):
    """port.py turned some names in the crates alone: a page or an edit follows where the new name is one of ours."""
    return names.get(name) or (turned(name) if "-" in name and turned(name) in OURS else name)


def in_page(text, names):
    return re.sub(r"`([^`\n]+)`", lambda m: "`" + NAME.sub(lambda n: of_page(n.group(0), names), m.group(1)) + "`", text)


def in_edit(text, names):
    out, file = [], ""
    for line in text.split("\n"):
        if line.startswith("file:"):
            file = line[5:].strip()
        if re.match(r"(old|new):", line) and (file.endswith(".antt") or re.match(r"(old|new):\s*(requires|ensures|ghost)\b", line)):
            out.append(line[:4] + NAME.sub(lambda n: of_page(n.group(0), names), line[4:]))
        elif line.startswith("#"):
            out.append(in_page(line, names))
        else:
            out.append(line)
    return "\n".join(out)


def main():
    names, own, goals, kit = renamings()
    taken = own | kit
    OURS.update(own, names.values())
    for old, new in names.items():
        others = [n for n in names if n != old and names[n] == new]
        if new in taken or others:
            print(f"falls together: {old} -> {new} {others}")
    if "--list" in sys.argv:
        for old, new in names.items():
            print(old, new)
        return
    for pattern, how in [
        ("crates/*/specs/**/*.antt", in_antt),
        ("crates/*/proofs/**/*.antt", in_antt),
        ("crates/*/src/**/*.rt", in_source),
        ("crates/*/must-fail/*.edit", in_edit),
        ("*.md", in_page),
        ("docs/**/*.md", in_page),
        ("tests/**/*.md", in_page),
        ("bench/**/*.md", in_page),
    ]:
        for path in texts(pattern):
            with open(path, encoding="utf-8") as f:
                text = f.read()
            new = how(text, names)
            if new != text:
                with open(path, "w", encoding="utf-8") as f:
                    f.write(new)


if __name__ == "__main__":
    main()
