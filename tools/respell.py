#!/usr/bin/env python3
"""Brings the names of this repository's own definitions and lemmas to today's spelling: words in snake case, types in camel case.

usage: python3 tools/respell.py [--dry]     at the top of the repository, once, after port.py

A name counts as the repository's own where a file of specs/ or proofs/ declares it, as a definition, a field, a constructor or a local name, and not as
an answer to a generated goal. A file that imports a name from the library keeps it, and an answer keeps the name of a step, right behind `c.` or `w.`. Functions of src/, strings and comments keep their names.
"""
import os
import re
import sys

NAME = r"[A-Za-z][A-Za-z0-9_'₀-₉]*(?:-[A-Za-z0-9_'₀-₉]+)+"
TOKEN = re.compile(r"(?<![A-Za-z0-9_'₀-₉\-◌·<>=+])" + NAME + r"(?![A-Za-z0-9_'₀-₉\-◌·])")
DECLARED = re.compile(r"^\s*(?:(?:abbrev|unfoldable|pub)\s+)*(?:(?:record|data)\s+)?(" + NAME + r")(?:\s[^:=]*)?\s:\s(.*)$")
LOCAL = re.compile(r"\blet (" + NAME + r")(?: [^=:]*)? (?::|=)|\bas (" + NAME + r")\b")
BOUND = re.compile(r"[({]([^(){}:]*) : ")
KIT = re.compile(r"^(?:ghost |pub )?use (?:Rattle\.(?:std|core)\.|borrow\.|native\.|lib\.|mathlib\.|Prim\.)[^{]*\{([^}]*)\}")


def texts(kinds):
    for folder, dirs, files in os.walk("crates"):
        dirs[:] = sorted(d for d in dirs if d != "out")
        for f in sorted(files):
            if f.endswith(kinds):
                yield os.path.join(folder, f)


def lines(path):
    with open(path, encoding="utf-8") as f:
        return f.read().split("\n")


def spelled(name):
    name = name.replace("getD-", "get_or-")
    if name == "verdict-type":
        return "VerdictType"
    if name[0].isupper():
        return "".join(w[:1].upper() + w[1:] for w in name.split("-"))
    return name.replace("-", "_")


def own_names():
    own = {}
    for path in texts((".rt",)):
        for line in lines(path):
            if line.startswith("ghost use"):
                for a, b in LOCAL.findall(line):
                    own.setdefault(b, path)
    for path in texts((".antt",)):
        for line in lines(path):
            m = DECLARED.match(line)
            if m and not re.match(r"\(?goal\.|.*\bGoals\.", m.group(2)):
                own.setdefault(m.group(1), path)
            for a, b in LOCAL.findall(line):
                own.setdefault(a or b, path)
            for names in BOUND.findall(line):
                for n in re.findall(r"(?<!\S)" + NAME + r"(?!\S)", names):
                    own.setdefault(n, path)
    return own


def code_part(line, rust):
    """The part of a line before its comment."""
    mark = "//" if rust else "--"
    if rust:
        at = line.find(mark)
    else:
        m = re.search(r"(?:^|\s)--(?:\s|$)", line)
        at = m.start() if m else -1
    return (line, "") if at < 0 else (line[:at], line[at:])


def respell(path, own):
    rust = path.endswith(".rt")
    old = lines(path)
    kept = set()
    for line in old:
        m = KIT.match(line)
        if m:
            kept.update(w.strip() for w in m.group(1).split(","))

    def turn(m):
        n = m.group(0)
        step = path.endswith("Answers.antt") and m.string[: m.start()].endswith((" c.", "(c.", " w.", "(w."))
        return spelled(n) if n in own and n not in kept and not step else n

    new = []
    for line in old:
        code, comment = code_part(line, rust)
        parts = re.split(r'("(?:[^"\\]|\\.)*")', code) if rust else [code]
        new.append("".join(p if p.startswith('"') else TOKEN.sub(turn, p) for p in parts) + comment)
    return old, new, kept


def main(argv):
    own = own_names()
    words = set()
    for path in texts((".antt", ".rt")):
        words.update(re.findall(r"[A-Za-z_][A-Za-z0-9_'₀-₉\-]*", "\n".join(lines(path))))
    fallen = {}
    for n in sorted(own):
        fallen.setdefault(spelled(n), []).append(n)
    for s, ns in sorted(fallen.items()):
        if len(ns) > 1:
            print(f"fall together: {' '.join(ns)} as {s}")
        if s in words:
            print(f"stands already: {s} (from {ns[0]}, declared in {own[ns[0]]})")
    left = {}
    for path in texts((".antt", ".rt")):
        old, new, kept = respell(path, own)
        both = kept & set(own)
        if both:
            print(f"library's names kept in {path}: {' '.join(sorted(both))}")
        if new != old and "--dry" not in argv:
            with open(path, "w", encoding="utf-8") as f:
                f.write("\n".join(new))
        for line in new:
            for n in TOKEN.findall(code_part(line, path.endswith(".rt"))[0]):
                left.setdefault(n, path)
    print(f"{len(own)} names")
    if "--left" in argv:
        for n in sorted(left):
            print(f"left: {n} ({left[n]})")


if __name__ == "__main__":
    main(sys.argv[1:])
