#!/usr/bin/env python3
"""Gives this repository's own definitions and lemmas the spelling of today's Rattle: words in snake case.

usage: tools/respell.py        at the repository's top, once, after /opt/rattle/port/port.py
       tools/respell.py --list prints the old and the new name of each, and changes nothing

It reads specs/ and proofs/ of every crate for the names that they declare (definitions, lemmas, fields of records,
names bound by `let`, `λ`, `as`, in signatures and in cases), and replaces `-` by `_` in them, wherever they stand in antt: in specs/,
proofs/ and the clauses and `ghost` lines of src/, and between backquotes in README.md and docs/. It leaves alone
names that Rattle makes (those of goals and of the steps that a proof cites), names of std, functions of src/,
strings, comments, inputs and outputs. A dash that joins the names of two functions stays (KEEP).
It stops where a new name already stands for something else in a file that has the old one; a definition may have the
name of the function of src/ whose result it is, and a field of a record that of the struct's field that it speaks of.
"""

import glob
import re
import sys

# a lemma on a function at a constructor: the dash joins two names
KEEP = {"sum-cons", "within-cons"}

WORD = r"[^\s(){}\[\].,;:`\"]+"
HEAD = re.compile(r"^\s*(?:(?:abbrev|unfoldable|pub|record|data)\s+)*(" + WORD + r")\s*(?:\(.*\))?\s*:(?:\s|$)(.*)")
LET = re.compile(r"\blet (" + WORD + r")\s*[:=]")
LAMBDA = re.compile(r"λ ((?:[^.\s]+|\([^)]*\))(?:\s+(?:[^.\s]+|\([^)]*\)))*)\.")
BOUND = re.compile(r"[({]((?:" + WORD + r"\s+)*" + WORD + r")\s*:\s")
CASE = re.compile(r"^\s*[a-z]" + WORD + r"((?:\s+[^\s=≡.:]+)+) =(?:\s|$)")
ALIAS = re.compile(r"\bas (" + WORD + r")")
TOKEN = re.compile(r"(\.?)(" + WORD + r")")


def sources():
    found = []
    for ending in ("antt", "rt"):
        found += glob.glob("crates/*/specs/**/*." + ending, recursive=True)
        found += glob.glob("crates/*/proofs/**/*." + ending, recursive=True)
        found += glob.glob("crates/*/src/**/*." + ending, recursive=True)
    return sorted(set(found))


def read(path):
    with open(path, encoding="utf-8") as f:
        return f.read()


def declared(paths):
    """The dashed names that specs/ and proofs/ declare, and those among them that are fields."""
    names, fields = set(), set()
    for path in paths:
        if not path.endswith(".antt"):
            continue
        in_record = False
        for line in read(path).split("\n"):
            if line.lstrip().startswith("--"):
                continue
            m = HEAD.match(line)
            if m and not m.group(2).startswith("goal."):
                names.add(m.group(1))
                if in_record and line.startswith("  "):
                    fields.add(m.group(1))
            if re.match(r"^(pub )?record ", line):
                in_record = True
            elif line and not line[0].isspace():
                in_record = False
            for m in LET.finditer(line):
                names.add(m.group(1))
            names.update(m.group(1) for m in ALIAS.finditer(line))
            for pattern in (LAMBDA, BOUND, CASE):
                for m in pattern.finditer(line):
                    names.update(w for w in re.findall(WORD, m.group(1)))
    ok = lambda n: "-" in n and re.fullmatch(r"[a-z][a-z0-9_'-]*", n) and n not in KEEP
    return {n for n in names if ok(n)}, {n for n in fields if ok(n)}


def respelled(name):
    return name.replace("-", "_")


def antt(text, names, fields):
    def change(m):
        dot, word = m.groups()
        if word in names and (not dot or word in fields):
            return dot + respelled(word)
        return m.group(0)

    out = []
    for line in text.split("\n"):
        at = re.search(r"(^|\s)--(\s|$)", line)
        code, comment = (line[: at.start()], line[at.start():]) if at else (line, "")
        out.append(TOKEN.sub(change, code) + comment)
    return "\n".join(out)


def clauses(text, names, fields):
    """The same in the clauses and ghost lines of a source."""
    pieces, k = [], 0
    for m in re.finditer(r"\bghost use [^;]*;|\b(?:requires|ensures|ghost)\b\*?(?:\s+\w+)?\s*[:=]?\s*\{", text):
        if m.start() < k:
            continue
        end = m.end()
        if text[end - 1] == "{":
            depth = 1
            while depth:
                depth += {"{": 1, "}": -1}.get(text[end], 0)
                end += 1
        pieces += [text[k : m.start()], antt(text[m.start() : end], names, fields)]
        k = end
    return "".join(pieces) + text[k:]


def main():
    paths = sources()
    names, fields = declared(paths)
    if sys.argv[1:] == ["--list"]:
        for n in sorted(names):
            print(n, respelled(n))
        return
    functions = {f for path in paths if path.endswith(".rt") for f in re.findall(r"\bfn (\w+)", read(path))}
    together = []
    for path in paths:
        words = {w for dot, w in TOKEN.findall(re.sub(r"(^|\s)--\s.*", "", read(path), flags=re.M)) if not dot}
        together += [f"{path}: {n}" for n in sorted(words & names) if respelled(n) in words - functions]
    if together:
        print("these would fall together with another name of the file:", *together, sep="\n  ")
        raise SystemExit(1)
    for path in paths:
        old = read(path)
        new = (antt if path.endswith(".antt") else clauses)(old, names, fields)
        if new != old:
            with open(path, "w", encoding="utf-8") as f:
                f.write(new)
    for path in ["README.md", *glob.glob("docs/*.md")]:
        old = read(path)
        new = re.sub(r"`([^`\n]+)`", lambda m: "`" + (respelled(m.group(1)) if m.group(1) in names else m.group(1)) + "`", old)
        if new != old:
            with open(path, "w", encoding="utf-8") as f:
                f.write(new)


main()
