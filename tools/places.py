#!/usr/bin/env python3
"""Lists the places in crates/*/src that docs/DESIGN-PASS.md counts, point by point.

python3 tools/places.py [CHECKOUT]
"""
import collections
import glob
import os
import re
import sys

TOP = sys.argv[1] if len(sys.argv) > 1 else "."
PRIMITIVE = r"\b([ui](?:8|16|32|64|128|size)|bool|str)\b"
LEFT_OUT = {"self", "rt", "heap", "f"}


def sources():
    for path in sorted(glob.glob(os.path.join(TOP, "crates/*/src/**/*.rt"), recursive=True)):
        text = re.sub(r"(?m)//.*$", "", open(path).read())
        yield os.path.relpath(path, TOP), text


def close(text, start, pair):
    depth = 0
    for i in range(start, len(text)):
        if text[i] == pair[0]:
            depth += 1
        elif text[i] == pair[1]:
            depth -= 1
            if depth == 0:
                return i
    return len(text)


class Function:
    """A function: its name, parameters, clauses and body."""

    def __init__(self, path, text, match):
        self.path, self.name = path, match.group(1)
        at = text.index("(", match.end() - 1)
        end = close(text, at, "()")
        self.params = []
        for part in re.split(r",(?![^<\[(]*[>\])])", text[at + 1:end]):
            if ":" in part:
                name, kind = part.split(":", 1)
                self.params.append((name.strip().replace("mut ", ""), " ".join(kind.split())))
        i = end
        self.requires, self.result = [], ""
        head = re.compile(r"\s*(?:\*?\s*(requires|ensures)\*?\s*\w*\s*)\{")
        stop = i
        while stop < len(text) and text[stop] not in "{;":
            stop = close(text, stop, "[]") + 1 if text[stop] == "[" else stop + 1
        clause = re.search(r"\b(?:requires|ensures)\b", text[i:stop])
        self.result = text[end + 1:i + clause.start() if clause else stop].strip()
        i += clause.start() if clause else stop - i
        while True:
            m = head.match(text, i)
            if not m:
                break
            j = close(text, m.end() - 1, "{}")
            if m.group(1) == "requires":
                self.requires.append(" ".join(text[m.end():j].split()))
            i = j + 1
        m = re.compile(r"\s*([{;])").match(text, i)
        self.body = ""
        if m and m.group(1) == "{":
            j = close(text, m.end() - 1, "{}")
            self.body = text[m.end():j]

    def shape(self):
        """The body with its types, constants and names left out."""
        body = re.sub(r'"[^"]*"', "S", self.body)
        body = re.sub(r"\b\d[\d_]*\b", "N", body)
        body = re.sub(PRIMITIVE, "T", body)
        body = re.sub(r"\b(?:[A-Z]\w*::)*[A-Z]\w*\b", "T", body)
        names = {}
        def name(m):
            if m.group(0) in ("let", "mut", "for", "in", "if", "else", "match", "return", "Ok", "Err", "N", "T", "S"):
                return m.group(0)
            return names.setdefault(m.group(0), "v%d" % len(names))
        body = re.sub(r"(?<![.\w])[a-z_]\w*", name, body)
        return " ".join(body.split())


def functions():
    for path, text in sources():
        for match in re.finditer(r"\bfn (\w+)(?:<[^({]*>)?\(", text):
            yield Function(path, text, match)


def loops(body):
    for match in re.finditer(r"\bfor ([^{]*?) in ([^{]*)\{", body):
        end = close(body, match.end() - 1, "{}")
        yield match.group(1), match.group(2).strip(), body[match.end():end]


def show(title, places):
    print("%s: %d" % (title, len(places)))
    for place in places:
        print("    " + place)


def main():
    fs = list(functions())
    enums, flags, structs = [], [], []
    for path, text in sources():
        for match in re.finditer(r"\benum (\w+)[^{]*\{", text):
            inside = text[match.end():close(text, match.end() - 1, "{}")]
            cases = re.findall(r"(?m)^    ([A-Z]\w*)(\(?)", inside)
            if len(cases) == 2 and any(p for _, p in cases):
                enums.append("%s %s" % (path, match.group(1)))
        for match in re.finditer(r"\bstruct (\w+)[^{;]*\{", text):
            inside = text[match.end():close(text, match.end() - 1, "{}")]
            fields = re.findall(r"(?m)^    (?:pub(?:\(crate\))? )?(\w+): ([^\n]*),$", inside)
            if len(fields) > 1 and any(kind == "bool" for _, kind in fields):
                flags.append("%s %s" % (path, match.group(1)))
            if any(re.match(r"\[.*; \w+\]", kind) for _, kind in fields) and any(kind == "usize" for _, kind in fields):
                structs.append("%s %s" % (path, match.group(1)))
    show("1 enums of two cases, one with a value at least", enums)
    show("1 structs with a flag beside other fields", flags)
    show("1 functions that give a number for a kind", ["%s %s" % (f.path, f.name) for f in fs if re.fullmatch(r"-> u8", f.result) and "self" in str(f.body)])
    clauses = []
    for path, text in sources():
        for match in re.finditer(r"answered result|refusal [^{}]*? ≡ (?:0|number)", text):
            clauses.append("%s %s" % (path, " ".join(match.group(0).split())[:60]))
    show("1 clauses that tell a refusal by a number", clauses)

    shapes = collections.defaultdict(list)
    for f in fs:
        shape = f.shape()
        if len(shape.split()) > 4 and "trials" not in f.path:
            shapes[shape].append("%s %s" % (f.path, f.name))
    groups = [g for g in shapes.values() if len(g) > 1]
    print("2 functions alike but for types, constants and names: %d in %d groups" % (sum(map(len, groups)), len(groups)))
    for group in groups:
        print("    " + "; ".join(group))

    counted, simple, kept = [], [], []
    only = re.compile(r"\s*(?:if [^{]*\{\s*(?:return (?:true|false)|\w+ (?:\+= 1|= [\w.]+));\s*\}|\*?\w+ \+?= [^;]*;|\w+\.push\([^;]*;)\s*")
    for f in fs:
        for names, over, inside in loops(f.body):
            index = re.match(r"\(?(\w+)", names).group(1)
            ranged = ".." in over and not re.search(r"\[[^\]]*\.\.", over)
            used = re.search(r"\[[^\]]*\b%s\b[^\]]*\]" % index, inside)
            bumped = re.search(r"\b\w+ \+= 1;", inside)
            if (ranged and index != "_") or (".enumerate()" in over and used) or bumped:
                counted.append("%s %s: for %s in %s" % (f.path, f.name, names, over))
            elif only.fullmatch(inside):
                simple.append("%s %s: for %s in %s" % (f.path, f.name, names, over))
            else:
                kept.append("%s %s" % (f.path, f.name))
    show("3 loops that count or index by hand", counted)
    show("3 loops that only test, count, sum, set or push", simple)
    print("3 other loops: %d" % len(kept))

    texts = ["%s %s" % (f.path, f.name) for f in fs if "&'static str" in f.result]
    show("4 functions that give a fixed text for a value", texts)
    show("4 functions that write a value", ["%s %s" % (f.path, f.name) for f in fs if f.name.startswith("write")])
    show("4 types that only print another", [
        "%s %s" % (path, m) for path, text in sources() for m in re.findall(r"\bstruct (\w+Text)\b", text)])
    show("4 functions that find a value by its name", ["%s %s" % (f.path, f.name) for f in fs if f.name.endswith("_named")])
    manual = ["%s %s" % (path, " ".join(m.split())) for path, text in sources() for m in re.findall(r"\bimpl(?:<[^{]*?>)? From<[^{]*? for \w+", text)]
    show("4 conversions by From", manual)

    facts = collections.defaultdict(list)
    for f in fs:
        for clause in set(f.requires):
            facts[re.sub(r"\b(old|new)\b", "now", clause)].append("%s %s" % (f.path, f.name))
    facts = {k: v for k, v in facts.items() if len(v) > 2}
    print("5 facts required by three functions or more: %d" % len(facts))
    for fact, places in sorted(facts.items()):
        print("    %s: %s" % (fact, "; ".join(places)))
    pairs = collections.defaultdict(list)
    for f in fs:
        params = sorted(p for p in f.params if p[0] not in LEFT_OUT)
        for i, a in enumerate(params):
            for b in params[i + 1:]:
                pairs[(a, b)].append("%s %s" % (f.path, f.name))
    together = {k: v for k, v in pairs.items() if len(v) > 2}
    print("5 pairs of parameters that three functions or more have: %d" % len(together))
    for (a, b), places in sorted(together.items()):
        print("    %s: %s, %s: %s: %d functions" % (a[0], a[1], b[0], b[1], len(places)))

    show("6 arrays with a length beside", structs)
    buffers = ["%s %s" % (f.path, f.name) for f in fs if re.search(r"&mut \w+\[0?\.\.", f.body)]
    show("6 buffers used in part", buffers)
    parallel = []
    for f in fs:
        slices = [n for n, kind in f.params if re.match(r"&(mut )?\[", kind)]
        if len(slices) > 1 and "trials" not in f.path:
            parallel.append("%s %s: %s" % (f.path, f.name, ", ".join(slices)))
    show("6 functions over several slices", parallel)

    steps = []
    for f in fs:
        for match in re.finditer(r"\bmatch [^{]*\{", f.body):
            inside = f.body[match.end():close(f.body, match.end() - 1, "{}")]
            calls = re.findall(r"=> (?:\w+(?:::\w+)*\.)?\w+\(([^()]*)\)", inside)
            if len(calls) > 1 and len(set(calls)) == 1 and calls[0]:
                steps.append("%s %s" % (f.path, f.name))
    show("7 switches that pass the same arguments on", steps)

    answers = lines = 0
    for path in glob.glob(os.path.join(TOP, "crates/*/proofs/**/*.antt"), recursive=True):
        text = open(path).read()
        lines += text.count("\n")
        if path.endswith("Answers.antt"):
            answers += len(re.findall(r"(?m)^pub [^:\n]* : goal\.", text))
    print("8 answers: %d, lines in proofs/: %d" % (answers, lines))


main()
