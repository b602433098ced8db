#!/usr/bin/env python3
"""Spells the repository's own definitions and lemmas in snake case: nearOf becomes near_of, floor-is becomes floor_is.

usage: tools/respell.py [--dry]      at the top of the repository, once, after port.py

What is renamed: each name that a file of a crate's specs/, or a file of lemmas right in its proofs/, declares and that begins with a small letter.
It is renamed wherever it stands as a name: in specs/, proofs/, the clauses and ghost items of src/, must-fail/ and, in backticks, in comments and
documents. Functions, fields and variables of src/, types, modules, strings, inputs and outputs keep their names, and so do the names that the check
makes (goals and steps, in proofs/F/). With --dry nothing is written, and names that would fall together are listed.
"""
import os
import re
import sys

TOKEN = re.compile(r"[^\s(){}\[\];,.@\"«»`:|]+")
DECLARED = re.compile(r"^\s*(?:(?:pub|abbrev|unfoldable|opaque|syntax)\s+)*([^\s(){}\[\];,.@\"]+)\s+(?:\{[^}]*\}\s*|\([^)]*\)\s*)*:(?:\s|$)")
KEPT = {"fst", "snd"}
# Lemmas whose new name would be that of the definition that they are about.
LEMMAS = ["gathered-fit", "bit-xor", "records-in", "reading-ranged", "setting-ranged", "value-ranged", "waiting-ranged", "last-of", "outside-of-week", "own-week", "value-of-week"]
CONSTRUCTORS = ["atZero", "atSpan"]
ALONE = {"crates/reading/specs/OutputLaws.antt": {"goes_on": "goes_on_lem"}}


def snake(name):
    s = re.sub(r"(?<=[a-z])(?=\d+$)", "_", name) if re.search(r"[A-Z].*[a-z]\d+$", name) else name
    s = re.sub(r"(?<=[a-z0-9])([A-Z])", r"_\1", s)
    s = re.sub(r"(?<=[A-Z])([A-Z])", r"_\1", s)
    return s.replace("-", "_").lower()


def files(ending, part):
    for folder, dirs, names in os.walk("crates"):
        dirs[:] = sorted(d for d in dirs if d != "out")
        for n in sorted(names):
            p = os.path.join(folder, n)
            if n.endswith(ending) and part in p:
                yield p


def lemma_file(p):
    q = p.split(os.sep)
    return q[2] == "specs" or (q[2] == "proofs" and len(q) == 4)


def wants(name):
    return name not in KEPT and re.match(r"[a-z]", name) and re.fullmatch(r"[A-Za-z0-9_'\-]+", name) and (re.search(r"[A-Z]", name) or "-" in name)


def declared():
    found = set()
    for p in files(".antt", ""):
        if lemma_file(p):
            for line in open(p, encoding="utf-8"):
                m = DECLARED.match(line)
                if m and not line.lstrip().startswith("--") and wants(m.group(1)):
                    found.add(m.group(1))
    return found | set(CONSTRUCTORS)


def turned(text, names):
    return TOKEN.sub(lambda m: names.get(m.group(0), m.group(0)), text)


def quoted(text, names):
    """Names in backticks, and names in camel case anywhere, in a comment or a document."""
    text = re.sub(r"`[^`\n]*`", lambda m: turned(m.group(0), names), text)
    return turned(text, {a: b for a, b in names.items() if re.search(r"[A-Z]", a)})


def antt(text, names):
    out = []
    for line in text.split("\n"):
        m = re.match(r"(.*?)(?<!\S)(-- .*)$", line)
        if line.lstrip().startswith("--"):
            out.append(quoted(line, names))
        elif m:
            out.append(turned(m.group(1), names) + quoted(m.group(2), names))
        else:
            out.append(turned(line, names))
    return "\n".join(out)


def source(text, names):
    out = []
    for line in text.split("\n"):
        code, mark, said = line.partition("//")
        parts = re.split(r"(\"(?:[^\"\\]|\\.)*\")", code)
        parts = [x if i % 2 else turned(x, names) for i, x in enumerate(parts)]
        out.append("".join(parts) + mark + (quoted(said, names) if mark else ""))
    return "\n".join(out)


def main():
    dry = "--dry" in sys.argv
    names = {n: snake(n) for n in declared()}
    names.update({n: snake(n) + "_lem" for n in LEMMAS})
    backwards = {}
    for a, b in names.items():
        backwards.setdefault(b, set()).add(a)
    for p in list(files(".antt", "")) + list(files(".rt", "")):
        text = open(p, encoding="utf-8").read()
        seen = set()
        for line in text.split("\n"):
            code = line.split("//")[0] if p.endswith(".rt") else ("" if line.lstrip().startswith("--") else line)
            seen.update(TOKEN.findall(code))
        for b in sorted({names[a] for a in seen if a in names}):
            both = sorted((backwards[b] | {b}) & seen)
            if len(both) > 1:
                print(f"together: {p}: {' and '.join(both)}")
    todo = [(p, antt) for p in files(".antt", "")] + [(p, source) for p in files(".rt", "/src/")] + [(p, turned) for p in files(".edit", "/must-fail/")]
    for folder, dirs, found in os.walk("docs"):
        todo += [(os.path.join(folder, n), quoted) for n in sorted(found) if n.endswith(".md") and n not in ("PORT.md", "PORT-OTHER.md")]
    todo += [("README.md", quoted)]
    for p, how in todo:
        text = open(p, encoding="utf-8").read()
        new = how(text, names | ALONE.get(p, {}))
        if new != text and not dry:
            open(p, "w", encoding="utf-8").write(new)
    print(f"{len(names)} names")
    if dry:
        for a in sorted(names):
            print(a, names[a])


main()
