#!/usr/bin/env python3
"""Brings the repository's own names to today's spelling, once, after port.py: definitions and lemmas in snake case.

usage: python3 tools/spelling.py     at the top of the repository

camelCase names of specs/ and proofs/ become snake_case, in every .antt, .rt and .edit file and in the pages. A lemma or constructor of
proofs/ that already has the name that a definition gets ends in `_lem` from then on. In edits and pages the names that port.py
turned (`allOf` to `all_of`, `and-l` to `and_l`) are turned too.
"""

import os
import re

BEFORE = r"(?<![A-Za-z0-9_'-])"
NAME = BEFORE + r"[a-z][A-Za-z0-9_']*(?:-[A-Za-z0-9_']+)*"
LEMMAS = ["header_of", "object_of", "key_fits", "run_fits", "at_read", "step_in", "is_lost"]
# a function of src/ has this name too: what stands behind a dot, or is the folder of its proof, is that function
PATHS = re.compile(r"Rattle\.\w+\.proofs\.(?:\w+\.)*(?:Statement|Tie)\b")


def snake(name):
    name = re.sub(r"(?<=[a-z])(?=8[12]$)", "_", name)
    return re.sub(r"(?<=[a-z0-9])([A-Z]+)", lambda m: "_" + m.group(1).lower(), name)


def is_camel(name):
    return re.search(r"[a-z0-9][A-Z]", name) is not None


def files(top, endings):
    for folder, dirs, names in os.walk(top):
        dirs[:] = sorted(d for d in dirs if d not in ("out", ".git", "target"))
        for n in sorted(names):
            if n.endswith(endings):
                yield os.path.join(folder, n)


def turn(path, change):
    with open(path, encoding="utf-8") as f:
        old = f.read()
    new = change(old)
    if new != old:
        with open(path, "w", encoding="utf-8") as f:
            f.write(new)


def main():
    lemma = re.compile(r"(?<![A-Za-z0-9_'.-])(" + "|".join(LEMMAS) + r")(?![A-Za-z0-9_'-])")

    def antt(text):
        out, at = [], 0
        for m in PATHS.finditer(text):
            out.append(lemma.sub(r"\1_lem", text[at:m.start()]))
            out.append(m.group(0))
            at = m.end()
        out.append(lemma.sub(r"\1_lem", text[at:]))
        return re.sub(NAME, lambda m: snake(m.group(0)) if is_camel(m.group(0)) else m.group(0), "".join(out))

    def code(text):
        return re.sub(NAME, lambda m: snake(m.group(0)) if is_camel(m.group(0)) else m.group(0), text)

    for p in files("crates", ".antt"):
        turn(p, antt)
    for p in files("crates", ".rt"):
        turn(p, code)
    known = set()
    for p in files("crates", ".antt"):
        with open(p, encoding="utf-8") as f:
            known.update(m.group(0) for m in re.finditer(NAME, f.read()))
    plain = {}
    for k in known:
        plain.setdefault(k.replace("-", "_"), set()).add(k)

    def cited(m):
        name = m.group(0)
        if name in known:
            return name
        if snake(name) in known:
            return snake(name)
        fits = plain.get(snake(name).replace("-", "_"), ())
        return next(iter(fits)) if len(fits) == 1 and (is_camel(name) or "-" in name) else name

    for p in files("crates", ".edit"):
        turn(p, lambda t: re.sub(NAME, cited, t))
    for p in files("docs", ".md"):
        turn(p, lambda t: re.sub(r"`[^`\n]+`", lambda q: re.sub(NAME, cited, q.group(0)), t))
    for p in ["README.md"]:
        turn(p, lambda t: re.sub(r"`[^`\n]+`", lambda q: re.sub(NAME, cited, q.group(0)), t))


main()
