#!/usr/bin/env python3
"""Brings the repository's own definitions and lemmas to Rattle's spelling: words in snake case.

It was run once, right after the kit's port.py (docs/PORT.md), at the top of the repository, and rewrote crates/**/*.antt, *.rt and *.edit. It is kept so that
this can be done again from the commit in the first line of that page. Never run it on today's tree.

A name is a repository's own where a file of crates/ has it and no file imports it from elsewhere. Types, modules, functions of src/ and strings keep
their names. A lemma that would fall together with a definition gets `_lem`.
"""

import collections
import glob
import os
import re
import sys

TOKEN = re.compile(r"[A-Za-z0-9_'₀-₉α-ωκμ∗⊛‵-]+")
LOWER = re.compile(r"^[a-z]")
CAMEL = re.compile(r"^[a-z][a-z0-9]*[A-Z]")
USE = re.compile(r"use\s+([^\s{};]+)\.\{([^}]*)\}")


def code(line, comment):
    """The line without its comment."""
    if comment == "--":
        return "" if re.match(r"\s*--( |$)", line) else line.split(" -- ")[0]
    return line.split("//")[0]


def snake(name):
    return re.sub(r"(?<=[A-Za-z0-9])[A-Z]", lambda m: "_" + m.group(0).lower(), name).replace("-", "_")


def odd(name):
    return bool(LOWER.match(name)) and ("-" in name.strip("-") or bool(CAMEL.match(name)))


def files(*patterns):
    return sorted({p for g in patterns for p in glob.glob("crates/" + g, recursive=True) if "/out/" not in p})


def elsewhere(text):
    """The names that a file imports from the library."""
    found = set()
    for module, names in USE.findall(text):
        if not module.startswith("Rattle.") or module.startswith("Rattle.std"):
            found |= {w for n in names.split(",") for w in n.split(" as ") for w in [w.strip()]}
    return found


def own_names():
    """Old name to new name."""
    laws = [p for p in files("*/specs/**/*.antt", "*/proofs/**/*.antt") if not p.endswith("/Proof.antt")]
    seen, foreign = collections.Counter(), set()
    for p in laws:
        text = open(p, encoding="utf-8").read()
        foreign |= elsewhere(text)
        for line in text.split("\n"):
            if not re.match(r"\s*(pub |unfoldable )*use ", line) or " Rattle." in line and " Rattle.std" not in line:
                seen.update(TOKEN.findall(code(line, "--")))
    for p in files("*/src/**/*.rt"):
        for line in open(p, encoding="utf-8").read().split("\n"):
            seen.update(n for n in TOKEN.findall(re.sub(r'"(?:[^"\\\\]|\\\\.)*"', "", code(line, "//"))) if CAMEL.match(n))
    old = sorted(n for n in seen if odd(n) and n not in foreign)
    plain = {n for n in seen if not odd(n)} | foreign
    taken = collections.defaultdict(list)
    for n in old:
        taken[snake(n)].append(n)
    names = {}
    for new, group in taken.items():
        definitions = [n for n in group if CAMEL.match(n)]
        for n in group:
            alone = len(group) == 1 or n in definitions[:1]
            names[n] = new if alone else new + "_lem"
        if len(definitions) > 1 or len([n for n in group if n not in definitions]) > 1:
            sys.exit(f"two of one kind fall together: {group}")
        if new in plain and new not in foreign:
            # port.py has turned one of two already: the definition keeps the name
            if definitions:
                names[new] = new + "_lem"
            else:
                names[group[0]] = new + "_lem"
        if new in foreign:
            names[group[0]] = new + "_own"
    return names


def replaced(line, names, skip, comment):
    """The line with its names replaced: in code each, in a comment those in lower camel case and those in backquotes."""

    def put(m):
        n = m.group(0)
        return n if n in skip else names.get(n, n)

    def in_comment(text):
        text = re.sub(r"`[^`]*`", lambda m: TOKEN.sub(put, m.group(0)), text)
        return TOKEN.sub(lambda m: put(m) if CAMEL.match(m.group(0)) else m.group(0), text)

    body = code(line, comment)
    if comment == "//" and '"' in body:
        parts = re.split(r'("(?:[^"\\]|\\.)*")', body)
        body_new = "".join(p if p.startswith('"') else TOKEN.sub(put, p) for p in parts)
    else:
        body_new = TOKEN.sub(put, body)
    return body_new + in_comment(line[len(body):])


def main():
    names = own_names()
    for p in files("*/specs/**/*.antt", "*/proofs/**/*.antt"):
        text = open(p, encoding="utf-8").read()
        skip = elsewhere(text)
        lines = []
        for line in text.split("\n"):
            lines.append(line if re.match(r"\s*(pub |unfoldable )*use ", line) and not re.search(r"use Rattle\.(?!std)", line) else replaced(line, names, skip, "--"))
        open(p, "w", encoding="utf-8").write("\n".join(lines))
    for p in files("*/src/**/*.rt"):
        text = open(p, encoding="utf-8").read()
        skip = elsewhere(text)
        open(p, "w", encoding="utf-8").write("\n".join(replaced(l, names, skip, "//") for l in text.split("\n")))
    for p in files("*/must-fail/*.edit"):
        lines = open(p, encoding="utf-8").read().split("\n")
        comment = ["//" if any(l.startswith("file: src/") for l in lines) else "--"][0]
        lines = [replaced(l, names, set(), comment) if re.match(r"(old|new): ", l) else re.sub(r"`[^`]*`", lambda m: TOKEN.sub(lambda t: names.get(t.group(0), t.group(0)), m.group(0)), l) for l in lines]
        open(p, "w", encoding="utf-8").write("\n".join(lines))


if __name__ == "__main__":
    main()
