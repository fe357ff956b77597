#!/usr/bin/env python3
"""Brings the repository's own definitions and lemmas to today's spelling: words in snake case, types and modules in camel case.

It was run once, after the kit's port.py (docs/PORT.md), and stops where its names stand already.

usage: tools/respell.py            at the top of the repository: respells every .antt file, the clauses and comments of the .rt files and the edits
       tools/respell.py --list     prints each old name and its new one

A name is respelled only if a file of specs/ or proofs/ defines it in two humps (`rowOf`), or if specs/ joins its words by a dash (`own-order`). Functions, exported names, strings, inputs and
outputs keep theirs. It stops where two names would fall together.
"""

import glob
import re
import sys

# A signature, a field or a clause of an `open`: the name that stands first on its line.
SIGNED = re.compile(r"\s*(?:abbrev |unfoldable )*(?:pub )?(?:abbrev |unfoldable )?(?:pub )?([^\s(){}\[\].,;:λ∀\"]+)\s+:\s")
WORD = r"[^\s(){}\[\].,;:λ∀\"`/]"
# A clause of a theorem that would fall together with the definition `ofKey` that it speaks of keeps its dash.
KEPT = {"of-key"}
# Lemmas whose names would fall together with the definitions that they speak of, as `inOrder`.
LEMMAS = {n: n + "_lem" for n in ("in_order", "is_free", "last_byte", "no_place", "rows_fit", "same_bytes", "same_key")}


def sources():
    for place in ("specs", "proofs"):
        for f in sorted(glob.glob(f"crates/*/{place}/**/*.antt", recursive=True)):
            yield place, f


def snake(name):
    """`rowOf` and `bandOfCode` as `row_of` and `band_of_code`."""
    return re.sub(r"(?<=[a-z0-9])([A-Z])", lambda m: "_" + m.group(1).lower(), name)


def names():
    """Each name to be respelled, and its new spelling."""
    found = {}
    for place, f in sources():
        for line in open(f, encoding="utf-8"):
            m = SIGNED.match(line)
            if not m or line.lstrip().startswith("--"):
                continue
            name = m.group(1)
            if name in KEPT:
                continue
            if re.match(r"[a-z]", name) and re.search(r"[a-z0-9][A-Z]", name):
                found[name] = "-".join(snake(p) for p in name.split("-"))
            elif place == "specs" and re.fullmatch(r"[a-z0-9]+(-[a-z0-9]+)+", name):
                found[name] = name.replace("-", "_")
    return found


def apart(found):
    """No two names fall together, and no new name is one that specs/ or proofs/ define or import already."""
    new = list(found.values())
    standing = set()
    for _, f in sources():
        text = open(f, encoding="utf-8").read()
        standing |= {m.group(1) for m in map(SIGNED.match, text.splitlines()) if m}
        for group in re.findall(r"^use [^\n{]+\{([^}]*)\}", text, flags=re.M):
            standing |= {w.strip() for w in group.split(",")}
    bad = sorted({n for n in new if new.count(n) > 1} | (set(new) & standing - set(LEMMAS)) | (set(LEMMAS.values()) & standing))
    if bad:
        raise SystemExit("respell: fall together: " + " ".join(bad))


def turned(text, found, before=r"(?<![\w'-])"):
    one = re.compile(before + "(" + "|".join(re.escape(n) for n in sorted(found, key=len, reverse=True)) + r")(?![\w'-])")
    return one.sub(lambda m: found[m.group(1)], text)


def rewrite(files, found):
    for f in files:
        old = open(f, encoding="utf-8").read()
        # A step of a proof has its function's name behind a dot, and keeps it.
        new = turned(turned(old, LEMMAS, r"(?<![\w'.-])") if "/proofs/" in f else old, found)
        if new != old:
            open(f, "w", encoding="utf-8").write(new)


def main(words):
    found = names()
    if "--list" in words:
        for n in sorted(found):
            print(n, found[n])
        return
    apart(found)
    files = [f for _, f in sources()] + sorted(glob.glob("crates/*/src/*.rt")) + sorted(glob.glob("crates/*/must-fail/*.edit"))
    rewrite(files, found)


main(sys.argv[1:])
