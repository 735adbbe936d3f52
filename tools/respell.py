#!/usr/bin/env python3
"""Spells the repository's own definitions and lemmas as Rattle does now, once, after the kit's port.py: run it at the top.

A word in camel case becomes snake case, and a dash an underscore. A lemma that would have its definition's name gets a spelling of its
own, by the table APART. Crates, pages and must-fail edits are written in place.
"""

import glob
import os
import re
import sys

# Lemmas whose new name by the rule is that of a definition.
APART = {n: n.replace("-", "_") + "_lem" for n in """
aim-after calls-from course-parts detour-letters direct-letters each-peg gather-next gather-sum in-u in-v in_sum is-letter lengths-with letters-from moves-said on-route our-route
positions-held route-number shortest-way stage-part tower-aim whole-letters
""".split()}
APART["run-writes"] = "what_run_writes"

DECLARED = re.compile(r"^ *(?:(?:pub|abbrev|unfoldable|ruleset) )*((?:[^\s(){}.;,@\"«»:]+ )+):(?: |$)")
TYPE = re.compile(r"^ *(?:(?:pub|abbrev|unfoldable) )*(?:data|record) (\S+)")
BOUND = re.compile(r"(?:\blet|λ|↦ let) \(?([^\s(){}.;,@\"«»=]+-[^\s(){}.;,@\"«»=]+)")
TOKEN = re.compile(r"[^\s(){}.;,@\"«»⌜⌝`]+")


def read(path):
    with open(path, encoding="utf-8") as f:
        return f.read()


def snake(word):
    return re.sub(r"(?<=[a-z0-9])([A-Z])", lambda m: "_" + m[1].lower(), word)


def files(*endings):
    return sorted(f for e in endings for f in glob.glob("crates/**/*" + e, recursive=True) if "/out/" not in f)


def declared():
    """The names that specs/ and proofs/ declare, apart, and those that a lemma binds with a dash in them."""
    specs, proofs, bound = set(), set(), set()
    for f in files(".antt"):
        if f.endswith("/Proof.antt"):
            continue
        into = specs if "/specs/" in f else proofs
        for line in read(f).split("\n"):
            m = DECLARED.match(line)
            if m:
                into.update(m[1].split())
            m = TYPE.match(line)
            if m:
                into.add(m[1])
            bound.update(BOUND.findall(line))
    return specs, proofs, bound


def imported():
    """The names that come from outside the repository."""
    own = set(os.listdir("crates"))
    names = set()
    for f in files(".antt", ".rt"):
        for m in re.finditer(r"(?ms)^(?:pub )?(?:ghost )?use ([^\s;{]+?)\.\{(.*?)\}", read(f)):
            path = m[1].split(".")
            if not (path[0] == "Rattle" and path[1] in own):
                names.update(TOKEN.findall(m[2]))
    return names


def table():
    specs, proofs, bound = declared()
    outside = imported()
    names = {}
    for n in specs | proofs | bound:
        if not re.match(r"[a-zθκμ]", n) or not re.search(r"\w", n):
            continue
        new = snake(n).replace("-", "_")
        if n in outside and n not in specs:
            continue
        new = APART.get(n, new)
        if new != n:
            names[n] = new
    return names


def main():
    names = table()
    turned = lambda text: TOKEN.sub(lambda m: names.get(m[0], m[0]), text)
    if "--list" in sys.argv:
        for old in sorted(names):
            print(old, names[old])
        return
    for f in files(".antt", ".rt", ".edit") + sorted(glob.glob("*.md") + glob.glob("docs/*.md")):
        text = read(f)
        new = text
        if f.endswith(".md"):
            new = re.sub(r"`[^`\n]+`", lambda m: turned(m[0]), text)
        elif f.endswith(".edit"):
            new = "\n".join(turned(l) if l[:4] in ("old:", "new:") else l for l in text.split("\n"))
        else:
            new = turned(text)
        if new != text:
            with open(f, "w", encoding="utf-8") as out:
                out.write(new)


main()
