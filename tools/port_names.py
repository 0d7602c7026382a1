#!/usr/bin/env python3
"""Brings this repository's own names of definitions and lemmas to today's spelling, after /opt/rattle/port/port.py.

usage: python3 tools/port_names.py [REPO]      run once, on what port.py has just written; prints what it renamed

A definition or a lemma is in snake case, a type in upper camel case. A dash stays where it joins two names of definitions
(as `length-append`), and else becomes `_`. Where two names would fall together, a lemma gets `_lem`. It turns .antt files, the ghost
items and clauses of .rt files, and the texts of must-fail/*.edit; functions, exported names and strings of src/ stay.
"""
import collections
import os
import re
import sys

REPO = sys.argv[1] if len(sys.argv) > 1 else "."
# the facts among the definitions, which are spelled as types
FACTS = {"noLineBehind": "NoLineBehind", "givenAlong": "IsGivenAlong"}
# definitions of the library that names here are joined to
LIBRARY = set("length append take drop map set get_or value min max div mod mul add sub le lt eq leb ltb eqb cons snoc nil zero one suc pow cond true false pos negsuc".split())
SIGNATURE = re.compile(r"^(\s*)(?:(abbrev|unfoldable)\s+)?(?:pub\s+)?(?:(abbrev|unfoldable)\s+)?([^\s():{}.,;\[\]]+)\s+:\s")
TYPE = re.compile(r"^\s*(?:pub\s+)?(?:record|data)\s+([^\s():{}]+)")
TOKEN = re.compile(r"[^\s(){}\[\],;.:\u00ab\u00bb\"|]+")
CLAUSE = re.compile(r"\b(?:requires|ensures)\*?(?:\s+\w+)?\s*\{|^\s*(?:pub )?ghost \w+(?:: |\s*=\s*)\{", re.M)


def files(folders, endings):
    for c in sorted(os.listdir(os.path.join(REPO, "crates"))):
        for folder in folders:
            for d, dirs, names in sorted(os.walk(os.path.join(REPO, "crates", c, folder))):
                dirs.sort()
                yield from (os.path.join(d, n) for n in sorted(names) if n.endswith(endings))


def read(p):
    with open(p, encoding="utf-8") as f:
        return f.read()


def of_function(p):
    """A file of answers or a walk for one function: its names are the prover's."""
    return os.path.basename(p) in ("Proof.antt", "Answers.antt", "Invariants.antt")


def snake(word):
    return re.sub(r"(?<=[a-z0-9'\u2080-\u2089])([A-Z])", lambda m: "_" + m[1].lower(), word)


def declared():
    """The names that the files declare: those of definitions, and of lemmas and fields."""
    definitions, lemmas = set(), set()
    for p in files(("specs", "proofs"), ".antt"):
        if of_function(p):
            continue
        for line in read(p).split("\n"):
            m = TYPE.match(line)
            if m:
                definitions.add(m[1])
                continue
            m = SIGNATURE.match(line)
            if m and not line.lstrip().startswith("--"):
                (definitions if m[2] or m[3] else lemmas).add(m[4])
    return definitions, lemmas - definitions


def plain_tokens():
    """The tokens that stand for themselves: parts of paths and names behind a dot are left out, but for what is brought in."""
    found = set()
    for p in files(("specs", "proofs"), ".antt"):
        for line in read(p).split("\n"):
            if re.match(r"\s*(?:pub )?use ", line):
                found.update(TOKEN.findall(re.sub(r"^.*?\{", "", line)) if "{" in line and "Rattle." not in line.replace("Rattle.std.", "") else ())
                continue
            for m in TOKEN.finditer(line):
                if line[m.start() - 1 : m.start()] != "." and line[m.end() : m.end() + 1] != ".":
                    found.add(m[0])
    return found


def table():
    definitions, lemmas = declared()
    tokens = collections.Counter()
    for p in files(("specs", "proofs"), ".antt"):
        tokens.update(TOKEN.findall(read(p)))
    camel = {t for t in tokens if re.match(r"[a-z][a-z0-9]*[A-Z]", t)}
    names = LIBRARY | {snake(d) for d in definitions if "-" not in d}

    def spelled(name):
        if name in FACTS:
            return FACTS[name]
        parts = [snake(p) if re.match(r"[a-z]", p) else p for p in name.split("-")]
        if "" in parts:
            return "-".join(parts)
        out = parts[0]
        for before, part in zip(parts, parts[1:]):
            whole = out.rsplit("-", 1)[-1]
            keep = (before in names or whole in names or before[:1].isupper()) and (part in names or part[:1].isupper() or not re.match(r"[a-z]", part))
            out += ("-" if keep or not re.match(r"[a-z0-9_']+$", part) else "_") + part
        return out

    own = {n for n in definitions | lemmas | camel if re.match(r"[a-z]", n) and ("-" in n or re.search(r"[A-Z]", n))}
    turned, taken = {}, plain_tokens() | LIBRARY
    for name in sorted(own, key=lambda n: (n not in definitions, n)):
        new = spelled(name)
        if new == name:
            continue
        while new in taken and name not in FACTS:
            new += "_lem" if not new.endswith("_lem") else "'"
        taken.add(new)
        turned[name] = new
    return turned


def turn(text, turned, walk=False):
    def one(m):
        t = m[0]
        if t not in turned:
            return t
        if walk and m.start() and text[m.start() - 1] == "." and t in GIVEN:
            return t
        return turned[t]

    return TOKEN.sub(one, text)


# names of steps and goals that the prover gives, which a walk cites behind a dot
GIVEN = set()


def closing(text, at):
    deep = 0
    for k in range(at, len(text)):
        deep += (text[k] == "{") - (text[k] == "}")
        if not deep:
            return k
    return len(text)


def turn_source(text, turned):
    out, at = [], 0
    spans = [(m.start(), m.end()) for m in re.finditer(r"^\s*ghost use [^;]*;", text, re.M)]
    spans += [(m.end() - 1, closing(text, m.end() - 1)) for m in CLAUSE.finditer(text)]
    for a, b in sorted(spans):
        if a < at:
            continue
        out += [text[at:a], turn(text[a:b], turned)]
        at = b
    return "".join(out + [text[at:]])


def main():
    turned = table()
    for p in files(("specs", "proofs"), ".antt"):
        if of_function(p):
            GIVEN.update(re.findall(r"(?<=\.)[a-z][\w'-]*-[\w'-]*", read(p)))
    fields = set()
    for p in files(("specs", "proofs"), ".antt"):
        if not of_function(p):
            inside = False
            for line in read(p).split("\n"):
                inside = bool(re.match(r"(?:pub )?record ", line)) or (inside and line.startswith(" "))
                m = SIGNATURE.match(line)
                if inside and m:
                    fields.add(m[4])
    GIVEN.difference_update(fields)
    for p in files(("specs", "proofs"), ".antt"):
        text = read(p)
        new = turn(text, turned, of_function(p))
        if new != text:
            with open(p, "w", encoding="utf-8") as f:
                f.write(new)
    for p in files(("src",), ".rt"):
        text = read(p)
        new = turn_source(text, turned)
        if new != text:
            with open(p, "w", encoding="utf-8") as f:
                f.write(new)
    for p in files(("must-fail",), ".edit"):
        text = read(p)
        if re.search(r"^file: (specs|proofs)/", text, re.M):
            new = turn(text, turned)
            if new != text:
                with open(p, "w", encoding="utf-8") as f:
                    f.write(new)
    for name in sorted(turned):
        print(f"{name} {turned[name]}")


if __name__ == "__main__":
    main()
