#!/usr/bin/env python3
"""Gives the words of specs/ and proofs/ the spelling of snake case: sectionEnds is section_ends.

usage: respell.py [--list] [FOLDER]

It goes over crates/ below FOLDER (here, if none is given): the .antt files, and the .rt files outside strings. What is renamed is each definition, lemma and
field of a record that an .antt file declares with a hump in its name. Where another word of the .antt files has the new name already, that one is a lemma's or a
variable's, and its parts are joined by dashes instead, if it is not also a function's of the sources, which keep their names: then ELSE has another name.
--list prints the names, old and new, and writes nothing. A second run finds nothing more to do.
"""

import collections
import os
import re
import sys

WORD = r"[^\s(){}.;,:@\"«»\[\]\\⟦⟧⌜⌝]+"
DECLARED = re.compile(r"(?m)^[ \t]*(?:(?:abbrev|unfoldable|opaque|pub|data|record)[ \t]+)*(" + WORD + r")[ \t]*:(?=\s)")
HUMP = re.compile(r"(?<=[a-z0-9])(?=[A-Z])")
# Names whose spelling would fall together with another's that keeps it.
ELSE = {"goOn": "going_onward", "goesOn": "goes_onward", "soFar": "lines_so_far", "opened": "IsOpened"}


def files(root):
    for folder, dirs, names in os.walk(os.path.join(root, "crates")):
        dirs[:] = sorted(d for d in dirs if d not in ("out", "must-fail", "data"))
        for name in sorted(names):
            if name.endswith((".antt", ".rt")):
                yield os.path.join(folder, name)


def snake(name):
    if name in ELSE:
        return ELSE[name]
    name = re.sub(r"getD(?![a-z])", "get_or", name)
    return "-".join(part if part[:1].isupper() else HUMP.sub("_", part).lower() for part in name.split("-"))


def main(argv):
    only_list = "--list" in argv
    root = ([a for a in argv if not a.startswith("--")] or ["."])[0]
    texts = {p: open(p, encoding="utf-8").read() for p in files(root)}
    words, params, functions, declared = collections.Counter(), set(), set(), set()
    for p, t in texts.items():
        if p.endswith(".rt"):
            bare = re.sub(r"//.*", "", t)
            params.update(re.findall(r"(\w+): ", bare))
            functions.update(re.findall(r"\bfn (\w+)", bare))
            continue
        words.update(re.findall(WORD, re.sub(r'(?m)--.*$|^[ \t]*(?:pub )?use [^\s{]*|"[^"\n]*"', "", t)))
        declared.update(DECLARED.findall(t))
    turned = {n: snake(n) for n in declared if not n[0].isupper() and HUMP.search(n)}
    turned = {a: b for a, b in turned.items() if a != b}
    dashed, clash, seen = {}, [], {}
    for a, b in sorted(turned.items()):
        if b in seen:
            clash.append(f"{a} and {seen[b]} would both be {b}")
        seen[b] = a
        if b in params:
            clash.append(f"{a} would be {b}, which a parameter or field of the sources is called")
        if b in words:
            d = b.replace("_", "-")
            if d in words or d == b:
                clash.append(f"{a} would be {b}, which stands there, and so does {d}")
            dashed[b] = d
    for line in clash:
        print("clash:", line)
    if only_list:
        for a, b in sorted(turned.items()):
            print(a, b)
        for a, b in sorted(dashed.items()):
            print(a, b)
    if only_list or clash:
        return 1 if clash else 0
    token = re.compile(r'(?m)--.*|//.*|"(?:[^"\\\n]|\\.)*"|^[ \t]*(?:pub )?use [^\s{]*|' + WORD)

    def new(t, is_antt):
        def one(m):
            w = m[0]
            if w in turned:
                return turned[w]
            if is_antt and w in dashed and (t[m.start() - 1 : m.start()] != "." or w not in functions):
                return dashed[w]
            if w.startswith(("--", "//")):
                return re.sub(WORD, lambda k: turned.get(k[0], k[0]) if HUMP.search(k[0]) else k[0], w)
            return w

        return token.sub(one, t)

    changed = 0
    for p, t in texts.items():
        u = new(t, p.endswith(".antt"))
        if u != t:
            changed += 1
            with open(p, "w", encoding="utf-8") as f:
                f.write(u)
    print(f"{len(turned)} names, {len(dashed)} made way for them; {changed} files")
    return 0


if __name__ == "__main__":
    sys.exit(main(sys.argv[1:]))
