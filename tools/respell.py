#!/usr/bin/env python3
"""Brings the repository's own names of specs/ and proofs/ to snake case, and facts and types to camel case.

usage: python3 tools/respell.py [--dry]      at the top of the repository, once, right after port.py

A dash stays where it joins the names of two definitions, as in length-put: such a name is a lemma's. Functions of
src/, exported names, strings, comments of src/, inputs and outputs keep their names.
"""

import glob
import re
import sys

EDGE = r"[^\s(){}\[\];,.:λ→×]"
TOKEN = re.compile(r"(?<![^\s(){}\[\];,.:λ→×←@])" + EDGE + r"+")
DECLARED = re.compile(r"^\s*(?:(abbrev|unfoldable)\s+)?(?:pub\s+)?(" + EDGE + r"+(?:\s+" + EDGE + r"+)*?)\s+:\s")
WORDS = {"let", "module", "use", "elim", "in", "where", "abbrev", "unfoldable", "pub", "record", "data", "mutual"}
# words of the library that a lemma's name may join by a dash
LIBRARY = {"take", "drop", "length", "map", "filter", "append", "cons", "set", "get_or", "get", "xor", "le", "lt", "suc", "zero", "some", "none", "fold", "sum", "take_more"}

# declarations of a module with parameters are indented once
IN_MODULE = 2

# names that begin with a standard's letter and are no facts
KEPT = {"R-after": "R_after", "RC-from": "RC_from"}


def texts(*kinds):
    found = []
    for kind in kinds:
        found += glob.glob("crates/*/" + kind, recursive=True)
    return sorted(found)


def declarations():
    """Each own name, with whether it is a definition, a type or a field, and not a lemma; and the functions of specs/."""
    names, functions = {}, set(LIBRARY)
    for path in texts("specs/**/*.antt", "proofs/**/*.antt"):
        block, depth = None, 0
        with open(path, encoding="utf-8") as f:
            for line in f:
                indent = len(line) - len(line.lstrip())
                if line.strip() and block and indent <= depth:
                    block = None
                head = re.match(r"\s*(?:pub )?(record|data) (?:pub )?(" + EDGE + r"+)", line)
                if head:
                    block, depth = head.group(1), indent
                    names[head.group(2)] = True
                    continue
                if "goal." in line or re.match(r"\s*(use|--)\b", line):
                    continue
                m = DECLARED.match(line)
                if not m or indent and not block and indent != IN_MODULE:
                    continue
                for name in m.group(2).split():
                    if name in WORDS or re.search(r"[=\"]", name):
                        continue
                    definition = bool(m.group(1) or block) or "/specs/" in path and "≡" not in line and "→ " not in line
                    names[name] = names.get(name, False) or definition
                    if m.group(1) and "/specs/" in path and name[0].islower():
                        functions.add(snake(name).replace("-", "_"))
    return names, functions


def snake(name):
    return re.sub(r"(?<=[a-z0-9])([A-Z])(?=[a-z])", lambda m: "_" + m.group(1).lower(), name)


def spelled(name, names, functions):
    if name in KEPT:
        return KEPT[name]
    if not re.search(r"[A-Za-z]", name):
        return name
    if name[0].isupper():
        if "-" not in name:
            return name
        return "".join(part[0].upper() + part[1:] for part in name.split("-"))
    out = snake(name)
    if "-" not in out:
        return out
    if not names[name] and out.count("-") == 1:
        if all(part in functions for part in out.split("-")):
            return out
    return out.replace("-", "_")


def plain_all(text):
    """The library's All is another word than the one by recursion, which port.py brings in under that name."""
    if "AllByRecursion as All" not in text:
        return text
    lines = text.replace("AllByRecursion as All", "AllByRecursion").split("\n")
    turned = (n if re.match(r"(ghost )?use ", n) else re.sub(r"(?<![\w'.·-])All(?![\w'-])", "AllByRecursion", n) for n in lines)
    return "\n".join(turned)


def renamed(text, table):
    text = plain_all(text)
    return TOKEN.sub(lambda m: table.get(m.group(0), m.group(0)), text)


def main():
    names, functions = declarations()
    table = {n: spelled(n, names, functions) for n in names}
    table = {n: s for n, s in table.items() if n != s}
    taken = {}
    for n, s in table.items():
        taken.setdefault(s, []).append(n)
    for s, old in sorted(taken.items()):
        if len(old) > 1 or s in names:
            print("together:", s, "<-", *old, "(there already)" if s in names else "")
    if "--dry" in sys.argv:
        for n, s in sorted(table.items()):
            print(n, "->", s)
        return
    for path in texts("specs/**/*.antt", "proofs/**/*.antt", "must-fail/*.edit"):
        with open(path, encoding="utf-8") as f:
            old = f.read()
        new = renamed(old, table)
        if new != old:
            with open(path, "w", encoding="utf-8") as f:
                f.write(new)
    for path in texts("src/**/*.rt"):
        with open(path, encoding="utf-8") as f:
            old = f.read()
        pieces = re.split(r"(\"(?:[^\"\\]|\\.)*\"|//[^\n]*)", old)
        new = "".join(p if i % 2 else renamed(p, table) for i, p in enumerate(pieces))
        if new != old:
            with open(path, "w", encoding="utf-8") as f:
                f.write(new)


main()
