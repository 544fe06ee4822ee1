#!/usr/bin/env python3
"""Counts the places in crates/*/src that the design pass looks at, a line for each kind; with -v, each place.

Kinds that no pattern tells (twins, parameters that travel together) are listed from what two functions share.
"""
import collections
import itertools
import re
import subprocess
import sys

PATTERNS = [
    ("1 enums", r"^\s*(?:pub(?:\(crate\))? )?enum \w+"),
    ("1 answers true or false", r"\) -> bool\b"),
    ("1 flags among fields and parameters", r"^\s+(?:pub )?\w+: (?:bool|\[bool; \d+\]),"),
    ("1 theorems that answer a number", r"^pub fn \w+(?:<[^>]*>)?\(\) -> u8\b"),
    ("1 let-else that only turns None or Err", r"\blet (?:Some|Ok)\([^=]*\) = [^;{]*else \{\s*return (?:None|Err\([^;]*\));"),
    ("1 match arms that only turn None or Err", r"^\s*(?:None => (?:None|Err\(.*\)|return .*)|Err\(\w+\) => (?:None|Err\(.*\)|return .*)),?$"),
    ("3 loops over a range, while, loop", r"^\s*(?:while\b.*|loop \{|for \w+ in [^{]*\.\.[^{]*\{)"),
    ("3 other for loops", r"^\s*for [^{]* in (?:(?!\.\.)[^{])*\{"),
    ("4 comparing, converting, naming by hand", r"\bfn (?:compare|same|eq|cmp|from_(?!member)\w+|as_bytes|number|name|text|\w+_name)\("),
    ("4 impl From, Display", r"^impl.* (?:From<.*>|fmt::Display) for "),
    ("6 counts and lengths beside a buffer", r"^\s+(?:pub )?(?:count|len|\w+_count|\w+_len): usize,|\(.*\b(?:count|len|checked): usize"),
    ("6 arrays as fields", r"^\s+(?:pub )?\w+: \[\w+; \d+\],"),
    ("7 dyn, impl Fn, function pointers", r"\bdyn \w|\bimpl Fn|: fn\("),
]


def sources():
    names = subprocess.run(["git", "ls-files", "crates/*/src/*.rt"], capture_output=True, text=True, check=True).stdout
    return {name: open(name, encoding="utf-8").read() for name in names.split()}


def functions(text):
    """Each function's name, its parameters' names, and its requires clauses."""
    for m in re.finditer(r"\bfn (\w+)(?:<[^(]*>)?\(([^)]*)\)(.*?)(?=\n\s*\{|;\n)", text, re.S):
        params = re.findall(r"(\w+): ", m.group(2))
        requires = re.findall(r"requires(?: \w+)? \{ (.*) \}", m.group(3))
        yield m.group(1), params, [re.sub(r"\b(self|rec)\.(old|now)\b", r"\1", r) for r in requires]


def main():
    verbose = "-v" in sys.argv
    texts = sources()
    for title, pattern in PATTERNS:
        found = []
        for name, text in texts.items():
            for m in re.finditer(pattern, text, re.M):
                found.append(f"  {name}:{text.count(chr(10), 0, m.start()) + 1}: {' '.join(m.group(0).split())}")
        print(f"{len(found):4} {title}")
        if verbose:
            print("\n".join(found))
    clauses, groups = collections.defaultdict(set), collections.defaultdict(set)
    for name, text in texts.items():
        for fn, params, requires in functions(text):
            for clause in requires:
                clauses[clause].add(f"{name}: {fn}")
            for group in itertools.combinations(sorted(set(params)), 3):
                groups[group].add(f"{name}: {fn}")
    for title, table in (("5 requires clauses in 3 functions or more", clauses), ("5 three parameters in 3 functions or more", groups)):
        often = {k: v for k, v in table.items() if len(v) >= 3}
        print(f"{len(often):4} {title}")
        if verbose:
            for key, where in sorted(often.items(), key=lambda x: -len(x[1])):
                print(f"  {len(where)}: {key}: {', '.join(sorted(where))}")


main()
