#!/usr/bin/env python3
"""Respells this repository's own definitions, lemmas, fields and constructors in snake case, after port.py has respelled the rest.

usage: tools/spell.py [FOLDER]      (the top of the checkout; run once, right after port.py)

A name that an .antt file declares and that has a capital inside, as ledgerOf or each-nonePoint, becomes ledger_of, each-none_point, wherever
it stands: in .antt, in the clauses and comments of .rt, in .edit files and in the documents. A lemma whose name would then be that of a
definition gets its dash back, as read-number, in its own file and where it is imported. Functions of src/, exported names and files keep theirs.
Names that would fall together are printed, and nothing is written.
"""

import collections
import glob
import os
import re
import sys

TOP = sys.argv[1] if len(sys.argv) > 1 else "."
DECLARED = re.compile(r"(?m)^ *((?:abbrev |unfoldable |pub |data |record )*)([^\s:(){}]+)(?: \{[^{}\n]*\})* :(?= |$)")
TOKEN = re.compile(r"(?<![\w'-])[^\W\d_][\w'-]*")
# Lemmas that port.py spelled with an underscore, by the name that a definition has now.
DASHED = ["left_by", "read_number", "cut_by", "one_bit", "columns_of", "listed_by", "runs_of", "rows_in", "end_line", "in_order"]


def snake(name):
    name = re.sub(r"\bgetD\b", "get_or", name)
    return re.sub(r"(?<=[A-Za-z0-9'])([A-Z])", lambda m: "_" + m.group(1).lower(), name)


def files(*patterns):
    return sorted(f for p in patterns for f in glob.glob(os.path.join(TOP, p), recursive=True) if os.path.isfile(f) and "/out/" not in f)


def read(path):
    with open(path, encoding="utf-8") as f:
        return f.read()


def write(path, text):
    if text != read(path):
        with open(path, "w", encoding="utf-8") as f:
            f.write(text)


antt = files("crates/*/specs/**/*.antt", "crates/*/proofs/**/*.antt")
declared = collections.defaultdict(set)
for path in antt:
    for _, name in DECLARED.findall(read(path)):
        declared[name].add(path)

# 1. lemmas get their dash back
for name in DASHED:
    at = sorted(declared[name])
    modules = {re.sub(r".*/(?:proofs|specs)/(.*)\.antt$", r"\1", p).replace("/", "."): p.split("/crates/")[-1].split("/")[0] for p in at}
    spelled = name.replace("_", "-")
    for path in antt:
        text = read(path)
        imports = any(
            re.search(r"use (?:Rattle|package)[^\s{]*(?:proofs|specs)\." + re.escape(m) + r"\.\{[^}]*(?<![\w'-])" + name + r"(?![\w'-])", text) for m in modules
        )
        if path in at or imports:
            write(path, re.sub(r"(?<![\w'.-])" + name + r"(?![\w'-])", spelled, text))

# 2. capitals inside a name
declared = collections.defaultdict(set)
for path in antt:
    for _, name in DECLARED.findall(read(path)):
        declared[name].add(path)
turned = {n: snake(n) for n in declared if re.match(r"[^\WA-Z\d_].*[A-Z]", n) and snake(n) != n}
turned = {n: s for n, s in turned.items() if n[0].islower()}
together = [(n, s) for n, s in turned.items() if s in declared and s not in turned]
together += [(n, s) for n, s in turned.items() if sum(t == s for t in turned.values()) > 1]
if together:
    sys.exit(f"names that would fall together: {together}")
# names that no line declares by itself (constructors beside one another, parameters), and what edits and comments still say
OTHER = re.compile(r"[a-z]{2,}[A-Z][a-z]")
for path in antt + files("crates/*/src/**/*.rt", "crates/*/must-fail/*.edit", "docs/*.md", "README.md", "NOTICE", "tests/**/*.md"):
    write(path, TOKEN.sub(lambda m: turned.get(m.group(0)) or (snake(m.group(0)) if m.group(0)[0].islower() and OTHER.search(m.group(0)) else m.group(0)), read(path)))
