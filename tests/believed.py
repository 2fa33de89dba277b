#!/usr/bin/env python3
"""What has to be believed, in lines: the files of definitions that a theorem's statement or a contract reaches through their 'use' lines, and the
types of the code that these name, each counted as its declaration alone. Of each the lines of definitions, of comments, and those that say nothing:
'use', 'unfolding' and blank lines.

First what the contracts of the C interface (the 'ghost use' lines of crates/mealplan/src/lib.rt) and demand 3 (crates/demand/specs/Demand.antt)
rest on; then what the theorems of document 02's Notes 5, 6 and 7 rest on beyond that, a sum for each. With --sums the sums alone."""

import os
import re
import sys

os.chdir(os.path.join(os.path.dirname(os.path.abspath(__file__)), "..", "crates"))
NAMED = re.compile(r"^(?:unfoldable )?(?:pub )?(?:ghost )?use Rattle\.(\w+)\.specs\.(declared\.)?(\w+)", re.M)
SILENT = re.compile(r"(?:unfoldable )?(?:pub )?(?:use|mod) |unfolding |$")


def read(path):
    with open(path, encoding="utf-8") as f:
        return f.read()


def named(text):
    # What is the kit's own, as std's definitions, is not counted.
    return [(crate, bool(declared), name) for crate, declared, name in NAMED.findall(text) if os.path.isdir(crate)]


def declaration(crate, name):
    """The declaration of a type, and the file that has it."""
    for folder, _, files in os.walk(crate + "/src"):
        for file in sorted(files):
            path = os.path.join(folder, file)
            found = re.search(r"^pub (?:enum|struct) %s\b.*?(?:^\}|;)$" % name, read(path), re.M | re.S)
            if found:
                return found.group(0), "%s, type %s" % (path, name)
    raise SystemExit("believed: crate %s declares no type %s" % (crate, name))


def counted(text):
    """Lines of definitions, of comments, and that say nothing."""
    lines = [line.strip() for line in text.splitlines()]
    comments = sum(line.startswith(("--", "//")) for line in lines)
    silent = sum(SILENT.match(line) is not None for line in lines)
    return len(lines) - comments - silent, comments, silent


def reached(todo, seen):
    """What the starts reach that isn't in seen, with its three numbers."""
    rows = []
    while todo:
        item = todo.pop(0)
        if item in seen:
            continue
        seen.add(item)
        crate, declared, name = item
        if declared:
            text, what = declaration(crate, name)
        else:
            what = "%s/specs/%s.antt" % (crate, name)
            text = read(what)
            todo += named(text)
        rows.append((*counted(text), what))
    return rows


STARTS = [
    ("the C interface and demand 3", named(read("mealplan/src/lib.rt")) + [("demand", False, "Demand")]),
    ("Note 5, each label covered once", [("label_rows", False, "Once")]),
    ("Note 6, equal answers", [("copy_answers", False, "Asked")]),
    ("Note 7, neighbour cases", [("model", False, "FirstCase"), ("model", False, "Neighbour"), ("model", False, "Model")]),
]

seen = set()
for subject, starts in STARTS:
    rows = reached(starts, seen)
    if "--sums" not in sys.argv:
        print("definitions, comments, neither: %s" % subject)
        for row in sorted(rows, key=lambda row: (-sum(row[:3]), row[3])):
            print("%5d %5d %5d  %s" % row)
    sums = [sum(row[i] for row in rows) for i in range(3)]
    print("%5d %5d %5d  %d lines in all: %s" % (*sums, sum(sums), subject))
