#!/usr/bin/env python3
"""Holds the documents to the sources by their names. In docs/ PROMISES, ARCHITECTURE, DECISIONS, PAPER and TRUST:

- every name in backticks is declared in the sources (crates, rust, include, examples, tests);
- one that stands behind a file, as in 'forest Counts `text-length`' or 'Walk.antt `nowhere`', is declared in that file, and so is one in a path, as
  in '`Names` in rule/specs/Names';
- every file exists that is named by its crate, as in 'forest Counts', or by its path;
- every must-fail edit that PROMISES names exists, and every edit that exists is named there.

Of PROOF-NOTES, which has names of the kit, of README and of CONTRIBUTING only paths and what stands in them are held; docs/changes tells what was so
at a landing."""

import os
import re
import sys

os.chdir(os.path.join(os.path.dirname(os.path.abspath(__file__)), ".."))
BY_NAME = ["docs/%s.md" % name for name in ("PROMISES", "ARCHITECTURE", "DECISIONS", "PAPER", "TRUST")]
BY_PATH = ["docs/PROOF-NOTES.md", "README.md", "CONTRIBUTING.md"]

# Names that no source declares, and why they stand in a document.
ELSEWHERE = {
    "mut": "a word of the language",
    "use": "a word of the language",
    "unfolding": "a word of the language",
    "Option": "Rust's own type",
    "no_std": "Rust's own word",
    "last-2": "what the reader prints",
    "NAME": "stands for a crate's name",
    "libmealplan": "what tests/library makes",
}
# Paths that a run makes.
MADE = ("target/",)
# What a text in backticks begins with that is a command.
COMMANDS = ("rt ", "python3 ", "cargo ", "./", ".ci/")

IDENTIFIER = r"[^\W\d][\w'·]*(?:-[\w'·]+)*"
WORD = re.compile(IDENTIFIER)
TOPS = r"(?:crates|docs|tests|rust|include|examples|samples|target|\.ci)/[\w./*-]*[\w*]"
PATH = re.compile(r"(?<![\w./-])(?:%s|[a-z_]+/(?:specs|proofs|src)\b(?:/\w+)*)" % TOPS)
ANTT = [
    re.compile(r"^[ \t]*(?:(?:unfoldable|abbrev|pub) )*(%s(?: %s)*) *:" % (IDENTIFIER, IDENTIFIER), re.M),
    re.compile(r"\b(?:data|record) +(%s)" % IDENTIFIER),
]
RUST = [
    re.compile(r"\b(?:fn|struct|enum|const|type|mod|trait) +(\w+)"),
    re.compile(r"\b(\w+) *:"),  # fields
    re.compile(r"^ *(\w+) *[,({]", re.M),  # variants
]
C = [re.compile(r"#define +(\w+)"), re.compile(r"\b(\w+) *[(;,=]")]
# What declares a name in each language, and what is a comment.
C_COMMENT = r"//.*|/\*[\s\S]*?\*/"
LANGUAGES = {".antt": (ANTT, r"--.*"), ".rt": (RUST, r"//.*"), ".rs": (RUST, r"//.*"), ".c": (C, C_COMMENT), ".h": (C, C_COMMENT)}


def declarations():
    """The files that declare each name; a file and a folder declare their own."""
    declared = {}
    for file in os.listdir("."):
        declared.setdefault(file, set()).add(file)
    for top in ("crates", "rust", "include", "examples", "tests", ".ci"):
        for folder, folders, files in os.walk(top):
            if os.path.basename(folder) in ("target", "out"):
                folders[:] = []
                continue
            declared.setdefault(os.path.basename(folder), set()).add(folder)
            for file in files:
                path = os.path.join(folder, file)
                stem, ending = os.path.splitext(file)
                declared.setdefault(stem, set()).add(path)
                if ending not in LANGUAGES:
                    continue
                patterns, comment = LANGUAGES[ending]
                with open(path, encoding="utf-8") as f:
                    text = re.sub(comment, "", f.read())
                for pattern in patterns:
                    for found in pattern.findall(text):
                        for word in WORD.findall(found):
                            declared.setdefault(word, set()).add(path)
    return declared


DECLARED = declarations()
CRATES = set(os.listdir("crates"))
EDITS = {(crate, edit[:-5]) for crate in CRATES if os.path.isdir("crates/%s/must-fail" % crate) for edit in os.listdir("crates/%s/must-fail" % crate)}
faults = []


def files(crate, name):
    paths = ("crates/%s/specs/%s.antt" % (crate, name), "crates/%s/proofs/%s.antt" % (crate, name))
    return [path for path in paths if os.path.exists(path)]


def hold_names(where, line):
    for text in re.findall(r"`([^`]+)`", line):
        if text.startswith(COMMANDS) or PATH.search(text):
            continue
        text = re.sub(r"(?:\w+/)*(\w+)\.(?:sh|rs|txt|py|antt|a)\b", r"\1", text)  # a file by its name without the ending
        for word in WORD.findall(text):
            if word not in DECLARED and word not in ELSEWHERE:
                faults.append("%s: no source declares `%s`" % (where, word))


def hold_paths(where, line):
    for path in PATH.findall(line):
        if path.startswith(MADE):
            continue
        parts = path.split("/")
        if "NAME" in parts or "*" in path:
            found = any(os.path.exists(re.sub(r"NAME|\*", crate, path, count=1)) for crate in CRATES)
        else:
            found = any(os.path.exists(top + path + ending) for top in ("", "crates/") for ending in ("", ".antt"))
        if not found:
            faults.append("%s: there is no %s" % (where, path))


# Names in a path, with nothing but commas between.
INSIDE = re.compile(r"((?:`[^`]+`(?:, | and )?)+) in (%s)" % PATH.pattern)


def hold_inside(where, line):
    for names, path in INSIDE.findall(line):
        for text in re.findall(r"`([^`]+)`", names):
            first = WORD.match(text)
            homes = DECLARED.get(first.group(), set()) if first else ()
            if first and not any(home.startswith((path, "crates/" + path)) for home in homes):
                faults.append("%s: `%s` doesn't stand in %s" % (where, first.group(), path))


# A file and the names behind it, with nothing but commas between: 'crate File', 'crate File.antt' or 'File.antt'.
BEHIND = re.compile(r"(?:\b([a-z_]+) )?\b([A-Z]\w*)(\.antt)? ((?:`[^`]+`(?:, )?)+)")


def hold_files(where, line):
    for crate, name in re.findall(r"(?<![`\w])([a-z_]+) ([A-Z]\w*)", line):
        if crate in CRATES and not files(crate, name):
            faults.append("%s: crate %s has no file %s" % (where, crate, name))
    for cell in line.split("|"):
        crate = None
        for found in BEHIND.finditer(cell):
            word, name, ending, behind = found.groups()
            if word in CRATES:
                crate = word
                homes = files(crate, name)
            elif crate and files(crate, name):
                homes = files(crate, name)
            elif ending:
                homes = [path for other in CRATES for path in files(other, name)]
                if not homes:
                    faults.append("%s: no crate has a file %s.antt" % (where, name))
                    continue
            else:
                continue
            for text in re.findall(r"`([^`]+)`", behind):
                first = WORD.match(text)
                if homes and first and not DECLARED.get(first.group(), set()).intersection(homes):
                    faults.append("%s: `%s` doesn't stand in %s" % (where, first.group(), " or ".join(sorted(homes))))


named = set()


def hold_edits(where, line):
    cells = line.split("|")
    if len(cells) != 7:
        return
    crate = None
    for word in re.findall(r"\w+", re.sub(r"`[^`]*`", "", cells[4])):
        if (crate, word) in EDITS:
            named.add((crate, word))
        elif word in CRATES:
            crate = word
        elif "_" in word:
            faults.append("%s: crate %s has no edit %s" % (where, crate, word))


for document in BY_NAME + BY_PATH:
    with open(document, encoding="utf-8") as f:
        for number, line in enumerate(f, 1):
            where = "%s:%d" % (document, number)
            hold_paths(where, line)
            hold_inside(where, line)
            if document in BY_PATH:
                continue
            hold_names(where, line)
            if document != "docs/PAPER.md":  # which names files of crate model without saying so
                hold_files(where, line)
            if document == "docs/PROMISES.md":
                hold_edits(where, line)
for crate, edit in sorted(EDITS - named):
    faults.append("docs/PROMISES.md doesn't name the edit %s %s" % (crate, edit))

for fault in faults:
    print("names: " + fault)
if faults:
    sys.exit(1)
print("names: what %d documents name is in the sources, and each of %d edits stands beside its promise" % (len(BY_NAME + BY_PATH), len(EDITS)))
