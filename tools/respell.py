#!/usr/bin/env python3
"""Brings the repository's own names to today's spelling, by the table beside it: run once, at the top, after the kit's port.py.

Definitions and record fields are in snake case. In .antt files and in the clauses of .rt files whole words of the table are
turned, in code and in comments, but not in quoted text. A lemma whose name a definition now has gets `_lem`.
"""

import os
import re

HERE = os.path.dirname(os.path.realpath(__file__))
WORD = re.compile(r"[^\s(){}.;,@\"«»\[\]|⟨⟩`:!?=]+")
QUOTED = re.compile(r'"(?:[^"\\\n]|\\.)*"')
# lemmas that would have the name of a definition
LEMMAS = {
    "all_small": "all_small_lem",
    "answers_at": "answers_at_lem",
    "at_last": "at_last_lem",
    "below_row": "below_row_lem",
    "by_part": "by_part_lem",
    "cell_row": "cell_row_lem",
    "cells_at": "cells_at_lem",
    "kept_rule": "kept_rule_lem",
    "moved_at": "moved_at_lem",
    "node_at": "node_at_lem",
    "part_end": "part_end_lem",
    "part_left": "part_left_lem",
    "row_on": "row_on_lem",
    "row_under": "row_under_lem",
    "turned_down": "turned_down_lem",
}
PROSE = re.compile(r"-")


def table():
    with open(os.path.join(HERE, "spelling.tsv"), encoding="utf-8") as f:
        return dict(line.rstrip("\n").split("\t") for line in f)


def turned(text, rows, lemmas):
    def word(m):
        w = m.group()
        if w in rows:
            return rows[w]
        if lemmas and w in LEMMAS:
            before, after = text[m.start() - 1 : m.start()], text[m.end() : m.end() + 1]
            if before != "." and after != "." and not re.search(r"goal$", text[: m.start() - 1][-4:]):
                return LEMMAS[w]
        return w

    return WORD.sub(word, text)


def comment_turned(text, rows):
    """A comment: names with a capital anywhere, dashed ones in backquotes alone, since English has such words."""

    def word(m):
        w = m.group()
        quoted = text[m.start() - 1 : m.start()] == "`"
        return rows[w] if w in rows and (quoted or not PROSE.search(w)) else w

    return WORD.sub(word, text)


def lines_turned(text, rows, comment, lemmas):
    out = []
    for line in text.split("\n"):
        at = re.search(r"(?:^|(?<=\s))" + re.escape(comment), line)
        code, rest = (line[: at.start()], line[at.start() :]) if at else (line, "")
        done, last = [], 0
        for q in QUOTED.finditer(code):
            done += [turned(code[last : q.start()], rows, lemmas), q.group()]
            last = q.end()
        done += [turned(code[last:], rows, lemmas), comment_turned(rest, rows)]
        out.append("".join(done))
    return "\n".join(out)


def main():
    rows = table()
    for folder, dirs, files in os.walk("crates"):
        dirs[:] = [d for d in dirs if d != "out"]
        for f in files:
            path = os.path.join(folder, f)
            if f.endswith(".antt"):
                comment, lemmas = "--", True
            elif f.endswith(".rt"):
                comment, lemmas = "//", False
            else:
                continue
            with open(path, encoding="utf-8") as it:
                text = it.read()
            new = lines_turned(text, rows, comment, lemmas)
            if new != text:
                with open(path, "w", encoding="utf-8") as it:
                    it.write(new)


main()
