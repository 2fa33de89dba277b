#!/usr/bin/env python3
# tools/design_places.py [COMMIT]: counts the places that docs/DESIGN-PASS.md speaks of, in the sources of a commit (or of the work tree), and
# with --list prints each. It finds the shapes that a text can show; which of them stay is said in the page.
import re, subprocess, sys

args = [a for a in sys.argv[1:] if not a.startswith("--")]
show = "--list" in sys.argv


def run(*command):
    return subprocess.run(command, capture_output=True, text=True, check=True).stdout


def files(pattern):
    if args:
        names = run("git", "ls-tree", "-r", "--name-only", args[0]).split("\n")
    else:
        names = run("git", "ls-files", "-co", "--exclude-standard").split("\n")
    return [n for n in names if re.match(pattern, n)]


def text(name):
    return run("git", "show", f"{args[0]}:{name}") if args else open(name).read()


src = {n: text(n) for n in files(r"crates/[^/]+/src/.*\.rt$")}
answers = {n: text(n) for n in files(r"crates/[^/]+/proofs/.*Answers\.antt$")}


def functions():
    for n, s in src.items():
        for m in re.finditer(r"^( *)(?:pub )?(?:const )?(?:extern \"C\" )?fn (\w+)", s, re.M):
            start, indent = m.start(), m.group(1)
            end = s.find("\n" + indent + "}\n", start)
            yield n, m.group(2), s[start:end]


def enums():
    for n, s in src.items():
        for m in re.finditer(r"^(?:pub )?enum (\w+) \{\n(.*?)^\}", s, re.M | re.S):
            arms = re.findall(r"^    (\w+)(\(.*?\)| \{.*?\})?,", m.group(2), re.M | re.S)
            yield n, m.group(1), arms


found = {}


def note(point, place):
    found.setdefault(point, []).append(place)


EMPTY = {"None", "Nothing", "Other", "Off", "Malformed", "Far", "Missing", "Tree", "Empty", "Nowhere", "Cycle", "Wrong", "Fine", "Whole", "Lower", "Mixed"}
for n, name, arms in enums():
    kinds = [a for a, _ in arms]
    if "Refused" in kinds:
        note("1a an enum with an arm Refused: a Result", f"{n}: {name}")
    elif any(a in EMPTY and not p for a, p in arms) and any(p for _, p in arms):
        note("1b an enum with an arm that stands for no value: an Option", f"{n}: {name}")
for n, s in src.items():
    for m in re.finditer(r"^\s+(?:pub )?(over|kind): u16,", s, re.M):
        note("1c a number that tells a kind, or a flag beside a value", f"{n}: {m.group(1)}")
    for m in re.finditer(r"^ +while (.*) \{$", s, re.M):
        note("3a a loop by while", f"{n}: while {m.group(1)}")
    for m in re.finditer(r"^( +)while (?:\w+ < .*|0 < \w+) \{\n(?:.*\n)*?\1\}", s, re.M):
        if re.search(r"^ +(\w+) (?:\+|-)= 1;", m.group(0), re.M):
            note("3b a while that counts an index by one", f"{n}: {m.group(0).splitlines()[0].strip()}")
    for m in re.finditer(r"std::num::wrapping_\w+", s):
        note("4a a function where the number has a method", f"{n}: {m.group(0)}")
    for m in re.finditer(r"^#\[derive\(([^)]*)\)\]\n(?:#\[.*\]\n)*(?:pub )?(?:enum|struct) (\w+)", s, re.M):
        if "PartialEq" not in m.group(1):
            note("4b a type without PartialEq among its derives", f"{n}: {m.group(2)}")
    for m in re.finditer(r"^impl (?:fmt::)?(?:Display|From<.*>|TryFrom<.*>|Error) for (\w+)", s, re.M):
        note("4c an impl of Display, Error or From", f"{n}: {m.group(0)}")

bodies = {}
for n, f, b in functions():
    body = b[b.find("{\n", b.rfind("ensures") if "ensures" in b else 0):]
    shape = re.sub(r"\b[A-Za-z_]\w*\b|\d+", "x", b)
    bodies.setdefault(shape, []).append(f"{n}: {f}")
    for m in re.finditer(r"requires(?: \w+)? \{ (.*?) \}\n", b, re.S):
        note("5a all requires clauses", f"{n}: {f}")
    params = re.findall(r"\b(\w+): ", b[: b.find("\n    requires")] if "\n    requires" in b else b.split("\n")[0])
    for pair in (("s", "format", "first", "n"), ("k", "p"), ("n", "start"), ("before", "levels")):
        if all(p in params for p in pair):
            note(f"5b parameters that travel together: {', '.join(pair)}", f"{n}: {f}")
    if re.search(r"\bat: usize", b.split(")")[0]) and "out: &mut [u8" in b.split(")")[0]:
        note("6a a buffer with an offset beside it", f"{n}: {f}")
for shape, where in bodies.items():
    if len(where) > 1 and shape.count("\n") > 4:
        for w in where:
            note("2 functions of the same shape, whatever their names", w)
clauses = {}
for n, f, b in functions():
    for m in re.finditer(r"requires(?: \w+)? \{ (.*?) \}\n", b, re.S):
        for part in re.split(r"\n? *× ", m.group(1)):
            clauses.setdefault(re.sub(r"\s+", " ", part.strip("() ")), []).append(f"{n}: {f}")
for part, where in clauses.items():
    if len(where) >= 3:
        note("5c facts in the requires of three or more functions", f"{part} ({len(where)})")
for n, s in src.items():
    for m in re.finditer(r"^fn |^pub fn ", s, re.M):
        pass
    for m in re.finditer(r"\bdyn |\bimpl Fn|: F\b", s):
        note("7 closures taken as a parameter", f"{n}: {m.group(0)}")
for n, s in answers.items():
    for m in re.finditer(r"^[\w.-]+ c = search rules$", s, re.M):
        note("8a an answer that only searches", f"{n}: {m.group(0)}")
    for m in re.finditer(r"\(let the-[\w-]+ :", s):
        note("8b an answer with a helper written out inside it", n)
    for m in re.finditer(r"^ *let (?:past-\w+|in-loop|entry|told|matched|done|counted|found|asked) = [\w.-]+ in$", s, re.M):
        note("8c another name for what an answer cites already", n)

for point in sorted(found):
    print(f"{len(found[point]):5d}  {point}")
    if show:
        for place in found[point]:
            print("         ", place)
