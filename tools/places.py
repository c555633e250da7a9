#!/usr/bin/env python3
"""Counts, in crates/*/src, the places where an older form of the language may stand. docs/DESIGN-PASS.md says what became of each.

    tools/places.py [-l] [POINT]        -l lists the places; POINT is one of 1 to 7

A place is a line, a function or a clause as the text below says; a count is what to look at, not what is wrong."""
import collections
import pathlib
import re
import sys

FUNCTION = re.compile(r'^( *)(?:pub )?(?:const )?(?:extern "C" )?fn (\w+)(.*?)\{\n(.*?)^\1\}', re.M | re.S)
NAME = re.compile(r"\b(?!(?:if|else|while|for|in|let|mut|return|match|loop|as|break)\b)\w+(?:(?:::|\.)\w+)*\b")
sources = {path: path.read_text(encoding="utf-8") for path in sorted(pathlib.Path("crates").glob("*/src/*.rt"))}
found = collections.defaultdict(list)


def lines(point, what, pattern):
    """The lines in which the pattern stands, comments aside."""
    for path, text in sources.items():
        for number, line in enumerate(text.splitlines(), 1):
            if re.search(pattern, line.partition("//")[0]):
                found[point, what].append(f"{path}:{number}: {line.strip()}")


def functions():
    for path, text in sources.items():
        for match in FUNCTION.finditer(text):
            yield path, text.count("\n", 0, match.start()) + 1, match[2], match[3], match[4]


lines(1, "enums", r"^\s*(pub )?enum ")
lines(1, "uses of the number 0 for 'not refused'", r"\bNONE\b")
lines(1, "numbers that refuse, by name", r"\b(WRONG_\w+|LATE|BAD_\w+|NO_COUNTS|NO_SOLUTION|PAST_LAST|TOO_SHORT|ZERO_TOP)\b")
lines(1, "constants that number kinds or phases", r"const (LINE|PLANE|RUNNING|DONE|CLOSED|ASK|REFUSED|ALL|UNLIKE)\b.*: u")
for path, number, name, head, body in functions():
    if re.search(r"-> u16\s", head) and re.search(r"refus|check|cause", name + head):
        found[1, "functions that answer the number of a refusal, or 0"].append(f"{path}:{number}: {name}")
    if re.search(r"-> bool\s", head) and "&mut [" in head:
        found[1, "functions that write to a lent slice and answer whether"].append(f"{path}:{number}: {name}")

shapes = collections.defaultdict(list)
for path, number, name, head, body in functions():
    shape = re.sub(r"\s+", " ", NAME.sub("_", re.sub(r"//.*", "", body)))
    if len(shape) > 50:
        shapes[shape].append(f"{path}:{number}: {name}")
for places in shapes.values():
    if len(places) > 1:
        found[2, "functions of one shape, that is alike but for names and numbers"].append(", ".join(places))

lines(3, "loops by `while` or `loop`", r"^\s*(while|loop)\b")

lines(4, "plain types without Debug and equality", r"#\[derive\(Clone, Copy\)\]")
lines(4, "fields written out under their own name", r"^\s*(\w+): \1,$")
for path, number, name, head, body in functions():
    if re.match(r"(flat|wide|narrow|signed|magnitude|absolute|copy|least|biased|bit|sign_digit|hexadecimal|half|count)", name):
        found[4, "functions that convert, copy, compare or print"].append(f"{path}:{number}: {name}")

facts = collections.defaultdict(list)
for path, number, name, head, body in functions():
    for clause in re.findall(r"requires \w* ?\{(.*?)\}\n", head, re.S):
        for fact in {fact.strip(" ()") for fact in clause.split("×")}:
            if len(fact) > 12:
                facts[path, re.sub(r"\.(old|now)", "", fact)].append(f"{path}:{number}: {name}: {fact}")
for places in facts.values():
    if len(places) > 2:
        found[5, "facts that three or more functions of a file require"].append(f"{places[0]} (and {len(places) - 1} more)")
for path, number, name, head, body in functions():
    if len(re.findall(r"\b\w+: ", head.partition("->")[0].partition("requires")[0])) > 7:
        found[5, "functions of eight parameters or more"].append(f"{path}:{number}: {name}")

lines(6, "arrays of fixed room, of which a front is used", r"let mut \w+ = \[\d\w*; ")
lines(6, "arrays in types beside a length", r"^\s*pub \w+: \[\w+; \w+\],")
lines(7, "functions by number or in tables", r"\bfn\([\w, ]*\)|: \[fn")

listed, point = "-l" in sys.argv, [a for a in sys.argv[1:] if a.isdigit()]
for (number, what), places in sorted(found.items(), key=lambda item: item[0][0]):
    if not point or str(number) in point:
        print(f"{number}. {len(places):4} {what}")
        if listed:
            print("".join(f"       {place}\n" for place in places), end="")
