#!/usr/bin/env python3
"""Turns the repository's own definitions, lemmas, fields and constructors to the spelling that Rattle's libraries have.

usage: python3 tools/respell.py [--check]     at the top of the repository, once, right after the kit's port.py

A name in camel case or with dashes gets words joined by `_`: `signsOf` is `signs_of`, `taken-off` is `taken_off`. A dash stays beside a symbol
(`abs-*`) and, in a lemma of proofs/, between two parts that are names of definitions (`times-shift`). Types and modules keep their capitals, and
names of Rattle source, of the kit and of what Rattle generates stay. It turns specs/, proofs/, the clauses and comments of src/, the edits of
must-fail/, and code spans of README.md and docs/. Where two names of a file would fall together, the one in FALLS gets the spelling written there.
--check writes nothing and says which names would fall together."""

import os
import re
import sys

WORD = re.compile(r"[^\s(){}.;,@\"«»\x60|\[\]]+")
MARK = r"(?:(?:pub|abbrev|unfoldable|pattern|open|data|record|private|mutual|where|let|in)\s+)*"
USE = re.compile(r"^\s*(?:pub\s+|ghost\s+)*use\s+([^\s;{]+?)\.\{([^}]*)\}", re.M)
GENERATED = re.compile(r"\.(declared|contracts|Statement|Tie|Goals|Given)(\.|$)")
# Words of the library after which lemmas are named.
LIBRARY = set("length take drop append map set sum replicate concat reverse filter get_or nil cons le lt eq ne mul add sub div mod pow suc zero one min max cond nat_abs".split())
# The new spelling of names that would fall together with another.
FALLS = {
    "bit-and": "bit_and_lem",
    "bit-or": "bit_or_lem",
    "bit-xor": "bit_xor_lem",
    "closed-by": "closed_by_number",
    "closing-numbers": "closing_numbers_lem",
    "first-bad": "first_bad_lem",
    "in-round": "at_round",
    "is-plane": "is_plane_lem",
    "longest-card": "longest_card_lem",
    "longest-line": "longest_line_lem",
    "no-row": "no_row_yet",
    "places-to": "places_to_lem",
    "proper-rows": "proper_rows_lem",
    "running-phase": "running_phase_lem",
    "sign-bits": "sign_bits_lem",
    "sound-lines": "sound_lines_lem",
    "wentOn": "gone_on",
    "word-in": "word_in_lem",
}


def own(root):
    return sorted(c for c in os.listdir(os.path.join(root, "crates")) if os.path.isdir(os.path.join(root, "crates", c, "src")))


def files(root, *endings):
    for folder, dirs, names in os.walk(os.path.join(root, "crates")):
        dirs[:] = sorted(d for d in dirs if d != "out")
        for name in sorted(names):
            if name.endswith(endings):
                yield os.path.join(folder, name)


def read(path):
    with open(path, encoding="utf-8") as f:
        return f.read()


def code(text):
    return re.sub(r"(?m)(?<!\S)--.*$", "", text)


def imports(text, crates):
    """The names of the kit's or of what Rattle generates that a file imports, and those that it gives to something."""
    foreign, given = set(), set()
    for path, names in USE.findall(text):
        first = re.match(r"Rattle\.(\w+)", path)
        theirs = not first or first.group(1) not in crates or GENERATED.search(path)
        for name in names.split(","):
            words = name.split()
            if not words:
                continue
            if len(words) == 3 and words[1] == "as":
                given.add(words[2])
            if theirs:
                foreign.add(words[0])
    return foreign, given


def turned(name):
    return re.match(r"^[a-z]", name) and (re.search(r"[a-z0-9][A-Z]", name) or re.search(r"[a-zA-Z]-|-[a-zA-Z0-9]", name) or re.search(r"[a-z][ℤℕ]", name))


def spelled(name, names):
    """The new spelling. names are the parts between which a dash stays."""
    name = re.sub(r"(?<=[a-z0-9])([A-Z])(?![A-Z])", lambda m: "_" + m.group(1).lower(), name)
    name = re.sub(r"(?<=[a-z])([ℤℕ])", r"_\1", name)
    parts = name.split("-")
    out = parts[0]
    for before, after in zip(parts, parts[1:]):
        plain = re.search(r"[\w']$", before) and re.match(r"[\w']", after)
        out += ("_" if plain and not (before in names and after in names) else "-") + after
    return out


def declared(root, crates):
    """The names that the repository declares or gives; of these those of specs/, and those of specs/ or of the proof of a function."""
    every, of_specs, plain = set(), set(), set()
    for path in files(root, ".antt", ".rt"):
        text = code(read(path)) if path.endswith(".antt") else read(path)
        foreign, given = imports(text, crates)
        here = {n for n in given if turned(n)}
        if path.endswith(".antt"):
            for line in text.split("\n"):
                head = re.match(r"^\s*" + MARK + r"((?:" + WORD.pattern + r"[ ]+)*" + WORD.pattern + r")\s*(?:[:({=]|$)", line)
                if not head:
                    continue
                words = head.group(1).split()
                if re.search(r"(?<!\S):(?!\S)", line):
                    here |= {w for w in words if w not in ("use", "where", "let")}
                else:
                    here.add(words[0])
            here -= foreign
            if "/specs/" in path or re.search(r"/proofs/[^/]+/", path):
                plain |= here
            if "/specs/" in path:
                of_specs |= here
        every |= here
    return {n for n in every if re.match(r"^[a-z]", n)}, of_specs, plain


def table(root):
    crates = set(own(root))
    every, of_specs, plain = declared(root, crates)
    names = LIBRARY | {spelled(n, ()) for n in of_specs if "-" not in n}
    rows = {}
    for n in sorted(every):
        if turned(n):
            rows[n] = FALLS.get(n) or spelled(n, () if n in plain else names)
    return crates, {a: b for a, b in rows.items() if a != b}


def turn(text, rows, skip, function=False):
    """The text with its names turned. In a function's proof a name behind a dot that is in FALLS is one that Rattle makes of the source's."""

    def one(m):
        name = m.group(0)
        if name in skip:
            return name
        if function and name in FALLS and text[m.start() - 1 : m.start()] == ".":
            return spelled(name, ())
        return rows.get(name, name)

    return WORD.sub(one, text)


def falls(text, rows, skip):
    """Pairs of names of one file that would be one. A definition may have the name of the function that it speaks of, so files of src/ and the proofs
    of functions are not asked."""
    seen, bad = {}, set()
    for w in set(WORD.findall(text)):
        new = w if w in skip else rows.get(w, w)
        if new in seen and seen[new] != w:
            bad.add((new, *sorted((seen[new], w))))
        seen[new] = w
    return bad


def same_alias(text):
    return re.sub(r"(?<![^\s{,])(" + WORD.pattern + r") as \1(?=[\s,}])", r"\1", text)


def main(argv):
    root = os.getcwd()
    crates, rows = table(root)
    check = "--check" in argv
    if "--table" in argv:
        for a, b in rows.items():
            print(a, b, sep="\t")
        return 0
    bad = 0
    for path in files(root, ".antt", ".rt", ".edit"):
        text = read(path)
        skip = imports(text, crates)[0]
        function = path.endswith(".rt") or re.search(r"/proofs/[^/]+/", path) or path.endswith(".edit")
        for new, a, b in [] if function else sorted(falls(code(text) if path.endswith(".antt") else text, rows, skip)):
            print(f"{os.path.relpath(path, root)}: {a} and {b} would both be {new}")
            bad += 1
        out = same_alias(turn(text, rows, skip, function))
        if out != text and not check:
            with open(path, "w", encoding="utf-8") as f:
                f.write(out)
    for folder, dirs, found in os.walk(root):
        dirs[:] = [d for d in dirs if d not in ("crates", ".git", "drafts")]
        for name in found:
            path = os.path.join(folder, name)
            if name.endswith(".md") and not check:
                text = read(path)
                out = re.sub(r"\x60[^\x60\n]+\x60", lambda m: turn(m.group(0), rows, ()), text)
                if out != text:
                    with open(path, "w", encoding="utf-8") as f:
                        f.write(out)
    print(f"{len(rows)} names, {bad} falls")
    return 1 if bad else 0


if __name__ == "__main__":
    sys.exit(main(sys.argv[1:]))
