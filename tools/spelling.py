#!/usr/bin/env python3
"""Brings the names that this repository declares in specs/ and proofs/ to snake case, and its facts to camel case.

usage: python3 tools/spelling.py     at the top, once, right after port.py

A definition's or a field's words are joined by `_`. In a lemma's name a dash stays between the names of two definitions.
A name that a file imports from another library stays as it is there, and so do the names of goals in a Proof.antt.
Every file of specs/ and proofs/, every clause and every must-fail edit is rewritten in place.
"""

import collections
import glob
import re
import sys

PART = r"[^\s(){}\[\],;.:\"λ→`]+"
KINDS = r"(?:pub|abbrev|unfoldable|record|data|instance|opaque)"
DECLARED = re.compile(rf"^(\s*)((?:{KINDS}\s+)*)({PART}(?:\s+{PART})*)\s*:\s", re.M)
BINDER = re.compile(rf"[({{]({PART}(?:\s+{PART})*)\s*:\s")
FOREIGN = re.compile(r"^(?:ghost )?use ((?!Rattle\.)\S+?|Rattle\.std\.\S+?)\.\{([^{}]*)\}", re.M)
TOKEN = re.compile(rf"(\.?)({PART})")
# Words of the library of which lemmas are named.
# A file that has this name imports the library's `of_bits`.
OWN = {"of-bits": "fields_of_bits"}
LIBRARY = set("length take drop set sets append get_or map min max div mul mod reverse sum".split())


def read(path):
    with open(path, encoding="utf-8") as f:
        return f.read()


def files(*patterns):
    return sorted(it for p in patterns for it in glob.glob(p, recursive=True) if "/out/" not in it)


def declared():
    """Returns of each name that is declared with a dash whether it is a definition, a lemma or a field."""
    kinds = collections.defaultdict(set)
    for path in files("crates/*/specs/**/*.antt", "crates/*/proofs/**/*.antt"):
        if path.endswith("/Proof.antt"):
            continue
        text = re.sub(r"--(?: .*)?$", "", read(path), flags=re.M)
        record = -1
        for line in text.split("\n"):
            indent = len(line) - len(line.lstrip())
            if line.strip() and indent <= record:
                record = -1
            it = DECLARED.match(line + " ")
            if it:
                words = it[2].split()
                kind = "definition" if {"abbrev", "unfoldable", "record", "data"} & set(words) or "/specs/" in path else "lemma"
                if record >= 0:
                    kind = "field"
                names = it[3].split()
                for name in names[:1] if {"record", "data"} & set(words) else names:
                    kinds[name].add(kind)
                if "record" in words:
                    record = indent
            for binder in BINDER.findall(line):
                for name in binder.split():
                    kinds[name].add("definition")
    return kinds


def words(name, definitions):
    """Splits a name at its dashes into definitions, the longest first, and plain words."""
    parts, found = name.split("-"), []
    while parts:
        for n in range(len(parts), 0, -1):
            word = "_".join(parts[:n])
            if word in definitions:
                break
        found.append((word, word in definitions))
        parts = parts[n:]
    return found


def spelled(name, kinds, definitions):
    if name in OWN:
        return OWN[name]
    if name[0].isupper():
        return "".join(it[0].upper() + it[1:] for it in name.split("-"))
    name = name.replace("getD", "get_or")
    if kinds != {"lemma"}:
        return name.replace("-", "_")
    made = ""
    before = False
    for word, known in words(name, definitions):
        made += ("-" if before and known else "_" if made else "") + word
        before = known
    return made


def parted(line, mark):
    """Splits a line where its comment begins."""
    at = re.search(rf"(?:^|(?<=\s)){re.escape(mark)}(?:\s|/|$)", line)
    return (line[: at.start()], line[at.start() :]) if at else (line, "")


def main():
    kinds = declared()
    definitions = LIBRARY | {n.replace("-", "_") for n, k in kinds.items() if k & {"definition"} and n[0].islower() and len(n) > 2}
    named = {n: spelled(n, k, definitions) for n, k in kinds.items() if re.search(r"\w-\w", n) or re.match("[a-z]+[A-Z]", n)}
    named = {a: b for a, b in named.items() if a != b}
    taken = collections.defaultdict(set)
    for a, b in named.items():
        taken[b].add(a)
    for b, each in taken.items():
        if len(each) > 1 or b in kinds:
            sys.exit(f"{b} would be the name of {', '.join(each)} and stands already: {b in kinds}")
    fields = {n for n, k in kinds.items() if "field" in k}
    for path in files("crates/**/*.antt", "crates/**/*.rt", "crates/**/*.edit"):
        text = read(path)
        foreign = {n.split(" as ")[0].strip() for it in FOREIGN.findall(text) for n in it[1].split(",")}
        goals = set(re.findall(rf"^(?:pub )?({PART}) : tie\.", text, re.M)) if path.endswith("/Proof.antt") else set()

        def turned(it):
            dot, name = it[1], it[2]
            at = path.endswith("/Proof.antt") and dot and name not in fields
            if name in named and name not in foreign and name not in goals and not at:
                return dot + named[name]
            return it[0]

        # Prose keeps its words; what a comment names stands between backticks.
        mark = {"t": "//", "e": "#"}.get(path[-1]) if not path.endswith(".antt") else "--"
        lines = []
        for line in text.split("\n"):
            code, comment = parted(line, mark)
            comment = re.sub(r"`[^`]*`", lambda it: TOKEN.sub(turned, it[0]), comment)
            lines.append(TOKEN.sub(turned, code) + comment)
        new = "\n".join(lines)
        clash = foreign & {named[it] for it in re.findall(PART, text) if it in named and it not in foreign}
        if clash:
            print(f"look: {path} imports {', '.join(sorted(clash))} too")
        if new != text:
            with open(path, "w", encoding="utf-8") as f:
                f.write(new)


if __name__ == "__main__":
    main()
