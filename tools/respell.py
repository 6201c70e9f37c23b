#!/usr/bin/env python3
"""Brings the repository's own definitions and lemmas to snake case, in the proof files, in contracts and in the documents.

usage: python3 tools/respell.py            at the top of the repository, once, after the kit's port.py

A name that is declared in specs/ or proofs/ and begins with a small letter is turned: humps and dashes become underscores,
as `bookOf` and `few-objects` to `book_of` and `few_objects`. Types, modules and names of the kit's libraries stay. It stops,
and writes nothing, where two names would fall together.
"""

import glob
import os
import re
import sys

NAME = r"[A-Za-z_◌◯αβγδκλμπσωΓΔℓ][A-Za-z0-9_'◌₀-₉′-]*"
TOKEN = re.compile(r"(?<![A-Za-z0-9_'◌₀-₉′-])" + NAME)
# a lemma that has a definition's name gets an ending; these were turned by port.py before
LEMMAS = {"crates/cards/specs/OnceLaws.antt": {"entry_place": "entry_place_lem"}, "crates/cards/specs/DumpLaws.antt": {"entry_place": "entry_place_lem"}}
# these stand in paths of modules and in comments alone
ELSEWHERE = {"days_of", "entry_place", "file_in", "high_tag", "long2_of", "named_file", "named_frame", "stands_in"}


def snake(name):
    parts = []
    for part in name.split("-"):
        if not part:
            return name
        part = re.sub(r"(?<=[a-z0-9'])([A-Z])", lambda m: "_" + m.group(1).lower(), part)
        part = re.sub(r"(?<=_[a-z])([A-Z])(?=[a-z])", lambda m: "_" + m.group(1).lower(), part)
        parts.append(part)
    return "_".join(parts)


def proof_files():
    return sorted(f for f in glob.glob("crates/*/specs/**/*.antt", recursive=True) + glob.glob("crates/*/proofs/**/*.antt", recursive=True))


def crates():
    return [os.path.basename(os.path.dirname(f)) for f in glob.glob("crates/*/src")]


def strip(text):
    """Without comments and use lines."""
    text = re.sub(r"(?m)--(?![^\s]).*$", "", text)
    return re.sub(r"(?m)^use [^\n]*$", "", text)


HEAD = re.compile(r"(?m)^\s*(?:\|\s*)?(?:(?:pub|abbrev|unfoldable|data|record|ruleset)\s+)*(" + NAME + r"(?:\s+" + NAME + r")*)\s*(?::(?!=)|=|\(|\{)")


def own_names():
    """Names that are declared: at the head of a signature, of a field or of a constructor."""
    names = set()
    for f in proof_files():
        text = strip(open(f, encoding="utf-8").read())
        for line in text.split("\n"):
            m = re.match(r"\s*(?:(?:pub|abbrev|unfoldable)\s+)*((?:" + NAME + r"\s+)*" + NAME + r")\s+:\s", line)
            if m and "→" not in m.group(1):
                for n in m.group(1).split():
                    names.add(n)
            m = re.match(r"\s*(?:pub\s+)?ruleset\s+(" + NAME + r")\s+=", line)
            if m:
                names.add(m.group(1))
            m = re.match(r"\s*(?:(?:pub|abbrev|unfoldable)\s+)*(" + NAME + r")\s*$", line)
            if m and len(line.strip()) > 3:
                names.add(m.group(1))
    return names


def foreign_names():
    """Names that come by a use line from a library of the kit."""
    mine = tuple("Rattle." + c + "." for c in crates())
    names = set()
    for f in proof_files() + sorted(glob.glob("crates/*/src/**/*.rt", recursive=True)):
        for m in re.finditer(r"(?m)^(?:ghost )?use ([A-Za-z0-9_.·+-]+)\.\{([^}]*)\}", open(f, encoding="utf-8").read()):
            if not m.group(1).startswith(mine):
                names |= {n.strip().split(" as ")[0].strip() for n in m.group(2).split(",")}
    return names


def main():
    own = own_names()
    foreign = foreign_names()
    table = {}
    for n in sorted(own):
        if not n[0].islower() or n in foreign:
            continue
        if not (re.search(r"[A-Z]", n) or "-" in n):
            continue
        if re.search(r"(?:^|-)[A-Z]", n):  # a type's name stands in it
            continue
        if re.match(r"(invariant|decreases)-", n):  # the checker's own names
            continue
        table[n] = snake(n)
    humps = {snake(n) for n in own if n in table and "-" not in n}
    standing = {n for n in own if n not in table}
    for n in table:
        if "-" in n and (table[n] in humps or table[n] in standing):
            table[n] += "_lem"
    seen = {}
    for f in proof_files():
        for t in TOKEN.findall(open(f, encoding="utf-8").read()):
            seen.setdefault(t, set()).add(f)
    bad = 0
    back = {}
    for old, new in table.items():
        if new in back:
            a, b = seen.get(old, set()), seen.get(back[new], set())
            print(f"fall together: {old} and {back[new]} -> {new}; files of both: {len(a & b)} {sorted(a & b)[:2]}")
            bad += 1
        back.setdefault(new, old)
        if new in seen and new not in ELSEWHERE:
            a, b = seen.get(old, set()), seen[new]
            if a & b:
                print(f"stands already: {new} (of {old}) in {sorted(a & b)[:3]}")
                bad += 1
        if new in foreign:
            print(f"of the kit: {new} (of {old})")
            bad += 1
    if "--list" in sys.argv:
        for old, new in table.items():
            print(old, new)
    print(f"{len(table)} names, {bad} in doubt")
    if bad and "--anyway" not in sys.argv:
        return 1
    if "--dry" in sys.argv:
        return 0

    def turn(text):
        return TOKEN.sub(lambda m: table.get(m.group(0), m.group(0)), text)

    for f, few in LEMMAS.items():
        text = open(f, encoding="utf-8").read()
        with open(f, "w", encoding="utf-8") as out:
            out.write(TOKEN.sub(lambda m: few.get(m.group(0), m.group(0)), text))

    def write(f, old, new):
        if old != new:
            with open(f, "w", encoding="utf-8") as out:
                out.write(new)

    for f in proof_files():
        text = open(f, encoding="utf-8").read()
        out = []
        for line in text.split("\n"):
            code, dash, comment = line.partition("-- ") if re.search(r"(^|\s)-- ", line) else (line, "", "")
            comment = re.sub(r"\b[a-z]+[a-z0-9]*[A-Z][A-Za-z0-9]*\b", lambda m: table.get(m.group(0), m.group(0)), comment)
            out.append(turn(code) + dash + comment)
        write(f, text, "\n".join(out))
    for f in sorted(glob.glob("crates/*/src/**/*.rt", recursive=True)):
        text = open(f, encoding="utf-8").read()
        out = []
        for line in text.split("\n"):
            if re.match(r"\s*//", line):
                out.append(re.sub(r"\b[a-z]+[a-z0-9]*[A-Z][A-Za-z0-9]*\b", lambda m: table.get(m.group(0), m.group(0)), line))
            elif '"' in line and not re.search(r"[{⌜]", line):
                out.append(line)
            else:
                out.append(turn(line))
        write(f, text, "\n".join(out))
    for f in ["README.md", "CHANGELOG.md"] + sorted(glob.glob("docs/*.md") + glob.glob("docs/notes/*.md") + glob.glob("rust/README.md")):
        text = open(f, encoding="utf-8").read()
        write(f, text, re.sub(r"`[^`\n]+`", lambda m: turn(m.group(0)), text))
    return 0


if __name__ == "__main__":
    raise SystemExit(main())
